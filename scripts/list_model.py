"""A model of the list text, written from document 01 and change requests 1 and 4 alone; it shares nothing with the day book.

`read` answers a flag table, a text and a lent component run of so many numbers, `write` a list, which says its table, and a lent output
of so many bytes. A list is a dict in the form of the vectors (vectors/README.md): money counts its last decimal; a component is code,
quantity, flag, premium, discount, amount; a table is rows of numbers, None where none is given. Python's numbers have no upper end.
"""
import datetime
import re

from day_model import AMOUNT_USED, CASH, RATE_USED, TABLE_WIDTH, component_fits, fault_of, fund_fits, says, table_of
from vector_files import COMPONENT_WIDTH, numbers

WHOLE = rb"(?:0|[1-9][0-9]*)"

# A head line: name, where its value stands in a list (a number: among the limits), decimals, and the form of its characters.
HEAD = [
    ("Fundid1", "fundid", 0, rb"[0-9]{6}"),
    ("CreationRedemptionUnit", "basket_size", 0, WHOLE),
    ("MaxCashRatio", "max_cash_ratio", 5, WHOLE + rb"\.[0-9]{5}"),
    ("Publish", "publish", 0, rb"[01]"),
    ("CreationRedemption", "switch", 0, WHOLE),
    ("Recordnum", "count", 0, WHOLE),
    ("EstimateCashComponent", "estimated_cash", 2, rb"-?" + WHOLE + rb"\.[0-9]{2}"),
    ("TradingDay", "trading_day", 0, rb"[0-9]{8}"),
    ("PreTradingDay", "pre_trading_day", 0, rb"[0-9]{8}"),
    ("CashComponent", "cash_component", 2, rb"-?" + WHOLE + rb"\.[0-9]{2}"),
    ("NAVperCU", "nav_per_cu", 2, WHOLE + rb"\.[0-9]{2}"),
    ("NAV", "nav", 4, WHOLE + rb"\.[0-9]{4}"),
    ("CreationLimit", 0, 0, WHOLE),
    ("RedemptionLimit", 1, 0, WHOLE),
    ("CreationLimitPerUser", 2, 0, WHOLE),
    ("RedemptionLimitPerUser", 3, 0, WHOLE),
    ("NetCreationLimit", 4, 0, WHOLE),
    ("NetRedemptionLimit", 5, 0, WHOLE),
    ("NetCreationLimitPerUser", 6, 0, WHOLE),
    ("NetRedemptionLimitPerUser", 7, 0, WHOLE),
]

# A component's fields: start and width in its line, and the form of its characters.
CODE, NAME, QUANTITY, FLAG, PREMIUM, DISCOUNT, AMOUNT = range(7)
COLUMNS = [
    (0, 6, rb"[0-9]{6}"),
    (7, 8, rb"[^|\r\n]{8}"),
    (16, 8, rb" *" + WHOLE),
    (25, 1, rb"[0-9]"),
    (27, 7, rb" *" + WHOLE + rb"\.[0-9]{5}"),
    (35, 7, rb" *" + WHOLE + rb"\.[0-9]{5}"),
    (43, 12, rb" *" + WHOLE + rb"\.[0-9]{3}"),
]
ROW_WIDTH = 56
ROW = re.compile(rb"(?s).{6}\|.{8}\|.{8}\|.\|.{7}\|.{7}\|.{12}\|")

# The fields that are blank but for some flags, and the column of the flag table that says for which.
USES = {PREMIUM: RATE_USED, DISCOUNT: RATE_USED, AMOUNT: AMOUNT_USED}

FUND = ["first_code", "basket_size", "max_cash_ratio", "switch", "estimated_cash"]
OTHERS = ["publish", "trading_day", "pre_trading_day", "cash_component", "nav_per_cu", "nav", "count"]


class Refused(Exception):
    """A refusal: its number and its place."""


def refuse(is_wrong, number, place=0):
    if is_wrong:
        raise Refused(number, place)


# ---- the ranges of the paper


def is_date(d):
    try:
        datetime.date(d // 10_000, d // 100 % 100, d % 100)
    except (ValueError, OverflowError):
        return False
    return True


def others_fit(v):
    return (v["publish"] in (0, 1) and is_date(v["trading_day"]) and is_date(v["pre_trading_day"])
            and v["cash_component"] in CASH and v["nav_per_cu"] in range(100_000_000_000) and v["nav"] in range(10_000_000))


# ---- the flag table


def loaded(given):
    """21, before all else: the table, ours where none is given."""
    table = table_of(given)
    refuse(len(numbers(table)) != TABLE_WIDTH, 21)
    flag = fault_of(table)
    refuse(flag is not None, 21, flag)
    return table


# ---- reading


def line_at(text, at):
    """The line that starts at a place, None where it has no end."""
    end = text.find(b"\r\n", at)
    return None if end < 0 else text[at:end]


def is_head_line(k, line):
    if k == 0:
        return re.fullmatch(rb"\[ETF[0-9A-Za-z]{1,8}\]", line) is not None
    if k == 21:
        return line == b"TAGTAG"
    return line.lower().startswith(HEAD[k - 1][0].encode().lower() + b"=")


def lines_of(text):
    """18: where the lines start that stand before ENDENDEND."""
    starts, at = [], 0
    while True:
        line = line_at(text, at)
        refuse(line is None, 18, at)
        if len(starts) >= 22 and line == b"ENDENDEND":
            refuse(at + 11 < len(text), 18, at + 11)
            return starts
        refuse(not (is_head_line(len(starts), line) if len(starts) < 22 else ROW.fullmatch(line)), 18, at)
        starts.append(at)
        at += len(line) + 2


def number(digits):
    """What digits say, with a point that is passed over. One of more than 40 is past every range."""
    return int(digits.replace(b".", b"")) if len(digits) <= 40 else 10 ** 40


def head_value(k, value, place):
    _, key, _, form = HEAD[k]
    is_right = re.fullmatch(form, value) and value != b"-0.00"
    refuse(not is_right or (form == rb"[0-9]{8}" and not is_date(number(value))), 19, place)
    return number(value)


def component(table, line, place):
    """A component line's numbers. A flag that is no digit is at fault before any field that it decides about."""
    flag, out = line[COLUMNS[FLAG][0]:][:1], []
    for k, (start, width, form) in enumerate(COLUMNS):
        field = line[start:start + width]
        is_blank = k in USES and not says(table, int(flag), USES[k])
        refuse(not re.fullmatch(rb" *" if is_blank else form, field), 19, place + start)
        if k != NAME:
            out.append(0 if is_blank else number(field.strip()))
    return out


def listing(values, parts):
    """A list in the form of the vectors, from the values of its head by their keys."""
    fund = {**{key: values.get(key) for key in FUND}, "first_code": values["fundid"] - 1, "limits": [values[k] for k in range(8)]}
    return {"fund": fund, **{key: values[key] for key in OTHERS}, "components": parts}


def read_list(given, text, room):
    table = loaded(given)
    starts = lines_of(text)
    values = {}
    for k, (name, key, *_) in enumerate(HEAD):
        at, line = starts[k + 1], line_at(text, starts[k + 1])
        values[key] = head_value(k, line[len(name) + 1:], at + len(name) + 1)
    parts = [component(table, text[at:at + ROW_WIDTH], at) for at in starts[22:]]
    v = listing(values, parts)
    refuse(v["count"] not in range(1, 301) or v["count"] != len(parts), 20)
    refuse(values["fundid"] == 0 or not fund_fits(v["fund"]) or not others_fit(v), 2)
    for i in range(len(parts)):
        refuse(not component_fits(table, v["fund"]["first_code"], parts, i), 3, i)
    refuse(room < COMPONENT_WIDTH * len(parts), 16)
    return {"letters": letters(text), **v, "name_places": [at + COLUMNS[NAME][0] for at in starts[22:]]}


def read(given, text, room):
    """The reply, and where it is read all that is handed back."""
    try:
        return {"reply": [0, 0], **read_list(given, text, room)}
    except Refused as why:
        return {"reply": list(why.args)}


def letters(text):
    """The letters of the first line, where that is right."""
    line = line_at(text, 0)
    return line[4:-1] if line is not None and is_head_line(0, line) else b""


def name(text, j):
    """The name of component j, where the text's lines are right and it has one."""
    try:
        rows = lines_of(text)[22:]
    except Refused:
        return b""
    start, width, _ = COLUMNS[NAME]
    return text[rows[j] + start:][:width] if j < len(rows) else b""


# ---- writing


def pointed(x, decimals):
    """A number with so many decimals."""
    if decimals == 0:
        return str(x)
    return f"{'-' if x < 0 else ''}{abs(x) // 10 ** decimals}.{abs(x) % 10 ** decimals:0{decimals}}"


def head_text(v, key, decimals):
    f = v["fund"]
    if key == "fundid":
        return f"{f['first_code'] + 1:06}"
    if key in ("trading_day", "pre_trading_day"):
        return f"{v[key]:08}"
    return pointed(f["limits"][key] if isinstance(key, int) else f[key] if key in f else v[key], decimals)


def head_lines(v):
    """The first line, the lines name=value, and TAGTAG."""
    return [b"[ETF" + v["letters"] + b"]",
            *(f"{name}={head_text(v, key, decimals)}".encode() for name, key, decimals, _ in HEAD), b"TAGTAG"]


def row(table, part, name):
    code, quantity, flag, premium, discount, amount = part

    def cell(x, decimals, k):
        return pointed(x, decimals).encode() if says(table, flag, USES[k]) else b""

    return b"%06d|%s|%8d|%d|%7s|%7s|%12s|" % (code, name, quantity, flag, cell(premium, 5, PREMIUM), cell(discount, 5, DISCOUNT),
                                              cell(amount, 3, AMOUNT))


def lines(v):
    """All lines of a list's text."""
    table = table_of(v["table"])
    rows = [row(table, part, v["names"][8 * i:8 * i + 8]) for i, part in enumerate(v["components"])]
    return [*head_lines(v), *rows, b"ENDENDEND"]


def text_of(lines):
    return b"".join(line + b"\r\n" for line in lines)


def write_list(v, room):
    table = loaded(v["table"])
    n, names = v["count"], v["names"]
    refuse(n not in range(1, 301) or len(numbers(v["components"])) != COMPONENT_WIDTH * n or len(names) != 8 * n, 1)
    is_right = re.fullmatch(rb"[0-9A-Za-z]{1,8}", v["letters"])
    refuse(not fund_fits(v["fund"]) or not others_fit(v) or not is_right, 2)
    for i in range(n):
        is_name = re.fullmatch(COLUMNS[NAME][2], names[8 * i:8 * i + 8])
        refuse(not is_name or not component_fits(table, v["fund"]["first_code"], v["components"], i), 3, i)
    text = text_of(lines(v))
    refuse(room < len(text), 16)
    return text


def write(v, room):
    """The reply, and where it is written the count of its bytes and the text."""
    try:
        text = write_list(v, room)
    except Refused as why:
        return {"reply": list(why.args)}
    return {"reply": [0, 0, len(text)], "text": text}
