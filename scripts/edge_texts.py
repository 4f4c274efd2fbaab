#!/usr/bin/env python3
"""Writes vectors of the list text at the edges of document 01 and change requests 1 and 4, with answers by hand and by a model.

    edge_texts.py VECTORS OUT

OUT gets texts.jsonl, parts.jsonl and writings.jsonl, in the form of VECTORS (vectors/README.md). Each row's number and place
stand beside it here, by hand; the place of a line or of a field is counted over the lines that the row was made of. What is
handed back or written comes from list_model.py, which is written from the papers alone, and which must give the same number and
place. First it is put against texts.jsonl and writings.jsonl of VECTORS, whose answers another model of the papers gave.
"""
import argparse
from pathlib import Path

import edge_tables
import list_model
import vector_files
from edge_tables import KEPT, PAID, RATED, SHORT, STOCK, UNUSED, ruled
from list_model import AMOUNT, CODE, COLUMNS, DISCOUNT, FLAG, HEAD, NAME, PREMIUM, QUANTITY, ROW_WIDTH, lines, text_of
from vector_files import COMPONENT_WIDTH, component_room

NAMES = [name.encode() for name, *_ in HEAD]
G = 510_300
CEILING = 999_999_999_999
MOST = 2 ** 64 - 1

# The components of the paper's day, of all flags, with unlike rates.
PARTS = [[1, 8000, 3, 10_000, 5_000, 96_000_000], [2, 1000, 4, 0, 0, 8_000_000], [600_000, 5200, 1, 10_000, 20_000, 0],
         [600_036, 3000, 0, 0, 0, 0], [600_519, 100, 2, 0, 0, 150_000_000]]

# A component line and its end.
PITCH = ROW_WIDTH + 2

# Room for the numbers of as many components as a list has at most.
ROOM = 300 * COMPONENT_WIDTH

# Lines of a text: the head's are 0 to 21, and then the component lines.
TAG, ROWS = 21, 22


def listed(parts, **changes):
    """A list; a change is of a fund's field or of another."""
    fund = {"first_code": G, "basket_size": 1_000_000, "max_cash_ratio": 5000, "switch": 1, "estimated_cash": -33_122,
            "limits": [0] * 8}
    v = {"letters": b"510300", "fund": fund, "publish": 1, "trading_day": 20_250_630, "pre_trading_day": 20_250_627,
         "cash_component": -32_958, "nav_per_cu": 42_566_878, "nav": 4257, "count": len(parts), "components": parts,
         "names": b"".join(b"NAME %03d" % i for i in range(len(parts))), "table": None}
    fund.update({key: changes.pop(key) for key in list(changes) if key in fund})
    return {**v, **changes}


DAY = lines(listed(PARTS))
SINGLE = [[600_000, 5200, 3, 10_000, 5_000, 96_000_000]]
ONE = lines(listed(SINGLE))


# ---- places, counted over lines


def start(ls, k):
    """The first byte of line k, or the text's length where there is none."""
    return len(text_of(ls[:k]))


def value(ls, k):
    """The first byte of field k of the head, which stands in line k + 1."""
    return start(ls, k + 1) + len(NAMES[k]) + 1


def column(ls, j, k):
    """The first byte of field k of component j."""
    return start(ls, ROWS + j) + COLUMNS[k][0]


# ---- texts


def put(ls, k, *new):
    """Other lines in place of line k."""
    return [*ls[:k], *new, *ls[k + 1:]]


def said(ls, k, new):
    """Another value of field k of the head."""
    return put(ls, k + 1, NAMES[k] + b"=" + new)


def filled(ls, j, k, new):
    """Other bytes in field k of component j, at the right of its blanks."""
    at, width, _ = COLUMNS[k]
    assert len(new) <= width
    old = ls[ROWS + j]
    return put(ls, ROWS + j, old[:at] + new.rjust(width) + old[at + width:])


def text(cause, given, number, place=0, room=ROOM, of=None, table=None):
    """A row: a text or its lines, its reply, and where it is read the list that it was made of."""
    given = text_of(given) if isinstance(given, list) else given
    got = list_model.read(table, given, room)
    assert got["reply"] == [number, place], (cause, given, got["reply"], [number, place])
    assert of is None or all(got[key] == of[key] for key in ("fund", "components", *list_model.OTHERS))
    return {"cause": cause, "text": given, "table": table, "room": room, **got}


def grown(cause, front, part, times, tail, number, place=0, room=ROOM):
    """A row of a long text, a part of which stands in it many times."""
    got = list_model.read(None, front + part * times + tail, room)
    assert got["reply"] == [number, place], (cause, got["reply"], [number, place])
    return {"cause": cause, "front": front, "part": part, "times": times, "tail": tail, "table": None, "room": room, **got}


def read(cause, v, **changes):
    """A row: a list whose text is read under its table."""
    return text(cause, lines(v), 0, of=v, table=v["table"], **changes)


# ---- 18


def moved_lines():
    """A line that stands where another was expected is at fault; behind TAGTAG only the count of component lines is."""
    yield read("one component", listed(SINGLE))
    end = len(ONE) - 1
    for k in range(end + 1):
        is_row = ROWS <= k < end
        yield text("line dropped", put(ONE, k), 20 if is_row else 18, 0 if is_row else start(ONE, k))
        yield text("line doubled", put(ONE, k, ONE[k], ONE[k]), 20 if is_row else 18, 0 if is_row else start(ONE, k + 1))
        yield text("blank line", put(ONE, k, b"", ONE[k]), 18, start(ONE, k))
        if k < ROWS:
            yield text("lines swapped", put(put(ONE, k, ONE[k + 1]), k + 1, ONE[k]), 18, start(ONE, k))
        if k > 0:
            yield text("cut", text_of(ONE[:k]), 18, start(ONE, k))
        yield text("cut within a line", text_of(ONE[:k]) + ONE[k][:-1], 18, start(ONE, k))
    # the last component line behind ENDENDEND; two component lines swapped are out of order, at the second
    behind = [*ONE[:ROWS], ONE[end], ONE[ROWS]]
    yield text("lines swapped", behind, 18, start(behind, ROWS + 1))
    for j in range(4):
        yield text("components swapped", put(put(DAY, ROWS + j, DAY[ROWS + j + 1]), ROWS + j + 1, DAY[ROWS + j]), 3, j + 1)
        yield text("component dropped", put(DAY, ROWS + j), 20)


def line_ends():
    """Without its 0D 0A a line goes on to the next line's end."""
    end = len(ONE) - 1
    for k in range(end + 1):
        is_named = 0 < k < TAG
        for wrong in (b"\r", b"\n", b""):
            given = text_of(ONE[:k]) + ONE[k] + wrong + text_of(ONE[k + 1:])
            # a head line keeps its name, so the next one is missed; any other line is wrong itself
            place = len(text_of(ONE[:k]) + ONE[k] + wrong + ONE[k + 1] + b"\r\n") if is_named else start(ONE, k)
            yield text("line end", given, 18, place)
        # one 0D too many belongs to the line, and so to its value
        extra = put(ONE, k, ONE[k] + b"\r")
        yield text("CR CR LF", extra, 19 if is_named else 18, value(ONE, k - 1) if is_named else start(ONE, k))
    whole = text_of(ONE)
    for behind in (b"\r\n", b"\r", b"\n", b" ", b"\0", b"ENDENDEND\r\n", whole):
        yield text("bytes behind", whole + behind, 18, len(whole))
    for wrong in (b"\n", b"\r", b"\n\r"):
        yield text("other line ends", wrong.join(ONE) + wrong, 18)


def first_lines():
    """Anything in the first line, at 0."""
    for right in (b"0", b"9", b"A", b"Z", b"a", b"z", b"abcdEF12"):
        yield read("first line", listed(SINGLE, letters=right))
    for wrong in (b"", b"123456789", b" ", b"51 3", b"a ", b"a-b", b"a_b", b"/", b":", b"@", b"[", b"`", b"{", b"]", b"a]",
                  b"\xe9", b"\0", b"=", b"a\r", b"a\n"):
        yield text("letters", put(ONE, 0, b"[ETF" + wrong + b"]"), 18)
    for wrong in (b"", b"[", b"[ETF", b"[ETF1", b"ETF1]", b"[etf1]", b"[EtF1]", b"[ETF1] ", b" [ETF1]", b"[ETF1]]", b"[[ETF1]",
                  b"(ETF1)", b"[ETG1]", b"[ETF1}", b"\xef\xbb\xbf[ETF1]", b"TAGTAG", ONE[1]):
        yield text("first line", put(ONE, 0, wrong), 18)
    for wrong in (b"", b"\r", b"\n", b"\r\n", b"\n\r", b"A", b"[ETF510300]", b"[ETF510300]\r", b"ENDENDEND\r\n",
                  b"TAGTAG\r\nENDENDEND\r\n"):
        yield text("short text", wrong, 18)
    yield text("first line only", b"[ETF1]\r\n", 18, 8)


def names():
    """In any case of its letters, and in no other way."""
    v = listed(SINGLE)
    def mixed(name, turn):
        return bytes(x ^ 32 if 65 <= x & 95 <= 90 and (i + turn) % 2 else x for i, x in enumerate(name))
    for other in (bytes.lower, bytes.upper, bytes.swapcase, lambda name: mixed(name, 0), lambda name: mixed(name, 1)):
        cased = [other(NAMES[k - 1]) + ONE[k][len(NAMES[k - 1]):] if 0 < k < TAG else x for k, x in enumerate(ONE)]
        yield text("names in any case", cased, 0, of=v)
    for k, name in enumerate(NAMES):
        tail = ONE[k + 1][len(name) + 1:]
        # one letter short, one too many, a blank, no "=", and a byte with the bit that tells a letter's cases apart
        wrong = [name[:-1] + b"=", name + name[-1:] + b"=", name + b" =", b" " + name + b"=", name + b":", name + b"\x1d", name,
                 name[:2] + bytes([name[2] ^ 64]) + name[3:] + b"=", NAMES[k - 1] + b"="]
        for head in [wrong[k % 9], wrong[(k + 4) % 9]]:
            yield text("wrong name", put(ONE, k + 1, head + tail), 18, start(ONE, k + 1))
    yield text("wrong name", put(ONE, 1, b"Fundid\x11=510301"), 18, start(ONE, 1))
    for wrong in (b"tagtag", b"TagTag", b"TAGTAG ", b" TAGTAG", b"TAGTA", b"TAGTAG=", b"TAGTAGTAG"):
        yield text("TAGTAG", put(ONE, TAG, wrong), 18, start(ONE, TAG))
    for wrong in (b"endendend", b"EndEndEnd", b"ENDENDEND ", b" ENDENDEND", b"ENDENDEN", b"END", b"ENDENDENDEND", b"TAGTAG"):
        yield text("ENDENDEND", put(ONE, len(ONE) - 1, wrong), 18, start(ONE, len(ONE) - 1))


def widths_and_bars():
    """A component line has 56 bytes and its seven bars."""
    yield read("the paper's day, unlike rates", listed(PARTS))
    same_rates = [[*part[:4], part[3], part[5]] for part in PARTS]
    yield read("the paper's day", listed(same_rates))
    for j in (0, 4):
        line, at = DAY[ROWS + j], start(DAY, ROWS + j)
        for bar in (6, 15, 24, 26, 34, 42, 55):
            assert line[bar:bar + 1] == b"|"
            yield text("bar", put(DAY, ROWS + j, line[:bar] + b" " + line[bar + 1:]), 18, at)
            yield text("bar", put(DAY, ROWS + j, line[:bar] + b"!" + line[bar + 1:]), 18, at)
            yield text("width", put(DAY, ROWS + j, line[:bar] + line[bar + 1:]), 18, at)
            yield text("width", put(DAY, ROWS + j, line[:bar] + b"|" + line[bar:]), 18, at)
        for wrong in (line[1:], b" " + line, line + b" ", line + b"|", line[:-1], line * 2, b"", b"|" * 55, b"|" * 57,
                      b" " * 56):
            yield text("width", put(DAY, ROWS + j, wrong), 18, at)
    # two of 28 bytes are none; all bars is a line, whose code is wrong
    yield text("width", put(DAY, ROWS, DAY[ROWS][:28], DAY[ROWS][28:]), 18, start(DAY, ROWS))
    yield text("bars only", put(DAY, ROWS, b"|" * 56), 19, column(DAY, 0, 0))


def old_width(line, rate):
    """The 48 bytes of a line with one rate, the premium's or the discount's."""
    at = COLUMNS[PREMIUM + DISCOUNT - rate][0]
    return line[:at] + line[at + COLUMNS[rate][1] + 1:]


def old_widths():
    """A line of the old 48 bytes is wrong, wherever it stands."""
    for rate in (PREMIUM, DISCOUNT):
        assert len(old_width(DAY[ROWS], rate)) == 48
        for j in range(5):
            yield text("48 bytes", put(DAY, ROWS + j, old_width(DAY[ROWS + j], rate)), 18, start(DAY, ROWS + j))
        whole = [*DAY[:ROWS], *(old_width(line, rate) for line in DAY[ROWS:-1]), DAY[-1]]
        yield text("48 bytes in all lines", whole, 18, start(DAY, ROWS))
    # as many bytes at the end as the line lacks, so that its bars stand where they did
    yield text("48 bytes and 8", put(DAY, ROWS, old_width(DAY[ROWS], PREMIUM) + b"       |"), 18, start(DAY, ROWS))
    # a bar more or fewer in 56 bytes: a third rate in place of the amount's start, one field of two rates
    line = DAY[ROWS]
    yield text("a bar more", put(DAY, ROWS, line[:47] + b"|" + line[48:]), 19, column(DAY, 0, AMOUNT))
    yield text("a bar fewer", put(DAY, ROWS, line[:34] + b" " + line[35:]), 18, start(DAY, ROWS))


# ---- 19, 20 and 2 in the head

# Not as a whole number is written, and not as one with decimals or a sign is.
WHOLE = [b"", b"1000000 ", b" 1000000", b"01000000", b"00", b"+1000000", b"-1000000", b"1000000.", b"1000000.00", b"1e6",
         b"1 0", b"1|0", b"|", b"/", b":", b"1,000,000", b"0x10", b"\xb1", b"1\0", b"-0", b"1\r", b"1\n", b"=1", b"=", b".",
         b"a"]
MONEY = [b"", b"1", b"1.", b"1.0", b"1.000", b".00", b"01.00", b"00.00", b"1,00", b"1.0a", b"1..00", b"1.00 ", b" 1.00",
         b"+1.00", b"1.00-", b"1.0|", b"1|00", b"1.00.00", b"-.00", b"--1.00", b"- 1.00", b"-01.00", b"-", b"1.-0"]
SPELLINGS = {
    0: [b"", b"51030", b"5103010", b"51030a", b"51030 ", b" 51031", b"51 301", b"-51030", b"+51030", b"51030.", b"5103|1",
        b"51030/", b"51030:", b"0x1234", b"51030\r", b"9" * 40],
    1: WHOLE,
    2: [b"", b"0", b"0.", b"0.0500", b"0.050000", b".05000", b"00.05000", b"-0.05000", b"-0.00000", b"+0.05000", b"0,05000",
        b"0.0500 ", b" 0.05000", b"5%", b"0.05|00", b"01.00000", b"0.0500a"],
    3: [b"", b"2", b"9", b"00", b"01", b"10", b"-1", b" 1", b"1 ", b"1.0", b"|", b"a", b"9" * 40, b"18446744073709551617"],
    4: [b"", b"01", b"00", b"-1", b"+1", b" 1", b"1.", b"|", b"a", b"1/"],
    5: [b"", b"01", b"005", b"00", b"-1", b"+1", b" 1", b"1 ", b"1.0", b"|", b"0" * 40],
    6: [b"-0.00", *MONEY],
    9: [b"-0.00", *MONEY[::2]],
    10: [b"-0.00", b"-1.00", *MONEY[1::2]],
    11: [b"", b"1", b"1.", b"1.000", b"1.00000", b".4257", b"00.4257", b"-0.4257", b"-0.0000", b"+0.4257", b"0,4257", b"0.425 ",
         b"0.42|7"],
    **{k: WHOLE[k % 3::7] for k in range(12, 20)},
}

# Well written, and past the range; then the range's ends.
PAST = {
    0: [b"000000", b"999996", b"999997", b"999999"],
    1: [b"0", b"100000000", b"18446744073709551616", b"18446744073710551616", b"9" * 40],
    2: [b"1.00001", b"2.00000", b"184467440737095.51616", b"9" * 40 + b".00000"],
    4: [b"4", b"5", b"10", b"18446744073709551616", b"18446744073709551617", b"9" * 40],
    6: [b"-10000000.00", b"100000000.00", b"184467440737095516.16", b"-184467440737095516.16", b"92233720368547758.08",
        b"9" * 40 + b".00", b"-" + b"9" * 40 + b".00"],
    9: [b"-10000000.00", b"100000000.00", b"184467440737095516.16", b"-92233720368547758.09", b"9" * 40 + b".00",
        b"-" + b"9" * 40 + b".99"],
    10: [b"1000000000.00", b"184467440737095516.16", b"9" * 40 + b".00"],
    11: [b"1000.0000", b"1844674407370955.1616", b"9" * 40 + b".0000"],
    # no multiple of U, past the ceiling, 2^64
    **{k: [b"1", b"999999", b"1000001", b"999999999999", b"1000000000000", b"18446744073709551616", b"9" * 40][k % 2::2]
       for k in range(12, 20)},
}
ENDS = [("first_code", [0, 999_994]), ("basket_size", [1, 99_999_999]), ("max_cash_ratio", [0, 1, 99_999, 100_000]),
        ("publish", [0]), ("switch", [0, 2, 3]),
        ("estimated_cash", [-999_999_999, -100, -99, -1, 0, 1, 99, 100, 9_999_999_999]),
        ("trading_day", [10_101, 99_991_231, 20_240_229, 20_000_229]), ("pre_trading_day", [10_101, 99_991_231, 16_000_229]),
        ("cash_component", [-999_999_999, -1, 0, 9_999_999_999]), ("nav_per_cu", [0, 1, 99, 99_999_999_999]),
        ("nav", [0, 1, 9999, 9_999_999])]


def head_values():
    for k, wrong in SPELLINGS.items():
        for x in wrong:
            yield text("spelling", said(ONE, k, x), 19, value(ONE, k))
    for k, past in PAST.items():
        for x in past:
            yield text("past its range", said(ONE, k, x), 2)
    for key, ends in ENDS:
        for x in ends:
            yield read("at the end of a range", listed(SINGLE, **{key: x}))
    # the highest multiples of U: 999,999 x 1,000,000, all of them for U = 1, and 99,999,999 x 10,000
    for size, highest in ((1_000_000, 999_999_000_000), (1, CEILING), (99_999_999, 999_999_990_000)):
        for limits in ([highest] * 8, [size, 0, highest, 0, size, 0, highest, 0], list(range(0, 8 * size, size))):
            yield read("limits", listed(SINGLE, basket_size=size, limits=limits))


def dates():
    wrong = [b"00000101", b"00000000", b"19000229", b"21000229", b"20230229", b"20240230", b"20240431", b"20240631",
             b"20240931", b"20241131", b"20241301", b"20240001", b"20240100", b"20240132", b"20241232", b"20249901",
             b"20240199", b"2024010", b"202401010", b"2024010a", b"2024 101", b"-2024011", b"", b"20240|01", b"99999999",
             b"9" * 40]
    for k, some in ((7, wrong), (8, wrong[1::2])):
        for x in some:
            yield text("date", said(ONE, k, x), 19, value(ONE, k))
    for day in (20_000_229, 24_000_229, 20_240_229, 20_240_131, 20_240_331, 20_240_430, 20_240_531, 20_240_630, 20_240_731,
                20_240_831, 20_240_930, 20_241_031, 20_241_130, 20_241_231, 20_230_228, 19_000_228):
        # the two days are not compared
        yield read("date", listed(SINGLE, trading_day=day, pre_trading_day=99_991_231))


def recordnums():
    """20: not 1 to 300, or not the count of component lines."""
    for x in (b"0", b"4", b"6", b"50", b"300", b"301", b"18446744073709551621", b"9" * 40):
        yield text("Recordnum", said(DAY, 5, x), 20)
    none = [*ONE[:ROWS], b"ENDENDEND"]
    for x in (b"0", b"1", b"300"):
        yield text("no component line", said(none, 5, x), 20)


# ---- 19 and 3 in component lines

# The component of DAY that is changed, by flag.
OF_FLAG = {flag: j for j, (_, _, flag, *_) in enumerate(PARTS)}

RATES = (PREMIUM, DISCOUNT)


def columns():
    def wrong(j, k, *fields):
        for x in fields:
            yield text("component field", filled(DAY, j, k, x), 19, column(DAY, j, k))
    yield from wrong(1, CODE, b"", b"00000a", b"00002 ", b" 00002", b"2", b"0000-2", b"00|002", b"00002/", b"00002:", b"+00002",
                     b"0000.2")
    yield from wrong(2, QUANTITY, b"", b"00005200", b"05200", b"00", b"5200 ", b"5200    ", b"52 00", b"-5200", b"+5200",
                     b"5200.", b"52.00", b"5|200", b"|", b"5200a", b"5,200", b"52\r00", b"52\n00")
    for j in range(5):
        yield from wrong(j, FLAG, *[b" ", b"a", b"/", b":", b"-", b"|", b"\xb1", b"\0"][j % 2::2])
    for rate in RATES:
        for flag in (1, 3):
            yield from wrong(OF_FLAG[flag], rate, b"", b"0", b"0.", b"0.1000", b"1000000", b".10000", b"00.1000", b"10.0000",
                             b"0,10000", b"0.1000a", b"00001.0", b"0.1000 ", b"-0.1000", b"+.10000", b"0.10|00", b"1", b"|")
        for flag in (0, 2, 4):
            yield from wrong(OF_FLAG[flag], rate, b"0", b"0.00000", b"0.10000", b"0     ", b"\t", b"|", b"\0")
    for flag in (2, 3, 4):
        others = [b"8000.000 ", b"-8000.000", b"+8000.000", b"8,000.000", b"8000.00a", b"80|0.000", b"8000..000", b"- 0.000",
                  b"0000000.000 "]
        yield from wrong(OF_FLAG[flag], AMOUNT, b"", b"0", b"8000", b"8000.", b"8000.00", b"8000.0000", b".000", b"08000.000",
                         b"00.000", *others[flag - 2::3])
    for flag in (0, 1):
        yield from wrong(OF_FLAG[flag], AMOUNT, b"0", b"0.000", b"1.000", b"1.000       ", b"|", b"\r")
    for wrong_name in (b"|2345678", b"1234567|", b"123|5678", b"\r2345678", b"1234567\r", b"\n2345678", b"1234567\n",
                       b"123\n\r678"):
        yield text("name", filled(DAY, 3, NAME, wrong_name), 19, column(DAY, 3, NAME))
    # 0D 0A in a name ends the line
    yield text("name", filled(DAY, 3, NAME, b"123\r\n678"), 18, start(DAY, ROWS + 3))


def name_bytes():
    """Every byte but 7C, 0D and 0A stands in a name."""
    every = bytes(x for x in range(256) if x not in b"|\r\n") + b"TAG"
    parts = [[i, 0, 0, 0, 0, 0] for i in range(32)]
    yield read("name", listed(parts, names=every))
    shown = b"ENDENDENTAGTAG\0\0[ETF1]  Fundid1=510301\x7f\x80"[:40]
    yield read("name", listed(PARTS, names=shown))


def flags():
    """Flags 5 to 9: both rates and the amount are blank, and then the component is 3."""
    for flag in (b"5", b"6", b"7", b"8", b"9"):
        blank = filled(DAY, 3, FLAG, flag)
        assert all(blank[ROWS + 3][COLUMNS[k][0]:][:COLUMNS[k][1]].isspace() for k in (*RATES, AMOUNT))
        yield text("flag", blank, 3, 3)
        for rate in RATES:
            yield text("flag", filled(blank, 3, rate, b"0.10000"), 19, column(DAY, 3, rate))
            yield text("flag", filled(filled(blank, 3, AMOUNT, b"0.000"), 3, rate, b"0.00000"), 19, column(DAY, 3, rate))
        yield text("flag", filled(blank, 3, AMOUNT, b"1.000"), 19, column(DAY, 3, AMOUNT))


def two_rates():
    """The premium stands before the discount, and each is read and written by its own column."""
    for flag, amount in ((1, 0), (3, 7)):
        for rates in ((10_000, 5_000), (5_000, 10_000), (0, 100_000), (100_000, 0), (1, 99_999), (0, 1), (100_000, 100_000)):
            yield read("two rates", listed([[1, 1, flag, *rates, amount]]))
    # the columns swapped are another list
    line = DAY[ROWS]
    (p, width, _), (d, *_) = COLUMNS[PREMIUM], COLUMNS[DISCOUNT]
    swapped = line[:p] + line[d:d + width] + b"|" + line[p:p + width] + line[d + width:]
    yield text("columns swapped", put(DAY, ROWS, swapped), 0, of=listed([[1, 8000, 3, 5_000, 10_000, 96_000_000], *PARTS[1:]]))
    # both blank where they are used, both written where they are not: the premium is the first at fault
    for flag in (1, 3):
        j = OF_FLAG[flag]
        yield text("both rates blank", filled(filled(DAY, j, PREMIUM, b""), j, DISCOUNT, b""), 19, column(DAY, j, PREMIUM))
        yield text("the discount blank", filled(DAY, j, DISCOUNT, b""), 19, column(DAY, j, DISCOUNT))
    for flag in (0, 2, 4):
        j = OF_FLAG[flag]
        written = filled(filled(DAY, j, PREMIUM, b"0.10000"), j, DISCOUNT, b"0.10000")
        yield text("both rates written", written, 19, column(DAY, j, PREMIUM))
        yield text("the discount written", filled(DAY, j, DISCOUNT, b"0.00000"), 19, column(DAY, j, DISCOUNT))
    # a premium past its range is no reason not to look at the discount's characters
    j = OF_FLAG[1]
    yield text("rates that meet", filled(filled(DAY, j, PREMIUM, b"1.00001"), j, DISCOUNT, b"0.1"), 19, column(DAY, j, DISCOUNT))
    yield text("rates that meet", filled(filled(DAY, j, PREMIUM, b"1.00001"), j, DISCOUNT, b"9.99999"), 3, j)
    # a discount at fault in a lower component than a premium
    yield text("rates that meet", filled(filled(DAY, 0, DISCOUNT, b"1.00001"), 2, PREMIUM, b"1.00001"), 3, 0)


def components():
    # a rate past one; all else that can be written in the columns is in its range
    for flag in (1, 3):
        j = OF_FLAG[flag]
        for rate in RATES:
            for x in (b"1.00001", b"1.99999", b"2.00000", b"9.99999"):
                yield text("rate", filled(DAY, j, rate, x), 3, j)
    ends = [[0, 0, 3, 0, 1, 0], [1, 99_999_999, 3, 100_000, 99_999, 99_999_999_999], [2, 1, 1, 1, 0, 0], [3, 9, 2, 0, 0, 1],
            [4, 10, 4, 0, 0, 999], [5, 10_000_000, 4, 0, 0, 1000], [6, 99, 3, 99_999, 100_000, 99_999_999],
            [7, 1, 1, 0, 100_000, 0], [999_999, 0, 0, 0, 0, 0]]
    yield read("components at the ends", listed(ends))
    yield read("a code of 0", listed([[0, 0, 0, 0, 0, 0]]))
    yield read("the last code", listed([[999_999, 0, 0, 0, 0, 0]]))
    # order: equal, falling, both; the lowest is named
    for codes, place in (((1, 1), 1), ((2, 1), 1), ((5, 6, 6), 2), ((5, 4, 4), 1), ((999_999, 0), 1), ((1, 2, 3, 4, 3), 4)):
        yield text("order", lines(listed([[code, 1, 0, 0, 0, 0] for code in codes])), 3, place)
    # the group is g to g + 5
    for code in range(G - 1, G + 7):
        v = listed([[7, 1, 0, 0, 0, 0], [code, 1, 0, 0, 0, 0], [999_999, 1, 0, 0, 0, 0]])
        is_free = code in (G - 1, G + 6)
        yield text("group", lines(v), 0 if is_free else 3, 0 if is_free else 1, of=v if is_free else None)
    for g, code, number in ((0, 5, 3), (0, 6, 0), (0, 0, 3), (999_994, 999_994, 3), (999_994, 999_999, 3),
                            (999_994, 999_993, 0)):
        yield text("group", lines(listed([[code, 1, 0, 0, 0, 0]], first_code=g)), number)
    # behind one at fault the order is still looked at, and the lowest is named
    for codes, place in (((G, G - 1), 0), ((7, G + 2, 8), 1), ((9, 8, G), 1), ((8, 9, G), 2)):
        yield text("faults that meet", lines(listed([[code, 1, 0, 0, 0, 0] for code in codes])), 3, place)
    for rate in RATES:
        yield text("faults that meet", filled(filled(DAY, 4, FLAG, b"9"), 2, rate, b"1.00001"), 19, column(DAY, 4, AMOUNT))
        yield text("faults that meet", filled(filled(filled(DAY, 4, FLAG, b"9"), 4, AMOUNT, b""), 2, rate, b"1.00001"), 3, 2)


# ---- 16, and refusals that meet


def rooms():
    """Six numbers for each component."""
    for room, number in ((30, 0), (29, 16), (25, 16), (6, 16), (0, 16), (31, 0), (35, 0), (36, 0)):
        yield text("room", DAY, number, room=room)
    for room, number in ((6, 0), (5, 16), (0, 16)):
        yield text("room", ONE, number, room=room)


def full_size():
    """300 components of all flags, each name another; a component run of 1799 is one number too short."""
    flags = [(0, 1, 2, 3, 4)[i % 5] for i in range(300)]
    parts = [[3001 * i + 7, 99_999_999 - i, flag, *((333 * i, 100_000 - 331 * i) if flag in (1, 3) else (0, 0)),
              333_333_333 * i if flag in (2, 3, 4) else 0] for i, flag in enumerate(flags)]
    v = listed(parts, letters=b"FULLSIZE", names=b"".join(b"%-8d" % (7 ** i % 10 ** 8) for i in range(300)))
    yield read("300 components", v)
    yield text("300 components", lines(v), 16, room=1799)
    yield text("300 components", lines(v), 16, room=1500)


def meetings():
    """Refusals that meet: 18, 19, 20, 2, 3, 16 in this order."""
    late = len(DAY) - 1
    three = filled(DAY, 4, CODE, b"000001")
    two = said(three, 1, b"0")
    twenty = said(two, 5, b"7")
    nineteen = filled(twenty, 4, AMOUNT, b"1.00")
    eighteen = put(nineteen, late, b"ENDENDEND ")
    for given, number, place in ((DAY, 16, 0), (three, 3, 4), (two, 2, 0), (twenty, 20, 0),
                                 (nineteen, 19, column(nineteen, 4, AMOUNT)), (eighteen, 18, start(eighteen, late))):
        yield text("refusals that meet", given, number, place, room=0)
    # each two of them alone
    for given, number, place in ((put(said(DAY, 0, b"x"), late, b"END"), 18, start(said(DAY, 0, b"x"), late)),
                                 (said(said(DAY, 5, b"7"), 19, b"-1"), 19, value(said(DAY, 5, b"7"), 19)),
                                 (said(said(DAY, 1, b"0"), 11, b"1"), 19, value(said(DAY, 1, b"0"), 11)),
                                 (said(said(DAY, 1, b"0"), 5, b"4"), 20, 0), (said(three, 5, b"4"), 20, 0),
                                 (said(three, 11, b"1000.0000"), 2, 0)):
        yield text("refusals that meet", given, number, place, room=0)
    # the first in the text's order: of two lines, of two fields, of a head's and a component's field, of two of one line
    yield text("two lines", put(put(DAY, late, b"x"), 9, b"y"), 18, start(DAY, 9))
    yield text("two lines", text_of(put(DAY, 21, b"x")) + b"y", 18, start(DAY, 21))
    yield text("two fields", said(said(DAY, 12, b"x"), 6, b"y"), 19, value(DAY, 6))
    yield text("two fields", filled(said(DAY, 19, b"x"), 0, CODE, b"y"), 19, value(DAY, 19))
    yield text("two fields", filled(filled(DAY, 4, CODE, b"y"), 1, AMOUNT, b"y"), 19, column(DAY, 1, AMOUNT))
    for k in range(AMOUNT):
        both = filled(DAY, 0, AMOUNT, b"|")
        yield text("two fields", filled(both, 0, k, b"|"), 19, column(DAY, 0, k))
    # U of 0 never divides a limit
    yield text("basket size 0", said(said(DAY, 1, b"0"), 12, b"5"), 2)


# ---- flag tables

# Fields that a flag may use, with a column of the table; and for each what stands there where it is used.
USED = {PREMIUM: 2, DISCOUNT: 2, AMOUNT: 3}
WRITTEN = {PREMIUM: b"0.10000", DISCOUNT: b"0.05000", AMOUNT: b"7.000"}
WORTH = {PREMIUM: 10_000, DISCOUNT: 5_000, AMOUNT: 7_000}


def of_row(flag, row, worth=WORTH):
    """A component whose flag has a row: what it uses is worth so much."""
    return [600_000, 5200, flag, *(worth[k] if row[USED[k]] else 0 for k in USED)]


def tables():
    """21, before all else: the lowest flag at fault."""
    for table, flag in edge_tables.faulty():
        yield text("a table at fault", DAY, 21, flag, table=table)
    # 21 before 18, wherever it is, 19, 20, 2, 3 and 16
    late = len(DAY) - 1
    for given in (b"", put(DAY, 0, b"x"), put(DAY, late, b"x"), text_of(DAY) + b"x", said(DAY, 0, b"x"),
                  filled(DAY, 4, AMOUNT, b"x"), said(DAY, 5, b"4"), said(DAY, 1, b"0"), filled(DAY, 4, CODE, b"000001")):
        yield text("21 before others", given, 21, 9, table=edge_tables.set_at(9, 6))
        yield text("21 before others", given, 21, 2, room=0, table=ruled({2: (0, 0, 0, 0, 1, 0, 1)}))
    yield text("21 before 16", DAY, 21, 9, room=29, table=edge_tables.set_at(9, 6))
    # a table that loads leaves the other refusals and their places
    table = ruled({5: SHORT, 9: PAID[7]})
    for given, number, place in ((b"", 18, 0), (put(DAY, late, b"x"), 18, start(DAY, late)),
                                 (said(DAY, 0, b"x"), 19, value(DAY, 0)), (said(DAY, 5, b"4"), 20, 0), (said(DAY, 1, b"0"), 2, 0),
                                 (filled(DAY, 4, CODE, b"000001"), 3, 4)):
        yield text("others under a table", given, number, place, table=table)
    yield text("16 under a table", DAY, 16, room=29, table=table)
    yield read("our table given", listed(PARTS, table=ruled({})))
    for row in UNUSED[::9]:
        yield read("rows not in use", listed(SINGLE, table=ruled({flag: row for flag in (0, 1, 2, 4, 5, 9)})))


def blanks():
    """A rate or an amount is blank unless the flag is in use and its column says used: each field as it has to be, and otherwise."""
    for flag in (6, 2):
        for row in KEPT:
            v = listed([of_row(flag, row)], table=ruled({flag: row}))
            yield read("a row in use", v)
            for k in USED:
                other = filled(lines(v), 0, k, b"" if row[USED[k]] else WRITTEN[k])
                yield text("a field otherwise", other, 19, column(other, 0, k), table=v["table"])
    # not in use, all are blank, whatever else the row has; then the component is 3
    for flag, row in ((0, STOCK), (3, PAID[7]), (7, SHORT), (5, (0, 0, 1, 1, 1, 1, 1)), (9, (0, 0, 0, 0, 0, 0, 1))):
        table = ruled({flag: (*row[:6], 0)})
        blank = lines(listed([[600_000, 5200, flag, 0, 0, 0]], table=table))
        yield text("not in use", blank, 3, table=table)
        for k in USED:
            yield text("not in use, a field written", filled(blank, 0, k, WRITTEN[k]), 19, column(blank, 0, k), table=table)
            zero = WRITTEN[k].translate(bytes.maketrans(b"157", b"000"))
            yield text("not in use, a field of 0", filled(blank, 0, k, zero), 19, column(blank, 0, k), table=table)
    # the paper's day, which is read by our table, under one in which flag 3 is short in cash, flag 4 is not in use, or flag 1 has no rate
    yield text("by our table alone", DAY, 19, column(DAY, 0, AMOUNT), table=ruled({3: SHORT}))
    yield text("by our table alone", DAY, 19, column(DAY, 1, AMOUNT), table=ruled({4: UNUSED[-1]}))
    yield text("by our table alone", DAY, 19, column(DAY, 2, PREMIUM), table=ruled({1: STOCK}))
    # and a list under another that ours would not let be read
    other = [[*part[:2], {3: 8, 4: 5, 1: 9, 0: 2, 2: 0}[part[2]], *part[3:]] for part in PARTS]
    by_table = listed(other, table=ruled({8: PAID[5], 5: PAID[0], 9: SHORT, 2: STOCK, 0: PAID[2]}))
    yield read("by another table", by_table)
    yield text("by another table", lines(by_table), 19, column(DAY, 0, PREMIUM))


def ten_flags():
    """All ten flags in use, with numbers at the ends of their ranges, and past them."""
    table = [STOCK, SHORT, *PAID]
    for worth in ((100_000, 99_999, 99_999_999_999), (0, 0, 0), (1, 100_000, 999)):
        parts = [[i, 99_999_999, *of_row(i, row, dict(zip(USED, worth)))[2:]] for i, row in enumerate(table)]
        yield read("ten flags", listed(parts, table=table))
    # flag 7 has rates and an amount, flag 1 rates
    for flag in (1, 7):
        for k in (PREMIUM, DISCOUNT):
            v = listed([of_row(flag, table[flag])], table=table)
            yield text("past its range", filled(lines(v), 0, k, b"1.00001"), 3, table=table)
    yield read("a stock flag with rates", listed([of_row(5, RATED)], table=ruled({5: RATED})))


# ---- long texts, which the program makes


def long_texts():
    line = text_of([ONE[ROWS]])
    head, tail = text_of(ONE[:ROWS]), text_of(ONE[ROWS + 1:])
    yield grown("301 component lines", text_of(said(ONE, 5, b"301")[:ROWS]), line, 301, tail, 20)
    yield grown("301 component lines", text_of(said(ONE, 5, b"300")[:ROWS]), line, 301, tail, 20)
    # 300 of one code: the second is out of order
    yield grown("300 component lines", text_of(said(ONE, 5, b"300")[:ROWS]), line, 300, tail, 3, 1)
    bad = text_of([filled(ONE, 0, AMOUNT, b"1.00")[ROWS]])
    yield grown("60,000 component lines", head, line, 60_000, tail, 20)
    yield grown("a field past the 60,000th", head, line, 60_000, bad + tail, 19, len(head) + 60_000 * PITCH + COLUMNS[AMOUNT][0])
    for k in (PREMIUM, DISCOUNT, AMOUNT):
        bad = text_of([filled(ONE, 0, k, b"1.0")[ROWS]])
        yield grown("a field past the 300th", head, line, 300, bad + tail, 19, len(head) + 300 * PITCH + COLUMNS[k][0])
        yield grown("all fields wrong", head, bad, 3_000, tail, 19, len(head) + COLUMNS[k][0])
    old = text_of([old_width(ONE[ROWS], PREMIUM)])
    yield grown("lines of 48 bytes", head, old, 3_000, tail, 18, len(head))
    for wrong in (tail[:-2], b"", line[:30] + line[31:] + tail, old + tail):
        yield grown("a line past the 3,000th", head, line, 3_000, wrong, 18, len(head) + 3_000 * PITCH)

    def digits(k, before, digit, behind, number, is_placed=False):
        given = said(ONE, k, before + b"#" + behind)
        front, back = text_of(given).split(b"#")
        return grown("100,000 digits", front, digit, 100_000, back, number, value(ONE, k) if is_placed else 0)

    yield digits(0, b"", b"1", b"", 19, True)
    yield digits(1, b"", b"9", b"", 2)
    yield digits(1, b"", b"0", b"1", 19, True)
    yield digits(1, b"1", b"0", b"", 2)
    yield digits(1, b"", b"1", b" ", 19, True)
    yield digits(2, b"0.", b"0", b"", 19, True)
    yield digits(2, b"", b"7", b".00000", 2)
    yield digits(3, b"", b"1", b"", 19, True)
    yield digits(4, b"", b"2", b"", 2)
    yield digits(5, b"", b"1", b"", 20)
    yield digits(5, b"0", b"0", b"", 19, True)
    yield digits(6, b"-", b"5", b".00", 2)
    yield digits(6, b"-", b"0", b".00", 19, True)
    yield digits(7, b"", b"2", b"", 19, True)
    yield digits(9, b"", b"5", b".00", 2)
    yield digits(10, b"", b"5", b".00", 2)
    yield digits(11, b"", b"5", b".0000", 2)
    yield digits(12, b"", b"5", b"", 2)
    yield digits(19, b"1", b"0", b"", 2)
    yield grown("nothing but", b"", b"A" * 100, 20_000, b"", 18)
    for part in (b"\r", b"\n", b"\0", b"|", b"]", b"[ETF", b"\r\n", b"\n\r"):
        yield grown("nothing but", b"", part, 100_000, b"", 18)
    yield grown("letters", b"[ETF", b"A", 100_000, b"]\r\n" + text_of(ONE[1:]), 18)
    yield grown("a long name", text_of(ONE[:1]), b"Fundid1", 50_000, text_of(ONE[1:]), 18, start(ONE, 1))
    yield grown("many TAGTAG", text_of(ONE[:TAG]), b"TAGTAG\r\n", 50_000, tail, 18, start(ONE, TAG + 1))
    yield grown("a long line", head, b" ", 100_000, tail, 18, len(head))
    whole = text_of(ONE)
    yield grown("bytes behind", whole, b"\0", 100_000, b"", 18, len(whole))
    yield grown("a list again and again", b"", whole, 2_000, b"", 18, len(whole))


# ---- the letters, and one component's name, of texts that are read and of texts that are not


def part(cause, given, component, letters, name):
    given = text_of(given) if isinstance(given, list) else given
    assert (list_model.letters(given), list_model.name(given, component)) == (letters, name), cause
    return {"cause": cause, "text": given, "component": component, "letters": letters, "name": name}


def parts():
    right = b"510300"
    for j in range(5):
        yield part("read", DAY, j, right, b"NAME %03d" % j)
    for j in (5, 6, 300, 10 ** 9, MOST // PITCH, MOST // PITCH + 1, 2 ** 63, MOST):
        yield part("no such component", DAY, j, right, b"")
    # 19, 20, 2 and 3 leave the component lines where they are
    yield part("19", said(DAY, 0, b"x"), 2, right, b"NAME 002")
    yield part("19 at the name", filled(DAY, 2, NAME, b"12|45678"), 2, right, b"12|45678")
    yield part("20", said(DAY, 5, b"9" * 40), 4, right, b"NAME 004")
    yield part("2", said(DAY, 1, b"0"), 4, right, b"NAME 004")
    yield part("3", filled(DAY, 4, CODE, b"000001"), 4, right, b"NAME 004")
    # 18 anywhere: the text has no component lines
    yield part("18 at the end", put(DAY, len(DAY) - 1, b"END"), 0, right, b"")
    yield part("18 behind", text_of(DAY) + b" ", 0, right, b"")
    yield part("18 in the head", put(DAY, 9, b"x"), 0, right, b"")
    yield part("18 in a component line", put(DAY, ROWS + 4, b"x"), 0, right, b"")
    yield part("18 in the first line", put(DAY, 0, b"[ETF-]"), 0, b"", b"")
    yield part("first line only", b"[ETFabc]\r\n", 0, b"abc", b"")
    for given in (b"", b"[ETFabc]", b"[ETFabc]\r", b"[ETF]\r\n", b"[ETF123456789]\r\n", b"[ETFabc]\n\r\n", b"\r\n[ETFabc]\r\n"):
        yield part("no first line", given, 0, b"", b"")
    none = [*said(DAY, 5, b"0")[:ROWS], b"ENDENDEND"]
    yield part("no component line", none, 0, right, b"")


# ---- writing


def written(cause, v, number=0, place=0, room=None):
    """A row: a list that is written, into an output of just its text's length where no room is said."""
    if room is None:
        room = len(text_of(lines(v))) if number == 0 else 20_000
    got = list_model.write(v, room)
    assert got["reply"][:2] == [number, place], (cause, v, got["reply"], [number, place])
    return {"cause": cause, **v, "output_length": room, **got}


# Each field just past its range, and at the ends of what a number holds.
FIELDS_PAST = [("first_code", [999_995, MOST]), ("basket_size", [0, 100_000_000, MOST]), ("max_cash_ratio", [100_001, MOST]),
               ("switch", [4, MOST]), ("estimated_cash", [-1_000_000_000, 10_000_000_000, 2 ** 63 - 1, -2 ** 63]),
               ("publish", [2, MOST]), ("cash_component", [-1_000_000_000, 10_000_000_000, 2 ** 63 - 1, -2 ** 63]),
               ("nav_per_cu", [100_000_000_000, MOST]), ("nav", [10_000_000, MOST])]
NO_DATES = [0, 1, 101, 10_100, 10_001, 19_000_229, 20_230_229, 20_241_301, 20_240_001, 20_240_100, 20_240_431, 99_991_232,
            100_000_101, 99_999_999, 2 ** 32 + 20_240_101, MOST]


def field_ends():
    for key, ends in ENDS:
        for x in ends:
            yield written("at the end of a range", listed(SINGLE, **{key: x}))
    for key, past in FIELDS_PAST:
        for x in past:
            yield written("past its range", listed(SINGLE, **{key: x}), 2)
    for key in ("trading_day", "pre_trading_day"):
        for x in NO_DATES:
            yield written("date", listed(SINGLE, **{key: x}), 2)
    yield written("the days are not compared", listed(SINGLE, trading_day=10_101, pre_trading_day=99_991_231))
    for letters in (b"0", b"z", b"Az09Za90"):
        yield written("letters", listed(SINGLE, letters=letters))
    for letters in (b"", b"123456789", b"a b", b" ", b"]", b"a\r", b"\n", b"/", b":", b"@", b"[", b"`", b"{", b"\xff",
                    b"a" * 99):
        yield written("letters", listed(SINGLE, letters=letters), 2)


def limit_ends():
    highest = 999_999_000_000
    for k in range(8):
        for x, number in ((1_000_000, 0), (highest, 0), (highest + 1_000_000, 2), (1, 2), (999_999, 2), (CEILING, 2),
                          (MOST, 2)):
            yield written("limit", listed(SINGLE, limits=[0] * k + [x] + [0] * (7 - k)), number)
    yield written("limits", listed(SINGLE, limits=[highest] * 8))
    yield written("limits", listed(SINGLE, basket_size=1, limits=[CEILING] * 8))
    yield written("basket size 0", listed(SINGLE, basket_size=0, limits=[5] * 8), 2)


def whole_lists():
    """All fields at their lowest, all at their highest, and 300 components."""
    lowest = {"first_code": 0, "basket_size": 1, "max_cash_ratio": 0, "switch": 0, "estimated_cash": -999_999_999, "publish": 0,
              "trading_day": 10_101, "pre_trading_day": 10_101, "cash_component": -999_999_999, "nav_per_cu": 0, "nav": 0,
              "letters": b"0"}
    highest = {"first_code": 999_994, "basket_size": 99_999_999, "max_cash_ratio": 100_000, "switch": 3,
               "estimated_cash": 9_999_999_999, "publish": 1, "trading_day": 99_991_231, "pre_trading_day": 99_991_231,
               "cash_component": 9_999_999_999, "nav_per_cu": 99_999_999_999, "nav": 9_999_999, "letters": b"zzzzzzzz",
               "limits": [999_999_990_000] * 8}
    yield written("lowest", listed([[6, 0, 0, 0, 0, 0]], **lowest, names=bytes(8)))
    yield written("highest", listed([[999_993, 99_999_999, 3, 100_000, 100_000, 99_999_999_999]], **highest, names=b"\xff" * 8))
    ends = [[0, 0, 0, 0, 0, 0], [1, 99_999_999, 1, 100_000, 0, 0], [2, 0, 2, 0, 0, 0], [3, 1, 2, 0, 0, 99_999_999_999],
            [4, 10, 3, 0, 100_000, 0], [5, 9, 3, 100_000, 99_999, 99_999_999_999], [6, 99, 4, 0, 0, 1], [7, 100, 4, 0, 0, 999],
            [8, 12_345_678, 3, 1, 0, 1000], [9, 1, 1, 0, 100_000, 0], [999_999, 0, 1, 0, 1, 0]]
    yield written("components at the ends", listed(ends))
    flags = [(4, 3, 2, 1, 0)[i % 5] for i in range(300)]
    parts = [[i + 999_700 if i else 0, i, flag, *((334 * i, 333 * (299 - i)) if flag in (1, 3) else (0, 0)),
              7 ** i % 10 ** 11 if flag in (2, 3, 4) else 0] for i, flag in enumerate(flags)]
    yield written("300 components", listed(parts, **lowest | {"first_code": G}, names=bytes(14 + i % 110 for i in range(2400))))
    every = bytes(x for x in range(256) if x not in b"|\r\n") + b"END"
    yield written("names", listed([[i, 0, 0, 0, 0, 0] for i in range(32)], names=every))
    for rates in ((10_000, 5_000), (5_000, 10_000), (0, 100_000), (100_000, 0)):
        yield written("unlike rates", listed([[1, 1, 1, *rates, 0], [2, 1, 3, *rates, 7]]))


def lengths():
    """1, before all else."""
    many = [[i, 0, 0, 0, 0, 0] for i in range(301)]
    yield written("count 0", listed([]), 1)
    yield written("count 301", listed(many), 1)
    # the names of 2^61 + 5 would be 2^64 + 40 bytes
    for count in (0, 4, 6, 301, 2 ** 32 + 5, 2 ** 61 + 5, 2 ** 63, MOST):
        yield written("count", listed(PARTS, count=count), 1)
    # five numbers each are one rate too few
    for wrong in (PARTS[:4], [*PARTS, [999_999, 0, 0, 0, 0, 0]], [*PARTS[:4], PARTS[4][:5]], [*PARTS, [0]], [],
                  [[*part[:4], part[5]] for part in PARTS]):
        yield written("components", {**listed(PARTS), "components": wrong}, 1)
    for size in (39, 41, 32, 48, 0, 5):
        yield written("names", {**listed(PARTS), "names": b"N" * size}, 1)


def component_faults():
    def written_with(j, part, number=3):
        return written("component", listed([*PARTS[:j], part, *PARTS[j + 1:]]), number, j if number else 0)
    for j, part in ((0, [1, 10 ** 8, 0, 0, 0, 0]), (1, [2, MOST, 0, 0, 0, 0]), (2, [600_000, 1, 5, 0, 0, 0]),
                    (2, [600_000, 1, 9, 0, 0, 0]), (2, [600_000, 1, MOST, 0, 0, 0]), (3, [600_036, 1, 2, 0, 0, 10 ** 11]),
                    (3, [600_036, 1, 4, 0, 0, MOST]), (4, [10 ** 6, 1, 0, 0, 0, 0]), (4, [MOST, 1, 0, 0, 0, 0]),
                    # each rate past one
                    *((2, [600_000, 1, flag, *pair, 0]) for flag in (1, 3)
                      for pair in ((100_001, 0), (0, 100_001), (MOST, 0), (0, MOST), (200_000, 200_000))),
                    # an unused rate or amount
                    *((3, [600_036, 1, flag, *pair, 0]) for flag in (0, 2, 4)
                      for pair in ((1, 0), (0, 1), (100_000, 0), (0, 100_000))),
                    (3, [600_036, 1, 0, 0, 0, 1]), (3, [600_036, 1, 1, 0, 0, 1]),
                    # order and group
                    (1, [1, 1, 0, 0, 0, 0]), (1, [0, 1, 0, 0, 0, 0]), (4, [600_036, 1, 0, 0, 0, 0]),
                    *((2, [G + k, 1, 0, 0, 0, 0]) for k in range(6))):
        yield written_with(j, part)
    for part in ([G - 1, 1, 0, 0, 0, 0], [G + 6, 1, 0, 0, 0, 0], [600_000, 1, 1, 100_000, 100_000, 0],
                 [600_000, 1, 3, 0, 100_000, 0]):
        yield written_with(2, part, 0)
    yield written("the last of 300", listed([[i, 0, 0, 0, 0, 0] for i in range(299)] + [[298, 0, 0, 0, 0, 0]]), 3, 299)


def name_faults():
    def named(j, at, byte):
        names = bytearray(b"ABCDEFGH" * 5)
        names[8 * j + at] = byte
        return bytes(names)
    for j, at, byte in ((0, 0, 0x7C), (0, 7, 0x7C), (4, 7, 0x7C), (2, 3, 0x0D), (1, 0, 0x0D), (3, 7, 0x0D), (2, 3, 0x0A),
                        (1, 0, 0x0A), (3, 7, 0x0A)):
        yield written("name", listed(PARTS, names=named(j, at, byte)), 3, j)
    # a name's fault and a component's: the lower is named, or the one that has both
    for j in range(5):
        faulty = [*PARTS[:2], [600_000, 1, 7, 0, 0, 0], *PARTS[3:]]
        yield written("faults that meet", listed(faulty, names=named(j, 5, 0x7C)), 3, min(j, 2))


def outputs():
    v = listed(PARTS)
    size = len(text_of(lines(v)))
    for room, number in ((size, 0), (size - 1, 16), (size + 1, 0), (size + 777, 0), (0, 16), (1, 16), (size // 2, 16),
                         (20_000, 0)):
        yield written("output", v, number, room=room)


def tables_written():
    """21, before 1 and all else; the columns by the list's table."""
    for table, flag in edge_tables.faulty():
        yield written("a table at fault", listed(SINGLE, table=table), 21, flag)
    wrong = edge_tables.set_at(9, 6)
    v = listed(SINGLE, table=wrong)
    for changes in ({"count": 2}, {"count": MOST}, {"components": []}, {"components": [SINGLE[0][:5]]}, {"names": b""},
                    {"letters": b""}, {"publish": 2}, {"fund": {**v["fund"], "basket_size": 0}},
                    {"components": [[G, 1, 0, 0, 0, 0]]}, {"components": [[600_000, 1, 5, 0, 0, 0]]}, {"names": b"|" * 8}, {}):
        yield written("21 before others", {**v, **changes}, 21, 9, room=0)
    yield written("16 under a table", listed(SINGLE, table=[PAID[7]] * 10), 16, room=0)
    yield written("1 under a table", listed(SINGLE, table=ruled({5: STOCK}), count=2), 1)
    yield written("our table given", listed(PARTS, table=ruled({})))
    for flag in (6, 0, 3):
        for row in KEPT:
            table = ruled({flag: row})
            yield written("a row in use", listed([of_row(flag, row)], table=table))
            # what it does not use has to be 0, what it uses may be
            yield written("a row in use, all 0", listed([[600_000, 5200, flag, 0, 0, 0]], table=table))
            for k, at in zip(USED, (3, 4, 5)):
                part = of_row(flag, row)
                part[at] = 0 if row[USED[k]] else 1
                yield written("a field otherwise", listed([part], table=table), 0 if row[USED[k]] else 3)
    for flag, row in ((0, STOCK), (3, PAID[7]), (7, SHORT), (5, UNUSED[-1]), (9, UNUSED[0])):
        yield written("not in use", listed([[600_000, 5200, flag, 0, 0, 0]], table=ruled({flag: (*row[:6], 0)})), 3)
    for flag in (10, MOST):
        yield written("no flag", listed([[600_000, 5200, flag, 0, 0, 0]], table=[STOCK] * 10), 3)
    table = [STOCK, SHORT, *PAID]
    for worth in ((100_000, 99_999, 99_999_999_999), (0, 0, 0), (1, 100_000, 999)):
        parts = [[i, 99_999_999, *of_row(i, row, dict(zip(USED, worth)))[2:]] for i, row in enumerate(table)]
        yield written("ten flags", listed(parts, table=table))
    for at, x in ((3, 100_001), (4, 100_001), (5, 10 ** 11)):
        part = of_row(7, PAID[5])
        part[at] = x
        yield written("past its range", listed([part], table=table), 3)


def writings_that_meet():
    """1, 2, 3, 16 in this order."""
    three = listed([*PARTS[:4], [1, 0, 0, 0, 0, 0]])
    two = {**three, "publish": 2}
    one = {**two, "count": 4}
    for v, number, place in ((listed(PARTS), 16, 0), (three, 3, 4), (two, 2, 0), (one, 1, 0)):
        yield written("refusals that meet", v, number, place, room=0)
    yield written("refusals that meet", {**listed(PARTS), "publish": 2}, 2, room=0)
    yield written("refusals that meet", {**listed(PARTS), "count": 4}, 1, room=0)
    yield written("refusals that meet", {**listed(PARTS), "letters": b"", "names": b"|" * 40}, 2)


# ---- the model against the vectors


def is_model_right(vectors):
    """Whether the model gives every answer of the vectors."""
    def rows(file):
        return vector_files.rows(vectors / f"{file}.jsonl")

    texts = [list_model.read(v["table"], v["text"], component_room(v)).items() <= v.items() for v in rows("texts")]
    writings = [list_model.write(v, v["output_length"]).items() <= v.items() for v in rows("writings")]
    print(f"the model answers {sum(texts)} of {len(texts)} texts and {sum(writings)} of {len(writings)} writings as the vectors")
    return all(texts) and all(writings)


def is_covered(files):
    """Every refusal of reading and of writing, with a place above 0 for each that has places."""
    replies = {name: {tuple(v["reply"][:2]) for v in rows if "reply" in v} for name, rows in files.items()}
    def numbers(name, is_placed):
        return {n for n, place in replies[name] if place > 0 or not is_placed}
    return (numbers("texts", False) == {0, 2, 3, 16, 18, 19, 20, 21} and numbers("texts", True) == {3, 18, 19, 21}
            and numbers("writings", False) == {0, 1, 2, 3, 16, 21} and numbers("writings", True) == {3, 21})


def main():
    parser = argparse.ArgumentParser()
    parser.add_argument("vectors", type=Path)
    parser.add_argument("out", type=Path)
    args = parser.parse_args()
    assert is_model_right(args.vectors)
    kinds = {"texts": (moved_lines, line_ends, first_lines, names, widths_and_bars, old_widths, head_values, dates, recordnums,
                       columns, name_bytes, flags, two_rates, components, rooms, full_size, meetings, tables, blanks, ten_flags,
                       long_texts),
             "parts": (parts,),
             "writings": (field_ends, limit_ends, whole_lists, lengths, component_faults, name_faults, outputs, tables_written,
                          writings_that_meet)}
    files = {file: [v for made in kind for v in made()] for file, kind in kinds.items()}
    assert is_covered(files)
    args.out.mkdir(parents=True, exist_ok=True)
    for file, rows in files.items():
        vector_files.save(args.out / f"{file}.jsonl", rows)
        print(f"{file}: {len(rows)} rows")


if __name__ == "__main__":
    main()
