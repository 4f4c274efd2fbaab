#!/usr/bin/env python3
"""Writes what `roffelaine rehearse` is to print for a day.

    rehearse_text.py examples/day.txt > rust/roffelaine-cli/tests/days/example.out

Answers come from `Model` of day_model.py, which is written from the papers alone and shares nothing with the day book; words
and figures of refusals are computed here from that model. The list is taken as well written under the rows of the flag table above
the first `open`. Of a line that is not understood only the start is written, and ` ..` for the rest.
"""
import copy
import re
import sys

from day_model import (AMOUNT_USED, CEILING, E18, IN_CASH, IN_USE, OURS, ORDERS, PRICED, RATE_USED, Model, accepted, fault_of,
                       refused, says)
from vector_files import LISTS

HEAD = ("Fundid1 CreationRedemptionUnit MaxCashRatio Publish CreationRedemption Recordnum EstimateCashComponent TradingDay "
        "PreTradingDay CashComponent NAVperCU NAV CreationLimit RedemptionLimit CreationLimitPerUser RedemptionLimitPerUser "
        "NetCreationLimit NetRedemptionLimit NetCreationLimitPerUser NetRedemptionLimitPerUser").split()
END = b"ENDENDEND\r\n"
MOST = 2**64 - 1
ALL = [1530, 3020, 3020]  # the lengths of lists that take the records and the reports of any order
PARTIES = {"investor": "investor", "fund": "fund_reports"}  # whose reports are printed, and their list
SWITCHES = ("neither creation nor redemption", "creation and redemption", "creation only", "redemption only")
COLUMNS = ("stock moves", "shortage in cash", "rate used", "amount used", "Shanghai", "priced", "in use")
SHAPES = {
    "accounts": "n", "cash": "nm", "hold": "ncn", "flag": "n" * (1 + len(COLUMNS)), "open": "", "price": "cm", "trade": "cnmnn",
    "create": "nn", "redeem": "nn", "value": "", "show": "n", "totals": "",
}
TESTS = {f"test {name}": name for name in ORDERS}  # the tests alone, and whose they are


def read_list(text):
    """The fund and the components."""
    lines = text.decode("latin-1").split("\r\n")
    values = dict(zip(HEAD, (line.split("=", 1)[1] for line in lines[1:21])))
    whole = {k: int(v.replace(".", "")) for k, v in values.items()}
    fund = {"first_code": whole["Fundid1"] - 1, "basket_size": whole["CreationRedemptionUnit"],
            "max_cash_ratio": whole["MaxCashRatio"], "switch": whole["CreationRedemption"],
            "estimated_cash": whole["EstimateCashComponent"], "limits": [whole[k] for k in HEAD[12:]]}
    parts = []
    for line in lines[22:-2]:
        code, _, q, flag, *used, _ = line.split("|")
        parts.append([int(code), int(q), int(flag), *(int(x.replace(".", "").strip() or 0) for x in used)])
    return fund, parts


def word(kind, text):
    """A number, money in thousandths, a value in ten-thousandths or a code; None where it cannot be taken."""
    if kind == "c":
        return int(text) if re.fullmatch("[0-9]{6}", text) else None
    places = {"n": 0, "m": 3, "v": 4}[kind]
    m = re.fullmatch(r"(0|[1-9][0-9]*)(?:\.([0-9]+))?", text)
    if not m or len(m[2] or "") > places:
        return None
    x = int(m[1]) * 10**places + int((m[2] or "").ljust(places, "0") or 0)
    return x if x <= MOST else None


def yuan(x, places=3):
    return f"{x // 10**places}.{x % 10**places:0{places}}"


def row_reason(row):
    """What breaks the rules in a row of a flag table."""
    moves, in_cash, rate, amount, shanghai, priced, _ = row
    wrong = [f"{name} {x}, which is not 0 or 1" for name, x in zip(COLUMNS, row) if x > 1]
    rules = [(moves and not shanghai, "stock moves, but it is not Shanghai"), (moves and not priced, "stock moves, but it is not priced"),
             (moves and amount, "stock moves, but an amount is used"), (not moves and not amount, "no stock moves, but no amount is used"),
             (in_cash and not moves, "shortage in cash, but no stock moves"),
             (in_cash and not rate, "shortage in cash, but no rate is used")]
    return "; ".join(wrong or [words for broken, words in rules if broken])


def report(party, kind, side, code, q, *groups):
    """The line of a report, with the groups that are there."""
    cash = "".join(f" {kind} {yuan(x)}" for kind, x in zip(groups[::2], groups[1::2]) if kind)
    return f"{party} {kind} {side} {code:06} {q}{cash}"


class Rehearsal:
    def __init__(self, fund, parts):
        self.fund, self.parts, self.n = fund, parts, len(parts)
        self.codes = [p[0] for p in parts] + [fund["first_code"]]
        self.accounts, self.held, self.rows, self.faulty, self.tried, self.waits = None, {}, {}, 0, None, None
        self.day, self.since, self.out, self.last, self.tells = None, None, [], None, False
        self.counts = {"accepted": 0, "refused": 0, "not": 0, "met": 0, "unmet": 0}

    def line(self, code):
        return self.codes.index(code) if code in self.codes else self.n + 1

    # Openings

    def open_reply(self):
        """1, 21, 3 under another table than the list was read under, and 4; the list's other tests are reading's."""
        a, w = self.accounts or 0, self.n + 2
        table = [self.rows.get(flag, row) for flag, row in enumerate(OURS)]
        if not 2 <= a <= 64:
            why = "there is no line `accounts` above" if self.accounts is None else f"accounts {a}: a day has 2 to 64"
            return refused(1), why
        at = fault_of(table)
        if at is not None:
            return refused(21, at), f"the flag table breaks its rules at flag {at}: {row_reason(table[at])}"
        for i, part in enumerate(self.parts):
            if why := self.misused(table, *part):
                return refused(3, i), f"{part[0]:06} has {why}"
        rows = [[self.held.get((b, i), 0) for i in range(w)] for b in range(a)]
        totals = [sum(r[i] for r in rows) for i in range(w)]
        for line in range(self.n + 1):
            if totals[line + 1] > E18:
                return refused(4, line), f"{self.codes[line]:06} totals {totals[line + 1]}, at most {E18}"
            if line == self.n and rows[0][line + 1]:
                return refused(4, line), f"the fund holds {rows[0][line + 1]} of {self.codes[line]:06}, it may hold no units"
        if totals[0] > 4 * E18:
            return refused(4, self.n + 1), f"cash totals {yuan(totals[0])}, at most {yuan(4 * E18)}"
        self.day = Model(a, self.fund, self.parts, [x for r in rows for x in r], table)
        self.opened = [totals[i + 1] for i in range(self.n + 1)] + [totals[0]]
        self.moved = [[0, 0] for _ in self.opened]
        return accepted(), ""

    def misused(self, table, _code, _quantity, flag, premium, discount, amount):
        """What a component of the list has that is not for its flag in a table; None where it has nothing such."""
        if not says(table, flag, IN_USE):
            return f"flag {flag}, which is not in use"
        used = (("a premium", premium, RATE_USED), ("a discount", discount, RATE_USED), ("an amount", amount, AMOUNT_USED))
        return next((f"{name}, which flag {flag} does not use" for name, x, k in used if x and not says(table, flag, k)), None)

    def open(self, k):
        self.tried, self.waits = self.faulty, None
        if self.since is not None:
            return self.not_made(k, f"the day is open since line {self.since}")
        if self.faulty:
            return self.not_made(k, "1 line above is faulty" if self.faulty == 1 else f"{self.faulty} lines above are faulty")
        reply, why = self.open_reply()
        if not reply[0]:
            self.since = k
        return self.answered(k, "open", reply, {}, why)

    def not_made(self, k, why):
        self.counts["not"] += 1
        self.out.append(f"{k} open not made: {why}")
        return True

    def give(self, k, account, place, x):
        if self.since is not None or self.accounts is None or account >= self.accounts or (account, place) in self.held:
            return False
        self.held[account, place] = x
        self.waits = self.waits or k
        return True

    def give_row(self, k, flag, *row):
        if self.tried is not None or flag >= len(OURS) or flag in self.rows:
            return False
        self.rows[flag] = list(row)
        self.waits = self.waits or k
        return True

    def start(self, k, accounts):
        if self.accounts is not None and self.tried is None:
            return False
        if self.tried is not None:  # another day, with rows of its own
            self.rows, self.waits = {}, None
        self.faulty -= self.tried or 0
        self.accounts, self.held, self.tried, self.since, self.waits, self.day = accounts, {}, None, None, self.waits or k, None
        return True

    # Calls

    def call(self, name, *words):
        """The reply, and the lists of an order. It has room for all reports."""
        if self.day is None:
            return refused(5), {}
        if name in ("price", "trade"):
            return getattr(self.day, name)(self.line(words[0]), *words[1:]), {}
        if name == "value":
            return self.day.value(), {}
        account, units, *room = words
        rooms = [*(LISTS["records"] * x for x in room), *ALL[len(room):]]
        if name in TESTS:  # what the order would answer; nothing changes, and nothing is written
            return getattr(copy.deepcopy(self.day), TESTS[name])(account, units, rooms)[0], {}
        return getattr(self.day, name)(account, units, rooms)

    def answered(self, k, name, reply, lists, why):
        self.last = (name, reply)
        self.counts["refused" if reply[0] else "accepted"] += 1
        if reply[0]:
            self.out.append(f"{k} {name} refused {reply[0]} {reply[1]}: {why}")
            return True
        end = f" {reply[2]}" if name in (*ORDERS, *TESTS) else f" {yuan(reply[2], 4)}" if name == "value" else ""
        end += f" {reply[3]}" if name in TESTS and self.tells else ""
        self.out.append(f"{k} {name} ok{end}")
        self.out += [f"{c:06} {'_BS'[side]} {q} {yuan(p)} {yuan(x)}" for c, side, q, p, x in lists.get("records", [])]
        if self.tells:
            self.out += [report(word, *x) for word, key in PARTIES.items() for x in lists.get(key, [])]
        return True

    def made(self, k, name, *words):
        reply, lists = self.call(name, *words)
        why = self.reason(name, words, reply) if reply[0] else ""
        if not reply[0]:
            self.move(name, words, lists.get("records", []))
        return self.answered(k, name, reply, lists, why)

    def move(self, name, words, records):
        """What came in and went out over the fund and all accounts: stock and cash go from one to another, units come and go."""
        if name == "trade":
            for place, x in ((self.line(words[0]), words[1]), (-1, words[1] * words[2])):
                self.moved[place][0] += x
                self.moved[place][1] += x
        for code, side, q, _, x in records:
            g = self.fund["first_code"]
            if code == g:
                self.moved[self.n][side - 1] += q
            elif code != g + 1:
                place, x = (-1, x) if code in (g + 2, g + 5) else (self.line(code), q)
                self.moved[place][0] += x
                self.moved[place][1] += x

    # Reasons

    def reason(self, name, words, reply):
        if reply[0] == 5:
            return "no day is open"
        name = TESTS.get(name, name)
        return {"price": self.price_reason, "trade": self.trade_reason, "value": self.value_reason,
                "create": self.order_reason, "redeem": self.order_reason}[name](name, words, reply)

    def price_reason(self, _, words, reply):
        code, price = words
        if reply[0] == 7:
            return f"price {yuan(price)}: 0.001 to 9999.999"
        return f"{code:06} is the unit, which has no price" if code == self.codes[-1] else f"{code:06} is no component of the list"

    def account_reason(self, a, fund):
        if a == 0:
            return f"account 0 is the fund, which {fund}"
        return f"account {a}: the day has 0 to {self.day.accounts - 1}" if a >= self.day.accounts else None

    def trade_reason(self, _, words, reply):
        code, q, p, seller, buyer = words
        if reply[0] == 6:
            return f"{code:06} is neither a component of the list nor the unit {self.codes[-1]:06}"
        if reply[0] == 7:
            return f"price {yuan(p)}: 0.001 to 9999.999" if 1 <= q <= 999_999_999 else f"quantity {q}: 1 to 999999999"
        if reply[0] == 8:
            if seller == buyer:
                return f"seller and buyer are both account {seller}"
            return self.account_reason(seller, "never trades") or self.account_reason(buyer, "never trades")
        if reply[0] == 10:
            return f"account {buyer} has {yuan(self.day.cash[buyer])} yuan, needs {yuan(q * p)}"
        old, bought, got = self.day.lots[seller][self.line(code)]
        kept = f"; {bought} bought today cannot be sold today" if bought else ""
        return f"account {seller} has {old + got} of {code:06} to sell, needs {q}{kept}"

    def value_reason(self, *_):
        for (code, q, flag, *_), price in zip(self.parts, self.day.prices):
            if self.day.says(flag, PRICED) and q and not price:
                return f"{code:06} has no price"
        worth = sum(q * p if self.day.says(flag, PRICED) else x for (_, q, flag, _, _, x), p in zip(self.parts, self.day.prices))
        return "the basket is worth less than 0" if worth + 10 * self.fund["estimated_cash"] < 0 \
            else "the value would be above 999.9999"

    def order_reason(self, name, words, reply):
        a, units, *room = words
        size, d, creates = self.fund["basket_size"], self.day, name == "create"
        if reply[0] == 8:
            return self.account_reason(a, "makes no orders")
        if reply[0] == 11:
            return f"units {units}: 1 to 20 whole baskets of {size}"
        if reply[0] == 12:
            return f"CreationRedemption {self.fund['switch']}: {SWITCHES[self.fund['switch']]}"
        if reply[0] == 13:
            return self.limit_reason(a, units, creates)
        if reply[0] == 14:
            return f"stock is missing and there is no value: {self.value_reason()}"
        m, ample = units // size, 4 * E18
        if reply[0] == 16:
            return f"room for {room[0]} records, {self.scratch(a, units, creates)[0]} needed"
        if reply[0] == 10:
            return f"account {a} has {yuan(d.cash[a])} yuan, needs {yuan(self.scratch(a, units, creates, ample)[1])}"
        if reply[0] == 17 and reply[1] == self.n:
            return f"the fund has {yuan(d.cash[0])} yuan, needs {yuan(self.scratch(a, units, creates, ample)[1])}"
        if reply[0] == 9 and not creates:
            old, bought, got = d.lots[a][self.n]
            kept = f"; {got} created today cannot be redeemed today" if got else ""
            return f"account {a} has {old + bought} units to redeem, needs {units}{kept}"
        if reply[0] == 15:
            worth = sum(max(0, m * q - d.lots[a][i][0] - d.lots[a][i][1]) * d.prices[i]
                        for i, (_, q, flag, *_) in enumerate(self.parts) if d.says(flag, IN_CASH))
            most = units * d.reference() * self.fund["max_cash_ratio"] // 10**6
            ratio = yuan(self.fund["max_cash_ratio"], 5)
            return f"missing stock is worth {yuan(worth)}, at most {yuan(most)} by MaxCashRatio {ratio}"
        code, q = self.parts[reply[1]][:2]
        if reply[0] == 17:
            return f"the fund has {d.lots[0][reply[1]][0]} of {code:06}, needs {m * q}"
        old, bought, got = d.lots[a][reply[1]]
        kept = f"; {got} got today cannot be handed in today" if got else ""
        return f"account {a} has {old + bought} of {code:06}, needs {m * q}{kept}"

    def limit_reason(self, a, units, creates):
        d = self.day
        counts, others = (d.created, d.redeemed) if creates else (d.redeemed, d.created)
        wide, own = sum(counts) + units, counts[a] + units
        first = 0 if creates else 1
        after = [wide, own, wide - sum(others), own - others[a]]
        for name, limit, x in zip(HEAD[12 + first::2], self.fund["limits"][first::2], after):
            if x > limit > 0:
                return f"{name} {limit}, would be {x}"
        return f"ceiling of all accounts {CEILING}, would be {wide}"

    def scratch(self, a, units, creates, ample=None):
        """How many records the order makes, and its cash, on a copy of the day; with ample cash where it is short."""
        d = copy.deepcopy(self.day)
        if ample is not None:
            d.cash[a] = d.cash[0] = ample
        reply, lists = getattr(d, "create" if creates else "redeem")(a, units, ALL)
        return reply[2], sum(r[4] for r in lists["records"])

    # Lines that look

    def show(self, k, a):
        d = self.day
        if d is None or a >= d.accounts:
            return False
        self.out.append(f"{k} account {a} cash {yuan(d.cash[a])} created {d.created[a]} redeemed {d.redeemed[a]}")
        self.out += [f"{self.codes[i]:06} {x[0]} {x[1]} {x[2]}" for i, x in enumerate(d.lots[a]) if any(x)]
        return True

    def totals(self, k):
        d = self.day
        if d is None:
            return False
        holds = [sum(sum(lots[i]) for lots in d.lots) for i in range(self.n + 1)] + [sum(d.cash)]
        self.out.append(f"{k} totals")
        for i, (opened, (came, went), held) in enumerate(zip(self.opened, self.moved, holds)):
            say = yuan if i > self.n else str
            name = f"{self.codes[i]:06}" if i <= self.n else "cash"
            self.out.append(f"{name} opened {say(opened)} in {say(came)} out {say(went)} holds {say(held)}")
        return True

    def tell(self, texts):
        """Whether the reports of orders are printed from here on."""
        if texts not in (["on"], ["off"]):
            return False
        self.tells = texts == ["on"]
        return True

    def expect(self, k, texts):
        shapes = {"ok": "n", "refused": "nn", "value": "v", "cash": "nm"}
        kind, *rest = texts or [""]
        if kind in shapes:
            words = [word(*pair) for pair in zip(shapes[kind], rest)]
            least = {"ok": 0, "refused": 1}.get(kind, len(shapes[kind]))
            if None in words or not least <= len(rest) <= len(shapes[kind]):
                return False
        else:
            kind, words = "lots", [word(*pair) for pair in zip("ncnnn", texts)]
            if None in words or len(texts) != 5:
                return False
        why = self.unexpected(kind, words)
        self.counts["unmet" if why else "met"] += 1
        if why:
            self.out.append(f"{k} not expected: {why}")
        return True

    def unexpected(self, kind, words):
        d = self.day
        if kind in ("ok", "refused"):
            if self.last is None:
                return "there is no call before it"
            name, reply = self.last
            if kind == "refused" and reply[0] and reply[:len(words)] == words:
                return None
            count = [reply[2]] if name in (*ORDERS, *TESTS) else []
            if kind == "ok" and not reply[0] and words in ([], count):
                return None
            end = f"refused {reply[0]} {reply[1]}" if reply[0] else " ".join(["ok", *map(str, count)])
            return f"{name} answered {end}" + (f" {yuan(reply[2], 4)}" if name == "value" and not reply[0] else "")
        if kind == "value":
            found = None if d is None else d.reference()
            if found == words[0]:
                return None
            if found is None:
                return "value refused 5 0: no day is open" if d is None else f"value refused 14 0: {self.value_reason()}"
            return f"the value is {yuan(found, 4)}"
        if d is None:
            return "no day is open"
        if words[0] >= d.accounts:
            return f"account {words[0]}: the day has 0 to {d.accounts - 1}"
        if kind == "cash":
            cash = d.cash[words[0]]
            return None if cash == words[1] else f"account {words[0]} has {yuan(cash)} yuan"
        a, code, *lots = words
        if code not in self.codes:
            g = self.codes[-1]
            return f"{code:06} is a code of the fund; units stand under {g:06}" if g < code <= g + 5 else \
                f"{code:06} is neither a component of the list nor the unit {g:06}"
        found = d.lots[a][self.line(code)]
        return None if found == lots else f"account {a} has {found[0]} {found[1]} {found[2]} of {code:06}"

    # Lines

    def understood(self, k, line):
        """Does what a line says; False where it cannot be taken."""
        name, *texts = line
        if name == "expect":
            return self.expect(k, texts)
        if name == "reports":
            return self.tell(texts)
        if name == "test":
            name, texts = " ".join(line[:2]), texts[1:]
        shape = SHAPES.get(TESTS.get(name, name))
        if shape is None or not (len(texts) == len(shape) or name in (*ORDERS, *TESTS) and len(texts) == 3):
            return False
        words = [word(kind, t) for kind, t in zip(shape + "n", texts)]
        if None in words:
            return False
        if name == "accounts":
            return self.start(k, words[0])
        if name == "cash":
            return self.give(k, words[0], 0, words[1])
        if name == "hold":
            return words[1] in self.codes and self.give(k, words[0], 1 + self.line(words[1]), words[2])
        if name == "flag":
            return self.give_row(k, *words)
        if name in ("show", "totals", "open"):
            return getattr(self, name)(k, *words)
        return self.made(k, name, *words)

    def played(self, text, before):
        for k, line in enumerate(text.split(b"\n"), before + 1):
            words = re.findall(r"[^ \t\r]+", line.split(b"#")[0].decode("latin-1"))
            if words and not self.understood(k, words):
                self.counts["not"] += 1
                opens = words[0] in ("accounts", "cash", "hold", "flag") or words[0] not in (*SHAPES, "test", "expect", "reports")
                self.faulty += opens and self.since is None
                self.out.append(f"{k} not understood: column ..")
        if self.waits is not None:
            self.not_made(self.waits, "no line `open` follows")
        c = self.counts
        calls = c["accepted"] + c["refused"]
        end = f"{calls} calls, {c['accepted']} accepted, {c['refused']} refused, {c['not']} not understood"
        looked = c["met"] + c["unmet"]
        return self.out + [end + (f", {c['met']} of {looked} expectations met" if looked else "")]


def main():
    given = open(sys.argv[1], "rb").read()
    at = given.index(b"\r\n" + END) + 2 + len(END)
    print("\n".join(Rehearsal(*read_list(given[:at])).played(given[at:], given[:at].count(b"\n"))))


if __name__ == "__main__":
    main()
