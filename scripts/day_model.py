"""A model of a day, written from document 01 and change requests 1 to 4 alone; it shares nothing with the day book. Python's numbers
have no upper end.

A component is code, quantity, flag, premium, discount, amount; a flag table is ten rows of seven numbers, flag after flag, None where
none is given; and a fund is a dict in the form of the vectors (vectors/README.md).
"""
import hashlib

from vector_files import COMPONENT_WIDTH, LISTS, cut, numbers

B, S = 1, 2  # the sides of a record and of a report
CEILING = 999_999_999_999
E18 = 10**18

ORDERS = ("create", "redeem")

# The tests alone of each order. They take what the order takes.
TESTS = ("test-create", "test-redeem")

# The calls that change nothing, whatever they are answered.
READS = ("value", *TESTS)


# ---- the flag table

# Its columns, and how many numbers it has.
MOVES, IN_CASH, RATE_USED, AMOUNT_USED, SHANGHAI, PRICED, IN_USE = range(7)
TABLE_WIDTH = 70

# The table when none is given: a row for each of the flags 0 to 9.
OURS = [[1, 0, 0, 0, 1, 1, 1], [1, 1, 1, 0, 1, 1, 1], [0, 0, 0, 1, 1, 0, 1], [0, 0, 1, 1, 0, 1, 1], [0, 0, 0, 1, 0, 0, 1],
        *([0] * 7 for _ in range(5))]


def table_of(given):
    return OURS if given is None else given


def says(table, flag, column):
    """Whether a flag is there and in use, and has a 1 in a column."""
    return flag < len(table) and table[flag][IN_USE] == 1 == table[flag][column]


def is_faulty(row):
    """Whether a row breaks the rules."""
    moves, in_cash, rate, amount, shanghai, priced, in_use = row
    if any(x > 1 for x in row):
        return True
    fits = (shanghai and priced and not amount if moves else amount) and (not in_cash or moves and rate)
    return bool(in_use and not fits)


def fault_of(table):
    """21: the lowest flag whose row breaks the rules, None where none does."""
    return next((flag for flag, row in enumerate(table) if is_faulty(row)), None)


# ---- the ranges of the fund and of its components

CASH = range(-999_999_999, 9_999_999_999 + 1)
LIMIT = range(CEILING + 1)


def fund_fits(f):
    return (f["first_code"] in range(999_995) and f["basket_size"] in range(1, 100_000_000)
            and f["max_cash_ratio"] in range(100_001) and f["switch"] in range(4) and f["estimated_cash"] in CASH
            and all(x in LIMIT and x % f["basket_size"] == 0 for x in f["limits"]))


def component_fits(table, g, parts, i):
    code, quantity, flag, premium, discount, amount = parts[i]

    def fits(x, most, column):
        return x in range(most + 1) if says(table, flag, column) else x == 0

    return (code in range(1_000_000) and code not in range(g, g + 6) and (i == 0 or parts[i - 1][0] < code)
            and quantity in range(100_000_000) and says(table, flag, IN_USE) and fits(premium, 100_000, RATE_USED)
            and fits(discount, 100_000, RATE_USED) and fits(amount, 99_999_999_999, AMOUNT_USED))


# ---- opening, and refusal 5, which makes its tests again


def list_fault(table, fund, parts):
    """21, 2 and 3: number and place, None where all is well."""
    flag = fault_of(table)
    if flag is not None:
        return [21, flag]
    if not fund_fits(fund):
        return [2, 0]
    return next(([3, i] for i in range(len(parts)) if not component_fits(table, fund["first_code"], parts, i)), None)


def total_fault(cash, lines, most_units, fund_units):
    """4: the lowest place that totals too much, a line, of which the unit is the last, or one past it for cash."""
    *stock, units = lines
    over = [*(x > E18 for x in stock), units > most_units or fund_units > 0, cash > 4 * E18]
    return [4, over.index(True)] if any(over) else None


def are_sizes_right(accounts, count, lengths):
    """1: A and N in their ranges, and each length as long as they need."""
    return 2 <= accounts <= 64 and 1 <= count <= 300 and all(length == needed for length, needed in lengths)


def opening_reply(v):
    """What an opening of the vectors is answered: number and place."""
    a, n, table = v["accounts"], v["count"], table_of(v["table"])
    run = numbers(v["components"])
    lengths = [(len(numbers(table)), TABLE_WIDTH), (len(run), COMPONENT_WIDTH * n), (len(v["holdings"]), a * (n + 2)),
               (v["book_length"], a * (3 * n + 6)), (v["prices_length"], n)]
    if not are_sizes_right(a, n, lengths):
        return [1, 0]
    cash, *lines = [sum(v["holdings"][i::n + 2]) for i in range(n + 2)]
    return list_fault(table, v["fund"], cut(run, COMPONENT_WIDTH)) or total_fault(cash, lines, E18, v["holdings"][n + 1]) or [0, 0]


def is_sound(v):
    """5: whether a state of the vectors passes opening's tests, with units up to twice as many, and the tests of a later day."""
    a, n, book, prices, table = v["accounts"], v["count"], v["book"], v["prices"], table_of(v["table"])
    width = 3 * n + 6
    lengths = [(len(numbers(table)), TABLE_WIDTH), (len(v["components"]), n), (len(book), a * width), (len(prices), n)]
    if not are_sizes_right(a, n, lengths) or list_fault(table, v["fund"], v["components"]):
        return False
    cash, created, redeemed, *lots = [sum(book[i::width]) for i in range(width)]
    lines = map(sum, cut(lots, 3))
    # the fund's: no counters, nothing bought or got on any line, and no units
    still = [*book[1:3], *book[4:width:3], *book[5:width:3], book[width - 3]]
    return (total_fault(cash, lines, 2 * E18, 0) is None and max(prices) <= 9_999_999 and max(created, redeemed) <= CEILING
            and not any(still))


# ---- the day after an accepted opening


def rounded(x, by):
    """To the nearest whole, halves up."""
    return (2 * x + by) // (2 * by)


def with_premium(x, rate):
    return rounded(x * (100_000 + rate), 100_000)


def less_discount(x, rate):
    return rounded(x * (100_000 - rate), 100_000)


def accepted(value=0, reports=0):
    return [0, 0, value, reports]


def refused(number, place=0):
    return [number, place, 0, 0]


def refused_order(*answer):
    """A refused order's answer; it writes and moves nothing."""
    return refused(*answer), {}, [], 0


def hand_in(lots, q):
    """Takes q out of bought, and what is not there out of old."""
    from_bought = min(q, lots[1])
    lots[1] -= from_bought
    lots[0] -= q - from_bought


def sides(creates):
    """The investor's side for the stock that moves, and for all the rest."""
    return (S, B) if creates else (B, S)


def turned(reports):
    """The same reports with all sides opposite."""
    return [[kind, {B: S, S: B}[side], *rest] for kind, side, *rest in reports]


def answer_of(lists):
    """What an order is answered that writes these lists: the count of records, and that of each party's reports."""
    return accepted(len(lists["records"]), len(lists["investor"]))


def is_too_short(rooms, lists):
    """Whether one of the lists is longer than its room."""
    return any(room < LISTS[name] * len(rows) for room, (name, rows) in zip(rooms, lists.items()))


class Model:
    """A day, its book and its prices. A call gives its reply, an order also the lists that it writes."""

    def __init__(self, accounts, fund, parts, holdings, table=None):
        width = len(parts) + 2
        self.table = table_of(table)
        rows = [holdings[a * width:(a + 1) * width] for a in range(accounts)]
        self.fund, self.parts, self.accounts, self.n = fund, parts, accounts, len(parts)
        self.cash = [r[0] for r in rows]
        self.created, self.redeemed = [0] * accounts, [0] * accounts
        self.lots = [[[h, 0, 0] for h in r[1:]] for r in rows]
        self.prices = [0] * self.n

    @classmethod
    def on_state(cls, v):
        """On a state of the vectors that is sound: a day, its book and its prices."""
        width = 3 * v["count"] + 6
        day = cls(v["accounts"], v["fund"], v["components"], [0] * v["accounts"] * (v["count"] + 2), v["table"])
        for a in range(v["accounts"]):
            day.cash[a], day.created[a], day.redeemed[a], *lots = v["book"][a * width:(a + 1) * width]
            day.lots[a] = cut(lots, 3)
        day.prices = list(v["prices"])
        return day

    def book(self):
        return [x for a in range(self.accounts)
                for x in [self.cash[a], self.created[a], self.redeemed[a], *(y for lots in self.lots[a] for y in lots)]]

    def says(self, flag, column):
        return says(self.table, flag, column)

    def price(self, line, p):
        if line >= self.n:
            return refused(6)
        if not 1 <= p <= 9_999_999:
            return refused(7)
        self.prices[line] = p
        return accepted()

    def trade(self, line, q, p, seller, buyer):
        if line > self.n:
            return refused(6)
        if not (1 <= q <= 999_999_999 and 1 <= p <= 9_999_999):
            return refused(7)
        if not (1 <= seller < self.accounts and 1 <= buyer < self.accounts) or seller == buyer:
            return refused(8)
        lots = self.lots[seller][line]
        if q > lots[2] + lots[0]:
            return refused(9)
        if self.cash[buyer] < q * p:
            return refused(10)
        from_got = min(q, lots[2])
        lots[2] -= from_got
        lots[0] -= q - from_got
        self.lots[buyer][line][1] += q
        self.cash[buyer] -= q * p
        self.cash[seller] += q * p
        return accepted()

    def reference(self):
        """The reference value, None where it doesn't exist."""
        total = 10 * self.fund["estimated_cash"]
        for (_, q, flag, _, _, amount), p in zip(self.parts, self.prices):
            priced = self.says(flag, PRICED)
            if priced and q > 0 and p == 0:
                return None
            total += q * p if priced else amount
        if total < 0:
            return None
        value = rounded(total * 10, self.fund["basket_size"])
        return value if value <= 9_999_999 else None

    def value(self):
        value = self.reference()
        return refused(14) if value is None else accepted(value)

    def stopped(self, a, units, creates):
        """8, 11, 12, 13."""
        size = self.fund["basket_size"]
        if not 1 <= a < self.accounts:
            return 8
        if units % size or not 1 <= units // size <= 20:
            return 11
        if self.fund["switch"] not in ((1, 2) if creates else (1, 3)):
            return 12
        counts, others = (self.created, self.redeemed) if creates else (self.redeemed, self.created)
        wide, own = sum(counts) + units, counts[a] + units
        after = [wide, own, wide - sum(others), own - others[a]]
        limit = self.fund["limits"][0 if creates else 1::2]
        if wide > CEILING or any(x > top > 0 for x, top in zip(after, limit)):
            return 13
        return 0

    def lists(self, units, moved, cash, creates):
        """What an order writes. moved: the stock of each component; cash: Shanghai and other."""
        investor = self.reports(units, moved, cash, creates)
        return dict(zip(LISTS, (self.records(units, moved, cash, creates), investor, turned(investor))))

    def records(self, units, moved, cash, creates):
        g, (stock, rest) = self.fund["first_code"], sides(creates)
        out = [[g, rest, units, 0, 0]]
        out += [[part[0], stock, q, 0, 0] for part, q in zip(self.parts, moved) if q > 0]
        for code, c in ((g + 5, cash[False]), (g + 2, cash[True])):
            split = [] if c == 0 else [[1, c]] if c < 10**6 else [[10**6, c // 10**6], [1, c % 10**6]]
            out += [[code, rest, q, p, q * p] for q, p in split]
        return out + [[g + 1, rest, units, 0, 0]]

    def reports(self, units, moved, cash, creates):
        """The investor's: type 1 for the unit, type 2 for each component moved, type 3 for all cash, each with three groups."""
        stock, rest = sides(creates)
        out = [[1, rest, self.fund["first_code"], units, *[0] * 6]]
        out += [[2, stock, part[0], q, *[0] * 6] for part, q in zip(self.parts, moved) if q > 0]
        groups = numbers([kind, c] for kind, c in ((1, cash[True]), (2, cash[False])) if c > 0)
        return out + ([[3, rest, 0, 0, *groups, *[0] * (6 - len(groups))]] if groups else [])

    def creation(self, a, units, rooms):
        """What a creation is answered; where it is accepted its lists, the stock of each component that it moves, and its cash."""
        if number := self.stopped(a, units, True):
            return refused_order(number)
        m = units // self.fund["basket_size"]
        moved, cash, missing = [0] * self.n, {True: 0, False: 0}, 0
        short = [max(0, m * q - self.lots[a][i][0] - self.lots[a][i][1]) for i, (_, q, *_) in enumerate(self.parts)]
        for i, (_, _, flag, *_) in enumerate(self.parts):
            if self.says(flag, MOVES) and not self.says(flag, IN_CASH) and short[i]:
                return refused_order(9, i)
        for i, (_, q, flag, premium, _, amount) in enumerate(self.parts):
            if self.says(flag, MOVES):
                moved[i] = m * q - short[i]
                missing += short[i] * self.prices[i]
                amount = short[i] * self.prices[i]
            else:
                amount *= m
            cash[self.says(flag, SHANGHAI)] += with_premium(amount, premium)
        if any(short[i] for i, part in enumerate(self.parts) if self.says(part[2], IN_CASH)):
            value = self.reference()
            if value is None:
                return refused_order(14)
            if missing * 10**6 > units * value * self.fund["max_cash_ratio"]:
                return refused_order(15)
        due = cash[True] + cash[False]
        if self.cash[a] < due:
            return refused_order(10)
        lists = self.lists(units, moved, cash, True)
        return refused_order(16) if is_too_short(rooms, lists) else (answer_of(lists), lists, moved, due)

    def create(self, a, units, rooms):
        reply, lists, moved, due = self.creation(a, units, rooms)
        if reply[0]:
            return reply, lists
        for i, q in enumerate(moved):
            hand_in(self.lots[a][i], q)
            self.lots[0][i][0] += q
        self.cash[a] -= due
        self.cash[0] += due
        self.created[a] += units
        self.lots[a][self.n][2] += units
        return reply, lists

    def test_create(self, *args):
        """The tests alone: the creation's answer."""
        return self.creation(*args)[0]

    def redemption(self, a, units, rooms):
        """What a redemption is answered; where it is accepted its lists, the stock of each component that it moves, and its cash."""
        if number := self.stopped(a, units, False):
            return refused_order(number)
        m = units // self.fund["basket_size"]
        lots = self.lots[a][self.n]
        if units > lots[0] + lots[1]:
            return refused_order(9)
        moved, cash = [0] * self.n, {True: 0, False: 0}
        for i, (_, q, flag, _, discount, amount) in enumerate(self.parts):
            if self.says(flag, MOVES):
                moved[i] = m * q
            else:
                cash[self.says(flag, SHANGHAI)] += less_discount(m * amount, discount)
        for i, q in enumerate(moved):
            if self.lots[0][i][0] < q:
                return refused_order(17, i)
        paid = cash[True] + cash[False]
        if self.cash[0] < paid:
            return refused_order(17, self.n)
        lists = self.lists(units, moved, cash, False)
        return refused_order(16) if is_too_short(rooms, lists) else (answer_of(lists), lists, moved, paid)

    def redeem(self, a, units, rooms):
        reply, lists, moved, paid = self.redemption(a, units, rooms)
        if reply[0]:
            return reply, lists
        for i, q in enumerate(moved):
            self.lots[0][i][0] -= q
            self.lots[a][i][2] += q
        self.cash[0] -= paid
        self.cash[a] += paid
        hand_in(self.lots[a][self.n], units)
        self.redeemed[a] += units
        return reply, lists

    def test_redeem(self, *args):
        """The tests alone: the redemption's answer."""
        return self.redemption(*args)[0]

    def played(self, calls):
        """The calls in order, each with its reply and, of an accepted order, the numbers of its lists."""
        for call in calls:
            name, *args = call
            answer = getattr(self, name.replace("-", "_"))(*args)
            reply, lists = answer if name in ORDERS else (answer, {})
            yield {"call": call, "reply": reply, **{key: numbers(rows) for key, rows in lists.items()}}


def played(v):
    """A day of the vectors, opened and played: its calls with replies and lists, and the book and the prices at the end."""
    model = Model(v["accounts"], v["fund"], v["components"], v["holdings"], v["table"])
    calls = list(model.played([c["call"] for c in v["calls"]]))
    return {**v, "calls": calls, "book": model.book(), "prices": model.prices}


# ---- big days


def unfolded(v):
    """A big day in the form of the others: what the vectors have in short is the model's."""
    kept = {key: v[key] for key in ("cause", "accounts", "count", "fund", "components", "table", "opening", "calls")}
    day = played({**kept, "holdings": numbers(v["holdings_rows"][i] for i in v["holdings_of"])})
    assert is_short_form(day, v)
    return day


def sha256(run):
    return hashlib.sha256(",".join(map(str, run)).encode()).hexdigest()


def is_short_form(day, v):
    """Whether a day is what the vectors have in short: every reply, hash, sum and number of it."""
    width, book = 3 * v["count"] + 6, day["book"]
    stretches = cut(book, width)
    cash, created, redeemed = (sum(s[k] for s in stretches) for k in range(3))
    short = {"book_sha256": sha256(book), "prices_sha256": sha256(day["prices"]), "cash_total": cash, "created_total": created,
             "redeemed_total": redeemed, "units_total": sum(sum(s[-3:]) for s in stretches),
             "last_account": stretches[-1][:9] + stretches[-1][-6:]}
    return all(v[key] == x for key, x in short.items()) and all(map(is_short_call, v["calls"], day["calls"]))


def is_short_call(c, found):
    """Whether a call has the same reply, and an accepted order the same lists or their hashes."""
    hashes = {f"{name}_sha256": sha256(found[name]) for name in LISTS if name in found}
    return c.items() <= {**found, **hashes}.items() and len(c) == len(found)
