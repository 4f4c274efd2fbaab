#!/usr/bin/env python3
"""Writes test vectors at the edges of document 01 and change requests 1 to 4, with answers worked out from the papers.

    edge_vectors.py VECTORS OUT

OUT gets openings.jsonl, days.jsonl, broken_days.jsonl and chains.jsonl, in the form of VECTORS (vectors/README.md). The small
rows have their replies, records and reports by hand, with the arithmetic beside them. What an accepted call of these leaves in the
book and the prices, and the day of full size, are worked out by day_model.py, which must give the same replies, records and reports.
First that model is put against VECTORS, whose answers another model of the papers gave.
"""
import argparse
from pathlib import Path

import edge_tables
import vector_files
from day_model import (B, CEILING, E18, ORDERS, OURS, S, TESTS, Model, accepted, is_sound, opening_reply, played, refused, turned,
                       unfolded)
from edge_tables import KEPT, PAID, RATED, SHORT, STOCK, UNUSED, ruled
from vector_files import LISTS, numbers

# ---- rows by hand: one component, code 1, one share to a basket, stock moves (flag 0); baskets of one unit

ONE = [[1, 1, 0, 0, 0, 0]]


def fund(**fields):
    return {"first_code": 500_000, "basket_size": 1, "max_cash_ratio": 0, "switch": 1, "estimated_cash": 0,
            "limits": [0] * 8, **fields}


def made(call, reply):
    """A call that writes no list, and its reply."""
    return {"call": call, "reply": reply}


def refuses(name, account, units, rooms, *answer):
    """An order, or its tests alone, that is refused: the lengths of its lists, number and place."""
    return made([name, account, units, rooms], refused(*answer))


def passes(name, account, units, rooms, records, reports):
    """Tests alone that are passed: how many records and reports the order would make."""
    return made([name, account, units, rooms], accepted(records, reports))


def makes(name, account, units, rooms, records, investor):
    """An order that is accepted: its records, and the investor's reports. The fund's have all sides opposite."""
    written = dict(zip(LISTS, map(numbers, (records, investor, turned(investor)))))
    return {**made([name, account, units, rooms], accepted(len(records), len(investor))), **written}


def exact(records, investor):
    """The lengths of lists that just take so much."""
    return [5 * len(records), 10 * len(investor), 10 * len(investor)]


def one_short(rooms):
    """The same lengths with one number too few, for each list in turn."""
    return [[x - (i == at) for i, x in enumerate(rooms)] for at in range(len(rooms))]


def of_unit(side, units, code=500_000):
    """The report of the unit. It has no groups."""
    return [1, side, code, units, *[0] * 6]


def of_stock(side, code, q):
    """The report of a component that moved."""
    return [2, side, code, q, *[0] * 6]


def of_cash(side, *groups):
    """The report of all cash: kind and amount of each group, and 0 behind the last of three."""
    return [3, side, 0, 0, *groups, *[0] * (6 - len(groups))]


def state(accounts, calls, components=ONE, prices=(1,), table=None, **fields):
    """accounts: for each its cash, created, redeemed, then old, bought, got of each line."""
    return {"accounts": len(accounts), "count": len(components), "fund": fund(**fields), "table": table, "components": components,
            "book": numbers(accounts), "prices": list(prices), "calls": calls}


# the fund has 50 of the component
FUND = [0, 0, 0, 50, 0, 0, 0, 0, 0]


def holder(cash=100, created=0, redeemed=0, stock=(5, 0, 0), units=(5, 0, 0)):
    return [cash, created, redeemed, *stock, *units]


# One basket: the unit record, 1 share, no cash, the second unit record; the report of the unit and that of the share. One share at 1
# a unit: value 1 x 10 / 1 = 10.
CREATED = [[500_000, B, 1, 0, 0], [1, S, 1, 0, 0], [500_001, B, 1, 0, 0]], [of_unit(B, 1), of_stock(S, 1, 1)]
REDEEMED = [[500_000, S, 1, 0, 0], [1, B, 1, 0, 0], [500_001, S, 1, 0, 0]], [of_unit(S, 1), of_stock(B, 1, 1)]
VALUE, PRICE, TRADE = ["value"], ["price", 0, 5], ["trade", 0, 1, 1, 1, 2]

# The lengths of lists with room for one record more, one report more and two, and of empty ones.
ROOMS, EMPTY = [20, 30, 40], [0, 0, 0]
CREATES, REDEEMS = makes("create", 1, 1, ROOMS, *CREATED), makes("redeem", 1, 1, ROOMS, *REDEEMED)
CREATE, REDEEM = CREATES["call"], REDEEMS["call"]
PASSES = [passes(name, 1, 1, ROOMS, 3, 2) for name in TESTS]
SOUND = [made(VALUE, accepted(10)), *PASSES, CREATES, REDEEMS, made(PRICE, accepted())]
BROKEN = [made(c, refused(5)) for c in (VALUE, CREATE, REDEEM, *(c["call"] for c in PASSES), PRICE, TRADE)]


def orders(creation, redemption):
    """Both orders of one basket, refused with these numbers or, at 0, made."""
    return [made(CREATE, refused(creation)) if creation else CREATES,
            made(REDEEM, refused(redemption)) if redemption else REDEEMS]


def sound_ends():
    """Refusal 5 at the ends of its ranges: just kept, then just passed."""
    def stock(fund_old, old, bought, got):
        return [[0, 0, 0, fund_old, 0, 0, 0, 0, 0], holder(stock=(old, bought, got))]

    def units(*lots):
        return [FUND, holder(units=lots)]

    def cash(a, b):
        return [[a, *FUND[1:]], holder(cash=b)]

    half, quarter, eighth = E18 // 2, E18 // 4, E18 // 8
    # units total 2 x 10^18 over the three lots, a line 10^18 with the fund's, cash 4 x 10^18 with the fund's
    yield state(units(2 * E18, 0, 0), SOUND)
    yield state(units(2 * E18, 1, 0), BROKEN)
    yield state(units(E18, half, half), SOUND)
    yield state(units(E18, half, half + 1), BROKEN)
    yield state(stock(half, quarter, eighth, eighth), SOUND)
    yield state(stock(half, quarter, eighth, eighth + 1), BROKEN)
    yield state(cash(2 * E18, 2 * E18), SOUND)
    yield state(cash(2 * E18, 2 * E18 + 1), BROKEN)
    # sums that do not fit 64 bits: 2^64 - 1 of cash and more
    yield state(cash(2**64 - 1, 100), BROKEN)
    yield state([FUND, holder(cash=2**63), holder(cash=2**63)], BROKEN)
    # fund-wide counters to 999,999,999,999; one unit more is past the ceiling, 13
    yield state([FUND, holder(created=CEILING)], [made(VALUE, accepted(10)), *orders(13, 0)])
    yield state([FUND, holder(created=CEILING + 1)], BROKEN)
    yield state([FUND, holder(redeemed=CEILING)], [made(VALUE, accepted(10)), *orders(0, 13)])
    yield state([FUND, holder(redeemed=CEILING + 1)], BROKEN)
    yield state([FUND, holder(created=CEILING - 1), holder(created=1)], orders(13, 0))
    yield state([FUND, holder(created=CEILING), holder(created=1)], BROKEN)
    yield state([FUND, holder(redeemed=CEILING - 1), holder(redeemed=1)], orders(0, 13))
    yield state([FUND, holder(redeemed=CEILING), holder(redeemed=1)], BROKEN)
    yield state([FUND, holder(created=CEILING - 1)], orders(0, 0))
    # a price to 9,999,999: the value is 99,999,990, past its own bound
    yield state([FUND, holder()], [made(VALUE, refused(14)), made(PRICE, accepted())], prices=(9_999_999,))
    yield state([FUND, holder()], BROKEN, prices=(10_000_000,))
    # the fund's own counters, bought, got and units are 0
    for place in (1, 2, 4, 5, 6, 7, 8):
        yield state([[*FUND[:place], 1, *FUND[place + 1:]], holder()], BROKEN)
    # lengths other than A and N need; A and N out of range; a fund field; a component
    sound = state([FUND, holder()], BROKEN)
    yield {**sound, "book": sound["book"] + [0]}
    yield {**sound, "book": sound["book"][:-1]}
    yield {**sound, "prices": [1, 1]}
    yield {**sound, "prices": []}
    yield {**sound, "accounts": 1, "book": FUND}
    yield {**sound, "count": 0, "components": [], "book": [0] * 12, "prices": []}
    yield {**sound, "count": 301, "book": [0] * 2 * (3 + 3 * 302), "prices": [1] * 301}
    yield state([FUND, holder()], BROKEN, basket_size=0)
    yield state([FUND, holder()], BROKEN, components=[[500_003, 1, 0, 0, 0, 0]])
    # not tested: a counter above a limit, a counter that is no multiple of U, a price on an unpriced flag
    yield state([FUND, holder(created=9)], [made(PRICE, accepted())], limits=[4] * 8, basket_size=2)
    yield state([[0] * 9, [0] * 9], [made(PRICE, accepted())], components=[[1, 7, 2, 0, 0, 5]], prices=(3,))


def trades():
    """Got and old sell, bought does not: 4 + 3 of 3, 9, 4. Account 2 has 70 in cash."""
    def t(*args):
        return ["trade", *args]

    accounts = [FUND, holder(cash=0, stock=(3, 9, 4)), holder(cash=70, stock=(0, 0, 0))]
    replies = [(t(0, 7, 10, 1, 2), 0), (t(0, 8, 1, 1, 2), 9), (t(0, 7, 11, 1, 2), 10), (t(1, 5, 14, 1, 2), 0),
               (t(1, 6, 1, 1, 2), 9), (t(2, 0, 0, 0, 0), 6), (t(0, 0, 0, 0, 0), 7), (t(0, 1, 0, 1, 2), 7),
               (t(0, 999_999_999, 9_999_999, 1, 2), 9), (t(0, 10**9, 1, 1, 2), 7), (t(0, 1, 10**7, 1, 2), 7),
               (t(0, 1, 1, 0, 1), 8), (t(0, 1, 1, 1, 0), 8), (t(0, 1, 1, 3, 1), 8), (t(0, 1, 1, 1, 3), 8),
               (t(0, 1, 1, 1, 1), 8), (["price", 1, 1], 6), (["price", 0, 0], 7), (["price", 0, 9_999_999], 0),
               (["price", 0, 10**7], 7),
               # arguments that no day has
               (t(2**64 - 1, 1, 1, 1, 2), 6), (t(0, 2**64 - 1, 1, 1, 2), 7), (t(0, 1, 2**64 - 1, 1, 2), 7),
               (t(0, 1, 1, 2**64 - 1, 2), 8), (["price", 2**64 - 1, 1], 6), (["price", 0, 2**64 - 1], 7)]
    yield state(accounts, [made(c, refused(r) if r else accepted()) for c, r in replies])


def limits():
    """Each of the eight limits just kept and just passed by account 1's order of one unit."""
    more = [FUND, holder(created=5, redeemed=3), holder(created=7, redeemed=1)]
    less = [FUND, holder(created=3, redeemed=5), holder(created=1, redeemed=7)]
    # after a creation on `more`: 13 created in all, 6 by account 1, net 13 - 4 = 9 in all, net 6 - 3 = 3 by account 1;
    # a redemption on `less` likewise. The list text's order: creation and redemption in turn, cumulative before net.
    for side, accounts in ((0, more), (1, less)):
        for kind, after in enumerate((13, 6, 9, 3)):
            kept, passed = ([0] * 8 for _ in range(2))
            kept[2 * kind + side], passed[2 * kind + side] = after, after - 1
            yield state(accounts, [orders(0, 0)[side]], limits=kept)
            yield state(accounts, [orders(13, 13)[side]], limits=passed)
    # a negative net passes no limit: creation on `less` and redemption on `more` leave nets below 0
    for side, accounts in ((0, less), (1, more)):
        for kind in (2, 3):
            one = [0] * 8
            one[2 * kind + side] = 1
            yield state(accounts, [orders(0, 0)[side]], limits=one)


def switches_and_baskets():
    # 0 neither, 1 both, 2 creation only, 3 redemption only
    for switch, creation, redemption in ((0, 12, 12), (1, 0, 0), (2, 0, 12), (3, 12, 0)):
        yield state([FUND, holder()], orders(creation, redemption), switch=switch)
    # U = 2: 0 units, 3 and 42 (21 baskets) are 11; 40 are 20 baskets and take 20 shares
    full = [[500_000, B, 40, 0, 0], [1, S, 20, 0, 0], [500_001, B, 40, 0, 0]], [of_unit(B, 40), of_stock(S, 1, 20)]
    calls = [refuses("create", 1, u, ROOMS, 11) for u in (0, 3, 42, 2**64 - 2)] + [makes("create", 1, 40, ROOMS, *full)]
    yield state([FUND, holder(stock=(999, 0, 0), units=(999, 0, 0))], calls, basket_size=2)


def values():
    """One unpriced component with P: value (P + 10 E) x 10 / 20 = (P + 10 E) / 2, halves up."""
    for p, e, reply in ((19_999_998, 0, accepted(9_999_999)),  # the bound itself
                        (19_999_997, 0, accepted(9_999_999)),  # 9,999,998.5
                        (19_999_999, 0, refused(14)),          # 9,999,999.5 is 10,000,000 once rounded
                        (9, -1, refused(14)),                  # the sum is -1: none, although it would round to 0
                        (10, -1, accepted(0)),                 # the sum is 0
                        (11, -1, accepted(1)),                 # 0.5
                        (0, 1, accepted(5))):
        yield state([[0] * 9, [0] * 9], [made(VALUE, reply)], components=[[1, 7, 4, 0, 0, p]], prices=(0,), basket_size=20,
                    estimated_cash=e)
    # a priced component with Q = 0 needs no price; with Q above 0 it does
    for q, reply in ((0, accepted(0)), (1, refused(14))):
        yield state([[0] * 9, [0] * 9], [made(VALUE, reply)], components=[[1, q, 0, 0, 0, 0]], prices=(0,))


def ratios():
    """One basket needs 10 of component 1 (flag 1); component 2 (flag 4) has P 99,990,000; U 1,000,000; X 1.
    At a price of 1,000 the sum is 100,000,000 and the value 1,000, so missing stock may cost
    1 x 1,000,000 x 1,000 x 1 / 1,000,000 = 1,000. Other cash is 99 x 1,000,000 + 990,000."""
    def row(stock, price, call, rates=(0, 70_000)):
        accounts = [[0] * 12, [10**12, 0, 0, *stock, 0, 0, 0, 0, 0, 0]]
        return state(accounts, [call], prices=(price, 0), components=[[1, 10, 1, *rates, 0], [2, 0, 4, 0, 0, 99_990_000]],
                     basket_size=1_000_000, max_cash_ratio=1)

    def create(handed_in, *costs):
        """A basket with so many handed in. What the missing stock costs is Shanghai cash."""
        records = [[500_000, B, 1_000_000, 0, 0], [1, S, handed_in, 0, 0], [500_005, B, 1_000_000, 99, 99_000_000],
                   [500_005, B, 1, 990_000, 990_000], *([500_002, B, 1, x, x] for x in costs), [500_001, B, 1_000_000, 0, 0]]
        groups = numbers([1, x] for x in costs)
        investor = [of_unit(B, 1_000_000), of_stock(S, 1, handed_in), of_cash(B, *groups, 2, 99_990_000)]
        return makes("create", 1, 1_000_000, [30, 30, 30], records, investor)

    def refusal(number):
        return refuses("create", 1, 1_000_000, [30, 30, 30], number)

    yield row((4, 5, 0), 1000, create(9, 1000))  # one missing, equality passes
    yield row((4, 5, 0), 1001, refusal(15))  # value 1,000.0001, so still 1,000
    yield row((4, 5, 99), 1001, refusal(15))  # the got lot does not count
    yield row((9, 1, 0), 0, create(10))  # nothing missing: no value needed
    yield row((9, 0, 0), 0, refusal(14))
    # neither rate counts: one missing is 1,000 still, though with the premium it costs 1,000 x 1.5 = 1,500, or 2,000
    yield row((9, 0, 0), 1000, create(9, 1500), rates=(50_000, 0))
    yield row((9, 0, 0), 1000, create(9, 2000), rates=(100_000, 100_000))
    yield row((9, 0, 0), 1001, refusal(15), rates=(0, 100_000))


def places():
    """17 at a component and at cash (place N), 16 at one number too few in a list, redemption's 9 without the got lot."""
    two = [[1, 1, 0, 0, 0, 0], [2, 3, 4, 0, 0, 6]]
    units = [0, 0, 0, 0, 0, 0, 0, 0, 0, 2, 3, 4]  # 5 may be handed in

    def row(cash, stock, calls):
        return state([[cash, 0, 0, stock, 0, 0, 0, 0, 0, 0, 0, 0], units], calls, components=two, prices=(0, 0))

    def redeem(u, *answer, rooms=(99, 99, 99)):
        return refuses("redeem", 1, u, list(rooms), *answer)

    written = ([[500_000, S, 1, 0, 0], [1, B, 1, 0, 0], [500_005, S, 1, 6, 6], [500_001, S, 1, 0, 0]],
               [of_unit(S, 1), of_stock(B, 1, 1), of_cash(S, 2, 6)])
    yield row(5, 50, [redeem(1, 17, 2)])  # 6 of cash due
    yield row(6, 50, [makes("redeem", 1, 1, [20, 30, 30], *written), redeem(1, 16, rooms=(19, 30, 30)),
                      redeem(1, 16, rooms=(20, 29, 30)), redeem(1, 16, rooms=(20, 30, 29)), redeem(6, 9), redeem(5, 17, 2)])
    yield row(6, 0, [redeem(1, 17, 0)])
    # places in the middle: 9 and 17 at component 2
    three = [[1, 1, 0, 0, 0, 0], [2, 1, 1, 7, 100_000, 0], [3, 1, 0, 0, 0, 0]]
    have = [0, 0, 0, 5, 0, 0, 5, 0, 0, 0, 0, 0, 5, 0, 0]
    fund_has = [0, 0, 0, 5, 0, 0, 5, 0, 0, 0, 0, 0, 0, 0, 0]
    yield state([fund_has, have], [refuses(name, 1, 1, [99, 99, 99], number, 2) for name, number in zip(ORDERS, (9, 17))],
                components=three, prices=(1, 1, 1))


def meetings():
    """Calls that two or more refusals would turn back: the one that stands first in the paper's order is given.
    Flag 0 needs 1 of component 1, flag 1 needs 10 of component 2, at a price of 1."""
    parts = [[1, 1, 0, 0, 0, 0], [2, 10, 1, 0, 100_000, 0]]

    def row(account, calls, prices=(0, 1), fund_stock=(50, 50), fund_cash=0, **fields):
        first = [fund_cash, 0, 0, fund_stock[0], 0, 0, fund_stock[1], 0, 0, 0, 0, 0]
        return state([first, account], calls, components=parts, prices=prices, **fields)

    def create(a, u, *answer, rooms=EMPTY):
        return refuses("create", a, u, rooms, *answer)

    def redeem(a, u, *answer, rooms=EMPTY):
        return refuses("redeem", a, u, rooms, *answer)

    poor = [0] * 12
    counted = [0, 5, 5, *[0] * 9]
    stocked = [0, 0, 0, 1, 0, 0, 9, 0, 0, 0, 0, 0]
    # price and trade: line, then price and quantity, then accounts, then stock, then cash
    yield row(poor, [made(["price", 2, 0], refused(6)), made(["trade", 3, 0, 0, 0, 0], refused(6)),
                     made(["trade", 2, 0, 1, 0, 0], refused(7)), made(["trade", 2, 1, 0, 0, 0], refused(7)),
                     made(["trade", 2, 1, 1, 0, 0], refused(8))])
    yield state([[0] * 12, poor, poor], [made(["trade", 2, 1, 1, 1, 2], refused(9))], components=parts, prices=(0, 1))
    # 8 before 11; 11 before 12; 12 before 13; 13 before 9
    yield row(counted, [create(0, 0, 8), create(2, 0, 8), create(1, 0, 11), create(1, 21, 11), create(1, 1, 12),
                        redeem(0, 0, 8), redeem(2, 0, 8), redeem(1, 0, 11), redeem(1, 21, 11), redeem(1, 1, 12)],
              switch=0, limits=[5, 5, 0, 0, 0, 0, 0, 0])
    yield row(counted, [create(1, 1, 13), redeem(1, 1, 13)], limits=[5, 5, 0, 0, 0, 0, 0, 0])
    # 9 before 14: no price; 14 before 10 and 16: one missing, no price of component 1; 15 before 10 and 16: X is 0
    yield row(poor, [create(1, 1, 9)], prices=(0, 0))
    yield row([0, 0, 0, 0, 0, 7, 9, 0, 0, 0, 0, 0], [create(1, 1, 9)])
    yield row(stocked, [create(1, 1, 14)])
    yield row(stocked, [create(1, 1, 15)], prices=(1, 1))
    # X 100,000: sum 1 + 10 = 11, value 110, bound 110 x 100,000 / 1,000,000 = 11, missing costs 1; 10 before 16. It makes 5 records
    # and 4 reports.
    yield row(stocked, [create(1, 1, 10)], prices=(1, 1), max_cash_ratio=100_000)
    yield row([1, *stocked[1:]], [create(1, 1, 16, rooms=rooms) for rooms in one_short([25, 40, 40])], prices=(1, 1),
              max_cash_ratio=100_000)
    # redemption: 9 before 17, stock before cash, the lower component first, 17 before 16; it makes 4 records and 3 reports
    yield row(poor, [redeem(1, 1, 9)], fund_stock=(0, 0))
    units = [0, 0, 0, 0, 0, 0, 0, 0, 0, 5, 0, 0]
    yield row(units, [redeem(1, 1, 17, 0)], fund_stock=(0, 0))
    yield row(units, [redeem(1, 1, 17, 1)], fund_stock=(1, 9))
    yield row(units, [redeem(1, 1, 16, rooms=rooms) for rooms in one_short([20, 30, 30])], fund_stock=(1, 10))
    # 5 before everything
    yield row(poor, [made(["price", 9, 0], refused(5)), made(["trade", 9, 0, 0, 0, 0], refused(5)), create(0, 0, 5),
                     redeem(0, 0, 5), made(VALUE, refused(5)), *(refuses(name, 0, 0, EMPTY, 5) for name in TESTS)], switch=4)


def paper_day():
    """The paper's day to compare with, (a) to (f), with both rates its r and with one of them another."""
    fields = {"first_code": 510_300, "basket_size": 1_000_000, "max_cash_ratio": 5000, "estimated_cash": -33_122}

    def row(stock_1, stock_0, calls, rates=(10_000, 10_000), table=None, flags=(0, 1, 2, 3, 4)):
        parts = [[1, 8000, flags[3], *rates, 96_000_000], [2, 1000, flags[4], 0, 0, 8_000_000],
                 [600_000, 5200, flags[1], 10_000, 10_000, 0], [600_036, 3000, flags[0], 0, 0, 0],
                 [600_519, 100, flags[2], 0, 0, 150_000_000]]
        rich = [10**12, 0, 0, *[10**6, 0, 0] * 5, 0, 0, 0]
        one = [10**12, 0, 0, *[0] * 6, stock_1, 0, 0, stock_0, 0, 0, 0, 0, 0, 10**7, 0, 0]
        return state([rich, one], calls, components=parts, prices=(12_000, 0, 10_000, 40_000, 0), table=table, **fields)

    def basket(name, *lists):
        return makes(name, 1, 1_000_000, [40, 40, 40], *lists)

    def refusal(*answer):
        return refuses("create", 1, 1_000_000, [40, 40, 40], *answer)

    def other(side, thousands, rest):
        """Other cash in two records."""
        return [[510_305, side, 1_000_000, thousands, 1_000_000 * thousands], [510_305, side, 1, rest, rest]]

    def creation(thousands, rest):
        records = [[510_300, B, 1_000_000, 0, 0], [600_000, S, 3072, 0, 0], [600_036, S, 3000, 0, 0], *other(B, thousands, rest),
                   [510_302, B, 1_000_000, 173, 173_000_000], [510_302, B, 1, 408_000, 408_000], [510_301, B, 1_000_000, 0, 0]]
        return records, [of_unit(B, 1_000_000, 510_300), of_stock(S, 600_000, 3072), of_stock(S, 600_036, 3000),
                         of_cash(B, 1, 173_408_000, 2, 1_000_000 * thousands + rest)]

    def redemption(thousands, rest):
        records = [[510_300, S, 1_000_000, 0, 0], [600_000, B, 5200, 0, 0], [600_036, B, 3000, 0, 0], *other(S, thousands, rest),
                   [510_302, S, 1_000_000, 150, 150_000_000], [510_302, S, 1, 0, 0], [510_301, S, 1_000_000, 0, 0]]
        return records, [of_unit(S, 1_000_000, 510_300), of_stock(B, 600_000, 5200), of_stock(B, 600_036, 3000),
                         of_cash(S, 1, 150_000_000, 2, 1_000_000 * thousands + rest)]

    def both(e, f):
        return [made(VALUE, accepted(4257)), basket("create", *creation(*e)), basket("redeem", *redemption(*f))]

    # (e) other cash 96,000,000 x 1.1 + 8,000,000 = 113,600,000; Shanghai 21,280,000 x 1.1 + 150,000,000 = 173,408,000
    # (f) other cash 96,000,000 x 0.9 + 8,000,000 = 94,400,000; Shanghai 150,000,000
    yield row(3072, 3000, both((113, 600_000), (94, 400_000)))
    # the discount of 000001 at 5,000: 96,000,000 x 0.95 + 8,000,000 = 99,200,000; its premium: x 1.05, 108,800,000
    yield row(3072, 3000, both((113, 600_000), (99, 200_000)), rates=(10_000, 5_000))
    yield row(3072, 3000, both((108, 800_000), (94, 400_000)), rates=(5_000, 10_000))
    yield row(3071, 3000, [refusal(15)])
    yield row(3072, 2999, [refusal(9, 3)])
    # our five rows at other flags, and at their own none in use or other rows
    rates = (10_000, 5_000)
    for flags, others in (((9, 8, 7, 6, 5), [UNUSED[0]] * 5), ((4, 3, 2, 1, 0), []),
                          ((1, 0, 9, 4, 6), [PAID[7], STOCK, SHORT, PAID[0], RATED])):
        table = ruled({**dict(enumerate(others)), **dict(zip(flags, OURS))})
        yield row(3072, 3000, both((113, 600_000), (99, 200_000)), rates, table, flags)
        yield row(3071, 3000, [refusal(15)], rates, table, flags)
        yield row(3072, 2999, [refusal(9, 3)], rates, table, flags)


def paper_cash():
    """The paper's cases (g) to (i)."""
    # (g) cash 999.999 is one record, 1,000.000 two, and one group either way
    for cash, split in ((999_999, [[1, 999_999]]), (1_000_000, [[1_000_000, 1], [1, 0]])):
        records = [[500_000, B, 1, 0, 0], *([500_005, B, q, p, q * p] for q, p in split), [500_001, B, 1, 0, 0]]
        yield state([[0] * 9, [10**6, *[0] * 8]], [makes("create", 1, 1, ROOMS, records, [of_unit(B, 1), of_cash(B, 2, cash)])],
                    components=[[1, 0, 4, 0, 0, cash]], prices=(0,))
    # (h), (i) v = 5: 5.5 is 6, 5.49995 is 5, whatever the discount. Value 50, bound 50 x 100,000 / 1,000,000 = 5.
    for premium, discount, cash in ((10_000, 10_000, 6), (9_999, 9_999, 5), (10_000, 0, 6), (9_999, 100_000, 5), (100_000, 1, 10),
                                    (0, 50_000, 5)):
        records = [[500_000, B, 1, 0, 0], [500_002, B, 1, cash, cash], [500_001, B, 1, 0, 0]]
        yield state([[0] * 9, [cash, *[0] * 8]], [makes("create", 1, 1, [15, 20, 20], records, [of_unit(B, 1), of_cash(B, 1, cash)])],
                    components=[[1, 1, 1, premium, discount, 0]], prices=(5,), max_cash_ratio=100_000)


def rates():
    """Creation takes the premium, redemption the discount."""
    def paid(side, units, cash):
        records = [[500_000, side, units, 0, 0], *([[500_005, side, 1, cash, cash]] if cash else []), [500_001, side, units, 0, 0]]
        return records, [of_unit(side, units), *([of_cash(side, 2, cash)] if cash else [])]

    def orders_for(amount, premium, discount, baskets, due, back):
        """Both orders on one component of flag 3, the account and the fund with just the cash that they take."""
        accounts = [[back, *[0] * 8], [due, *[0] * 5, 20, 0, 0]]
        lists = paid(B, baskets, due), paid(S, baskets, back)
        return state(accounts, [makes(name, 1, baskets, exact(*ls), *ls) for name, ls in zip(ORDERS, lists)],
                     components=[[1, 0, 3, premium, discount, amount]], prices=(0,))

    # 5 x 1.1 = 5.5 is 6, 5 x 1.09999 = 5.49995 is 5; 5 x 0.9 = 4.5 is 5, 5 x 0.89999 = 4.49995 is 4
    yield orders_for(5, 10_000, 10_000, 1, 6, 5)
    yield orders_for(5, 9_999, 10_001, 1, 5, 4)
    yield orders_for(5, 10_000, 10_001, 1, 6, 4)
    yield orders_for(5, 9_999, 10_000, 1, 5, 5)
    # all of it and none of it, in each place: cash of 0 makes no record and no report
    yield orders_for(5, 100_000, 0, 1, 10, 5)
    yield orders_for(5, 0, 100_000, 1, 5, 0)
    yield orders_for(5, 100_000, 100_000, 1, 10, 0)
    # the baskets are rounded together: 5 x 1 x 1.1 = 5.5 and 5 x 1 x 0.89999 = 4.49995; each alone would be 1, so 5 both ways
    yield orders_for(1, 10_000, 10_001, 5, 6, 4)
    # one of cash short, in each order: 10 for the account, 17 at N for the fund
    short = orders_for(5, 10_000, 10_001, 1, 6, 4)
    for at, name, *answer in ((9, "create", 10), (0, "redeem", 17, 1)):
        book = [x - (i == at) for i, x in enumerate(short["book"])]
        yield {**short, "book": book, "calls": [refuses(name, 1, 1, ROOMS, *answer)]}
    # flags 2 and 4 have no rates: M times P both ways
    for flag, code, kind in ((2, 500_002, 1), (4, 500_005, 2)):
        lists = [([[500_000, side, 3, 0, 0], [code, side, 1, 15, 15], [500_001, side, 3, 0, 0]],
                  [of_unit(side, 3), of_cash(side, kind, 15)]) for side in (B, S)]
        yield state([[15, *[0] * 8], [15, *[0] * 5, 3, 0, 0]],
                    [makes(name, 1, 3, exact(*ls), *ls) for name, ls in zip(ORDERS, lists)],
                    components=[[1, 9, flag, 0, 0, 5]], prices=(0,))
    # flag 1 delivers its stock in full on redemption, at any discount: 2 baskets of 4, and no cash
    delivered = [[500_000, S, 2, 0, 0], [1, B, 8, 0, 0], [500_001, S, 2, 0, 0]], [of_unit(S, 2), of_stock(B, 1, 8)]
    for discount in (0, 1, 50_000, 100_000):
        yield state([[0, 0, 0, 8, 0, 0, 0, 0, 0], [0] * 6 + [2, 0, 0]], [makes("redeem", 1, 2, exact(*delivered), *delivered)],
                    components=[[1, 4, 1, 100_000 - discount, discount, 0]], prices=(7,))


def rate_ranges():
    """5: each rate to 100,000 where the flag uses it, and 0 where it does not."""
    still = [[0] * 9, [0] * 9]
    for flag in (1, 3):
        for pair in ((100_000, 0), (0, 100_000), (100_000, 100_000)):
            yield state(still, [made(PRICE, accepted())], components=[[1, 1, flag, *pair, 0]])
        for pair in ((100_001, 0), (0, 100_001), (2**64 - 1, 0), (0, 2**64 - 1), (100_001, 100_001)):
            yield state(still, BROKEN, components=[[1, 1, flag, *pair, 0]])
    for flag in (0, 2, 4):
        for pair in ((1, 0), (0, 1), (100_000, 0), (0, 100_000)):
            yield state(still, BROKEN, components=[[1, 1, flag, *pair, 0]])


def short_lists():
    """16 where any of the three lists is too short. One basket makes 3 records and 2 reports: 15, 20 and 20 numbers."""
    enough, longer = [15, 20, 20], [19, 29, 29]
    one_fewer = [[10, 20, 20], [15, 10, 20], [15, 20, 10]]
    empty = [[0, 20, 20], [15, 0, 20], [15, 20, 0], EMPTY]
    # neither the other lists' spare room nor numbers that make no whole record or report help
    apart = [[14, 99, 99], [99, 19, 99], [99, 99, 19]]
    for name, lists in zip(ORDERS, (CREATED, REDEEMED)):
        short = [refuses(name, 1, 1, lent, 16) for lent in [*one_short(enough), *one_fewer, *empty, *apart]]
        yield state([FUND, holder()], [*short, *(makes(name, 1, 1, lent, *lists) for lent in (enough, longer, [99, 50, 20]))])


def tests_alone():
    """Lists of just the length that the order needs, and with one number fewer in each in turn; the tests are lent the lengths alone,
    so these may be any."""
    most = 2**64 - 1

    def tests(name, account, units, records, reports):
        just = [5 * records, 10 * reports, 10 * reports]
        # short of one number, or of all, with no end of room in the other lists
        apart = [[x if i == at else most for i, x in enumerate(rooms)] for rooms in ([x - 1 for x in just], EMPTY) for at in range(3)]
        # the next record and the next report each want one number more
        almost = [just[0] + 4, just[1] + 9, just[2] + 9]
        return [*(refuses(name, account, units, rooms, 16) for rooms in (*one_short(just), *apart, EMPTY)),
                *(passes(name, account, units, rooms, records, reports) for rooms in (just, almost, [most] * 3))]

    # no cash: two records of the unit and one of the share, the report of the unit and that of the share
    yield state([FUND, holder()], [c for name in TESTS for c in tests(name, 1, 1, 3, 2)])
    # U 10, one basket. Creation: all 3 of component 4 are missing and cost 21, so Shanghai cash is 1,000,000 + 21, two records, and other
    # cash 10 x 1.5 = 15, one: with the units' two and that of component 1 six, and the reports of unit, component 1 and cash. The sum is
    # 2 x 5 + 9 x 1 + 3 x 7 + 1,000,000 = 1,000,040, the value too, the bound 10 x 1,000,040 x 100,000 / 1,000,000.
    # Redemption: components 1 and 4, Shanghai cash 1,000,000, two records, other cash 10 x 0.8 = 8: seven records, four reports.
    parts = [[1, 2, 0, 0, 0, 0], [2, 8, 2, 0, 0, 10**6], [3, 9, 3, 50_000, 20_000, 10], [4, 3, 1, 0, 0, 0]]
    fund_has, has = [1_000_008, 0, 0, *[3, 0, 0] * 4, 0, 0, 0], [1_000_036, 0, 0, 1, 1, 0, *[0] * 9, 9, 1, 0]

    def paid(accounts, calls):
        return state(accounts, calls, components=parts, prices=(5, 0, 1, 7), basket_size=10, max_cash_ratio=100_000)

    yield paid([fund_has, has], [c for name, counts in zip(TESTS, ((6, 3), (7, 4))) for c in tests(name, 1, 10, *counts)])
    # one of cash fewer on either side: 10, and 17 at N, before 16; of two baskets account 1 has neither the units nor the shares
    poor = [[x - (i == 0) for i, x in enumerate(stretch)] for stretch in (fund_has, has)]
    for rooms in (EMPTY, [99, 99, 99]):
        yield paid(poor, [refuses("test-create", 1, 10, rooms, 10), refuses("test-redeem", 1, 10, rooms, 17, 4),
                          refuses("test-redeem", 1, 20, rooms, 9), refuses("test-create", 1, 20, rooms, 9, 0)])


def cash_reports():
    """Both orders of so many baskets on two components with amounts, Shanghai's of flag 2 and the other's of flag 4. A group stands in
    front of the report whatever its kind, and one of amount 0 is left out. The groups add up to the records."""
    def row(shanghai, other, groups, split, baskets=1):
        accounts = [[E18, *[0] * 11], [E18, *[0] * 8, 20, 0, 0]]

        def lists(side):
            records = [[code, side, q, p, q * p] for code, q, p in split]
            return ([[500_000, side, baskets, 0, 0], *records, [500_001, side, baskets, 0, 0]],
                    [of_unit(side, baskets), *([of_cash(side, *groups)] if groups else [])])

        return state(accounts, [makes(name, 1, baskets, exact(*lists(side)), *lists(side)) for name, side in zip(ORDERS, (B, S))],
                     components=[[1, 8, 2, 0, 0, shanghai], [2, 9, 4, 0, 0, other]], prices=(0, 0))

    yield row(0, 0, [], [])
    yield row(7, 0, [1, 7], [(500_002, 1, 7)])
    yield row(0, 9, [2, 9], [(500_005, 1, 9)])
    yield row(7, 9, [1, 7, 2, 9], [(500_005, 1, 9), (500_002, 1, 7)])
    # 999.999 is one record, 1,000.000 two, the second of 0; each is one group
    yield row(999_999, 10**6, [1, 999_999, 2, 10**6], [(500_005, 10**6, 1), (500_005, 1, 0), (500_002, 1, 999_999)])
    yield row(10**6, 0, [1, 10**6], [(500_002, 10**6, 1), (500_002, 1, 0)])
    # 20 baskets of 99,999,999.999: 1,999,999,999.980, which is 1,999,999 x 1,000,000 + 999,980
    most, parts = 1_999_999_999_980, ((10**6, 1_999_999), (1, 999_980))
    yield row(99_999_999_999, 99_999_999_999, [1, most, 2, most], [(code, *x) for code in (500_005, 500_002) for x in parts], 20)


def stock_reports():
    """A component of which nothing moved has no report: one of quantity 0, one whose stock is all missing, one that is paid."""
    parts = [[0, 0, 0, 0, 0, 0], [1, 3, 1, 50_000, 0, 0], [2, 4, 3, 0, 0, 5], [999_999, 2, 0, 0, 0, 0]]
    accounts = [[E18, *[0] * 5, *[9, 0, 0] * 3, 0, 0, 0], [E18, *[0] * 11, *[9, 0, 0] * 2]]
    # creation: v = 3 x 7 = 21, x 1.5 = 31.5 is 32. The sum is 3 x 7 + 4 x 1 + 2 x 1 = 27, the value 270, the bound 270 x 100,000 /
    # 1,000,000 = 27.
    created = ([[500_000, B, 1, 0, 0], [999_999, S, 2, 0, 0], [500_005, B, 1, 5, 5], [500_002, B, 1, 32, 32], [500_001, B, 1, 0, 0]],
               [of_unit(B, 1), of_stock(S, 999_999, 2), of_cash(B, 1, 32, 2, 5)])
    redeemed = ([[500_000, S, 1, 0, 0], [1, B, 3, 0, 0], [999_999, B, 2, 0, 0], [500_005, S, 1, 5, 5], [500_001, S, 1, 0, 0]],
                [of_unit(S, 1), of_stock(B, 1, 3), of_stock(B, 999_999, 2), of_cash(S, 2, 5)])
    calls = [makes(name, 1, 1, exact(*lists), *lists) for name, lists in zip(ORDERS, (created, redeemed))]
    yield state(accounts, calls, components=parts, prices=(0, 7, 1, 1), max_cash_ratio=100_000)
    # the codes at their ends: the unit's 0 and 999,994, a component's 0 and 999,999; 20 baskets of 99,999,999 are 1,999,999,980
    most = 1_999_999_980
    for first, code in ((0, 999_999), (999_994, 0)):
        lists = [([[first, rest, most, 0, 0], [code, side, most, 0, 0], [first + 1, rest, most, 0, 0]],
                  [of_unit(rest, most, first), of_stock(side, code, most)]) for rest, side in ((B, S), (S, B))]
        yield state([[0, 0, 0, most, 0, 0, 0, 0, 0], holder(stock=(most, 0, 0), units=(most, 0, 0))],
                    [makes(name, 1, most, exact(*ls), *ls) for name, ls in zip(ORDERS, lists)],
                    components=[[code, 99_999_999, 0, 0, 0, 0]], first_code=first, basket_size=99_999_999)


# ---- calls under flag tables


# Orders on one component of another flag than 0 whose stock moves are those of `CREATED` and `REDEEMED`.
def of_flag(flag, *numbers):
    return [[1, 1, flag, *numbers, *[0] * (3 - len(numbers))]]


def tables_of_days():
    """5: the day's table, all ten rows, also those that no component uses. The component has flag 0."""
    for table, _ in edge_tables.faulty():
        yield state([FUND, holder()], BROKEN, table=table)
    # rows that keep the rules, and rows not in use, at flags that no component uses
    yield state([FUND, holder()], SOUND, table=ruled({}))
    for i in range(0, len(KEPT), 5):
        yield state([FUND, holder()], SOUND, table=ruled(dict(enumerate(KEPT[i:i + 5], 5))))
    for i in range(0, len(UNUSED), 9):
        yield state([FUND, holder()], SOUND, table=ruled(dict(enumerate(UNUSED[i:i + 9], 1))))
    # the component's own flag: in use with stock that moves, and not in use
    for flag in range(10):
        for row in (STOCK, RATED, SHORT):
            yield state([FUND, holder()], SOUND, components=of_flag(flag), table=ruled({flag: row}))
        for row in (UNUSED[0], UNUSED[-1], (*STOCK[:6], 0)):
            yield state([FUND, holder()], BROKEN, components=of_flag(flag), table=ruled({flag: row}))
    for flag in (5, 9):
        yield state([FUND, holder()], BROKEN, components=of_flag(flag))
    for flag in (10, 70, 2**64 - 1):
        yield state([FUND, holder()], BROKEN, components=of_flag(flag), table=[STOCK] * 10)


def uses(row):
    """Components of a flag with this row, each with one number at the end of its range, past it, or just above 0 where it has to be 0;
    and whether it may stand. The rates are numbers 3 and 4 of a component, the amount is number 5."""
    for at, used, most in ((3, row[2], 100_000), (4, row[2], 100_000), (5, row[3], 99_999_999_999)):
        for x in (1, most, most + 1, 2**64 - 1):
            yield [[1, 1, 7, *(x if i == at else 0 for i in (3, 4, 5))]], used and x <= most


def uses_of_days():
    """5: a component's rates and amount under the row of its flag."""
    for row in KEPT:
        for components, is_right in uses(row):
            calls = [made(PRICE, accepted())] if is_right else BROKEN
            yield state([[0] * 9, [0] * 9], calls, components=components, table=ruled({7: row}))


def several_short():
    """One basket needs 10 of components 1 and 2, whose flags 1 and 6 are both short in cash; component 3 (flag 4) has the amount that
    makes the sum 100,000,000 at prices of 400 and 600. U 1,000,000, X 1: the value is 1,000, and what is missing may cost 1,000."""
    table = ruled({6: SHORT})

    def row(prices, stock, call, rates=(0, 0), cash=10**12):
        parts = [[1, 10, 1, rates[0], 9, 0], [2, 10, 6, rates[1], 9, 0], [3, 0, 4, 0, 0, 99_990_000]]
        accounts = [[0] * 15, [cash, 0, 0, stock[0], 0, 0, 0, stock[1], 99, *[0] * 6]]
        return state(accounts, [call], components=parts, prices=(*prices, 0), table=table, basket_size=1_000_000, max_cash_ratio=1)

    def create(stock, *costs, rooms=(40, 40, 40)):
        """A basket with so much handed in. What the missing stock costs is Shanghai cash."""
        moved = [(code, q) for code, q in zip((1, 2), stock) if q > 0]
        records = [[500_000, B, 1_000_000, 0, 0], *([code, S, q, 0, 0] for code, q in moved), [500_005, B, 1_000_000, 99, 99_000_000],
                   [500_005, B, 1, 990_000, 990_000], *([500_002, B, 1, x, x] for x in costs), [500_001, B, 1_000_000, 0, 0]]
        groups = numbers([1, x] for x in costs)
        investor = [of_unit(B, 1_000_000), *(of_stock(S, *x) for x in moved), of_cash(B, *groups, 2, 99_990_000)]
        return makes("create", 1, 1_000_000, list(rooms), records, investor)

    def refusal(number):
        return refuses("create", 1, 1_000_000, [40, 40, 40], number)

    # one of each missing: 400 + 600 is just the bound, 400 + 601 and 401 + 600 pass it, though either alone does not
    yield row((400, 600), (9, 9), create((9, 9), 1000))
    for prices in ((400, 601), (401, 600)):
        yield row(prices, (9, 9), refusal(15))
    yield row((401, 600), (9, 10), create((9, 10), 401))
    yield row((400, 601), (10, 9), create((10, 9), 601))
    # each premium is its own, rounded by itself: 400 x 1.5 + 600 x 1.00001 is 600 + 600, 600 x 1.00084 is 600.504, 601
    yield row((400, 600), (9, 9), create((9, 9), 1200), rates=(50_000, 1))
    yield row((400, 600), (9, 9), create((9, 9), 1201), rates=(50_000, 84))
    # just enough cash, and one too little
    yield row((400, 600), (9, 9), create((9, 9), 1201), rates=(50_000, 84), cash=99_991_201)
    yield row((400, 600), (9, 9), refusal(10), rates=(50_000, 84), cash=99_991_200)
    # nothing there of one, 10 x 100; of the other all
    yield row((100, 600), (0, 10), create((0, 10), 1000))
    yield row((101, 600), (0, 10), refusal(15))
    # no price of the one that is short, or of the other: no value
    yield row((0, 600), (9, 10), refusal(14))
    yield row((400, 0), (9, 10), refusal(14))
    yield row((0, 0), (10, 10), create((10, 10)))


def rated_stock():
    """A flag whose stock moves, with rates and without shortage in cash: 9 where short, and its rates enter no sum."""
    parts = [[1, 1, 6, 100_000, 100_000, 0], [2, 1, 5, 100_000, 100_000, 0]]
    table = ruled({5: RATED, 6: SHORT})
    lists = [([[500_000, rest, 1, 0, 0], [1, side, 1, 0, 0], [2, side, 1, 0, 0], [500_001, rest, 1, 0, 0]],
              [of_unit(rest, 1), of_stock(side, 1, 1), of_stock(side, 2, 1)]) for rest, side in ((B, S), (S, B))]

    def row(stock, calls, fund_stock=(1, 1)):
        accounts = [[0, 0, 0, *(x for q in held for x in (q, 0, 0))] for held in ((*fund_stock, 0), (*stock, 9))]
        return state(accounts, calls, components=parts, prices=(0, 0), table=table)

    yield row((1, 1), [makes(name, 1, 1, exact(*ls), *ls) for name, ls in zip(ORDERS, lists)])
    # short of both: 9 at the second, before 14; short of the first alone: 14
    yield row((0, 0), [refuses("create", 1, 1, ROOMS, 9, 1), refuses("redeem", 1, 10, ROOMS, 9)])
    yield row((0, 1), [refuses("create", 1, 1, ROOMS, 14)])
    yield row((1, 0), [refuses("create", 1, 1, ROOMS, 9, 1)])
    # the fund short of either: 17 at its place
    yield row((1, 1), [refuses("redeem", 1, 1, ROOMS, 17, 0)], fund_stock=(0, 0))
    yield row((1, 1), [refuses("redeem", 1, 1, ROOMS, 17, 1)], fund_stock=(1, 0))


def paid_flags():
    """A flag that moves no stock pays M times its amount, with the rate that is used, priced or not, whatever its quantity. Of 9 at a
    price of 7 the value is 63 x 10 where the flag is priced, else 5 x 10; with no price it has none where it is priced."""
    for i, row in enumerate(PAID):
        _, _, rate, _, shanghai, priced, _ = row
        flag, code, kind = i + 2, *((500_002, 1) if shanghai else (500_005, 2))
        # 5 x 1.1 = 5.5 is 6, 5 x 0.89999 = 4.49995 is 4
        premium, discount, due, back = (10_000, 10_001, 6, 4) if rate else (0, 0, 5, 5)
        lists = [([[500_000, side, 1, 0, 0], [code, side, 1, cash, cash], [500_001, side, 1, 0, 0]],
                  [of_unit(side, 1), of_cash(side, kind, cash)]) for side, cash in ((B, due), (S, back))]
        orders = [makes(name, 1, 1, exact(*ls), *ls) for name, ls in zip(ORDERS, lists)]
        poor = [refuses("create", 1, 1, ROOMS, 10), refuses("redeem", 1, 1, ROOMS, 17, 1)]
        for price, value in ((7, accepted(630 if priced else 50)), (0, refused(14) if priced else accepted(50))):
            for short, calls in ((0, orders), (1, poor)):
                accounts = [[back - short, *[0] * 8], [due - short, *[0] * 5, 1, 0, 0]]
                yield state(accounts, [made(VALUE, value), *calls], components=[[1, 9, flag, premium, discount, 5]], prices=(price,),
                            table=ruled({flag: row}))


def ten_flags():
    """All ten flags in use: 0 moves stock, 1 is short in cash, 2 to 9 are paid in each way. One basket of one unit; X 100,000."""
    table = [list(STOCK), list(SHORT), *map(list, PAID)]
    parts = [[1, 2, 0, 0, 0, 0], [2, 3, 1, 50_000, 50_000, 0],
             *([flag + 1, 4, flag, *((10_000, 10_001) if row[2] else (0, 0)), 5] for flag, row in enumerate(PAID, 2))]
    # of the other market's four, two without rates pay 5 and 5, two with rates 6 and 6, or 4 and 4; so Shanghai's. Creation: all 3 of
    # component 2 are missing, 3 x 7 x 1.5 = 31.5 is 32 more.
    created = ([[500_000, B, 1, 0, 0], [1, S, 2, 0, 0], [500_005, B, 1, 22, 22], [500_002, B, 1, 54, 54], [500_001, B, 1, 0, 0]],
               [of_unit(B, 1), of_stock(S, 1, 2), of_cash(B, 1, 54, 2, 22)])
    redeemed = ([[500_000, S, 1, 0, 0], [1, B, 2, 0, 0], [2, B, 3, 0, 0], [500_005, S, 1, 18, 18], [500_002, S, 1, 18, 18],
                 [500_001, S, 1, 0, 0]], [of_unit(S, 1), of_stock(B, 1, 2), of_stock(B, 2, 3), of_cash(S, 1, 18, 2, 18)])
    # the sum: 2 x 1 + 3 x 7, four priced ones 4 x 2 each, four others 5 each: 23 + 32 + 20 = 75. Missing 21 of at most 750 x 100,000 /
    # 1,000,000 = 75.
    calls = [made(VALUE, accepted(750)), *(makes(name, 1, 1, exact(*ls), *ls) for name, ls in zip(ORDERS, (created, redeemed)))]
    accounts = [[36, 0, 0, 2, 0, 0, 3, 0, 0, *[0] * 27], [76, 0, 0, 2, *[0] * 29, 1, 0, 0]]
    yield state(accounts, calls, components=parts, prices=(1, 7, *[2] * 8), table=table, max_cash_ratio=100_000)
    # one of cash fewer on either side
    poor = [[x - (i == 0) for i, x in enumerate(stretch)] for stretch in accounts]
    yield state(poor, [refuses("create", 1, 1, [99] * 3, 10), refuses("redeem", 1, 1, [99] * 3, 17, 10)], components=parts,
                prices=(1, 7, *[2] * 8), table=table, max_cash_ratio=100_000)
    # no price of a priced flag that moves no stock: no value, so no shortage in cash
    for i, row in enumerate(PAID, 2):
        prices = [0 if j == i else 2 for j in range(10)]
        answer = refuses("create", 1, 1, [99] * 3, 14) if row[5] else refuses("create", 1, 1, EMPTY, 16)
        yield state(accounts, [answer], components=parts, prices=prices, table=table, max_cash_ratio=100_000)


def full_states():
    """64 accounts and 300 components, all empty but for the last account's units: 2 x 10^18, then one more."""
    parts = [[i, 1, 0, 0, 0, 0] for i in range(300)]
    for over, priced, traded in ((0, accepted(), refused(10)), (1, refused(5), refused(5))):
        accounts = [[0] * 906 for _ in range(64)]
        accounts[63][905] = 2 * E18 + over  # the got lot of the unit
        yield state(accounts, [made(["price", 299, 1], priced), made(["trade", 300, 999_999_999, 1, 63, 1], traded)],
                    components=parts, prices=[0] * 300)


# ---- openings


def opening(accounts, count, reply, **changed):
    held = [1] * (count + 1) + [0] + [1] * ((accounts - 1) * (count + 2)) if accounts else []
    return {"accounts": accounts, "count": count, "fund": fund(), "table": None,
            "components": [[i, 1, 0, 0, 0, 0] for i in range(count)], "holdings": held,
            "book_length": accounts * (3 + 3 * (count + 1)), "prices_length": count, "reply": reply, **changed}


def openings():
    # A and N at and past their ends, with fitting lengths
    for accounts, count, number in ((2, 1, 0), (1, 1, 1), (0, 1, 1), (64, 1, 0), (65, 1, 1), (2, 300, 0), (2, 301, 1), (2, 0, 1)):
        yield opening(accounts, count, [number, 0])
    # lengths one off
    for name in ("book_length", "prices_length"):
        for change in (-1, 1):
            v = opening(2, 2, [1, 0])
            yield {**v, name: v[name] + change}
    v = opening(2, 2, [1, 0])
    yield {**v, "holdings": v["holdings"][:-1]}
    yield {**v, "holdings": v["holdings"] + [0]}
    yield {**v, "components": v["components"][:-1]}
    yield {**v, "components": v["components"] + [[9, 1, 0, 0, 0, 0]]}
    # components of five numbers, one rate too few, and one number too many
    yield {**v, "components": [[0, 1, 0, 0, 0], [1, 1, 0, 0, 0]]}
    yield {**v, "components": v["components"] + [[0]]}
    # fund fields at and past their ends
    for fields in ({"first_code": 999_994}, {"basket_size": 99_999_999}, {"max_cash_ratio": 100_000}, {"switch": 3},
                   {"estimated_cash": -999_999_999}, {"estimated_cash": 9_999_999_999}, {"limits": [CEILING] * 8}):
        yield opening(2, 1, [0, 0], fund=fund(**fields))
    for fields in ({"first_code": 999_995}, {"basket_size": 100_000_000}, {"basket_size": 0}, {"max_cash_ratio": 100_001},
                   {"switch": 4}, {"estimated_cash": -1_000_000_000}, {"estimated_cash": 10_000_000_000},
                   {"limits": [0] * 7 + [CEILING + 1]}, {"basket_size": 2, "limits": [0] * 7 + [3]},
                   {"estimated_cash": -(2**63 - 1)}, {"first_code": 2**64 - 1}, {"limits": [2**64 - 1] * 8}):
        yield opening(2, 1, [2, 0], fund=fund(**fields))
    # a component at and past its ends; the group is 500,000 to 500,005
    for part, number in (([499_999, 99_999_999, 4, 0, 0, 99_999_999_999], 0), ([500_000, 1, 0, 0, 0, 0], 3),
                         ([500_005, 1, 0, 0, 0, 0], 3), ([500_006, 1, 3, 100_000, 7, 5], 0), ([999_999, 1, 1, 5, 6, 0], 0),
                         ([10**6, 1, 1, 5, 6, 0], 3), ([1, 10**8, 1, 5, 6, 0], 3), ([1, 1, 5, 0, 0, 0], 3),
                         ([1, 1, 2, 0, 0, 10**11], 3), ([1, 1, 1, 0, 0, 1], 3), ([1, 1, 0, 0, 0, 1], 3),
                         # each rate at and past its end, of the two flags that use it
                         ([1, 1, 1, 100_000, 0, 0], 0), ([1, 1, 1, 0, 100_000, 0], 0), ([1, 1, 3, 0, 100_000, 0], 0),
                         ([1, 1, 3, 100_000, 100_000, 5], 0), ([1, 1, 1, 100_001, 0, 0], 3), ([1, 1, 1, 0, 100_001, 0], 3),
                         ([1, 1, 3, 100_001, 0, 5], 3), ([1, 1, 3, 0, 100_001, 5], 3), ([1, 1, 3, 2**64 - 1, 0, 5], 3),
                         ([1, 1, 3, 0, 2**64 - 1, 5], 3),
                         # and above 0, of the three that do not
                         *(([1, 1, flag, *pair, 0], 3) for flag in (0, 2, 4) for pair in ((1, 0), (0, 1)))):
        yield opening(2, 1, [number, 0], components=[part])
    # order: equal codes are at fault at the second, whatever the first is; the last of 300
    yield opening(2, 3, [3, 2], components=[[1, 1, 0, 0, 0, 0], [2, 1, 0, 0, 0, 0], [2, 1, 0, 0, 0, 0]])
    yield opening(2, 2, [3, 1], components=[[7, 1, 0, 0, 0, 0], [6, 1, 0, 0, 0, 0]])
    yield opening(2, 300, [3, 299], components=[[i, 1, 0, 0, 0, 0] for i in range(299)] + [[298, 1, 0, 0, 0, 0]])
    # totals: a line, the unit (N), cash (N + 1), at their ends and one past; sums past 64 bits
    for held, reply in (([0, E18 - 1, 0, 0, 1, 0], [0, 0]), ([0, E18, 0, 0, 1, 0], [4, 0]), ([0, 0, 0, 0, 0, E18], [0, 0]),
                        ([0, 0, 0, 0, 0, E18 + 1], [4, 1]), ([0, 0, 1, 0, 0, 0], [4, 1]), ([2 * E18, 0, 0, 2 * E18, 0, 0], [0, 0]),
                        ([2 * E18, 0, 0, 2 * E18 + 1, 0, 0], [4, 2]), ([2**63, 0, 0, 2**63, 0, 0], [4, 2]),
                        ([0, 2**63, 0, 0, 2**63, 0], [4, 0]), ([2**64 - 1, 0, 0, 1, 0, 0], [4, 2])):
        yield opening(2, 1, reply, holdings=held)
    # refusals that meet: 1 before 2, 2 before 3, 3 before 4, the lower place first
    bad_part, bad_held = [[500_000, 1, 0, 0, 0, 0]], [5 * E18, 2 * E18, 1, 0, 0, 0]
    yield opening(2, 1, [1, 0], fund=fund(basket_size=0), components=bad_part, holdings=bad_held, prices_length=2)
    yield opening(2, 1, [2, 0], fund=fund(basket_size=0), components=bad_part, holdings=bad_held)
    yield opening(2, 1, [3, 0], components=bad_part, holdings=bad_held)
    yield opening(2, 1, [4, 0], holdings=bad_held)
    yield opening(2, 1, [4, 1], holdings=[5 * E18, 0, 1, 0, 0, 0])
    yield opening(2, 3, [3, 1], components=[[1, 1, 0, 0, 0, 0], [0, 1, 0, 0, 0, 0], [3, 1, 9, 0, 0, 0]])
    # a rate at fault before and behind another fault: the lower is named
    yield opening(2, 3, [3, 1], components=[[1, 1, 0, 0, 0, 0], [2, 1, 3, 0, 100_001, 0], [3, 1, 9, 0, 0, 0]])
    yield opening(2, 3, [3, 0], components=[[1, 1, 0, 0, 1, 0], [2, 1, 3, 0, 100_001, 0], [3, 1, 0, 0, 0, 0]])


def table_openings():
    """21, and the flags and columns that 3 looks at."""
    for table, flag in edge_tables.faulty():
        yield opening(2, 1, [21, flag], table=table)
    # what keeps the rules: our table, each row in use, and each that is not, at flags of no component
    parts = [[0, 1, 0, 0, 0, 0]]
    yield opening(2, 1, [0, 0], table=ruled({}))
    for i, row in enumerate(KEPT + UNUSED):
        yield opening(2, 1, [0, 0], table=ruled({1 + i % 9: row}), components=parts)
        if i % 9 == 0:
            yield opening(2, 1, [0, 0], table=ruled({0: row}), components=[[0, 1, 4, 0, 0, 0]])
    yield opening(2, 1, [0, 0], table=[STOCK] * 10)
    # 3: a flag that is not in use, whatever else its row has; no flag from 10 on is
    for flag in range(10):
        for row, number in ((STOCK, 0), (PAID[flag % 8], 0), (UNUSED[0], 3), (UNUSED[-1], 3), ((*STOCK[:6], 0), 3)):
            yield opening(2, 2, [number, number and 1], table=ruled({(flag + 1) % 10: STOCK, flag: row}),
                          components=[[0, 1, (flag + 1) % 10, 0, 0, 0], [1, 1, flag, 0, 0, 0]])
    for flag in (10, 69, 70, 2**32, 2**64 - 1):
        yield opening(2, 1, [3, 0], table=[STOCK] * 10, components=[[0, 1, flag, 0, 0, 0]])
        yield opening(2, 1, [3, 0], components=[[0, 1, flag, 0, 0, 0]])
    yield opening(2, 1, [3, 0], table=UNUSED[:10], components=parts)
    # 3: the rates and the amount by the row of the component's flag
    for row in KEPT:
        for components, is_right in uses(row):
            yield opening(2, 1, [0 if is_right else 3, 0], table=ruled({7: row}), components=components)
    yield opening(2, 1, [0, 0], table=ruled({7: PAID[7]}), components=[[1, 99_999_999, 7, 100_000, 100_000, 99_999_999_999]])


def table_meetings():
    """1 before 21, which stands before 2, 3 and 4."""
    wrong = ruled({9: (0, 0, 0, 0, 0, 0, 2)})
    bad = {"fund": fund(basket_size=0), "components": [[500_000, 1, 0, 0, 0, 0]], "holdings": [5 * E18, 2 * E18, 1, 0, 0, 0]}
    for whole in (ruled({}), ruled({0: (2, 0, 0, 0, 0, 0, 0)})):
        for table in (*edge_tables.of_other_length(whole), []):
            yield opening(2, 1, [1, 0], table=table)
            yield opening(2, 1, [1, 0], table=table, **bad)
    for accounts, count in ((1, 1), (65, 1), (2, 0), (2, 301)):
        yield opening(accounts, count, [1, 0], table=wrong)
    for name in ("book_length", "prices_length"):
        yield opening(2, 1, [1, 0], table=wrong, **{name: 0})
    for name in ("components", "holdings"):
        yield opening(2, 1, [1, 0], table=wrong, **{name: []})
    for name in bad:
        yield opening(2, 1, [21, 9], table=wrong, **{name: bad[name]})
    yield opening(2, 1, [21, 9], table=wrong, **bad)
    yield opening(2, 1, [2, 0], table=[STOCK] * 10, **bad)
    # behind 21: a flag not in use before a total; under our table at a flag that a given one puts in use
    yield opening(2, 1, [3, 0], table=ruled({0: UNUSED[0]}), holdings=bad["holdings"])
    yield opening(2, 1, [4, 0], table=ruled({5: STOCK}), components=[[1, 1, 5, 0, 0, 0]], holdings=bad["holdings"])
    yield opening(2, 1, [3, 0], components=[[1, 1, 5, 0, 0, 0]], holdings=bad["holdings"])


# ---- calls in order on a state that no opening leaves


def chains():
    # units total 2 x 10^18: nothing refuses a creation, and then every call is 5. The fund gets the share; account 1 has
    # 1 created, 4 shares and one unit in got.
    before = state([FUND, holder(units=(2 * E18, 0, 0))], [CREATES, *BROKEN])
    after = [0, 0, 0, 51, 0, 0, 0, 0, 0, 100, 1, 0, 4, 0, 0, 2 * E18, 0, 1]
    yield {**before, "after": {"book": after, "prices": [1]}}
    # a redemption first: 2 x 10^18 - 1, then back, and once more
    before = state([FUND, holder(units=(2 * E18, 0, 0))], [REDEEMS, CREATES, made(VALUE, accepted(10)), CREATES, *BROKEN])
    # shares: 1 got, 2 handed in of old; units: 1 of old redeemed, 2 got
    after = [0, 0, 0, 51, 0, 0, 0, 0, 0, 100, 2, 1, 3, 0, 1, 2 * E18 - 1, 0, 2]
    yield {**before, "after": {"book": after, "prices": [1]}}
    # the same on a flag of a given table, which the day keeps from call to call
    tabled = {"table": ruled({0: UNUSED[0], 5: RATED}), "components": of_flag(5, 100_000, 100_000)}
    yield {**before, **tabled, "after": {"book": after, "prices": [1]}}
    # tests alone count for no limit and move nothing, however often they are made: one unit of each kind passes, and then none
    create_test, redeem_test = PASSES
    stops = [made(c, refused(13)) for c in (create_test["call"], CREATE)], [made(c, refused(13)) for c in (redeem_test["call"], REDEEM)]
    before = state([FUND, holder()], [create_test, redeem_test, create_test, CREATES, *stops[0], redeem_test, redeem_test, REDEEMS,
                                      *stops[1], *stops[0]], limits=[1, 1, 0, 0, 0, 0, 0, 0])
    after = [*FUND, 100, 1, 1, 4, 0, 1, 4, 0, 1]
    yield {**before, "after": {"book": after, "prices": [1]}}


# ---- the day of full size


def full_calls(n, size):
    """Prices of all components, trades, and orders of 20 baskets. Account 3's creation makes 181 records, 905 numbers: two of units,
    four of cash and 175 of stock; and so 177 reports, 1770 numbers."""
    just, ample = [905, 1770, 1770], [1600, 3100, 3050]

    def create(a, units, rooms=ample):
        return ["create", a, units, rooms]

    def redeem(a, units):
        return ["redeem", a, units, ample]

    def tests(a, units, rooms=ample):
        return [[name, a, units, rooms] for name in TESTS]

    calls = [["value"], *tests(3, 20 * size), create(3, 20 * size)]
    calls += [["price", i, 5000 + 61 * i % 20_000] for i in range(n)]
    calls += [["value"], ["trade", 2, 30, 5000, 9, 3], ["trade", n, 7, 900_000, 63, 1], ["trade", n, 26 * size, 1, 63, 1]]
    calls += [create(4, 20 * size), ["trade", 296, 1, 1, 63, 4], create(4, 20 * size)]
    for rooms in [*one_short(just), just]:
        calls += [*tests(3, 20 * size, rooms), create(3, 20 * size, rooms)]
    calls += [*tests(3, 20 * size), *tests(63, 20 * size)]
    calls += [create(3, size), redeem(63, 20 * size), redeem(63, 20 * size), redeem(62, 20 * size)]
    calls += [redeem(61, 20 * size), create(63, size), create(62, 20 * size)]
    calls += [["trade", 0, 5, 77, 62, 61], ["trade", n, 100, 77, 4, 61], ["value"]]
    return calls


def full_day():
    """64 accounts, 300 components of all ten flags, orders of 20 baskets. Flags 5 to 9 have our five rows once more."""
    n, size = 300, 900_000
    f = fund(first_code=700_000, basket_size=size, max_cash_ratio=60_000, estimated_cash=-12_345,
             limits=[60 * size, 50 * size, 40 * size, 0, 0, 0, 0, 20 * size])
    # codes rise by 3,001 and pass over the group; quantities 40 to 139; unlike rates, and amounts, where the flag uses them
    flags = [(0, 1, 1, 3, 0, 2, 1, 4)[i % 8] for i in range(n)]
    parts = [[3001 * i + 11, 40 + 37 * i % 100, flag + 5 * (i // 8 % 2),
              *((997 * i % 100_001, 641 * i % 100_001) if flag in (1, 3) else (0, 0)),
              1_000_003 * (i + 1) if flag in (2, 3, 4) else 0] for i, flag in enumerate(flags)]
    # stock for 20 baskets and a little more, but account 3 lacks all of one flag 1 line in six, and account 4 one share of
    # component 297 (flag 1) and of 296 (flag 0)
    def held(a, i):
        if i == n:
            return 0 if a == 0 else 25 * size + a
        need = 20 * parts[i][1]
        if a == 3 and flags[i] == 1 and i % 6 == 1:
            return 0
        if a == 4 and i in (296, 297):
            return need - 1
        return 3 * need + i if a == 0 else need + (17 * a + i) % 90
    holdings = [x for a in range(64) for x in [10**14 + a, *(held(a, i) for i in range(n + 1))]]
    return played({"accounts": 64, "count": n, "fund": f, "table": OURS[:5] * 2, "components": parts, "holdings": holdings,
                   "opening": [0, 0], "calls": [{"call": c} for c in full_calls(n, size)]})


# ---- the model


def left(v, call):
    """What the model makes of a call on a state: the reply, the lists, and the runs that are other than before."""
    if not is_sound(v):
        return made(call, refused(5))
    model = Model.on_state(v)
    [found] = model.played([call])
    after = {"book": model.book(), "prices": model.prices}
    changed = {name: run for name, run in after.items() if run != v[name]}
    return {**found, "after": changed} if changed else found


def with_after(v):
    """A state whose accepted calls have what they leave. The model must give what is said by hand."""
    calls = [left(v, c["call"]) for c in v["calls"]]
    for c, found in zip(v["calls"], calls):
        assert {key: found.get(key) for key in c} == c and all((name in c) == (name in found) for name in LISTS), (v, c, found)
    return {**v, "calls": calls}


def opened(v):
    """An opening. The model must give what is said by hand."""
    assert opening_reply(v) == v["reply"], (v, opening_reply(v))
    return v


def is_model_right(vectors):
    """Whether the model gives every answer of the vectors."""
    def rows(file):
        return vector_files.rows(vectors / f"{file}.jsonl")

    big = [unfolded(v) for v in rows("big_days")]
    days = [played(v) == v for v in rows("days")]
    openings = [opening_reply(v) == v["reply"] for v in rows("openings")]
    calls = [left(v, c["call"]) == c for v in rows("broken_days") for c in v["calls"]]
    print(f"the model answers {len(big)} big days, {sum(days)} of {len(days)} days, {sum(openings)} of {len(openings)} openings and "
          f"{sum(calls)} of {len(calls)} calls on broken days as the vectors")
    return all(days) and all(openings) and all(calls)


def is_covered(files):
    """Every refusal from 1 to 17, and 21, and a place above 0 for each that has places; 5 and 16 by the tests alone of either order."""
    calls = [c for name in files for v in files[name] for c in v.get("calls", [])]
    replies = [tuple(x["reply"][:2]) for x in files["openings"] + calls]
    tested = {(c["call"][0], c["reply"][0]) for c in calls}
    numbers, placed = {n for n, _ in replies}, {n for n, place in replies if place > 0}
    return numbers == {*range(18), 21} and placed == {3, 4, 9, 17, 21} and tested >= {(name, n) for name in TESTS for n in (0, 5, 16)}


def main():
    parser = argparse.ArgumentParser()
    parser.add_argument("vectors", type=Path)
    parser.add_argument("out", type=Path)
    args = parser.parse_args()
    assert is_model_right(args.vectors)
    states = (sound_ends, trades, limits, switches_and_baskets, values, ratios, places, meetings, paper_day, paper_cash, rates,
              rate_ranges, short_lists, tests_alone, cash_reports, stock_reports, tables_of_days, uses_of_days, several_short,
              rated_stock, paid_flags, ten_flags, full_states)
    files = {"openings": [opened(v) for rows in (openings, table_openings, table_meetings) for v in rows()], "days": [full_day()],
             "broken_days": [with_after(v) for rows in states for v in rows()], "chains": list(chains())}
    assert is_covered(files)
    args.out.mkdir(parents=True, exist_ok=True)
    for name, rows in files.items():
        vector_files.save(args.out / f"{name}.jsonl", rows)
        print(f"{name}: {len(rows)} rows, {sum(len(v.get('calls', [])) for v in rows)} calls")


if __name__ == "__main__":
    main()
