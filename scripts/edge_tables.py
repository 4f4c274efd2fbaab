"""Flag tables for the edges, with what of change request 4's rules each row keeps said by hand.

A row is stock moves, shortage in cash, r used, P used, Shanghai, priced, in use; a table has ten, flag after flag.
"""
import itertools

from day_model import OURS
from vector_files import cut, numbers

STOCK, RATED, SHORT = (1, 0, 0, 0, 1, 1, 1), (1, 0, 1, 0, 1, 1, 1), (1, 1, 1, 0, 1, 1, 1)

# A row that moves no stock uses an amount, and may use a rate, be Shanghai and be priced.
PAID = [(0, 0, r, 1, s, p, 1) for r in (0, 1) for s in (0, 1) for p in (0, 1)]

# The rows in use that keep the rules, of the 64 with numbers 0 and 1, and those that break them.
KEPT = [STOCK, RATED, SHORT, *PAID]
BROKEN = [(*row, 1) for row in itertools.product((0, 1), repeat=6) if (*row, 1) not in KEPT]

# The 64 that are not in use, which have no other rule.
UNUSED = [(*row, 0) for row in itertools.product((0, 1), repeat=6)]

# Numbers that are neither 0 nor 1.
NEITHER = [2, 3, 255, 2**32, 2**64 - 1]


def ruled(rows):
    """Our table with other rows for some flags."""
    return [list(rows.get(flag, row)) for flag, row in enumerate(OURS)]


def set_at(flag, column):
    """Our table with a number that is neither 0 nor 1 in one place."""
    table = ruled({})
    table[flag][column] = NEITHER[(flag + column) % len(NEITHER)]
    return table


def faulty():
    """Tables at fault, each with the lowest flag that is: every row that breaks the rules, at one flag after the other, and a
    number that is neither 0 nor 1 in each place."""
    yield from ((ruled({i % 10: row}), i % 10) for i, row in enumerate(BROKEN))
    yield from ((set_at(flag, column), flag) for flag in range(10) for column in range(7))
    # the lowest flag, whichever rule its row breaks; a row not in use has 0 and 1 alone
    low, high = (1, 0, 0, 0, 0, 1, 1), (0, 0, 0, 0, 0, 0, 2)
    yield from ((ruled({3: low, 8: high}), 3), (ruled({3: high, 8: low}), 3), (ruled({0: low, 9: high}), 0), ([low] * 10, 0))
    yield from ((ruled({flag: (0, 2, 0, 0, 0, 0, 0)}), flag) for flag in (0, 4, 5, 9))


def of_other_length(table):
    """The same numbers in tables with more or fewer than 70."""
    return [cut((numbers(table) * 2)[:length], 7) for length in (1, 7, 63, 69, 71, 77, 140)]
