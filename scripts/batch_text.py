#!/usr/bin/env python3
"""Writes test vectors as lists of calls for the driver: standard input of `replay_batch`, and what it has to print.

    batch_text.py VECTORS OUT

VECTORS has days.jsonl and broken_days.jsonl, or one of them. The script writes OUT/stdin and OUT/stdout. What is expected
comes from the vectors alone; of the few rows that they have not, from what is said below at each.

The input is items, as in vector_text.py: an opening or a state, and behind it a batch, tag 10: the lengths of the runs of records,
of the investor's and of the fund's reports and of the answers, and then the rows of nine numbers (1 price, 2 trade, 3 create,
4 redeem, 5 value). An order's row has behind account and units the start and the length of its part of each of the three runs.
The driver has no row for an order's tests alone: they change nothing, and are left out, and so is a state with no other call.

days.jsonl: all calls of a day are one batch. broken_days.jsonl: each call is answered on the state as given, so the calls that
change nothing (the refused ones, and values) and behind them the first that does are one batch, and each further one that does
is a batch of its own, on the state given again.

Each order has a part of each run of its own, with some numbers before it that are no order's. Before the driver is called place
k holds k + 1, in the three runs and in the answers.

Printed is, for each batch,

    run ..                                        the driver's reply, as in vector_text.py
    answers .., records .., investor ..,          all of each, whole
    fund_reports .., book .., prices ..
    public ..                                     the reply of the calls with a test each, from the same start
    same                                          they left the same, or else the places that differ
"""
import argparse
from pathlib import Path

import vector_text
from day_model import ORDERS, accepted, refused
from vector_files import LISTS, cut
from vector_text import item, line, lists, opening, save, state, texts

vector_text.TAGS["batch"] = 10

KINDS = {"price": 1, "trade": 2, "create": 3, "redeem": 4, "value": 5}

MOST = 2 ** 64 - 1

UNKNOWN = [0, 6, 7, 2 ** 32 + 1, MOST]

# The numbers of a row and of an answer, and where an order's row names its part of each run.
ROW_WIDTH, ANSWER_WIDTH = 9, 4
SPANS = dict(zip(LISTS, (3, 5, 7)))

# The numbers between two parts of a run. They differ, so that an order's parts start at places that differ.
GAPS = dict(zip(LISTS, (2, 3, 5)))


class Batch:
    """Rows, what they are answered, and the runs of which orders have parts."""

    def __init__(self):
        self.rows, self.answers, self.runs = [], [], {name: [] for name in LISTS}

    def add(self, row, reply):
        self.rows.append([*row, *[0] * (ROW_WIDTH - len(row))])
        self.answers += reply

    def part(self, name, length):
        """A part of a run: where it starts."""
        run = self.runs[name]
        start = len(run)
        run += range(start + 1, start + length + 1)
        return start

    def end(self, times=1):
        """Numbers behind the last part of each run that are no order's."""
        for name, gap in GAPS.items():
            self.part(name, gap * times)

    def row(self, c):
        """The row of a call. An order's has a part of each run, in which the order writes."""
        name, *args = c["call"]
        if name not in ORDERS:
            return [KINDS[name], *args]
        account, units, _ = args
        spans = []
        for run, room, written in lists(c):
            self.part(run, GAPS[run])
            start = self.part(run, room)
            self.runs[run][start:start + len(written)] = written
            spans += [start, room]
        return [KINDS[name], account, units, *spans]

    def call(self, c):
        self.add(self.row(c), c["reply"])


def unknown(batch, at):
    """A row that names no call is answered 1, and changes nothing, though its numbers would be those of a price."""
    batch.add([UNKNOWN[at % len(UNKNOWN)], 0, 1], refused(1))


def outside(n, room, at):
    """A part that is not in a run of n numbers: it starts or ends past the end, and its end may be past 64 bits."""
    return [(n + 1, 0), (n - room + 1, room), (0, n + 1), (n, room), (MOST, MOST), (1, MOST)][at % 6]


def rows_of(v):
    """The calls that are rows of the driver."""
    return [c for c in v["calls"] if c["call"][0] in KINDS]


def without_room(batch, row):
    """An order's row, once for each list with that list empty; the part that it names is filled in when the run's length is known.

    They stand before the order itself, which with its rooms is accepted: no refusal but 16 holds. Every order has the two unit
    records and the report of the unit, so an empty list is too short: it is refused with 16 and changes nothing.
    """
    for at in SPANS.values():
        batch.add([*row[:at], None, *row[at + 1:]], refused(16))


def place_outside(batch, row):
    for name, at in SPANS.items():
        for turn, x in enumerate(batch.rows, row):
            if x[at] is None:
                x[at:at + 2] = outside(len(batch.runs[name]), x[at + 1], turn)


def day_batch(row, v):
    """All calls of a day, a row of no kind first and last, and those without room before the first accepted order of a kind."""
    batch, seen = Batch(), set()
    unknown(batch, row)
    for c in rows_of(v):
        name, *_ = c["call"]
        given = batch.row(c)
        if name in ORDERS and c["reply"][0] == 0 and name not in seen:
            seen.add(name)
            without_room(batch, given)
        batch.add(given, c["reply"])
    unknown(batch, row + 1)
    # on every second day the last part ends where its run ends
    batch.end(row % 2)
    place_outside(batch, row)
    return batch


def broken_parts(row, v):
    """The calls that change nothing and behind them the first that does, then each further one that does, on the state anew."""
    still, moving = ([c for c in rows_of(v) if ("after" in c) == changes] for changes in (False, True))
    for calls in filter(None, [still + moving[:1], *([c] for c in moving[1:])]):
        batch = Batch()
        for c in calls:
            batch.call(c)
        batch.end()
        after = {**v, **calls[-1].get("after", {})}
        yield from (state(row, v, "state"), played(batch, after["book"], after["prices"]))


def printed(reply, answers, runs, book, prices):
    """What is printed for a batch that is answered so and leaves these."""
    left = {"answers": answers, **runs, "book": book, "prices": prices}
    return [line("run", *reply), *(line(name, *run) for name, run in left.items()), line("public", *reply), "same"]


def played(batch, book, prices):
    """The item of a batch, and what is printed for it."""
    head = [*map(len, batch.runs.values()), len(batch.answers)]
    return item("batch", head, *batch.rows), printed(accepted(), batch.answers, batch.runs, book, prices)


def misfit(rows, answers, book, prices):
    """Rows that are not whole, or not as many as the answers: refused with 1, and nothing changes."""
    runs = {name: range(1, gap + 1) for name, gap in GAPS.items()}
    given = [1, 0, 1, *[0] * (ROW_WIDTH - 3)] * 2
    into = item("batch", [*GAPS.values(), answers], *cut(given[:rows], ROW_WIDTH))
    return into, printed(refused(1), range(1, answers + 1), runs, book, prices)


def misfits(v):
    row, answer = ROW_WIDTH, ANSWER_WIDTH
    sizes = ((row, answer - 1), (row, answer + 1), (row, 0), (0, answer), (row - 1, answer), (row - 1, 0), (row + 1, answer),
             (2 * row, answer))
    return [played(Batch(), v["book"], v["prices"]), *(misfit(*pair, v["book"], v["prices"]) for pair in sizes)]


def parts(file, row, v):
    """A row's items, each with what is printed for it."""
    if file == "broken_days":
        return broken_parts(row, v)
    first = opening(row, v, v["opening"], len(v["book"]), len(v["prices"]))
    return [first, played(day_batch(row, v), v["book"], v["prices"]), *(misfits(v) if row == 1 else [])]


def main():
    parser = argparse.ArgumentParser()
    parser.add_argument("vectors", type=Path)
    parser.add_argument("out", type=Path)
    args = parser.parse_args()
    save(args.out, *texts(args.vectors, ["days", "broken_days"], parts))


if __name__ == "__main__":
    main()
