#!/usr/bin/env python3
"""Writes test vectors as the standard input of a replay program, and what it has to print.

    vector_text.py VECTORS OUT [--bad-end]

VECTORS has openings.jsonl, days.jsonl, big_days.jsonl, broken_days.jsonl and chains.jsonl, or some of them (vectors/README.md).
The script writes OUT/stdin and OUT/stdout. What is expected comes from the vectors alone; of a big day, of which they have only
hashes and sums, from day_model.py, which must meet them. A state that no day's run can hold is left out (`is_held` in
vector_files.py).

The input is items of unsigned numbers: a tag, how many numbers follow, and these (the library crate `program_replay` reads
them). An opening and a state start with a head: row, accounts, count, first code, basket size, maximum cash ratio,
switch, estimated cash as sign (1 is minus) and size, eight limits, the length of the flag table and one more (0 where none is
given), and the lengths of components, book and prices. Behind it stand the table and the components, and then the holdings, or the
book and the prices. A state has always a table, ours where the vectors have none.

A row is an opening with what it is answered (openings.jsonl); an opening, its calls in order, the book and the prices at
the end (days.jsonl, big_days.jsonl); a state and calls that are each made on it anew (broken_days.jsonl); or a state, its
calls in order, and `after`, the book and the prices at the end (chains.jsonl).

Printed is, for each row, its number and then replies, each as number, place, value and count of reports, and what is left:

    opening ..                      the reply
    price, trade or value ..        the reply of a call
    test-create or test-redeem ..   the reply of an order's tests alone, where they are a call of the row
    test ..                         the reply of an order's tests alone, which are made before every order: it must be the order's
    create or redeem ..             the reply of the order
    records .., investor ..,        where it is accepted: the numbers that it wrote to each of its three lists
    fund_reports ..
    rest same                       the lists behind these, and where it is refused the whole lists, are what they were
    same                            where the call is refused or only reads: the book and the prices are what they were
    book .., prices ..              both, whole: behind an accepted opening with no calls, and at the end of a row in order;
                                    behind an accepted call that is made on a state anew, those that are other than before

--bad-end adds a malformed item, for which `bad input` is printed, and one more item, which is then not read.
"""
import argparse
from pathlib import Path

import vector_files
from day_model import ORDERS, READS, TESTS, table_of, unfolded
from vector_files import LISTS, cut, is_held, numbers, opened_book

TAGS = {"opening": 1, "anew": 2, "state": 3, "price": 4, "trade": 5, "create": 6, "redeem": 7, "value": 8, "show": 9,
        "test-create": 11, "test-redeem": 12}

FILES = ["openings", "days", "big_days", "broken_days", "chains"]


def line(*words):
    return " ".join(map(str, words))


def item(name, *parts):
    """An item, each part on a line of its own."""
    numbers = sum(len(p) for p in parts)
    return [line(TAGS[name], numbers), *(line(*p) for p in parts if p)]


def given(name, row, v, table, book, prices, *rest):
    """The item of an opening or a state: its head, its table and components, and the rest."""
    f = v["fund"]
    e = f["estimated_cash"]
    lengths = [0 if table is None else len(numbers(table)) + 1, len(numbers(v["components"])), book, prices]
    head = [row, v["accounts"], v["count"], f["first_code"], f["basket_size"], f["max_cash_ratio"], f["switch"],
            int(e < 0), abs(e), *f["limits"], *lengths]
    return item(name, head, numbers(table or []), *v["components"], *rest)


def opening(row, v, reply, book, prices):
    """An opening on lent runs of two lengths, with its number and place: the item, and what is printed."""
    into = given("opening", row, v, v["table"], book, prices, *cut(v["holdings"], v["count"] + 2))
    return into, [line("row", row), line("opening", *reply, 0, 0), *(["same"] if reply[0] else [])]


def state(row, v, name):
    stretches = cut(v["book"], 3 * v["count"] + 6)
    into = given(name, row, v, table_of(v["table"]), len(v["book"]), len(v["prices"]), *stretches, v["prices"])
    return into, [line("row", row)]


def lists(c):
    """The lists of an order: of each its name, its length, and the numbers that the order writes, as many as its reply says."""
    _, _, records, reports = c["reply"]
    for (name, width), room, count in zip(LISTS.items(), c["call"][-1], (records, reports, reports)):
        written = c.get(name, [])
        assert len(written) == width * count <= room
        yield name, room, written


def behind(c):
    """What is printed behind a call, of the book and the prices."""
    name, *_ = c["call"]
    if c["reply"][0] or name in READS:
        assert "after" not in c
        return ["same"]
    return [line(run, *c["after"][run]) for run in ("book", "prices") if run in c.get("after", {})]


def call(c):
    name, *args = c["call"]
    reply = c["reply"]
    if name in ORDERS + TESTS:
        account, units, rooms = args
        args = [account, units, *rooms]
    if name not in ORDERS:
        return item(name, args), [line(name, *reply), *behind(c)]
    printed = [line(run, *written) for run, _, written in lists(c) if written]
    return item(name, args), [line("test", *reply), line(name, *reply), *printed, "rest same", *behind(c)]


def show(book, prices):
    return item("show"), [line("book", *book), line("prices", *prices)]


def parts(file, row, v):
    """A row's items, each with what is printed for it."""
    if file == "big_days":
        return parts("days", row, unfolded(v))
    calls = [call(c) for c in v.get("calls", [])]
    if file == "openings":
        first = opening(row, v, v["reply"], v["book_length"], v["prices_length"])
        return [first] if v["reply"][0] else [first, show(opened_book(v), [0] * v["count"])]
    if file == "days":
        return [opening(row, v, v["opening"], len(v["book"]), len(v["prices"])), *calls, show(v["book"], v["prices"])]
    if file == "broken_days":
        return [state(row, v, "anew"), *calls]
    return [state(row, v, "state"), *calls, show(v["after"]["book"], v["after"]["prices"])]


def texts(folder, files, parts):
    """The lines of standard input and output of all rows of the files that the folder has."""
    into, out, row = [], [], 0
    for file in files:
        vectors = [v for v in vector_files.rows(folder / f"{file}.jsonl") if is_held(v)]
        for row, v in enumerate(vectors, row + 1):
            for given, printed in parts(file, row, v):
                into += given
                out += printed
        print(f"{file}: {len(vectors)} rows, to row {row}")
    return into, out


def save(folder, into, out):
    for name, lines in (("stdin", into), ("stdout", out)):
        text = "".join(x + "\n" for x in lines)
        (folder / name).write_text(text)
        print(f"{name}: {len(text)} bytes")


def main():
    parser = argparse.ArgumentParser()
    parser.add_argument("vectors", type=Path)
    parser.add_argument("out", type=Path)
    parser.add_argument("--bad-end", action="store_true")
    args = parser.parse_args()
    into, out = texts(args.vectors, FILES, parts)
    if args.bad_end:
        # a price call takes two numbers
        into += [line(TAGS["price"], 1), "0", *item("show")]
        out += ["bad input"]
    save(args.out, into, out)


if __name__ == "__main__":
    main()
