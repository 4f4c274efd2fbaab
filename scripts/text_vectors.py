#!/usr/bin/env python3
"""Writes vectors of the list text as the standard input of `replay_texts` and `replay_lists`, and what they have to print.

    text_vectors.py TEXTS LISTS VECTORS..

Each folder VECTORS has texts.jsonl, parts.jsonl and writings.jsonl, or some of them (vectors/README.md says what is in them).
The script writes stdin and stdout to the folders TEXTS and LISTS. What is expected comes from the vectors, and the text of a list
that was read from list_model.py. The calls take a flag table as ten rows of seven numbers, so that rows with one of another length are
left out.

The input is items, as in vector_text.py; the library crate `program_texts` reads them. Bytes are numbers. A text or a list starts
with its head: row, length of the lent component run or output, length of the flag table (0 where none is given), and the table.

    1  a text that is given whole: head, its bytes
    2  a change of the last text that was given whole: head, the place of the bytes that go, how many they are, the bytes that come
       in their place
    3  a long text: head, how often its middle part stands in it, lengths of its front and of that part, the bytes of the front, of
       the part and of the tail
    4  a change, of which two parts are asked for: row, the component, and then as in 2
    5  a list: head, lengths of components and names, 22 fields, components, names, letters

Fields are first code, basket size, maximum cash ratio, switch, estimated cash as sign (1 is minus) and size, eight limits,
publish, trading day, previous trading day, cash component as sign and size, NAV per CU, NAV, count. Lent runs hold other
numbers before a call.

Printed is, for each row, its number and then for a text

    read NUMBER PLACE VALUE        the reply; if it is refused
    same                           the run is what it was, and fields and place handed back are 0; if not,
    rest same                      the run past the last component is what it was
    fields .., first ..,           the list: its fields, where its first component line starts, its components, its letters,
    components .., letters ..,     the names of all components one after the other (asked for in two ways that agree, and none
    names ..                       is given past the last)
    written NUMBER PLACE VALUE     the reply of writing the list into an output of the text's own length
    text .. or alike N             what was written; of a text of more than 2000 bytes where it first differs
    sum N                          the sum of all bytes that were written

and where parts are asked for

    letters .., name ..            the letters, and the name of the component

and for a list

    write NUMBER PLACE VALUE       the reply; if it is refused
    same                           the output is what it was; if not,
    text .., rest same             what was written, and that the output past it is what it was
    read NUMBER PLACE VALUE        the reply of reading that text
    back same                      fields, components, names and letters are the list's

A list that was read is written with the names of its head as they are listed; nothing else of its text may change.
"""
import argparse
from pathlib import Path

import vector_files
import vector_text
from list_model import COLUMNS, HEAD, NAME, ROW_WIDTH, lines, text_of
from vector_files import component_room, cut, has_ten_rows, numbers, whole_text
from vector_text import item, line, save

vector_text.TAGS.update({"text": 1, "changed": 2, "grown": 3, "parts": 4, "list": 5})

# The bytes of a written text are printed up to this length.
SHOWN = 2000

# The sum of a text's bytes goes by this factor and is a remainder of this prime.
SUM_FACTOR, SUM_PRIME = 257, 1_000_000_007


def split(text):
    """The bytes of a text, a line of numbers for each of its lines."""
    return [list(x) for x in text.splitlines(keepends=True)]


def head(row, room, v):
    """The parts that an item starts with: the table stands on a line of its own."""
    table = numbers(v["table"] or [])
    return [row, room, len(table)], table


def signed(x):
    return [int(x < 0), abs(x)]


def fields(v):
    f = v["fund"]
    return [f["first_code"], f["basket_size"], f["max_cash_ratio"], f["switch"], *signed(f["estimated_cash"]), *f["limits"],
            v["publish"], v["trading_day"], v["pre_trading_day"], *signed(v["cash_component"]), v["nav_per_cu"], v["nav"],
            v["count"]]


def canonical(text):
    """The text with the names of its head as they are listed."""
    head, *rest = text.split(b"\r\n")
    named = [name.encode() + old[len(name):] for (name, *_), old in zip(HEAD, rest)]
    return b"\r\n".join([head, *named, *rest[len(HEAD):]])


def alike(a, b):
    """How many bytes two texts have before the first that differs."""
    return next((i for i, (x, y) in enumerate(zip(a, b)) if x != y), min(len(a), len(b)))


def byte_sum(text):
    """A sum of all bytes, in which each counts by its place."""
    total = 0
    for byte in text:
        total = (total * SUM_FACTOR + byte + 1) % SUM_PRIME
    return total


def written(v, text, names):
    """What is printed of the list written again: the model's text of it, which must be the text that was read."""
    new = text_of(lines({**v, "names": bytes(names)}))
    assert new == canonical(text)
    shown = line("text", *new) if len(new) <= SHOWN else line("alike", alike(text, new))
    return [line("written", 0, 0, len(new)), shown, line("sum", byte_sum(new))]


def handed_back(v, text):
    """What is printed of a list that was read."""
    places = v["name_places"]
    start, width, _ = COLUMNS[NAME]
    assert places == [places[0] + (ROW_WIDTH + 2) * i for i in range(v["count"])]
    names = [x for at in places for x in text[at:at + width]]
    return ["rest same", line("fields", *fields(v)), line("first", places[0] - start),
            line("components", *numbers(v["components"])), line("letters", *v["letters"]), line("names", *names),
            *written(v, text, names)]


def change(base, text):
    """The place of the bytes that go, how many they are, and those that come in their place."""
    place = alike(base, text)
    behind = alike(base[place:][::-1], text[place:][::-1])
    return place, len(base) - place - behind, text[place:len(text) - behind]


class Texts:
    """Makes items of texts. One that is little changed from the last that was given whole is given as a change."""

    def __init__(self):
        self.base = b""

    def text(self, start, text):
        place, gone, come = change(self.base, text)
        if 4 * len(come) < len(text):
            return item("changed", *start, [place, gone], *split(come))
        self.base = text
        return item("text", *start, *split(text))

    def reading(self, row, v):
        """A text, whole, changed or long: the item, and what is printed."""
        start, text = head(row, component_room(v), v), whole_text(v)
        if "times" in v:
            front, part, tail = v["front"], v["part"], v["tail"]
            into = item("grown", *start, [v["times"], len(front), len(part)], *split(front), *split(part), *split(tail))
        else:
            into = self.text(start, text)
        number, place = v["reply"]
        printed = [line("row", row), line("read", number, place, 0 if number else v["count"])]
        return into, [*printed, *(["same"] if number else handed_back(v, text))]

    def asking(self, row, v):
        place, gone, come = change(self.base, v["text"])
        into = item("parts", [row, v["component"], place, gone], *split(come))
        return into, [line("row", row), line("letters", *v["letters"]), line("name", *v["name"])]


def writing(row, v):
    names, text = v["names"], v.get("text", b"")
    lengths = [len(numbers(v["components"])), len(names)]
    into = item("list", *head(row, v["output_length"], v), lengths, fields(v), *v["components"], *cut(names, 8), v["letters"])
    number, place, *size = v["reply"]
    if number:
        return into, [line("row", row), line("write", number, place, 0), "same"]
    assert size == [len(text)]
    return into, [line("row", row), line("write", *v["reply"]), line("text", *text), "rest same",
                  line("read", 0, 0, v["count"]), "back same"]


def played(folders, kinds):
    """The lines of standard input and output of all rows of these kinds of files."""
    into, out, row = [], [], 0
    for folder in folders:
        for file, made in kinds.items():
            path = folder / f"{file}.jsonl"
            given = vector_files.rows(path)
            vectors = [v for v in given if has_ten_rows(v)]
            for row, v in enumerate(vectors, row + 1):
                item_of, printed = made(row, v)
                into += item_of
                out += printed
            print(f"{path}: {len(vectors)} of {len(given)} rows, to row {row}")
    # a list of no numbers is malformed, and what stands behind it is not read
    return [*into, *item("list"), *item("text", [row + 1, 0, 0])], [*out, "bad input"]


def main():
    parser = argparse.ArgumentParser()
    parser.add_argument("texts", type=Path)
    parser.add_argument("lists", type=Path)
    parser.add_argument("vectors", type=Path, nargs="+")
    args = parser.parse_args()
    texts = Texts()
    save(args.texts, *played(args.vectors, {"texts": texts.reading, "parts": texts.asking}))
    save(args.lists, *played(args.vectors, {"writings": writing}))


if __name__ == "__main__":
    main()
