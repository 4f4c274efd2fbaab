"""Reads and writes files of test vectors, one JSON object to a line (vectors/README.md has the forms).

`rows` gives the rows of a file in full: a row that is like another with all its fields, byte strings as bytes, and a text that
is an edit of another as the text itself. `save` writes rows with every byte string as hex.
"""
import json

# The numbers of a component.
COMPONENT_WIDTH = 6

# The lists that an order is lent, in the order of its rooms, and the numbers of each record or report there.
LISTS = {"records": 5, "investor": 10, "fund_reports": 10}

# The fields that are byte strings.
BYTES = ("text", "letters", "names", "name", "front", "part", "tail")


def pieces(given):
    """The bytes of hex, or of a list of pieces: hex, or a count and the hex that stands there so often."""
    if isinstance(given, str):
        return bytes.fromhex(given)
    return b"".join(bytes.fromhex(p) if isinstance(p, str) else p[0] * bytes.fromhex(p[1]) for p in given)


def edited(text, edits):
    """A text in which at each place so many bytes are taken out and others put in. The places are of the text itself and rise."""
    for place, removed, put in reversed(edits):
        text = text[:place] + bytes.fromhex(put) + text[place + removed:]
    return text


def rows(path):
    """The rows of a file in full; none where there is no such file."""
    out = []
    for line in path.read_text().splitlines() if path.exists() else []:
        row = json.loads(line)
        if "like" in row:
            row = {**out[row.pop("like")], **row}
        for key in BYTES:
            given = row.get(key)
            if isinstance(given, dict):
                row[key] = edited(out[given["row"]]["text"], given["edit"])
            elif isinstance(given, (str, list)):
                row[key] = pieces(given)
        out.append(row)
    return out


def is_held(v):
    """Whether a day's run can hold what a row is about. It has places for all components that a day may have and no length of its
    own, so a state whose one fault is a component more than its count cannot be told from the sound day."""
    if "prices" not in v or len(v["components"]) <= v["count"]:
        return True
    return len(v["prices"]) != v["count"] or len(v["book"]) != v["accounts"] * (3 * v["count"] + 6)


def has_ten_rows(v):
    """Whether a row's flag table, if it has one, is ten rows of seven numbers; where it is lent as a run it may have another length."""
    return v.get("table") is None or [len(row) for row in v["table"]] == 10 * [7]


def save(path, rows):
    """Writes rows; a byte string comes out as hex."""
    path.write_text("".join(json.dumps(row, default=bytes.hex) + "\n" for row in rows))


def numbers(parts):
    """The parts one after another, as a flat run."""
    return [x for part in parts for x in part]


def cut(run, width):
    """A run in parts of a width; the last has what is left."""
    return [run[i:i + width] for i in range(0, len(run), width)]


def whole_text(v):
    """The text of a row, given whole or as a front, a part that stands there many times, and a tail."""
    return v["text"] if "text" in v else v["front"] + v["part"] * v["times"] + v["tail"]


def component_room(v):
    """The length of the lent component list in numbers."""
    return v["room"] if "room" in v else COMPONENT_WIDTH * v["capacity"]


def opened_book(v):
    """The book that an accepted opening leaves: each account's cash, no counters, and each line's holding in old."""
    return numbers([cash, 0, 0, *(x for h in held for x in (h, 0, 0))] for cash, *held in cut(v["holdings"], v["count"] + 2))
