#!/usr/bin/env python3
"""Writes test vectors as rows that the proof checker computes.

    vector_rows.py VECTORS SCRATCH [--chunk ROWS] [--largest NUMBERS]

SCRATCH is a copy of the repository (crates.txt and crates/). The script adds two crates to it: `rows`, the lines of
openings.jsonl, days.jsonl, broken_days.jsonl and chains.jsonl of VECTORS, and `rows_of_texts`, those of texts.jsonl and
writings.jsonl. Each has its lines as rows in specs/, and in each file one theorem, `rows_right : all right rows ≡ true`, by
`refl`. `rt check` in SCRATCH/crates/rows and in SCRATCH/crates/rows_of_texts then computes the definitions on every row, and refuses
each file that has a row which differs. The tests of an order alone are computed as the order's reply with lists of the lengths that
they are told; the state stays.

--chunk is the most rows to a module: with 1 a refusal names its row. --largest leaves out rows whose book or text has more
numbers or bytes than that: the checker takes a limited number of steps for each theorem. A state that no day's run can hold is
left out too (`is_held` in vector_files.py), and so is a text or a list with a flag table that has not ten rows of seven numbers. An
opening is lent its table as a run, of any length; where none is given the table of a row is ours.
"""
import argparse
import re
import shutil
from pathlib import Path

import vector_files
from day_model import ORDERS, TESTS
from list_model import COLUMNS, NAME
from vector_files import LISTS, component_room, has_ten_rows, is_held, numbers, opened_book, whole_text

# ---- what a row is, and when it is right

SHARED = """\
abbrev pub both : Bool → Bool → Bool
both true b = b
both false b = false

abbrev pub all : {A : Type 0} → (A → Bool) → List A → Bool
all f [] = true
all f (x ∷ xs) = both (f x) (all f xs)

abbrev pub same : List ℕ → List ℕ → Bool
same [] [] = true
same [] (y ∷ ys) = false
same (x ∷ xs) [] = false
same (x ∷ xs) (y ∷ ys) = both (eqb x y) (same xs ys)

abbrev pub fund : ℕ → ℕ → ℕ → ℕ → ℤ → List ℕ → Fund
fund g u x w e ls =
    record { first_code = g; basket_size = u; max_cash_ratio = record { 0 = x }; switch = w; estimated_cash = e; limits = ls }

-- what a lent run of so many places has before a call, no two alike
abbrev pub lent : ℕ → List ℕ
lent zero = []
lent (suc room) = (900_000_001 + room) ∷ lent room

-- such a run after a call: what was written, and then what was there
abbrev pub lent_right : List ℕ → ℕ → List ℕ → Bool
lent_right after room written = same after (written ++ drop (length written) (lent room))

abbrev pub reply_right : Reply → List ℕ → Bool
reply_right r want = same (r.number ∷ r.place ∷ r.value ∷ r.reports ∷ []) want

-- the flag table where none is given
abbrev pub ours : FlagTable
ours = flag_table
"""

DAY_ROWS = """\
-- Rows of test vectors, and when a row is right.
use Rattle.std.specs.Prelude.{ℕ, zero, suc, ◌+◌, ℤ, Bool, true, false, List, [], ◌∷◌, ◌++◌, eqb, length, drop, replicate}
use Rattle.sequences.specs.Checks.{Reply}
use Rattle.flags.specs.Table.{FlagTable, flag_table, table_numbers}
use Rattle.layout.specs.declared.Fund.{Fund}
use Rattle.layout.specs.declared.Component.{Component}
use Rattle.layout.specs.Places.{day_width}
use Rattle.layout.specs.Day.{Day}
use Rattle.rules.specs.Lent.{Lent, lent_of, rooms_of}
use Rattle.rules.specs.Opening.{Opening, opening_reply, opened_day, opened_book, opened_prices}
use Rattle.rules.specs.Creation.{creation_reply}
use Rattle.rules.specs.Redemption.{redemption_reply}
use Rattle.balance.specs.Calls.{State, Call, Result, step}

""" + SHARED + """
abbrev pub component : ℕ → ℕ → ℕ → ℕ → ℕ → ℕ → Component
component code q flag premium discount amount =
    record { code = code; quantity = q; flag = flag; premium = record { 0 = premium }; discount = record { 0 = discount }; amount = record { 0 = amount } }

abbrev pub our_numbers : List ℕ
our_numbers = table_numbers ours

-- accounts, count, fund, flag table, components, holdings, and the lengths of the lent book and prices
abbrev pub opening : ℕ → ℕ → Fund → List ℕ → List ℕ → List ℕ → ℕ → ℕ → Opening
opening a n f t cs hs b ps =
    record {
      accounts = a; count = n; fund = f; table = t; components = cs; holdings = hs; book = lent b; prices = lent ps; day = replicate day_width 7
    }

abbrev pub state : Day → List ℕ → List ℕ → State
state d b ps = record { day = d; book = b; prices = ps }

pub data Made : Type 0 where
  -- a call, the lengths of the three lists lent to it, its reply, and the numbers that it writes to them
  made : Call → ℕ → ℕ → ℕ → List ℕ → Lent → Made
  -- the tests of an order alone: account, units, the lengths of the three lists, and the reply
  tests_creation : ℕ → ℕ → ℕ → ℕ → ℕ → List ℕ → Made
  tests_redemption : ℕ → ℕ → ℕ → ℕ → ℕ → List ℕ → Made

-- a reply on a state that stays
abbrev tested : State → Reply → Result
tested s r = record { reply = r; after = s; lent = lent_of [] [] [] }

-- what the definitions make of it on a state
abbrev pub result_of : State → Made → Result
result_of s (made c records investor fund want written) = step s c (lent_of (lent records) (lent investor) (lent fund))
result_of s (tests_creation a units records investor fund want) =
    tested s (creation_reply s.day s.book s.prices a units (rooms_of records investor fund))
result_of s (tests_redemption a units records investor fund want) =
    tested s (redemption_reply s.day s.book s.prices a units (rooms_of records investor fund))

abbrev pub result_right : Result → Made → Bool
result_right r (made c records investor fund want written) =
    both (both (reply_right r.reply want) (lent_right r.lent.records records written.records))
    (both (lent_right r.lent.investor investor written.investor) (lent_right r.lent.fund fund written.fund))
result_right r (tests_creation a units records investor fund want) = reply_right r.reply want
result_right r (tests_redemption a units records investor fund want) = reply_right r.reply want

-- what a call leaves in a run: what was there, or these numbers
pub data Left : Type 0 where
  kept : Left
  holds : List ℕ → Left

-- a call, and what it leaves in the book and the prices
pub data Met : Type 0 where
  met : Made → Left → Left → Met

pub data Row : Type 0 where
  -- an opening, its reply, and what it leaves in the book and the prices
  opens : Opening → List ℕ → Left → Left → Row
  -- an opening, its reply, the calls of the day in order, and the book and the prices at the end
  plays : Opening → List ℕ → List Made → List ℕ → List ℕ → Row
  -- a state, and calls that are each made on it anew
  meets : State → List Met → Row
  -- a state, calls in order, and the book and the prices at the end
  follows : State → List Made → List ℕ → List ℕ → Row

abbrev pub left_right : List ℕ → List ℕ → Left → Bool
left_right before after kept = same after before
left_right before after (holds want) = same after want

abbrev pub opening_right : Opening → List ℕ → Left → Left → Bool
opening_right o want book prices =
    both (reply_right (opening_reply o) want)
    (both (left_right o.book (opened_book o) book) (left_right o.prices (opened_prices o) prices))

abbrev pub day_right : State → List Made → List ℕ → List ℕ → Bool
day_right s [] book prices = both (same s.book book) (same s.prices prices)
day_right s (m ∷ ms) book prices =
    let r = result_of s m in
    both (result_right r m) (day_right r.after ms book prices)

abbrev pub call_right : State → Met → Bool
call_right s (met m book prices) =
    let r = result_of s m in
    both (result_right r m)
    (both (left_right s.book r.after.book book) (left_right s.prices r.after.prices prices))

abbrev pub right : Row → Bool
right (opens o want book prices) = opening_right o want book prices
right (plays o want ms book prices) =
    both (reply_right (opening_reply o) want) (day_right (state (opened_day o) (opened_book o) (opened_prices o)) ms book prices)
right (meets s ms) = all (call_right s) ms
right (follows s ms book prices) = day_right s ms book prices
"""

TEXT_ROWS = """\
-- Rows of test vectors of the list text, and when a row is right.
use Rattle.std.specs.Prelude.{ℕ, zero, suc, ◌+◌, ℤ, pos, negsuc, Bool, true, false, List, [], ◌∷◌, ◌++◌, eqb, length, drop}
use Rattle.sequences.specs.Checks.{Reply}
use Rattle.flags.specs.Table.{FlagTable, flag_table}
use Rattle.layout.specs.declared.Fund.{Fund}
use Rattle.text_rules.specs.Reading.{letters_read}
use Rattle.list_rules.specs.declared.ListFields.{ListFields}
use Rattle.list_rules.specs.Reading.{read_reply, fields_handed, first_handed, run_after, name_read, name_from}
use Rattle.list_rules.specs.Writing.{listing, write_reply, output_after}

""" + SHARED + """
-- fund, publish, trading day, previous trading day, cash component, NAV per CU, NAV, count
abbrev pub fields : Fund → ℕ → ℕ → ℕ → ℤ → ℕ → ℕ → ℕ → ListFields
fields f publish day before cash basket unit count =
    record { fund = f; publish = publish; trading_day = day; pre_trading_day = before; cash_component = cash; nav_per_cu = basket; nav = unit; count = count }

abbrev signed : ℤ → List ℕ
signed (pos n) = 0 ∷ n ∷ []
signed (negsuc n) = 1 ∷ n ∷ []

abbrev flat : ListFields → List ℕ
flat l =
    l.fund.first_code ∷ l.fund.basket_size ∷ l.fund.max_cash_ratio.0 ∷ l.fund.switch
    ∷ l.publish ∷ l.trading_day ∷ l.pre_trading_day ∷ l.nav_per_cu ∷ l.nav ∷ l.count
    ∷ (signed l.fund.estimated_cash ++ (signed l.cash_component ++ l.fund.limits))

pub data Row : Type 0 where
  -- a flag table, a text, the length of the lent component run, and the reply: refused
  fails : FlagTable → List ℕ → ℕ → List ℕ → Row
  -- the same: read, with the fields, the place of the first component line, the components, the letters, and the names
  reads : FlagTable → List ℕ → ℕ → List ℕ → ListFields → ℕ → List ℕ → List ℕ → List (List ℕ) → Row
  -- a flag table, a list's fields, components, names and letters, the length of the lent output, the reply, and the text that is written
  writes : FlagTable → ListFields → List ℕ → List ℕ → List ℕ → ℕ → List ℕ → List ℕ → Row

-- what a text hands back besides its components: fields, and the place of the first component line
abbrev head_right : FlagTable → List ℕ → ℕ → ListFields → ℕ → Bool
head_right t text room f first =
    both (same (flat (fields_handed t text room)) (flat f)) (same (first_handed t text room ∷ []) (first ∷ []))

-- the names from the j-th on, asked for in both ways
abbrev names_right : List ℕ → ℕ → ℕ → List (List ℕ) → Bool
names_right text first j [] = both (same (name_read text j) []) true
names_right text first j (name ∷ names) =
    both (both (same (name_read text j) name) (same (name_from text first j) name)) (names_right text first (suc j) names)

abbrev none : ListFields
none = fields (fund 0 0 0 0 (pos 0) (0 ∷ 0 ∷ 0 ∷ 0 ∷ 0 ∷ 0 ∷ 0 ∷ 0 ∷ [])) 0 0 0 (pos 0) 0 0 0

abbrev pub right : Row → Bool
right (fails t text room want) =
    both (both (reply_right (read_reply t text room) want) (lent_right (run_after t text (lent room)) room [])) (head_right t text room none 0)
right (reads t text room want f first run letters names) =
    both (both (reply_right (read_reply t text room) want) (lent_right (run_after t text (lent room)) room run))
    (both (head_right t text room f first) (both (same (letters_read text) letters) (names_right text first 0 names)))
right (writes t f run names letters room want text) =
    let l = listing f run names letters in
    both (reply_right (write_reply t l room) want) (lent_right (output_after t l (lent room)) room text)
"""

# A module of rows.
MODULE = """\
-- {title}
use Rattle.std.specs.Prelude.{{◌≡◌, refl, true, pos, negsuc, List, [], ◌∷◌}}
{uses}

abbrev rows : List Row
rows =
    {rows}
    ∷ []

pub rows_right : all right rows ≡ true
unfolding {unfolding}
rows_right = refl
"""

DAY_USES = """\
use Rattle.rules.specs.Lent.{lent_of}
use Rattle.balance.specs.Calls.{price, trade, create, redeem, value}
use Rattle.rows.specs.Rows.{all, fund, component, ours, our_numbers, opening, state, made, tests_creation, tests_redemption}
use Rattle.rows.specs.Rows.{kept, holds, met, Row, opens, plays, meets, follows, right}"""

TEXT_USES = "use Rattle.rows_of_texts.specs.Rows.{all, fund, ours, fields, Row, fails, reads, writes, right}"

# ---- rows


def listed(items, sep=" "):
    return "(" + "".join(f"{x} ∷{sep}" for x in items) + "[])"


def signed(x):
    return f"(pos {x})" if x >= 0 else f"(negsuc {-x - 1})"


def fund(f):
    return (f"(fund {f['first_code']} {f['basket_size']} {f['max_cash_ratio']} {f['switch']} {signed(f['estimated_cash'])} "
            f"{listed(f['limits'])})")


def table(v):
    """The rows of a flag table."""
    return "ours" if v["table"] is None else listed(map(listed, v["table"]))


def opening(v, book, prices):
    run = "our_numbers" if v["table"] is None else listed(numbers(v["table"]))
    return (f"(opening {v['accounts']} {v['count']} {fund(v['fund'])} {run} {listed(numbers(v['components']))} "
            f"{listed(v['holdings'])} {book} {prices})")


def reply(answer, value=0):
    """The four numbers of a call that makes no reports."""
    return listed([*answer, value, 0])


def spaced(*words):
    return " ".join(map(str, words))


def made(c):
    """A call; the last argument of an order and of its tests alone is the lengths of its lists."""
    kind, *args = c["call"]
    rooms = args.pop() if kind in ORDERS + TESTS else [0] * len(LISTS)
    if kind in TESTS:
        name = dict(zip(TESTS, ("tests_creation", "tests_redemption")))[kind]
        return f"({spaced(name, *args, *rooms, listed(c['reply']))})"
    written = spaced(*(listed(c.get(name, [])) for name in LISTS))
    return f"(made ({spaced(kind, *args)}) {spaced(*rooms, listed(c['reply']))} (lent_of {written}))"


def left(after, name):
    return f"(holds {listed(after[name])})" if name in after else "kept"


def opening_row(v):
    given = opening(v, v["book_length"], v["prices_length"])
    after = {} if v["reply"][0] else {"book": opened_book(v), "prices": [0] * v["count"]}
    return f"opens {given} {reply(v['reply'])} {left(after, 'book')} {left(after, 'prices')}"


def day_row(v):
    given = opening(v, len(v["book"]), len(v["prices"]))
    calls = listed(map(made, v["calls"]), "\n      ")
    return f"plays {given} {reply(v['opening'])}\n      {calls}\n      {listed(v['book'])} {listed(v['prices'])}"


def state(v):
    parts = listed("component " + " ".join(map(str, c)) for c in v["components"])
    day = (f"record {{ accounts = {v['accounts']}; count = {v['count']}; fund = {fund(v['fund'])}; table = {table(v)}; "
           f"components = {parts} }}")
    return f"(state ({day}) {listed(v['book'])} {listed(v['prices'])})"


def broken_row(v):
    calls = listed((f"met {made(c)} {left(c.get('after', {}), 'book')} {left(c.get('after', {}), 'prices')}" for c in v["calls"]),
                   "\n      ")
    return f"meets {state(v)}\n      {calls}"


def chain_row(v):
    calls = listed(map(made, v["calls"]), "\n      ")
    return f"follows {state(v)}\n      {calls}\n      {listed(v['after']['book'])} {listed(v['after']['prices'])}"


def fields(v):
    return (f"(fields {fund(v['fund'])} {v['publish']} {v['trading_day']} {v['pre_trading_day']} {signed(v['cash_component'])} "
            f"{v['nav_per_cu']} {v['nav']} {v['count']})")


def text_row(v):
    text = whole_text(v)
    given = f"{table(v)} {listed(text)} {component_room(v)}"
    if v["reply"][0]:
        return f"fails {given} {reply(v['reply'])}"
    start, width, _ = COLUMNS[NAME]
    places = v["name_places"]
    names = listed(listed(text[at:at + width]) for at in places)
    return (f"reads {given} {reply(v['reply'], v['count'])}\n      {fields(v)} {places[0] - start} "
            f"{listed(numbers(v['components']))}\n      {listed(v['letters'])} {names}")


def writing_row(v):
    number, place, *size = v["reply"]
    lists = " ".join(map(listed, (numbers(v["components"]), v["names"], v["letters"])))
    text = b"" if number else v["text"]
    return (f"writes {table(v)} {fields(v)} {lists}\n      {v['output_length']} {reply((number, place), *size)}\n"
            f"      {listed(text)}")


# ---- crates

# Each crate: what it may use, what a row is, what a module of rows uses, and how a line of each file becomes a row.
CRATES = {
    "rows": ("sequences units lots flags digits layout fund rules balance", DAY_ROWS, DAY_USES,
             {"openings": opening_row, "days": day_row, "broken_days": broken_row, "chains": chain_row}),
    "rows_of_texts": ("sequences units lots flags digits layout fund rules lines text_rules list_rules", TEXT_ROWS, TEXT_USES,
                      {"texts": text_row, "writings": writing_row}),
}


def unfoldable(crates, names):
    """Every unfoldable definition of the crates by its whole path: `refl` computes through all of them."""
    return "\n    ".join(
        f"Rattle.{crate}.specs.{path.stem}.{name}"
        for crate in names.split()
        for path in sorted((crates / crate / "specs").glob("*.antt"))
        for name in re.findall(r"^\s*unfoldable pub (\S+) :", path.read_text(), re.M))


def size(v):
    """How long a row's longest run is."""
    return max(len(v.get("book", [])), len(whole_text(v)) if "text" in v or "times" in v else 0)


def write_crate(name, vectors, scratch, chunk, largest):
    """Writes a crate of rows, and prints how many rows and calls it has."""
    uses, meaning, module_uses, files = CRATES[name]
    crate = scratch / "crates" / name
    shutil.rmtree(crate, ignore_errors=True)
    (crate / "src").mkdir(parents=True)
    (crate / "specs").mkdir()
    (crate / "src" / "lib.rt").write_text("// Rows of test vectors, computed in specs/. There is no code here.\n#![tactic(auto)]\n")
    (crate / "specs" / "Rows.antt").write_text(meaning)
    unfolding, modules = unfoldable(scratch / "crates", uses), ["Rows"]
    for file, row in files.items():
        given = vector_files.rows(vectors / f"{file}.jsonl")
        chosen = [(i, v) for i, v in enumerate(given) if size(v) <= largest and is_held(v) and (file == "openings" or has_ten_rows(v))]
        for part in (chosen[at:at + chunk] for at in range(0, len(chosen), chunk)):
            first, last = part[0][0], part[-1][0]
            modules.append(f"{file.title().replace('_', '')}{first}")
            text = MODULE.format(title=f"{file}.jsonl, lines {first} to {last}, counted from 0.", uses=module_uses,
                                 rows="\n    ∷ ".join(row(v) for _, v in part), unfolding=unfolding)
            (crate / "specs" / f"{modules[-1]}.antt").write_text(text)
        calls = [c["call"][0] for _, v in chosen for c in v.get("calls", [])]
        tests = sum(kind in TESTS for kind in calls)
        print(f"{name}: {file}, {len(chosen)} of {len(given)} rows, {len(calls)} calls, {tests} of them tests alone")
    (crate / "specs" / "Lib.antt").write_text("".join(f"pub mod {m}\n" for m in modules))
    listing = scratch / "crates.txt"
    if not re.search(rf"^{name}:", listing.read_text(), re.M):
        listing.write_text(listing.read_text().rstrip("\n") + f"\n{name}: {uses}\n")


def main():
    parser = argparse.ArgumentParser()
    parser.add_argument("vectors", type=Path)
    parser.add_argument("scratch", type=Path)
    parser.add_argument("--chunk", type=int, default=20)
    parser.add_argument("--largest", type=int, default=1200)
    args = parser.parse_args()
    for name in CRATES:
        write_crate(name, args.vectors, args.scratch, args.chunk, args.largest)


if __name__ == "__main__":
    main()
