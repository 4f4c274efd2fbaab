#!/usr/bin/env python3
"""Spells this repository's own definitions and lemmas as today's Rattle does: snake case, types in camel case, a dash only between two names.

usage: tools/spelling.py [--list]      at the top of the repository, once, behind port.py; --list writes nothing and prints each name, old and new

A name's parts stand between dashes. A part in mixed case is turned to snake case; a part that begins with a capital is a type and stays.
A dash stays where both sides are names: a definition of more than one word, or a word of OPERATORS behind or before a definition; a plain word
hangs on by an underscore. A lemma that would meet a definition's name gets _lem, and two lemmas that would meet keep their dashes.
Names are those that crates/*/specs and crates/*/proofs declare; the goals and parts of a function's proof that Rattle names stay.
Changed are the .antt files, names in mixed case in the .rt files (Rust has none), must-fail edits, and what stands between backticks in comments and documents.
"""

import collections
import os
import re
import subprocess
import sys

DECLARED = re.compile(r'^( *)((?:abbrev |unfoldable |pub |pattern )*)(record |data )?([^\s(){}.;,@"«»:]+)((?: \{[^{}\n]*\}| \([^()\n]*\))*) : ?(.*)$')
WORD = re.compile(r'(?<![^\s(){}.;,@"«»`])[^\s(){}.;,@"«»`]+(?![^\s(){}.;,@"«»`])')
IN_RUST = re.compile(r"(?<![\w'-])[a-z]\w*(?:-\w+)*'*(?![\w'-])")
OPERATORS = set("append length map take drop put set join cons snoc nil le lt eq zero add mul sub true false".split())
# Behind these the whole line is a function's goal or its parts, which Rattle names.
MADE = re.compile(r"^(tie|goal)\.|^statement\b")
PAPERS = ["README.md", "CHANGELOG.md", "docs", "scripts", "rust", "include", "man", "Makefile"]
# Words of other languages that look like a name of ours.
FOREIGN = set()
# What port.py had turned by its own table, in the texts that it reads: here for the texts that it leaves alone.
PORTED = """
a-in add-a add-at add-row all-append all-drop all-fit all-left all-more all-most all-named all-none all-own all-take all-told all-true allBelow allBytes and-last and-left and-right
and-split answer-back answerOf any-here any-last any-none as-number at-i at-j at-n back-one backIn before-more before-text below-put below-top blank-part both-true by-both by-byte
by-cases byKind bytes-of callOf capped-fits capped-is capped-le capped-small cell-in cell-room cell-same cellAt cellOf clear-spec cleared-more codeOf column-again columns-spec
cond-same copy-spec count-fits count-kept count-low count-none count-same countOf counted-next counted-none counted-start cut-spec cutOf digit-low digits-append each-append each-at
each-more end-is end-line end-none end-short endAt endWord every-more false-of fault-past field-is field-put field-row fieldAt fieldOf fields-lent fieldsAt fieldsOf fill-meets
fill-spec fill-walks filled-in filled-is filled-more filled-none finish-spec first-code first-more first-next first-some first-stops fit-count fits-next fits-one fixed-from
fixed-left flag-cell flag-is flat-step form-small formOf from-row front-length front-long goes-on goes-order going-done going-on groupOf hasValue head-first head-more head-read
head-small headOf heldOf in-rows is-field isNumber isOrder isPlain isSigned isWhole join-front join-last join-more keeps-same keeps-then kept-more kept-same kept-step kindOf
laid-more laid-one laid-then last-made leaves-after lent-bound lent-fits lentOf limit-is line-after line-at line-eq line-first line-low line-read line-same lineOf lines-are
lines-join lines-long lines-more lines-none lines-same linesFrom linesOf lower-high min-self mostOf moved-all moved-here moved-none name-of nameAt named-again named-other named-put
namesOf narrow-power needOf new-meets new-spec new-walks next-past nextAt no-field no-line no-row no-sign noField none-before none-kept none-left none-of none-read none-within
not-first number-at number-fits number-is number-more number-put number-read number-short number-small numberAt numbers-after numbers-fit numbers-of of-entry on-none on-same
one-left one-less one-map one-of one-written open-spec opens-at or-assoc or-cases or-left or-right or-zero-left or-zero-right order-is order-small orderOf otherOf out-of-range
own-is pairOf paired-at part-end part-in part-left part-length part-room partAt partOf partWidth parts-are parts-at parts-meet parts-same passed-start past-head place-end place-is
place-none place-short placesOf plain-fits plain-known plus-one point-at push-spec put-back put-front put-spec read-again read-done read-spec readOn record-is record-of
replicate-more rest-all rest-read restOf resultOf room-next roomLeft roomsOf row-drop row-fine row-fits row-is row-keeps row-next row-number row-of row-other row-room row-words
row-written rowAt rowIn rowLine rowOf rows-all rows-end rows-fit rows-long rows-next rows-right rows-start rows-whole rowsAt rowsFrom rowsOf run-is run-length run-long run-more
run-none run-spec runFrom said-same same-answer same-at same-end same-first same-kind same-length same-lists same-place same-refl same-size same-start same-test seen-end seen-more
short-row signed-above signed-back signed-below signed-high signedOf size-low size-small some-at stands-at start-first start-is startBy startOf stateOf stays-same stays-then
step-keeps still-false stored-more sum-back sum-head sum-more sum-one sum-same sumOf switch-fits table-at table-same tag-is tag-read take-more take-put text-in textOf to-fill to-is
units-small value-keeps value-written valueOf whole-again whole-from whole-is whole-room width-fits widthOf word-next word-room word-same wordAt wordOf words-are words-of wordsOf
write-done write-spec written-then wrote-as wrote-none wrote-one wrote-then zero-in zero-of zero-or
""".split()
SPAN = re.compile(r"`[^`\n]+`")


def snake(part):
    if part[:1].isupper():
        return part
    part = re.sub(r"(?<=[a-z0-9])[A-Z]+(?=[A-Z][a-z]|[^A-Za-z]|$)", lambda m: "_" + m[0].lower(), part)
    return re.sub(r"(?<=[a-z0-9])[A-Z]", lambda m: "_" + m[0].lower(), part)


def of_a_library(text):
    """The names that a file imports from a library, which port.py has spelled."""
    own = set(os.listdir("crates"))
    found = set()
    for m in re.finditer(r"\buse ([^\s;{]+)\.\{([^{}]*)\}", text):
        steps = m[1].split(".")
        if not (steps[0] == "Rattle" and len(steps) > 1 and steps[1] in own):
            found |= {n.strip() for n in m[2].split(",")}
    return found


def files(ending):
    for top, dirs, names in os.walk("crates"):
        dirs[:] = sorted(d for d in dirs if d != "out")
        for n in sorted(names):
            if n.endswith(ending):
                yield os.path.join(top, n)


def declared():
    """Each name that a file declares: whether some declaration is a definition, and not a lemma or a part of a proof."""
    found = collections.defaultdict(bool)
    for p in files(".antt"):
        of_function = os.path.basename(p) in ("Proof.antt", "Answers.antt", "Invariants.antt") and p.count("/") > 3
        with open(p, encoding="utf-8") as f:
            for line in f:
                m = DECLARED.match(line)
                if not m or MADE.match(m[6]) or m[4] in ("use", "where") or (of_function and m[4].endswith("-spec")):
                    continue
                is_definition = "-" not in m[4] and ("/specs/" in p or bool(m[3]) or "abbrev" in m[2] or "unfoldable" in m[2])
                if of_function and m[1]:
                    continue
                found[m[4]] |= is_definition
    return found


def turned(names):
    definitions = {snake(n) for n, d in names.items() if d and "-" not in n}
    several = {d for d in definitions if "_" in d}

    def is_name(word, other):
        return word in several or word[:1].isupper() or (word in OPERATORS and (other in definitions or other in OPERATORS or other[:1].isupper()))

    def spell(name):
        parts = [snake(p) for p in name.split("-")]
        out = parts[0]
        for k in range(1, len(parts)):
            left, right = parts[k - 1], parts[k]
            joins = (is_name(left, right) and (right in definitions or right in OPERATORS)) or (is_name(right, left) and (left in definitions or left in OPERATORS)) or left[:1].isupper()
            out += ("-" if joins else "_") + right
        return out

    table = {n: spell(n) for n in names}
    taken = collections.defaultdict(list)
    for n, t in table.items():
        taken[t].append(n)
    for t, olds in taken.items():
        if len(olds) < 2:
            continue
        defs = [n for n in olds if names[n]]
        lemmas = sorted((n for n in olds if not names[n]), key=lambda n: (n != t, "-" in n, n))
        if len(defs) > 1:
            sys.exit(f"definitions that fall together: {defs}")
        if defs:
            for i, n in enumerate(lemmas):
                table[n] = t + "_lem" if i == 0 else "-".join(snake(p) for p in n.split("-"))
        else:
            for n in lemmas[1:]:
                table[n] = "-".join(snake(p) for p in n.split("-"))
    return {n: t for n, t in table.items() if n != t and n not in FOREIGN}


def main(words):
    names = declared()
    table = turned(names)
    both = collections.defaultdict(list)
    for n in names:
        both[table.get(n, n)].append(n)
    for t, olds in sorted(both.items()):
        if len(olds) > 1:
            print(f"fall together: {olds} -> {t}")
    if words == ["--list"]:
        for n in sorted(table):
            print(f"{n}\t{table[n]}\t{'definition' if names[n] else 'lemma'}")
        return
    for p in files(".antt"):
        rewrite(p, WORD, table)
    table |= {n: snake(n).replace("-", "_") for n in PORTED}
    for p in files(".edit"):
        rewrite(p, WORD, table)
    mixed = {n: t for n, t in table.items() if re.search(r"[a-z][A-Z]", n)}
    for p in files(".rt"):
        rewrite(p, IN_RUST, mixed)
        rewrite(p, SPAN, table)
    for top in PAPERS:
        for p in subprocess.run(["git", "ls-files", top], capture_output=True, text=True).stdout.split():
            if p.endswith(".md"):
                rewrite(p, SPAN, table)
            elif p.startswith("scripts/"):
                rewrite(p, IN_RUST, mixed)


def rewrite(path, pattern, table):
    with open(path, encoding="utf-8") as f:
        old = f.read()
    table = {n: t for n, t in table.items() if n not in of_a_library(old)}
    if pattern is SPAN:
        new = SPAN.sub(lambda m: "`" + WORD.sub(lambda w: table.get(w[0], w[0]), m[0][1:-1]) + "`", old)
    else:
        new = pattern.sub(lambda m: table.get(m[0], m[0]), old)
    if new != old:
        with open(path, "w", encoding="utf-8") as f:
            f.write(new)


main(sys.argv[1:])
