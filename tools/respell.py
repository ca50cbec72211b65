#!/usr/bin/env python3
"""Respells this repository's own definitions and lemmas as today's Rattle does: words in snake case, types in camel case,
and a dash only between two names. Run once at the top of the repository, after port.py.

It goes by whole names in crates/*/src, specs and proofs, and in the back quotes of README.md and docs/. Functions, types and
fields of src/ keep their names, and so do strings, inputs, outputs and the edits in must-fail/, which hold code alone."""
import glob
import re
import sys

# Types whose names had dashes.
TYPES = {
    "Admits-iff-meets": "AdmitsIffMeets",
    "Agree-unless-met": "AgreeUnlessMet",
    "One-more": "OneMore",
    "Same-cells": "SameCells",
    "Subset-number": "SubsetNumber",
}

# Definitions and fields in camel case.
WORDS = """
allBelow allDigits allMarks answerLines asKey cellCount cellMarks cellsOf clueSet cluesLine differBelow digitsOf endShown gridLine
holdsEach inStrip isDigit isMark isSize isValue keyLine keyText keyValue kindLine kindName latinMeaning lineFrom lineNumber lineOf
lineShown lineThen mapLine marksLine marksOf meaningOf nextLine noRivalLine numberOf oneDigit orForm pairShown pinSet pinsOf puzzleOf
puzzleShown questionShown questionText readMarks readQuestion refusedLines refusedShown restShown rivalLines setOf sizeLine splitLine
stripAfter textEnd textOf tokenShown valueInTurn valueShown valueUnder valuesOf withFront
""".split()

# Lemmas with dashes before words that are no names.
LEMMAS = """
admits-iff-meets after-whole agree-decides agree-inside agree-self agree-unmet all-at all-both all-decides all-from all-inline
all-same all-turns and-odd answers-pinned any-in-front apart-holds at-cell at-end at-most-one before-cell below-code below-past
cell-inside column-below count-hit count-miss count-mono count-none count-step dead-end-at differ-more differ-whole digit-and
digit-bounds digit-join digit-le digit-not digit-or digit-whole digits-inline distance-most distance-some distance-whole end-whole
err-ok few-digits finds-any finished-from finished-most finished-once finished-value form-ok from-start front-more given-at
grid-whole has-above has-code has-one hit-none hit-one in-column in-row intersection-code is-setOf keeps-from keeps-once keeps-parts
keeps-value kept-decides key-inline key-join key-told key-whole leads-nowhere leads-on lowest-le lowest-not made-ok mark-at
mark-inline marked-again marked-apart marked-more marks-all marks-inline marks-join marks-line-join marks-line-whole marks-whole
meets-decides nearest-found nearest-in-front nearest-kept nearest-pinned next-even next-join next-whole none-below-more
none-below-one none-filled none-some none-with-at ok-same one-cell one-more one-zero ones-more ones-most ones-none ones-rise or-odd
passed-over pinned-inside pinned-lawful pinned-twice pins-fit row-below same-cells same-digit same-mark same-more same-solutions
same-whole setOf-below setOf-hit setOf-miss setOf-none size-bounds size-pos size-whole some-decides some-same split-at split-join
split-none split-whole strip-again strip-front strip-same subset-number takes-exactly then-at then-ok too-far top-plus total-add
total-below total-none total-same turn-of union-code unused-in with-past with-plus without-code without-past
""".split()

# Lemmas whose names would fall together with a definition's, and those that keep a dash.
OTHERS = {
    "as-key": "as_key_lem",
    "differ-below": "differ_bound",
    "has-setOf": "has-set_of",
    "key-at": "key_at_lem",
    "key-value": "key_value_lem",
}


def snake(name):
    return re.sub(r"(?<=[a-z])([A-Z])", lambda m: "_" + m.group(1).lower(), name)


def table():
    new = dict(TYPES)
    new.update({w: snake(w) for w in WORDS})
    new.update({w: snake(w).replace("-", "_") for w in LEMMAS})
    new.update(OTHERS)
    return new


NEW = table()
NAME = re.compile(r"(?<![\w'-])(?:" + "|".join(re.escape(n) for n in sorted(NEW, key=len, reverse=True)) + r")(?![\w'-])")


def respell(text):
    return NAME.sub(lambda m: NEW[m.group(0)], text)


def main():
    code = [p for kind in ("src/**/*.rt", "specs/**/*.antt", "proofs/**/*.antt") for p in glob.glob("crates/*/" + kind, recursive=True)]
    changed = 0
    # docs/PORT.md tells the older names.
    pages = [p for p in glob.glob("docs/*.md") if p != "docs/PORT.md"]
    for path in code + ["README.md"] + pages:
        text = open(path, encoding="utf8").read()
        if path.endswith(".md"):
            new = re.sub(r"`[^`\n]+`", lambda m: respell(m.group(0)), text)
        elif path.endswith(".rt"):
            new = re.sub(r'"[^"\n]*"|//[^\n]*|[^"/]+|/', lambda m: m.group(0) if m.group(0).startswith(('"', "//")) else respell(m.group(0)), text)
        else:
            new = respell(text)
        if new != text:
            open(path, "w", encoding="utf8").write(new)
            changed += 1
    print(f"respell: {changed} files")


sys.exit(main())
