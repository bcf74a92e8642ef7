#!/usr/bin/env python3
"""Holds docs/NUMBERS.md to the source, row by row (that each name stands in its crate: tests/promises.py):

  the rows are the refusals of include/nebosvar.h, in order, none left out;
  the words stand in the comments of the files that the definitions are in, clause by clause;
  a definition stands beside the number in a table of tests, `(16, meets16 ..)`, or its file has such a table;
  each function that is named gives the number, `return 16;`, `Err(16)`, `Err(refusal(16))`, `number: 16` or `refuse(16)`, and no function besides them does;
  the stored answers of each crate that is named as a test have the number;
  the edits are edits of the gate."""
import re
import sys

import names
from names import ROOT, text_of

# what is returned is a number where it is a u8, `turn` of a packet's counter apart; a place is a usize
GIVEN = r"-> u8\n.*return {0};|\bErr\((?:refusal\()?{0}\)(?! =>)|Refusal {{\s*number: {0},|refuse\({0}\)"
# a line of stored answers, and which of its numbers are refusals; a place may follow one, `5@12`
ANSWERS = {
    "test_section": r"^\w+ (\d+)(?:@\d+)? (\d+)(?:@\d+)?$",
    "test_ait": r"^(?:section|end) (\d+)",
    "test_carousel": r"^(?:step|handout|missing) (\d+)",
    "test_drift": r"^(?:read|write|(?:record|walk) \d) (\d+)",
    "test_play": r"^(?:count|write) (\d+)",
    "test_transport": r"^(?:feed|gather|write) (\d+)",
    "receive": r"^\d+,(\d+),",
}


def rows():
    for line in (ROOT / "docs" / "NUMBERS.md").read_text().splitlines():
        cells = [c.strip() for c in line.strip("|").split("|")]
        if cells[0].isdigit():
            yield int(cells[0]), cells[1:]


def comments(path):
    return " ".join(l.strip("- ") for l in text_of(path).splitlines() if l.startswith("--"))


def named(cell):
    """Each file that a cell names, and each name in it."""
    found = list(names.citations(cell, None))
    return [p for c, _, n in found for p in names.files_named(c, n)], [(files[0], n) for _, files, n in found if files]


def body_of(path, function):
    return re.search(r"\bfn %s\b.*?^}" % function, text_of(path), re.M | re.S)[0]


def givers(number):
    """The functions of the libraries that give it."""
    for path in ROOT.glob("crates/*/src/**/*.rt"):
        for function in re.findall(r"\bfn (\w+)", text_of(path)):
            if function != "turn" and re.search(GIVEN.format(number), body_of(path, function), re.S):
                yield path, function


def compared():
    """The numbers that rust/compare has to meet among packets: it fails where one is rare."""
    return [int(n) for n in re.findall(r"^    \((\d+), \[", text_of(ROOT / "rust/compare/src/packets/counts.rs"), re.M)]


def answers(crate):
    if crate == "compare":
        return compared()
    stored = text_of(ROOT / "crates" / crate / "stdout")
    return [int(n) for groups in re.findall(ANSWERS[crate], stored, re.M) for n in ([groups] if isinstance(groups, str) else groups)]


def check_words(number, words, definition):
    files, _ = named(definition)
    said = " ".join(comments(p) for p in files)
    plain = re.sub(r"\(an? [a-z ]*\)|\(carousel calls\)|^D\w\w(?:, hand-out)?: ", "", words)
    for clause in plain.split(";"):
        assert clause.strip() in said, (number, clause, "is not said beside the definition")


def check_definition(number, definition):
    files, defined = named(definition)
    tables = [p for p in ROOT.glob("crates/*/specs/*.antt")]
    beside = [n for p, n in defined for t in tables if re.search(r"\(%d, (?:not )?\(?%s\b" % (number, n), text_of(t))]
    assert beside or any("(%d, " % number in text_of(p) for p in files), (number, "no table of tests has it beside its definition")


def check_row(number, words, definition, code, theorem, test, edits):
    check_words(number, words, definition)
    check_definition(number, definition)
    assert set(named(code)[1]) == set(givers(number)), (number, "is given by", sorted(set(givers(number)) ^ set(named(code)[1])))
    assert named(theorem)[1], (number, "has no theorem")
    tests = re.findall(r"`(?:rust/)?(\w+)`", test)
    assert tests and all(number in answers(t) for t in tests), (number, "is not among the stored answers of", tests)
    cited = [(c, n) for c, _, n in names.citations(edits, None)]
    assert cited and all((ROOT / "crates" / c / "must-fail" / (n + ".edit")).exists() for c, n in cited), (number, "has an edit that is not in the gate")
    return sum(answers(t).count(number) for t in tests if t != "compare")


def main():
    table = list(rows())
    header = text_of(ROOT / "include" / "nebosvar.h").split("/* Refusals", 1)[1].split("};", 1)[0]
    wanted = [int(n) for n in re.findall(r"= (\d+)", header)]
    assert [0] + [n for n, _ in table] == wanted, wanted
    stored = [check_row(n, *cells) for n, cells in table]
    assert min(stored) > 0, "a number is met by compare alone"
    print("numbers: %d rows hold; each number is among the stored answers at least %d times" % (len(table), min(stored)))


main()
