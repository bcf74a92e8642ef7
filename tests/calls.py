#!/usr/bin/env python3
"""Demand 1's list: every public call of every library, methods too, is in docs/PROMISES.md under "Every public call", with two wrong answers, each with its edit, and no other is;
and each has its theorem in its crate's proofs/Unique.antt, over the prover's reading of its contract, or by its equations where the prover has none (entries behind a reference)."""
import re
import sys
from collections import Counter
from pathlib import Path

ROOT = Path(__file__).resolve().parent.parent
# What the programs read stands in no argument: the layer over std has no theorem of one answer.
OUTSIDE = {"streams"}
PUBLIC = re.compile(r"^pub (?:extern \"C\" )?fn (\w+)(?:<[^>]*>)?\((.*?)\)", re.M | re.S)
METHODS = re.compile(r"^impl(?:<[^>]*>)? (\w+)(?:<[^>]*>)? \{\n(.*?)^\}", re.M | re.S)
METHOD = re.compile(r"^    pub fn (\w+)(?:<[^>]*>)?\((.*?)\)", re.M | re.S)


def of_source(text):
    """Its public functions and, by their type's name and theirs, the public methods."""
    yield from PUBLIC.findall(text)
    for kind, body in METHODS.findall(text):
        for name, parameters in METHOD.findall(body):
            yield "%s::%s" % (kind, name), parameters


def public_calls():
    """crate::name, and whether it takes a record behind a reference. Public are the functions of src/lib.rt, and those that it names by `pub use`."""
    for root in sorted(ROOT.glob("crates/*/src/lib.rt")):
        if root.parent.parent.name in OUTSIDE:
            continue
        named = set(re.findall(r"\w+", " ".join(re.findall(r"^pub use \w+::(\w+|\{[^}]*\});", root.read_text(), re.M))))
        for source in sorted(root.parent.rglob("*.rt")):
            for name, parameters in of_source(source.read_text()):
                if source == root or name.split("::")[0] in named:
                    yield root.parent.parent.name, name, re.search(r"&(?:mut )?[A-Z]", parameters) is not None


def listed_calls():
    text = (ROOT / "docs" / "PROMISES.md").read_text()
    table = text.split("## Every public call", 1)[1].split("\n## ", 1)[0]
    return Counter(re.findall(r"^\| `(\w+(?:::\w+)+)` \| [^|]+ \| [^|]*`\w+`[^|]* \|$", table, re.M))


def unproved(calls):
    for crate, name, in_place in calls:
        theorems = (ROOT / "crates" / crate / "proofs" / "Unique.antt").read_text()
        stated = re.search(r"^ *pub %s :" % name.replace("_", "[-_]"), theorems, re.M) or "in-place-by-value" in theorems
        if not (re.search(r"\.%s\.Reads as " % name.replace("::", r"\."), theorems) or in_place and stated):
            yield "%s::%s" % (crate, name)


def main():
    calls = list(public_calls())
    found, listed = Counter("%s::%s" % c[:2] for c in calls), listed_calls()
    faults = ["%s is not listed" % c for c in found - Counter(listed.keys())] + ["%s is no public call" % c for c in Counter(listed.keys()) - found]
    faults += ["%s has not two wrong answers" % c for c, n in listed.items() if n != 2] + ["%s has no theorem of one answer" % c for c in unproved(calls)]
    print("\n".join(faults) or "calls: %d public calls, each listed with two wrong answers and proved to leave one answer" % len(calls))
    sys.exit(bool(faults))


if __name__ == "__main__":
    main()
