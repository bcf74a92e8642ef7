#!/usr/bin/env python3
"""Holds the tree to its rules before anything is proved: every public function has an `ensures` and no
`requires`, no proof assumes anything, and each must-fail edit names the sentence that it is about.
A library's public functions are those of src/lib.rt and those that it names by `pub use`; what is
`pub` in another file serves the crate's own files, and its callers prove what it asks. A program has
no public functions: what is `pub` in its files beside src/main.rt serves these files."""
import re
import sys
from pathlib import Path

ROOT = Path(__file__).resolve().parent.parent
HEAD = re.compile(r"^ *(?:#\[unsafe\(no_mangle\)\]\s*)?pub (?:extern \"C\" )?fn (\w+)(.*?)\{$", re.M | re.S)


# What the system tells stands in no argument, so there is nothing to promise.
SAYS_NOTHING = {"crates/streams/src/lib.rt: argument_count"}


def faults():
    listed = {l.split(":")[0].split()[0] for l in (ROOT / "crates.txt").read_text().splitlines() if ":" in l and l[0] != "#"}
    for crate in sorted(p for p in (ROOT / "crates").iterdir() if p.is_dir()):
        if crate.name not in listed:
            yield "%s is not in crates.txt" % crate.name
        root = crate / "src" / "lib.rt"
        named = set(re.findall(r"\w+", " ".join(re.findall(r"^pub use \w+::(\w+|\{[^}]*\});", root.read_text(), re.M)))) if root.exists() else set()
        for source in sorted(crate.glob("src/**/*.rt")) if root.exists() else []:
            for name, head in HEAD.findall(source.read_text()):
                where = "%s: %s" % (source.relative_to(ROOT), name)
                if where not in SAYS_NOTHING and not re.search(r"^ *ensures", head, re.M):
                    yield where + " promises nothing"
                if (source == root or name in named) and re.search(r"^ *requires", head, re.M):
                    yield where + " is public and asks something of its caller"
        program = crate / "src" / "main.rt"
        for name in re.findall(r"^ *pub fn (\w+)", program.read_text(), re.M) if program.exists() else []:
            yield "%s: %s is public at a program's root, where nobody calls it" % (program.relative_to(ROOT), name)
        for proof in sorted([*crate.glob("specs/**/*.antt"), *crate.glob("proofs/**/*.antt")]):
            if re.search(r"^ *(axiom|postulate)\b", proof.read_text(), re.M):
                yield "%s assumes something" % proof.relative_to(ROOT)
        for edit in sorted(crate.glob("must-fail/*.edit")):
            if not edit.read_text().startswith("# "):
                yield "%s does not say what it is about" % edit.relative_to(ROOT)


found = list(faults())
print("\n".join(found) or "contracts: every public function has an ensures and no requires")
sys.exit(bool(found))
