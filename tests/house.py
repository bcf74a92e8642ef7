#!/usr/bin/env python3
"""Holds the sources to what a stranger may expect: within a crate no file goes in a circle with another; nothing stands on the demands; no name is defined in
the specs/ of two crates; in proofs no chain of `.before`, no walk by hand, no comment that is a position in another file; in no source a line over 200
characters."""
import re
import sys
from pathlib import Path

ROOT = Path(__file__).resolve().parent.parent
MOST = 200


def circles(crate):
    """Files of a crate that use each other, directly or over others. The root names its files and is left out."""
    uses = {}
    for source in sorted((crate / "src").rglob("*.rt")):
        if source.stem not in ("lib", "main"):
            uses[source.stem] = {f for f in re.findall(r"^use crate::(\w+)::", source.read_text(), re.M) if (crate / "src" / (f + ".rt")).exists()}
    reach = {f: set(u) for f, u in uses.items()}
    for _ in reach:
        for f in reach:
            reach[f] |= set().union(*(reach.get(g, set()) for g in reach[f]))
    return sorted(f for f in reach if f in reach[f])


def twice_defined():
    """Names that the specs/ of two crates define."""
    where = {}
    for path in sorted((ROOT / "crates").glob("*/specs/**/*.antt")):
        crate = path.relative_to(ROOT / "crates").parts[0]
        for name in re.findall(r"^(?:(?:abbrev|unfoldable) )?pub (?:record |data )?([^\s:({]+)(?= )", path.read_text(), re.M):
            where.setdefault(name, set()).add(crate)
    return {name: crates for name, crates in where.items() if len(crates) > 1 and name not in ("mod", "use")}


def faults():
    for line in (ROOT / "crates.txt").read_text().splitlines():
        if ":" in line and line[0] != "#" and "demands" in line.split(":")[1].split():
            yield "%s stands on demands, which is the roof" % line.split(":")[0]
    for name, crates in sorted(twice_defined().items()):
        yield "%s is defined in specs/ of %s" % (name, " and ".join(sorted(crates)))
    for crate in sorted(p for p in (ROOT / "crates").iterdir() if p.is_dir()):
        round_trip = circles(crate)
        if round_trip:
            yield "%s: files in a circle: %s" % (crate.name, ", ".join(round_trip))
        for path in sorted(p for top in ("src", "specs", "proofs") for p in (crate / top).rglob("*.*t") if p.suffix in (".antt", ".rt")):
            text, where = path.read_text(), path.relative_to(ROOT)
            for i, line in enumerate(text.split("\n"), 1):
                if len(line) > MOST:
                    yield "%s:%d has %d characters" % (where, i, len(line))
                if re.search(r"^\s*-- (src/\S+:\d+|Assumes nothing)", line):
                    yield "%s:%d is a comment that says nothing" % (where, i)
            if path.suffix == ".antt" and re.search(r"(\.before\b){2}", text):
                yield "%s goes places back without a name" % where
            if path.name == "Proof.antt":
                yield "%s walks the code by hand" % where


def long_lines():
    """Of the programs around the crates."""
    for pattern in ("tests/*.py", "tools/*.py", "rust/*/src/**/*.rs", "rust/*/tests/**/*.rs", "include/*.h", "examples/*.c", "tests/*.c"):
        for path in sorted(ROOT.glob(pattern)):
            for i, line in enumerate(path.read_text().split("\n"), 1):
                if len(line) > MOST:
                    yield "%s:%d has %d characters" % (path.relative_to(ROOT), i, len(line))


found = [*faults(), *long_lines()]
print("\n".join(found) or "house: no circle, nothing on the roof, no long way or line")
sys.exit(bool(found))
