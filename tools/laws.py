#!/usr/bin/env python3
"""python3 tools/laws.py DIR CRATE..: copies the tree to DIR, and leaves these crates their types, definitions and laws, but no function.

What stands above them can be tried there with `rt check` before their functions are proved, in seconds. Nothing that is proved there
says anything of the code: whatever comes of it is copied back, and proved over the functions.
"""

import re
import shutil
import sys
from pathlib import Path

TYPE = re.compile(r"pub (?:struct|enum|const) (\w+)")
USE = re.compile(r"(pub )?use [\w:]+::(\w+|\{[\w, ]+\});")
MOD = re.compile(r"(?:pub )?mod (\w+);")


def without_functions(text):
    lines, kept, within = text.split("\n"), [], False
    for line in lines:
        if re.match(r'(pub )?(extern "C" )?fn |#\[(tactic|unsafe)', line):
            within = True
        if not within and not line.startswith("ghost use"):
            kept.append(line)
        if line == "}":
            within = False
    return kept


def reduced(line, types, body):
    """A line that brings names in, with those that are still needed; nothing where none is."""
    m = USE.match(line)
    if not m:
        return line
    names = [n for n in re.findall(r"\w+", m[2]) if (n in types if m[1] else re.search(rf"\b{n}\b", body))]
    return line.replace(m[2], names[0] if len(names) == 1 else "{%s}" % ", ".join(names)) if names else None


def reduce(crate):
    files = {path: without_functions(path.read_text()) for path in (crate / "src").glob("*.rt")}
    types = {m[1] for lines in files.values() for m in map(TYPE.match, lines) if m}
    holding = {path.stem for path, lines in files.items() if any(map(TYPE.match, lines))}
    for path, lines in files.items():
        if path.stem not in holding | {"lib"}:
            path.unlink()
            continue
        body = "\n".join(line for line in lines if not USE.match(line) and not MOD.match(line))
        lines = [kept for line in lines if (kept := reduced(line, types, body)) is not None]
        path.write_text("\n".join(line for line in lines if not (m := MOD.match(line)) or m[1] in holding))
    for path in (crate / "proofs").iterdir():
        if path.is_dir() and path.name != "Laws":
            shutil.rmtree(path)
    (crate / "proofs/Unique.antt").unlink(missing_ok=True)
    lib = crate / "proofs/Lib.antt"
    lib.write_text(lib.read_text().replace("pub mod Unique\n", ""))


def main():
    to, crates = Path(sys.argv[1]), sys.argv[2:]
    shutil.copytree(Path(__file__).parents[1], to, symlinks=True)
    for crate in crates:
        reduce(to / "crates" / crate)
        print(f"{crate}: no function")


main()
