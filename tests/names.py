"""Names that the documents cite, looked up in the crate that is named with them.

In a table's cell or a paragraph, a crate's plain word right before a name (wire `Fields`) is the crate of it and of all that follow there; before the
first such word it is that of the call that a table's row begins with (`wire::byte_at`), or else the section's own crate, which a line under its
heading names: "Names without a crate are of `section`." In backquotes then:

    a file, `Laws/Exact`       crates/C/specs/Laws/Exact.antt or crates/C/proofs/..; `store.rt` of crates/C/src/
    after `File`: , a name     is defined in that file, up to the next semicolon, the sentence's end or that of the brackets
    a name                     is defined somewhere in crate C: a definition or theorem, a function, type, constant, field or case
    crate::name                is a function of that crate
    an edit                    crates/C/must-fail/NAME.edit or crates/C/wrong-answers/NAME.edit
    a path, tests/house.py     is in the tree; with C for a crate, in some crate
"""
import re
from functools import lru_cache
from pathlib import Path

ROOT = Path(__file__).resolve().parent.parent
CRATES = sorted(p.name for p in ROOT.glob("crates/*") if p.is_dir())
LANGUAGE = {"requires", "ensures", "&[u8]", "&mut", "&"}  # words of Rattle
OWN = re.compile(r"Names without a crate are of `(\w+)`")
PIECES = re.compile(r"`([^`]+)`(:?)|\b(%s)(?= `)|(;|\. |\(|\))" % "|".join(CRATES))


@lru_cache(None)
def text_of(path):
    return path.read_text()


def defined_in(path, name):
    """Whether a file of Rattle or its logic defines the name."""
    word = re.escape(name)
    if path.suffix == ".rt":
        inner = r"^    %s(?:,| ?[({])" if name[0].isupper() else r"^    (?:pub )?%s: "  # a case, or a field
        return re.search(r"\b(?:fn|struct|enum|const|type) %s\b|" % word + inner % word, text_of(path), re.M) is not None
    return re.search(r"^ *(?:(?:pub|abbrev|unfoldable|record|data) )*(?:\w+ )*?%s(?: [^=\n]*)?:" % word, text_of(path), re.M) is not None


def files_named(crate, name):
    home = ROOT / "crates" / crate
    candidates = [home / "specs" / (name + ".antt"), home / "proofs" / (name + ".antt"), home / "src" / name]
    return [p for p in candidates if p.is_file()]


@lru_cache(None)
def sources(crate):
    home = ROOT / "crates" / crate
    return [p for pattern in ("specs/**/*.antt", "proofs/**/*.antt", "src/**/*.rt") for p in home.glob(pattern)]


def edit_of(crate, name):
    """The edit's file, in the gate or on demand."""
    return next((p for p in (ROOT / "crates" / crate / room / (name + ".edit") for room in ("must-fail", "wrong-answers")) if p.exists()), None)


def stands(crate, name):
    """Whether the name stands in the crate."""
    if name in LANGUAGE or name in CRATES or any(ROOT.glob(name.replace("/C/", "/*/"))) and re.search(r"[/.]", name):
        return True
    if "::" in name:
        crate, name = name.split("::")[0], name.split("::")[-1]
        return any(re.search(r"\bfn %s\b" % name, text_of(p)) for p in sources(crate) if p.suffix == ".rt")
    if crate is None:
        return False
    return bool(files_named(crate, name) or edit_of(crate, name) or any(defined_in(p, name) for p in sources(crate)))


def citations(text, crate):
    """Crate, files or None, and name of each citation in a cell or paragraph."""
    files, depth, begun = None, 0, 0
    for name, colon, word, mark in PIECES.findall(text):
        depth += (mark == "(") - (mark == ")")
        if word or mark in (";", ". ") or depth < begun:
            files, begun = None, 0
        crate = word or crate
        if name:
            yield crate, files, name
            if colon and crate and files_named(crate, name):
                files, begun = files_named(crate, name), depth


def faults(document):
    """What the document cites and is not there; and how many names it cites."""
    wrong, count, own = [], 0, None
    for first, cell in cells(document.splitlines()):
        if cell.startswith("## "):
            own = None
        if OWN.search(cell):
            own = OWN.search(cell)[1]
        call = re.fullmatch(r"`(\w+)(?:::\w+)+`", first)
        for crate, files, name in citations(cell, call[1] if call else own):
            count += 1
            if not (any(defined_in(p, name) for p in files) if files else stands(crate, name)):
                wrong.append("%s: `%s`%s" % (crate, name, " in %s" % files[0].relative_to(ROOT) if files else ""))
    return wrong, count


def cells(lines):
    """A table's cells one by one, each with its row's first; a heading; a paragraph as a whole."""
    paragraph = []
    for line in lines + [""]:
        if line.strip() and not line.startswith(("|", "#")):
            paragraph.append(line.strip())
            continue
        if paragraph:
            yield "", " ".join(paragraph)
            paragraph = []
        row = [c.strip() for c in line.strip("|").split("|")] if line.startswith("|") else [line]
        yield from ((row[0], c) for c in row)
