#!/usr/bin/env python3
"""Brings this repository's own definitions and lemmas to the spelling of today's Rattle.

usage: python3 tools/respell.py [--list]     at the top of a repository, once, right after /opt/rattle/port/port.py

A word is in snake case; a dash stays where what follows it is itself the name of a definition, of std or of this repository, or a fact with its capital.
What a name is, is read off the lines that define it: in specs/ and in the lemma files of proofs/. Names that Rattle makes, names of src/, hex numbers and
words in strings stay. In .rt files only clauses and ghost lines are turned, in pages and must-fail edits only words that no source document has.
"""

import collections
import os
import re
import sys

WORD = re.compile(r"(?<![A-Za-z0-9_'₀-₉])(?:[A-Za-z_][A-Za-z0-9_'₀-₉]*)(?:-[A-Za-z0-9_'₀-₉∷∙≤∘]+)*")
DEFINED = re.compile(r"^\s*(?:(?:abbrev|unfoldable|opaque|private|ghost|instance)\s+)*(?:pub\s+)?([a-z][A-Za-z0-9_'₀-₉]*(?:-[A-Za-z0-9_'₀-₉]+)*)\s*(?:\(.*\)|\{.*\})?\s*:(?!=)")
IMPORTED = re.compile(r"^use\s+(\S+?)\.?\{([^}]*)\}")
HEX = re.compile(r"^x[0-9A-F_]+$")
KEEP = {"blockSize", "downloadId"}


def files(ends):
    for folder, dirs, names in os.walk("crates"):
        dirs[:] = sorted(d for d in dirs if d != "out")
        for n in sorted(names):
            if n.endswith(ends):
                yield os.path.join(folder, n)


def read(path):
    with open(path, encoding="utf-8") as f:
        return f.read()


def is_function_folder(path):
    parts = path.split(os.sep)
    return "proofs" in parts and os.path.basename(path) in ("Proof.antt", "Invariants.antt", "Answers.antt")


def snake(word):
    """camelCase to snake_case, each part between dashes on its own; a part that begins with a capital is a fact and stays."""
    parts = []
    for part in word.split("-"):
        if part[:1].isupper():
            parts.append(part)
        else:
            part = re.sub(r"(?<=[a-z0-9])([A-Z])", lambda m: "_" + m.group(1).lower(), part)
            parts.append(part[:1] + part[1:].lower() if re.search("[A-Z]", part) and not re.search("_[A-Z]", part) else part)
    return "-".join(parts)


def collect():
    """own: where each name is defined; foreign: names that come from outside."""
    own, foreign, words = collections.defaultdict(set), set(), set()
    for p in files(".antt"):
        text = read(p)
        for m in re.finditer(r"^use\s+(\S+?)\.\{([^}]*)\}", text, re.M):
            if not re.match(r"Rattle\.(?!std\b|core\b)", m.group(1)):
                for n in m.group(2).split(","):
                    foreign.add(n.strip().split(" as ")[0].strip())
        for line in text.splitlines():
            if line.lstrip().startswith("--"):
                continue
            m = DEFINED.match(line)
            if m:
                own[m.group(1)].add(p)
                if "/specs/" in p:
                    words.add(m.group(1))
    return own, foreign, words


def std_words():
    found = set()
    for base in ("std", "core", "std_collections", "std_heap"):
        for folder, dirs, names in os.walk(os.path.join("/opt/rattle/rattle", base)):
            for n in names:
                if n.endswith(".antt"):
                    for m in re.finditer(r"^(?:abbrev|unfoldable|opaque)? ?(?:pub )?([a-z][a-z0-9_']*)\s*:", read(os.path.join(folder, n)), re.M):
                        found.add(m.group(1))
    return found


def dashes(word, names):
    """A dash before a name stays; before a plain word it becomes an underscore."""
    parts = word.split("-")
    out = parts[0]
    for k, part in enumerate(parts[1:], 1):
        joins = part[:1].isupper() or part in names or not part[:1].isalpha()
        out += ("-" if joins else "_") + part
    return out


def table():
    own, foreign, words = collect()
    names = {snake(w) for w in words} | std_words()
    turned = {}
    for w in own:
        if w in foreign or HEX.match(w):
            continue
        if all(is_function_folder(p) for p in own[w]) and not re.search("[A-Z]", w):
            continue
        new = dashes(snake(w), names)
        if new != w:
            turned[w] = new
    return turned, own, foreign


def settle(turned, own, foreign):
    """Names that would fall together: what specs/ defines has the plain name, a lemma gets `_lem`, as CONTRACT_STYLE.md says."""
    back = collections.defaultdict(set)
    for w in own:
        back[turned.get(w, w)].add(w)
    here = {}
    for name, ws in sorted(back.items()):
        if len(ws) == 1 and not (name in foreign and any(w in turned for w in ws)):
            continue
        defs = sorted(w for w in ws if any("/specs/" in p for p in own[w])) or sorted(w for w in ws if "-" not in w)[:1]
        if len(defs) > 1:
            print("BY HAND", name, defs)
        for w in sorted(ws):
            if w in defs and name not in foreign:
                continue
            if w in turned:
                turned[w] = name + "_lem"
            elif name not in foreign and defs:
                here[w] = name + "_lem"
    return turned, here


def is_seen(word, text):
    """Whether a file defines the word as a lemma or imports it."""
    for line in text.splitlines():
        m = DEFINED.match(line)
        if m and m.group(1) == word:
            return True
    return any(word in re.split(r"[,\s]+", m.group(1)) for m in re.finditer(r"^use\s+\S+?proofs\S*?\.\{([^}]*)\}", text, re.M))


def turn_words(text, table, only=None):
    def put(m):
        w = m.group(0)
        if only and not only(w):
            return w
        return table.get(w, w)

    return WORD.sub(put, text)


def is_camel(w):
    return "-" not in w and w not in KEEP


def turn_line(line, table, mark, dashed):
    """Code with the whole table, the comment after `mark` without dashes, strings not at all."""
    at = len(line)
    for m in re.finditer(r'"(?:[^"\\]|\\.)*"|' + re.escape(mark), line):
        if m.group(0) == mark:
            at = m.start()
            break
    code, said = line[:at], line[at:]
    pieces = re.split(r'("(?:[^"\\]|\\.)*")', code)
    pieces = [p if k % 2 else turn_words(p, table, None if dashed else is_camel) for k, p in enumerate(pieces)]
    return "".join(pieces) + turn_words(said, table, is_camel)


def turn_antt(path, table, here):
    text = read(path)
    local = dict(table)
    for w, new in here.items():
        if is_seen(w, text):
            local[w] = new
    out = []
    for line in text.split("\n"):
        m = re.match(r"^(use\s+[^{]*)(\{.*\}.*)$", line)
        if m:
            out.append(m.group(1) + turn_words(m.group(2), local))
        elif line.startswith("use "):
            out.append(line)
        else:
            keep = {}
            for w in here:
                line = re.sub(r"(?<![A-Za-z0-9_'])" + w + r"(?=\.[A-Z])", lambda k: keep.setdefault(k.group(0), f"\u2400{len(keep)}\u2400"), line)
            line = turn_line(line, local, "--", True)
            for w, k in keep.items():
                line = line.replace(k, w)
            out.append(line)
    return "\n".join(out)


def turn_edit(path, table):
    out = []
    antt = True
    for line in read(path).split("\n"):
        if line.startswith("file:"):
            antt = line.rstrip().endswith(".antt")
        if line.startswith(("old:", "new:")):
            line = line[:4] + turn_line(line[4:], table if antt else {w: n for w, n in table.items() if "-" not in w}, "--" if antt else "//", True)
        out.append(line)
    return "\n".join(out)


def turn_page(path, table):
    """Camel words anywhere, words with dashes between backticks."""
    pieces = re.split(r"(`[^`\n]*`)", read(path))
    return "".join(turn_words(p, table, lambda w: w not in KEEP) if k % 2 else turn_words(p, table, is_camel) for k, p in enumerate(pieces))


def main():
    turned, own, foreign = table()
    turned, here = settle(turned, own, foreign)
    if "--list" in sys.argv:
        for w in sorted(turned):
            print(w, turned[w])
        for w in sorted(here):
            print(w, here[w], "(in the files that see the lemma)")
        return
    new = {p: turn_antt(p, turned, here) for p in files(".antt")}
    camel = {w: n for w, n in turned.items() if "-" not in w}
    for p in files(".rt"):
        new[p] = "\n".join(turn_line(line, turned if line.startswith("ghost use") else camel, "//", True) for line in read(p).split("\n"))
    for p in files(".edit"):
        new[p] = turn_edit(p, turned)
    pages = ["README.md"] + [os.path.join("docs", n) for n in sorted(os.listdir("docs")) if n.endswith(".md")]
    for p in pages:
        new[p] = turn_page(p, turned)
    count = 0
    for p, text in new.items():
        if text != read(p):
            with open(p, "w", encoding="utf-8") as f:
                f.write(text)
            count += 1
    print(f"respell: {len(turned)} names, {count} files")


if __name__ == "__main__":
    main()
