#!/usr/bin/env python3
"""The calls that take a record behind a reference. Their theorems of one answer (proofs/Unique.antt) are over the equations of their contracts, written out by hand: here
each premise is held to the contract's text (`ensures` in src/lib.rt), equation by equation, so that changing either alone fails. In the contract's words, `result` is r,
`c.old` the record c, `.now` or `.old` of a slice the slice, `c.new` is d, the record after, and `image.new` is l, the image after; so is `out.new`, the bytes written to.

A premise may leave an equation of the contract out, since fewer leave more answers; which do, is said in LEFT_OUT. None may have one that the contract has not."""
import re
import sys

from calls import ROOT, public_calls

# what the premises do without: by the call, how the equation begins
LEFT_OUT = {
    "carousel_step::step_in": ["number_of_answer r ≡"],  # the answer's number
    "nebosvar::nebosvar_handout": ["take r.length (drop r.at image) ≡"],  # the bytes of the part
}
# of the theorem that compares an entry with the call by value: the value's names
BY_VALUE = {"r": "x", "l": "m"}


def parts(text, mark):
    """The text cut at a mark that stands in no brackets, each part without brackets around it."""
    found, depth, begin = [], 0, 0
    for i, ch in enumerate(text):
        depth += (ch in "([{") - (ch in ")]}")
        if ch == mark and depth == 0:
            found.append(text[begin:i])
            begin = i + 1
    return [bare(p) for p in found + [text[begin:]]]


def bare(text):
    text = " ".join(text.split())
    depth = 0
    for i, ch in enumerate(text):
        depth += (ch == "(") - (ch == ")")
        if depth == 0:
            return text[1:-1] if text[:1] == "(" and i == len(text) - 1 else text
    return text


def renamed(text, names):
    """Variables renamed; a field, `.answer`, is none."""
    return re.sub(r"(?<![\w.'])(%s)(?![\w'])" % "|".join(names), lambda m: names[m[1]], text) if names else text


def contract(source, name):
    """The equations of a call's contract, in the theorem's names."""
    said = re.search(r"\bfn %s\([^{]*?ensures \{(.*?)\}\n\{" % name, source, re.S)[1]
    said = re.sub(r"\bresult\b", "r", said)
    said = re.sub(r"\b(\w+)\.(?:old|now)\b", lambda m: {"stretch": "s", "section": "s"}.get(m[1], m[1]), said)
    said = re.sub(r"\b(\w+)\.new\b", lambda m: {"c": "d", "image": "l", "out": "l"}[m[1]], said)
    return parts(bare(said), "×")


def statement(theorems, name):
    """A theorem's premises, each a list of equations, and its conclusion."""
    found = re.search(r"^( *)pub %s : (.*?)\n\1%s " % (name, name), theorems, re.M | re.S)
    pieces = [parts(p, "×") for p in parts(found[2], "→")]
    said = [p for p in pieces if "≡" in p[0]]
    return said[:-1], said[-1]


def homes(text):
    """The module of each name that is brought in."""
    return {n.strip(): m for m, names in re.findall(r"^(?:ghost )?use (\S+)\.\{([^}]*)\};?$", text, re.M) for n in names.split(",")}


def held(call, premise, equations):
    """What a premise has and the contract has not, and the other way round."""
    left = [e for e in equations if any(e.startswith(b) for b in LEFT_OUT.get(call, []))]
    yield from ("%s: the contract has not: %s" % (call, e) for e in premise if e not in equations)
    yield from ("%s: no premise has: %s" % (call, e) for e in equations if e not in premise + left)
    yield from ("%s: is not left out: %s" % (call, b) for b in LEFT_OUT.get(call, []) if not any(e.startswith(b) for e in left))


def faults(crate, name, source, theorems):
    call = "%s::%s" % (crate, name)
    own = re.search(r"^ *pub (%s) :" % name.replace("_", "[-_]"), theorems, re.M)
    equations = contract(source, name)
    theorem = own[1] if own else "in_place"
    (one, other), same = statement(theorems, theorem)
    yield from held(call, one, equations)
    after = sorted({e.split(" ≡ ")[0] for e in one})
    if other != [renamed(e, {v: v + "'" for v in after}) for e in one]:
        yield "%s: the two premises differ" % call
    if sorted(same) != ["%s ≡ %s'" % (v, v) for v in after]:
        yield "%s: not all that the premises tell is the same" % call
    there, here = homes(source), homes(theorems)
    kit = re.compile(r"Rattle\.std\.|mathlib\.|lib\.|Prim\.|native\.")
    own = [n for n in here if n in there and not (kit.match(there[n]) and kit.match(here[n]))]
    yield from ("%s: %s is not that of the contract" % (call, n) for n in own if here[n] != there[n] and re.search(r"\b%s\b" % n, " ".join(one)))
    if theorem == "in_place":
        value = re.search(r"\bfn %s\(.*?= (\w+)\(\*c," % name, source, re.S)[1]
        (entry, by_value), _ = statement(theorems, "in-place-by-value")
        yield from held(call, entry, equations)
        wanted = [renamed(e, BY_VALUE) for e in contract(source, value)]
        yield from ("%s::%s: the contract has not: %s" % (crate, value, e) for e in by_value if e not in wanted)


def texts(crate):
    home = ROOT / "crates" / crate
    return (home / "src" / "lib.rt").read_text(), (home / "proofs" / "Unique.antt").read_text()


def tried():
    """Changes of one text alone, each of which has to be found."""
    for crate, name, which, old, new in (
        ("carousel_step", "step_in", 0, "s.now image.old).state)", "s.now image.new).state)"),
        ("carousel_step", "step_in", 1, "× (l ≡ image_of c s image)", "× (l ≡ image_of d s image)"),
        ("carousel_step", "step_in", 0, "        × (image.new ≡ image_of c.old s.now image.old)\n", ""),
        ("carousel_step", "step_in", 1, "(x ≡ stepped_of c s image) × (m ≡", "(x ≡ stepped_of c image s) × (m ≡"),
        ("receiver", "run_in", 0, "budget).passage)", "(budget + 1)).passage)"),
        ("receiver", "run_in", 1, "(d' ≡ (ran_of c s image budget).state)", "(d' ≡ (ran_of c s image 0).state)"),
        ("nebosvar", "nebosvar_run", 1, "→ (r ≡ r') × (d ≡ d') × (l ≡ l')", "→ (r ≡ r') × (d ≡ d')"),
        ("nebosvar", "nebosvar_missing", 1, "r ≡ lack_out (report_of c number)", "(r ≡ lack_out (report_of c number)) × (number ≡ 0)"),
        ("nebosvar", "nebosvar_step", 0, "Rattle.carousel_step.specs.Step.{image_of}", "Rattle.carousel_step.specs.Other.{image_of}"),
        ("nebosvar", "nebosvar_handout", 0, "part_out c.now image.now number)", "part_out c.now image.now 0)"),
        ("nebosvar", "nebosvar_section_count", 0, "counted_out (count_answer playlist.now)", "counted_out (count_answer p)"),
        ("nebosvar", "nebosvar_write_section", 1, "× (l ≡ played_bytes identifier playlist image place out)", "× (l ≡ played_bytes identifier playlist image 0 out)"),
        ("nebosvar", "nebosvar_write_section", 1, "→ (r ≡ r') × (l ≡ l')", "→ r ≡ r'"),
        ("nebosvar", "nebosvar_write_section", 0, "place (length out.old)))", "place (length image.old)))"),
    ):
        both = list(texts(crate))
        assert old in both[which], (crate, old)
        both[which] = both[which].replace(old, new)
        if not list(faults(crate, name, *both)):
            yield "%s::%s: not found: %s for %s" % (crate, name, new, old)


def main():
    calls = [c[:2] for c in public_calls() if c[2]]
    wrong = [f for crate, name in calls for f in faults(crate, name, *texts(crate))] + list(tried())
    print("\n".join(wrong) or "entries: the theorems of %d calls behind a reference have the equations of their contracts" % len(calls))
    sys.exit(bool(wrong))


main()
