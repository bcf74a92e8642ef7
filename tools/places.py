#!/usr/bin/env python3
"""Counts the places in crates/*/src that docs/DESIGN-PASS.md speaks of, point by point: tools/places.py [-l] [ROOT]. With -l each place is
listed. Of point 2 the pairs of like places are counted by the workplace's `duplicates`, over copies of the sources."""
import re
import sys
from pathlib import Path

# What such a variant is called.
NONE = "Refused|Nothing|Nowhere|Missing|Malformed|Unresolved|Whole|Stopped"

# What is looked for, over each file's whole text: a point, what it is, and how it is found.
LOOKED_FOR = [
    ("1", "own enums of the shape of Option or Result: a variant that says none, refused or stopped",
     r"^    (?:%s)\b[^\n=]*,$(?![^}]*^    (?:%s)\b[^\n=]*,$)" % (NONE, NONE)),
    ("1", "functions that answer a refusal's number, 0 for none", r"\bfn \w*(?:refusal\w*|handout_number)\s*\([^)]*\)\s*->\s*u8\b"),
    ("1", "functions that answer 0, or how many there are, where there is none",
     r"\bfn (?:measured_size|measured_end|size_of|size_at|base_size|framed_size|whole_at|size_of_both|modules_end|place_of|place_in|place_from)\b\s*\([^)]*\)\s*->\s*usize\b"),
    ("1", "a value that stands for none: a zero record, a place past the end, a size of 0",
     r"\bfn (?:none_listed|none_gathered|module_at\s*\([^)]*\)\s*->\s*Listed|last_after|no_place|pass_some|put_packets|put_section)\b"),
    ("1", "a flag or a number beside the value that it is about", r"^    (?:pub )?(?:failed: bool|heard: bool|payload: bool|start: bool|refusal: u8|missing: usize|number: u8),$(?![^}]*repr)"),
    ("1", "numbers in place of words: constants that count words up", r"^pub const \w+: usize = \w+ \+ \d+;$"),
    ("1", "the refusal itself as a number", r"^    pub number: u8,$|Result<[^<>]*(?:<[^<>]*>)?[^<>]*, u8>"),
    ("3", "loops that count by hand", r"^ +(?:while (?!let\b)|loop\b)"),
    ("4", "comparison, choice of the less, absolute value by hand",
     r"\bfn (?:is_same_module|is_still|is_unused|at_zero|within|absolute|magnitude|lesser|less|used|after_word|sum)\b"),
    ("4", "copying and conversion by hand",
     r"\bfn (?:put_words|put|listed|entry|fix_of|state_of|state_number|class_of|control_of|class_number|control_number|stop_number|kind_number|answer_number|carousel_fate|described_out"
     r"|found_out|fed_out|gathered_out|packed_out|counted_out|played_out|list_out|fix_out|written_out|fate_out|what_out|kind_of|asked_by|rules_of)\b\s*\("),
    ("4", "printing by hand: fields put one by one", r"\bfn (?:put_line|put_field|put_fields|print_\w+)\b"),
    ("5", "parameters that always travel together: a buffer and a place in it", r"out: &mut (?:\[u8\]|Buffer),\s*at: usize"),
    ("5", "the same: an array and how many of it are meant", r"(?:ms|modules): \[(?:Listed|Module); MOST_MODULES\],\s*n: usize|ns: &\[u16\],\s*n: usize"),
    ("5", "the same: a walk over packets", r"pid: u16,\s*packets: &\[u8\],\s*last: usize"),
    ("5", "the same: a record's head, a place and the entry there", r"h: Head,\s*place: usize,\s*m: Module"),
    ("6", "an array with its length in a field beside it", r"^    pub count: u16,\n    pub modules: \["),
    ("6", "records laid into bytes by hand", r"^pub const STATE_LENGTH: usize"),
    ("7", "a switch on which test or step to run", r"^pub enum (?:Test|Step)\b|^enum (?:Test|Step)\b"),
]


def main():
    listed = "-l" in sys.argv
    named = [a for a in sys.argv[1:] if a != "-l"]
    root = Path(named[0]) if named else Path(__file__).resolve().parent.parent
    sources = [(p, p.read_text()) for p in sorted(root.glob("crates/*/src/**/*.rt"))]
    for point, what, pattern in LOOKED_FOR:
        found = [(p, t.count("\n", 0, m.start()) + 1) for p, t in sources for m in re.finditer(pattern, t, re.M)]
        print("%s  %4d  %s" % (point, len(found), what))
        if listed:
            for p, line in found:
                print("            %s:%d" % (p.relative_to(root), line))
    answers = sum(len(re.findall(r"^pub [^\s:]+ : goal\.", p.read_text(), re.M)) for p in root.glob("crates/*/proofs/**/Answers.antt"))
    lines = sum(p.read_text().count("\n") for p in root.glob("crates/*/proofs/**/*.antt"))
    print("8  %4d  answers in proofs, and %d lines of proofs" % (answers, lines))


main()
