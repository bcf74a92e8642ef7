#!/usr/bin/env python3
"""Every name that docs/PROMISES.md and docs/NUMBERS.md cite stands in the crate that is named with it (how: tests/names.py), every edit of the gate and
of the wrong answers is cited in docs/PROMISES.md, and no two edits have one name."""
import re
import sys
from collections import Counter

import names

edits = Counter(p.stem for room in ("must-fail", "wrong-answers") for p in names.ROOT.glob("crates/*/%s/*.edit" % room))
faults = ["two edits are called %s" % e for e, n in edits.items() if n > 1]
counts = []
for document in ("PROMISES.md", "NUMBERS.md"):
    text = (names.ROOT / "docs" / document).read_text()
    wrong, count = names.faults(text)
    faults += ["docs/%s cites what is not there: %s" % (document, w) for w in wrong]
    counts.append("%d of docs/%s" % (count, document))
    if document == "PROMISES.md":
        faults += ["docs/PROMISES.md does not cite the edit %s" % e for e in sorted(set(edits) - set(re.findall(r"`([^`]+)`", text)))]
print("\n".join(faults) or "promises: the names, %s, stand in the crates that are named; %d edits among them" % (" and ".join(counts), len(edits)))
sys.exit(bool(faults))
