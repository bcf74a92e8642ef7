#!/usr/bin/env python3
"""seconds.py CRATE [N]: where a crate's check spends its time.

Checks the crate from nothing with `rt check`, which saves each module as soon as it is checked; the time between one file and the
next is the later one's. Prints the N dearest modules (default 30), and the seconds by the modules' last names.
"""
import shutil
import subprocess
import sys
from collections import Counter
from pathlib import Path

ROOT = Path(__file__).resolve().parent.parent
crate = sys.argv[1]
shown = int(sys.argv[2]) if len(sys.argv) > 2 else 30
folder = ROOT / "crates" / crate / "out" / "incremental"
shutil.rmtree(folder, ignore_errors=True)
subprocess.run(["rt", "check"], cwd=ROOT / "crates" / crate, stdout=subprocess.DEVNULL)
saved = sorted((p.stat().st_mtime_ns, p.stem) for p in folder.glob("antt-checked*/*.oantt"))
if not saved:
    sys.exit("seconds.py: rt check in %s saved no module" % crate)
took = Counter({name: (time - before) / 1e9 for (before, _), (time, name) in zip(saved, saved[1:])})
kinds = Counter()
for name, seconds in took.items():
    kinds[name.rsplit(".", 1)[-1]] += seconds
print("%s: %d modules, %.1f s" % (crate, len(saved), sum(took.values())))
for name, seconds in took.most_common(shown):
    print("%7.2f  %s" % (seconds, name))
print("by last name: " + ", ".join("%s %.1f" % k for k in kinds.most_common(6)))
