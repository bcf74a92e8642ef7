#!/usr/bin/env python3
"""The wrong answers of docs/PROMISES.md that are not in the gate: crates/C/wrong-answers/*.edit, in the form of must-fail edits.

    python3 tools/wrong_answers.py              all of them
    python3 tools/wrong_answers.py CRATE ..     those of these crates

They are tried on a copy, in which they stand for the gate's own edits. The prover must refuse each, and says why."""
import shutil
import subprocess
import sys
import time
from pathlib import Path

ROOT = Path(__file__).resolve().parent.parent
COPY = ROOT / "target" / "wrong-answers"


def lay_out(crates):
    """A copy of the crates and of what is proved of them, with the wrong answers of `crates` as its only edits."""
    shutil.rmtree(COPY, ignore_errors=True)
    COPY.mkdir(parents=True)
    shutil.copy(ROOT / "crates.txt", COPY)
    shutil.copytree(ROOT / "crates", COPY / "crates", ignore=shutil.ignore_patterns("must-fail", "wrong-answers"), symlinks=True)
    for crate in crates:
        shutil.copytree(ROOT / "crates" / crate / "wrong-answers", COPY / "crates" / crate / "must-fail")


def main():
    having = sorted(p.parent.name for p in ROOT.glob("crates/*/wrong-answers"))
    crates = sys.argv[1:] or having
    if not set(crates) <= set(having):
        sys.exit("no wrong-answers/ in: %s" % " ".join(sorted(set(crates) - set(having))))
    began = time.time()
    for crate in crates:
        subprocess.run(["rt", "check"], cwd=ROOT / "crates" / crate, check=True, stdout=subprocess.DEVNULL)
    lay_out(crates)
    verdict = subprocess.run(["rt", "must-fail", *crates], cwd=COPY).returncode
    print("%d s" % (time.time() - began))
    sys.exit(verdict)


main()
