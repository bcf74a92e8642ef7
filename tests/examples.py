#!/usr/bin/env python3
"""The captures and modules of examples/, made by the second programs, and what README shows of them. (capture.ts is made by tests/transport.py.)

    examples.py          compare the stored files with what is made here, and README with what the second programs print of them
    examples.py --write  the same, but first write the files
    examples.py built    the same, and run what README shows: `./run PROGRAM [ARGUMENTS] < FILE`, or programs one after another, `./run .. | ./run ..`
"""
import re
import subprocess
import sys

import driftlist
import player
import program
import test_inspect
import transport
from receiver import byte5, ddb, dii
from second import ROOT
from test_ait import ait, app, d00, d02, desc

# a program by its arguments and its input: what goes to standard output, and what to standard error
SECOND = {
    "receive": lambda arguments, stdin: (program.program(stdin), b""),
    "inspect": lambda arguments, stdin: (test_inspect.printed(stdin), b""),
    "driftlist": driftlist.printed,
    "player": lambda arguments, stdin: player.printed(arguments, ROOT),
    "sections": transport.sections_printed,
    "packets": transport.packets_printed,
}

# ---- the carousel of the captures: a drift list of 100 bytes and a chart of 60, in blocks of 40

DOWNLOAD, BLOCK = 2026, 40
DRIFT, CHART, NEWER = (1, 100, 3), (2, 60, 0), (2, 60, 1)  # number, size, version
# issue 46: buoy, state (0 none, 1 fix, 2 last known), longitude, latitude, minute of the week
LOOSE = [
    (17, 1, 9_723_456, 26_101_234, 1_445),
    (42, 2, 9_871_003, 25_998_710, 605),
    (43, 0, 0, 0, 2_880),
    (318, 1, 9_000_000, 26_400_005, 1_500),
    (1_204, 1, -6_123_450, 25_712_345, 9_999),
    (1_205, 2, 10_260_000, -1, 10_079),
    (77_001, 1, 9_799_999, 26_099_999, 0),
    (1_048_575, 1, 9_650_112, 26_220_480, 1_439),
]


def contents(module):
    if module == DRIFT:
        return driftlist.spell(46, len(LOOSE), LOOSE)
    number, size, version = module
    return bytes((37 * number + 11 * k + version) % 256 for k in range(size))


def block(module, b, **given):
    number, _, version = module
    right = {"module": number, "version": version, "block": b, "data": contents(module)[BLOCK * b : BLOCK * b + BLOCK], "download": DOWNLOAD}
    return ddb(**{**right, **given})


def announcement(chart=CHART):
    return dii(DOWNLOAD, BLOCK, [DRIFT, chart])


# An application's name in English, the carousel's component 0x40 that carries it (label 7), and its first page
REST = desc(1, b"eng\x0aDrift list") + d02(1, 7, b"\x7f\x40") + desc(0x15, b"drift.html")


def table(own):
    """One application, started by itself."""
    return ait(apps=app(own, 0x17, 0x4001, 1), extension=0x10)


# ---- the captures


def whole():
    """A table and a carousel heard whole: blocks out of order, one twice, the announcement again."""
    yield table(d00(bytes([0, 1, 1, 1, 1]), flags=0xFF, priority=9, labels=b"\x07") + REST)
    yield announcement()
    for module, b in ((DRIFT, 2), (CHART, 0), (DRIFT, 0), (DRIFT, 0)):
        yield block(module, b)
    yield announcement()
    yield block(CHART, 1)
    yield block(DRIFT, 1)


def damaged():
    """The same carousel, badly heard: block 1 of the drift list never comes as announced. The table's application has no 0x00."""
    flipped = bytearray(block(DRIFT, 1))
    flipped[30] ^= 4
    yield table(REST)
    yield announcement()
    yield block(DRIFT, 0)
    yield bytes(flipped)
    yield block(DRIFT, 1, byte5=byte5(2))
    yield block(DRIFT, 1, version=2)
    yield block(DRIFT, 1, download=2025)
    yield block(DRIFT, 0, data=bytes(BLOCK))
    yield block(DRIFT, 2)
    yield block(CHART, 0)
    yield block(CHART, 1)
    yield block(DRIFT, 1)[:50]


def renewed():
    """All is heard, and then a newer chart is announced, of which one block comes. The drift list is as before, and stays."""
    yield announcement()
    for module, b in ((DRIFT, 0), (DRIFT, 1), (DRIFT, 2), (CHART, 0), (CHART, 1)):
        yield block(module, b)
    yield announcement(NEWER)
    yield block(NEWER, 0)


# What must come out by the paper's words: each section's kind, or its number if refused, and where it broke (02, §9); then the stop.
CAPTURES = {
    "whole.sections": (whole(), "table new stored stored stored repeated same stored stored end"),
    "damaged.sections": (damaged(), "18 new stored 5@66 9 14 12 17 stored stored stored short"),
    "renewed.sections": (renewed(), "new stored stored stored stored stored new stored end"),
}


# The same two modules as files, for the player
MODULES = {"drift.list": DRIFT, "chart.bytes": CHART}


def check_file(name, made, write):
    path = ROOT / "examples" / name
    if write:
        path.write_bytes(made)
    if path.read_bytes() != made:
        sys.exit("%s is not what tests/examples.py makes: run it with --write and look at the change" % path)


def check_files(write):
    for name, (sections, wanted) in CAPTURES.items():
        made = b"".join(sections)
        assert program.told(program.program(made)) == wanted.split(), (name, program.told(program.program(made)))
        check_file(name, made, write)
    for name, module in MODULES.items():
        check_file(name, contents(module), write)


# ---- README: each command of one or more programs, with what it prints below it: what they say on standard error, then what the last one writes

STAGE = re.compile(r"\./run (?P<name>\w+)(?P<arguments>(?: [\w./]+)*)(?: < (?P<file>examples/\S+))?(?P<unseen> > /dev/null)?")


def shown():
    """Each command that README shows with what it prints, its programs, and that text; `...` stands for lines left out."""
    lines = (ROOT / "README.md").read_text().splitlines()
    for n, line in enumerate(lines):
        if not line.startswith("    $ ./run "):
            continue
        stages = [STAGE.fullmatch(stage) for stage in line[6:].split(" | ")]
        assert all(stages), line
        text = []
        while n + 1 < len(lines) and lines[n + 1].startswith("    ") and not lines[n + 1].startswith("    $"):
            n += 1
            text.append(lines[n][4:])
        yield line[6:], stages, text


def printed(stages, built):
    """What they print, one after another, by the second programs; and where they are built, by themselves too."""
    out, told = b"", b""
    for stage in stages:
        stdin, name, arguments = (ROOT / stage["file"]).read_bytes() if stage["file"] else out, stage["name"], stage["arguments"].split()
        out, said = SECOND[name]([a.encode() for a in arguments], stdin)
        told += said
        if built:
            got = subprocess.run([ROOT / "run", name, *arguments], input=stdin, capture_output=True, check=True, cwd=ROOT)
            # Before it, ./run may say what it had to prove.
            assert got.stdout == out and got.stderr.endswith(said), "%s prints\n%s%s" % (stage[0], got.stderr.decode(), got.stdout[:2000])
    return told if stages[-1]["unseen"] else told + out


def agree(text, printed):
    """The text is what was printed, but for lines left out at `...`."""
    pattern = "".join("(?:.*\n)+?" if line == "..." else re.escape(line) + "\n" for line in text)
    return re.fullmatch(pattern, printed) is not None


def check_readme(built):
    commands = list(shown())
    stages = [stage for _, stages, _ in commands for stage in stages]
    assert {s["name"] for s in stages} == set(SECOND), stages
    assert {s["file"] for s in stages if s["file"]} == {"examples/" + n for n in (*CAPTURES, "capture.ts")}, stages
    for command, stages, text in commands:
        wanted = printed(stages, built).decode()
        assert agree(text, wanted), "README shows of %s what is not printed:\n%s" % (command, wanted)
    return len(commands)


def main():
    check_files("--write" in sys.argv)
    built = "built" in sys.argv
    shown_of = "./run" if built else "the second program"
    print("examples: %d captures, %d modules; README shows %d commands with what %s prints" % (len(CAPTURES), len(MODULES), check_readme(built), shown_of))


main()
