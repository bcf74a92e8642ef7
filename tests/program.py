#!/usr/bin/env python3
"""The paper's program in plain Python, and its tests.

Written from the paper (01, "The run" and the numbered refusals; points R1 to R7) and 02, §6, §8 and §9, not from the Rattle code: the
carousel's rules are tests/receiver.py, the application rules tests/test_ait.py. Each input below says what it shows and, where the paper's
words tell it, what must come out.

    program.py                 check the inputs, and compare crates/receive/stdin and stdout with the paper's printed example
    program.py sample          the same, but first write the two where they are not there
    program.py run CMD ARG...  run CMD on every input and compare what it prints, byte for byte; then its ends closed, broken, slow
    program.py built           the same of target/bin/receive, which tools/build.sh builds
"""
import fcntl
import os
import random
import shutil
import signal
import subprocess
import sys
import tempfile
import termios
import time
from pathlib import Path
from typing import NamedTuple

import test_ait
import receiver
from test_ait import ait, app, d00, desc
from receiver import BLOCKS, IMAGE, LARGEST, MODULES, TOGETHER, Record, byte5, ddb, dii
from second import ROOT, with_crc, with_place

READ, BUDGET = 65_536, 65_536


# ---- the program


def whole(stretch, at):
    """3 + L, the bytes of the section that begins there."""
    return 3 + stretch[at + 1] % 16 * 256 + stretch[at + 2]


def stop_at(stretch, at, budget):
    """Why the run stops there; None where it takes a section."""
    left = len(stretch) - at
    if left == 0:
        return "end"
    if stretch[at] == 0xFF:
        return "stuffing"
    if left < 3 or left < whole(stretch, at):
        return "short"
    return "budget" if budget == 0 else None


def taken(record, image, s):
    """One section's number, its kind, where it broke (02, §9) or None, and the record after it. The image changes in place."""
    if s[0] != 0x74:
        return receiver.step(record, image, s)
    number = test_ait.judged(s)[0]
    return number, "none" if number else "table", test_ait.place(s), record


def run(stretch, budget, record, image):
    """The number, kind and place of each section, the stop, and the record after it. The image changes in place."""
    answers, at = [], 0
    while not (stop := stop_at(stretch, at, budget - len(answers))):
        end = at + whole(stretch, at)
        number, kind, place, record = taken(record, image, stretch[at:end])
        answers.append((number, kind, place))
        at = end
    return answers, stop, record


def column(place):
    """The last of a section's line: empty where there is no place."""
    return "" if place is None else str(place)


def program(stdin):
    answers, stop, _ = run(stdin[:READ], BUDGET, Record(), bytearray(IMAGE))
    lines = ["%d,%d,%s,%s" % (i, number, kind, column(place)) for i, (number, kind, place) in enumerate(answers)]
    lines = ["index,answer,kind,place"] + lines + ["stop,%s" % stop]
    return "".join(l + "\n" for l in lines).encode()


# ---- an input, and the paper's example


class Input(NamedTuple):
    name: str
    shows: str
    stdin: bytes
    wanted: str | None = None  # where the paper's words tell it: each section's kind, or its number if refused, with its place; then the stop


# A module of 1,000 bytes in blocks of 400 is announced; then block 0, block 0 again, block 0 of another version, its section's too.
FIRST = b"drift 0 " * 50
EXAMPLE = Input(
    "the paper's example",
    "The four sections that the paper prints whole.",
    dii(5, 400, [(1, 1000, 0)]) + ddb(5, 1, 0, 0, FIRST) * 2 + ddb(5, 1, 1, 0, FIRST),
    "new stored repeated 14 end",
)
PRINTED = b"""\
index,answer,kind,place
0,0,new,
1,0,stored,
2,0,repeated,
3,14,none,
stop,end
"""


# ---- the carousel of most inputs. A module: number, size, version

ID, SIZE = 0x0A0B_0C0D, 10
TIDES, DRIFT = (7, 25, 3), (9, 20, 255)  # three blocks, and two that divide evenly


def announcement(modules=(TIDES, DRIFT), **given):
    return dii(**{"download": ID, "block_size": SIZE, "modules": modules, **given})


def contents(module):
    number, size, _ = module
    return bytes((16 * number + k) % 256 for k in range(size))


def block(module, b, /, **given):
    """Block b as announced, unless told otherwise."""
    number, _, version = module
    right = {"download": ID, "module": number, "version": version, "block": b, "data": contents(module)[SIZE * b : SIZE * b + SIZE]}
    return ddb(**{**right, **given})


def spoiled(s):
    return s[:-1] + bytes([s[-1] ^ 1])


def sized(table, length):
    """A section of that L: head and CRC are right where there is room, the body is zeros."""
    s = bytes([table, 0xB0 | length >> 8, length & 255, 0, 0, 0xC1, 0, 0]) + bytes(length)
    return with_crc(s[: length - 1]) if length >= 9 else s[: 3 + length]


# ---- the inputs


def beginnings():
    yield EXAMPLE
    yield Input("nothing", "No byte at all: the header and the stop are printed nevertheless.", b"", "end")
    yield Input("stuffing at once", "0xFF is stuffing, whatever follows it.", b"\xff" + announcement(), "stuffing")
    yield Input("one byte of stuffing", "Stuffing is looked for before short (R1).", b"\xff", "stuffing")
    yield Input("a block first", "The record is empty at the start.", block(TIDES, 0) + announcement() + block(TIDES, 0), "12 new stored end")
    yield Input("downloadId 0 first", "The empty record matches no downloadId, 0 neither.", block(TIDES, 0, download=0), "12 end")


def endings():
    good = announcement() + block(TIDES, 0)
    more = block(TIDES, 1)
    yield Input("stuffing after sections", "What follows the stuffing is not read.", good + b"\xff" * 9 + more, "new stored stuffing")
    yield Input("0xFF within a section", "Stuffing is a section's first byte, no other.", good + block(DRIFT, 0, data=b"\xff" * 10), "new stored stored end")
    for n in (1, 2, 3, 11, len(more) - 1):
        yield Input("a tail of %d bytes" % n, "Of a section of %d bytes only these are there: short." % len(more), good + more[:n], "new stored short")
    yield Input("two bytes alone", "Fewer than 3 bytes, and no section before them.", more[:2], "short")
    yield Input("three bytes that are whole", "L = 0 makes a section of 3 bytes: taken, and refused (R2).", good + b"\x3c\xb0\0", "new stored 4@1 end")
    yield Input("a tail that says 4,095", "The largest L, with one byte too few.", good + sized(0x3C, 4095)[:-1], "new stored short")
    yield Input("a short tail of a table", "Short knows no tables.", good + ait()[:-1], "new stored short")


def full(first=4096):
    """An announcement of so many bytes and 15 blocks of 4,096: with 4,096 it is 65,536 bytes in all."""
    modules = [(1, 15 * LARGEST, 0)]
    pad = first - len(dii(5, LARGEST, modules))
    blocks = [ddb(5, 1, 0, b, bytes([b]) * LARGEST) for b in range(15)]
    return dii(5, LARGEST, modules, private=bytes(pad)) + b"".join(blocks)


def cuts():
    again = ddb(5, 1, 0, 0, bytes(LARGEST))
    every, but_last = "new " + "stored " * 15, "3@0 new " + "stored " * 14
    other = sized(0x00, 0)
    assert [len(full()), len(other)] == [READ, 3]
    yield Input("65,536 bytes", "The last byte that counts ends the last section.", full(), every + "end")
    yield Input("65,535 bytes", "One byte less than would be read.", full(4095), every + "end")
    yield Input("a section beyond", "It begins at byte 65,536 and would be accepted: it is not read.", full() + again, every + "end")
    yield Input("stuffing beyond", "Byte 65,536 is not looked at.", full() + b"\xff", every + "end")
    yield Input("stuffing as the last byte", "Byte 65,535 is.", full(4095) + b"\xff" + again, every + "stuffing")
    yield Input("cut in the last section", "Its last 3 bytes lie beyond.", other + full() + again, but_last + "short")
    yield Input("cut before the last byte", "Its last byte lies beyond.", other + full(4094), but_last + "short")
    for n in (1, 2, 3):
        yield Input("cut after %d bytes of a head" % n, "The rest of the section is there, but beyond.", full(4096 - n) + again, every + "short")
    yield Input("much beyond", "Twice as many bytes as are read.", full() * 2, every + "end")


def tables():
    good = app(d00())
    refused = [
        ("4@6", "section number above last", ait(number=1)),
        ("4@1", "L = 1,022", ait(apps=good * 71 + app(d00(labels=b"\0")))),
        ("5@12", "CRC", spoiled(ait())),
        ("6@5", "not current", ait(byte5=0xC0)),
        ("7", "a descriptor cut off", ait(b"\x15")),
        ("7", "malformed contents", ait(desc(5, b"x"))),
        ("18", "an application without 0x00", ait(apps=app(b""))),
    ]
    accepted = [("empty", ait()), ("L = 1,021", ait(apps=good * 72)), ("common descriptors", ait(desc(0x15, b"/drift"), good))]
    around = [announcement(), block(TIDES, 0), block(TIDES, 0)]
    for number, why, table in refused:
        wanted = "new %s stored %s repeated end" % (number, number)
        yield Input("a table refused: %s" % why, "The carousel around it goes on (R7).", table.join(around), wanted)
    for what, table in accepted:
        yield Input("a table taken: %s" % what, "The carousel around it goes on.", table.join(around), "new table stored table repeated end")
    yield Input("tables alone", "They need no announcement, and an equal one is no repetition.", ait() * 3, "table table table end")
    yield Input("an announcement as table 0x74", "0x74 goes by the application rules.", announcement(table=0x74), "7 end")
    others = [with_crc(bytes([number]) + ait()[1:-4]) for number in (0x3B, 0x3C, 0x75)]
    yield Input("a table as 0x3B, 0x3C and 0x75", "Every other goes by the carousel's.", b"".join(others), "7 7 3@0 end")


ODD_ORDER = announcement() + b"".join(block(m, b) for m, b in ((TIDES, 2), (DRIFT, 1), (TIDES, 0), (DRIFT, 0), (TIDES, 1)))


def block_by_block():
    all_stored = "new stored stored stored stored stored "
    yield Input("two modules, interleaved", "Their blocks come in odd order; both are complete at the end.", ODD_ORDER, all_stored + "end")
    late = block(DRIFT, 1, data=bytes(10)) + block(DRIFT, 1)
    yield Input("a late bad copy", "It is refused, and the good one is still there.", ODD_ORDER + late, all_stored + "17 repeated end")
    again = announcement() + block(TIDES, 0)
    yield Input("the same announcement again", "What was stored stays stored.", ODD_ORDER + again, all_stored + "same repeated end")
    two = block(DRIFT, 0) * 2 + block(DRIFT, 1)
    yield Input("two copies of block 0", "They do not make two blocks: 1 is still to be stored.", announcement() + two, "new stored repeated stored end")
    two = block(TIDES, 0, adaptation=b"abc") + block(TIDES, 0)
    yield Input("adaptation bytes", "They are no data.", announcement() + two, "new stored repeated end")


def announcements():
    one, zero = announcement(), block(TIDES, 0)
    other, others_zero = announcement(download=6), block(TIDES, 0, download=6)
    yield Input(
        "another download in the middle",
        "The old blocks are refused, and each announcement empties all.",
        one + zero + other + zero + others_zero + other + others_zero + one + zero,
        "new stored new 12 stored same repeated new stored end",
    )
    newer = (7, 25, 4)
    yield Input(
        "another version in the middle",
        "The same download without one module, the other newer.",
        one + zero + announcement([newer]) + zero + block(DRIFT, 0) + block(newer, 0) + block(newer, 0),
        "new stored new 14 13 stored repeated end",
    )
    yield Input(
        "refused announcements in the middle",
        "They change nothing.",
        one + zero + announcement(block_size=0) + zero + announcement([TIDES, TIDES]) + zero + spoiled(other) + zero,
        "new stored 10 repeated 11 repeated 5@%d repeated end" % (len(other) - 4),
    )


def kept():
    """02, §5: a module as before, that begins where it did, keeps its blocks. Each input hears block 0 of all modules, then what is told."""
    newer, fronts, third = (7, 25, 4), [(1, 10, 0), (2, 15, 0)], (3, 10, 0)
    three, equal = [TIDES, DRIFT, third], (9, 25, 255)
    zero, drift, first = block(TIDES, 0), block(DRIFT, 0), announcement()
    moved = announcement([*fronts, DRIFT])
    for name, shows, then, wanted in (
        ("one is newer", "The other is kept.", announcement([newer, DRIFT]) + drift + block(newer, 0), "new repeated stored"),
        ("one more", "Both are kept; block 1 was not there.", announcement(three) + zero + block(TIDES, 1) + drift, "new repeated stored repeated"),
        ("at another place", "10 and 15 bytes lie before it now instead of 25.", moved + drift + zero, "new repeated 13"),
        ("and moved back", "From the third place to the second.", moved + first + drift + zero, "new new repeated stored"),
        ("not when swapped", "Both begin elsewhere.", announcement([DRIFT, TIDES]) + zero + drift, "new stored stored"),
        ("not when dropped and announced again", "It begins empty.", announcement([TIDES]) + first + zero + drift, "new new repeated stored"),
        ("not when the one before is shorter", "It begins elsewhere.", announcement([(7, 24, 3), DRIFT]) + zero + drift, "new stored stored"),
        ("not with another block size", "All are emptied.", announcement(block_size=11) + first + zero + drift, "new new stored stored"),
        ("and other bytes refused", "17, as before the announcement.", announcement([newer, DRIFT]) + block(DRIFT, 0, data=bytes(10)), "new 17"),
    ):
        yield Input("kept " + name, shows, first + zero + drift + then, "new stored stored %s end" % wanted)
    of = lambda modules: b"".join(block(m, 0) for m in modules)
    swapped = announcement([DRIFT, TIDES, third]) + of(three)
    yield Input("kept behind two that are swapped", "It begins where it did.", announcement(three) + of(three) + swapped, "new " + "stored " * 3 + "new stored stored repeated end")
    both = announcement([TIDES, equal]) + of([TIDES, equal])
    again = announcement([equal, TIDES]) + of([TIDES, equal])
    yield Input("two of one size swapped", "Neither is kept.", both + again, "new stored stored " * 2 + "end")
    most = [(k, 10_000, 0) for k in range(7)]
    beyond = announcement(most) + ddb(ID, 0, 0, 0, bytes(10))
    within = announcement(most[:6]) + ddb(ID, 0, 0, 0, bytes(10))
    yield Input("kept, and more than the image", "15, and when it fits again the block is there.", within + beyond + within, "new stored new 15 new repeated end")


def soundings():
    sizes = lambda block_size, *sizes: dii(5, block_size, [(k, z, 0) for k, z in enumerate(sizes)])
    data = lambda b, n, **given: ddb(5, 0, 0, b, bytes(n), **given)
    blocks = data(2, 200) + data(1, 400) + data(0, 400)
    yield Input("size 1,000 in blocks of 400", "400, 400 and 200 bytes.", sizes(400, 1000) + blocks, "new stored stored stored end")
    far = data(300, 1, number=44)
    yield Input("block 300 of three", "With section number 44 it passes check 9.", sizes(400, 1000) + far, "new 16 end")
    yield Input("size 800 in blocks of 400", "No last block of 0 bytes.", sizes(400, 800) + data(2, 0) + data(2, 400), "new 16 16 end")
    blocks = data(16, 479) + data(16, 481) + data(16, 480) + data(17, 480)
    yield Input("size 65,536 in blocks of 4,066", "The last of 17 has 480 bytes.", sizes(4066, 65_536) + blocks, "new 16 16 stored 16 end")
    yield Input("blocks of 1", "1,024 are taken, 1,025 not.", sizes(1, 1024) + sizes(1, 1025), "new 10 end")
    ends = data(1023, 1, number=255) + data(1024, 1, number=0)
    yield Input("block 1,023 of 1,024", "Its section number is 255. Of block 1,024 it is 0: 16.", sizes(1, 1024) + ends, "new stored 16 end")
    yield Input("the sizes together", "262,144 are taken, one more is refused.", sizes(400, 262_143, 1) + sizes(400, 262_144, 1), "new 10 end")
    yield Input("size 65,537", "It is announced, and its block is 15: the image has 65,536.", sizes(400, 65_537) + data(0, 400), "new 15 end")


def bigger():
    """02, §8: more than the image holds, 32 modules, 1,024 blocks."""
    sizes = lambda block_size, *sizes: dii(6, block_size, [(k, z, 0) for k, z in enumerate(sizes)])
    data = lambda module, b, n, **given: ddb(**{"download": 6, "module": module, "version": 0, "block": b, "data": bytes([module + 1]) * n, **given})
    one = data(0, 0, 400)
    yield Input(
        "more than the image",
        "Up to 262,144 it is announced, and 15 comes of its blocks; a byte more is refused, and changes nothing.",
        sizes(400, IMAGE + 1) + one + sizes(400, TOGETHER) + one + sizes(400, TOGETHER + 1) + one + sizes(400, TOGETHER) + sizes(400, IMAGE) + one,
        "new 15 new 15 10 15 same new stored end",
    )
    two = data(0, 163, 336) + data(1, 0, 1)
    yield Input("two that are more than the image", "15 also of the first, which would fit.", sizes(400, IMAGE, 1) + two, "new 15 15 end")
    yield Input("two that fill the image", "Its last two bytes.", sizes(400, IMAGE - 1, 1) + data(0, 163, 335) + data(1, 0, 1), "new stored stored end")
    faults = [spoiled(one), data(0, 0, 400, number=1), data(0, 0, 400, download=7), data(9, 0, 400), data(0, 0, 400, version=1)]
    faults += [data(0, 0, 399), data(0, 656, 0), data(0, 700, 400)]
    wanted = "new 5@%d 9 12 13 14 15 15 15 end" % (len(one) - 4)
    yield Input("faults beside 15", "5, 9 and 12 to 14 come before it, and it before 16.", sizes(400, TOGETHER) + b"".join(faults), wanted)
    small = announcement() + block(TIDES, 0)
    yield Input("15 between small ones", "The announcement heard last decides.", small + sizes(400, TOGETHER) + one + small, "new stored new 15 new stored end")
    most = [IMAGE // MODULES] * MODULES
    last = data(MODULES - 1, 5, 48)  # of 2,048
    stretch = sizes(400, *most) + last + last + data(MODULES, 0, 400) + sizes(400, *most, 1) + last
    yield Input("32 modules, and 33", "The last one's last block; 33 are refused, and the block is still there.", stretch, "new stored repeated 13 10 repeated end")
    yield Input("32 modules, two with one number", "The first's and the last's.", dii(6, 400, [(k % (MODULES - 1), 9, 0) for k in range(MODULES)]), "11 end")
    assert IMAGE == 64 * BLOCKS
    told = [(0, 0), (255, 255), (256, 0), (511, 255), (512, 0), (767, 255), (768, 0), (1023, 255)]
    blocks = b"".join(data(0, b, 64, number=n) for b, n in told)
    wrong = data(0, 300, 64, number=45) + data(0, 256, 64, number=1) + data(0, BLOCKS - 1, 63) + data(0, BLOCKS, 64) + data(0, 1280, 0) + data(0, 65_535, 64)
    wanted = "new " + "stored " * 8 + "repeated " * 8 + "9 9 16 16 16 16 end"
    yield Input("blocks above 255", "Four of a section number; 9 for another, 16 past the last.", sizes(64, IMAGE) + blocks * 2 + wrong, wanted)
    other = b"".join(data(0, b, 64, data=bytes(64)) for b, _ in told)
    wanted = "new " + "stored " * 4 + "17 " * 4 + "stored " * 4 + "end"
    yield Input("other bytes above 255", "17 of each that has come, and of no other.", sizes(64, IMAGE) + blocks[: len(blocks) // 2] + other, wanted)


def stale():
    """02, §6: old section headers on new blocks."""
    one = lambda version, header: dii(5, 4, [(1, 4, version)]) + ddb(5, 1, version, 0, b"list", byte5=byte5(header))
    yield Input("section versions", "The module version mod 32.", one(32, 0) + one(33, 0) + one(0, 31) + one(255, 31), "new stored new 9 new 9 new stored end")
    newer = (7, 25, 4)
    relayed = block(newer, 0, byte5=byte5(3))
    yield Input(
        "an old header on a new block",
        "9 before the announcement, and after that of either version; under its own header 12, 14 and stored.",
        relayed + block(newer, 0) + announcement() + relayed + block(newer, 0) + announcement([newer]) + relayed + block(TIDES, 0) + block(newer, 0) + relayed,
        "9 12 new 9 14 new 9 14 stored 9 end",
    )
    every = b"".join(announcement(byte5=byte5(version)) for version in range(32))
    yield Input("announcements of every section version", "It is not looked at there.", every, "new " + "same " * 31 + "end")


# Not among them: 1, since the run begins with the empty record and every step keeps the rule; 2, since only whole sections are
# taken (R2); 15, since these are announced within the image (but see `numbers`); 19 and 20, which no section gets.
FAULTS = {
    3: announcement(table=0x3D),
    4: announcement(number=2, last=1),  # at 6; more of 4 with their places are below
    5: spoiled(announcement()),
    6: announcement(byte5=0xC0),
    7: announcement(tail=b"\0"),
    8: announcement(second=4),
    9: block(TIDES, 0, extension=8),
    10: announcement(block_size=0),
    11: announcement([TIDES, TIDES]),
    12: block(TIDES, 0, download=1),
    13: block(TIDES, 0, module=8),
    14: block(TIDES, 0, version=4),
    16: block(TIDES, 0, data=b"short"),
    17: block(TIDES, 0, data=bytes(10)),
    18: ait(apps=app(b"")),
}
REACHED = {0, 15, *FAULTS}
PLACES = {3: 0, 4: 6, 5: len(FAULTS[5]) - 4, 6: 5}  # of these; the others have none


def numbers():
    good = announcement() + block(TIDES, 0)
    stretch = good + b"".join(s + block(TIDES, 0) for s in FAULTS.values())
    wanted = "new stored " + "".join("%s repeated " % with_place(n, PLACES.get(n)) for n in FAULTS)
    larger = (7, IMAGE + 1, 3)
    fifteen = announcement([larger], block_size=400) + block(TIDES, 0) * 2
    shows = "Each that a run can show, and after each block 0 is still there; last 15, after an announcement beyond the image."
    yield Input("every number", shows, stretch + fifteen, wanted + "new 15 15 end")


def thirteen(table, number=0, last=0, flags=0xB0, byte5=0xC1):
    """A section of L = 13: a table without applications, or no message of a carousel."""
    return with_crc(bytes([table, flags, 13, 0, 1, byte5, number, last]) + bytes.fromhex("f000f000"))


def broken(table):
    """02, §9: whole sections of this table for each place, and what must be told of them; where two numbers apply, the lower one's place."""
    over, syntax, current = {"number": 3, "last": 2}, {"flags": 0x30}, {"byte5": 0xC0}
    yield sized(table, 0), "4@1"
    yield sized(table, 8), "4@1"
    yield thirteen(table, **syntax), "4@1"
    yield thirteen(table, **over, **syntax), "4@1"
    yield with_crc(bytes([table, 0xB0, 8, 0, 1, 0xC1, 255])), "4@1"
    yield spoiled(thirteen(table, **syntax, **current)), "4@1"
    yield thirteen(table, **over), "4@6"
    yield thirteen(table, **over, flags=0xF0), "4@6"
    yield spoiled(thirteen(table, **over, **current)), "4@6"
    yield spoiled(thirteen(table)), "5@12"
    yield spoiled(sized(table, 9)), "5@8"
    yield spoiled(sized(table, 1021)), "5@1020"
    yield spoiled(thirteen(table, **current)), "5@12"
    yield thirteen(table, **current), "6@5"


def other_tables():
    """3 at 0, whatever else is wrong."""
    for table in (0x00, 0x3D, 0x75):
        for s, _ in broken(table):
            yield s, "3@0"


def places():
    ends = lambda told: "".join(word + " " for _, word in told) + "end"
    for table in (0x3B, 0x3C, 0x74):
        told = list(broken(table))
        yield Input("places of 0x%X" % table, "Where each broke: the bytes before it do not count.", b"".join(s for s, _ in told), ends(told))
    told = list(other_tables())
    yield Input("places of other tables", "3 comes before 4, 5 and 6.", b"".join(s for s, _ in told), ends(told))
    told = [pair for table in (0x74, 0x3C, 0x00) for pair in broken(table)]
    stretch = b"".join(s + block(TIDES, 0) for s, _ in told)
    wanted = "".join("%s repeated " % (word if s[0] else "3@0") for s, word in told)
    yield Input("places between blocks", "Nothing changes by any of them.", announcement() + block(TIDES, 0) + stretch, "new stored " + wanted + "end")
    none = announcement() + ait() + ait(b"\x15") + ait(apps=app(b"")) + block(DRIFT, 0, download=1)
    yield Input("no places", "Accepted ones have none, nor have 7, 18 and 12.", none, "new table 7 18 12 end")
    # a place of four digits, and the largest of each rule
    largest = spoiled(sized(0x3C, 4093)) + spoiled(sized(0x74, 1021)) + spoiled(sized(0x3B, 4093))
    yield Input("the last places", "L = 4,093 and 1,021 with a bad CRC.", largest, "5@4092 5@1020 5@4092 end")


def lengths():
    every = (0, 1, 8, 9, 1021, 1022, 4093, 4094, 4095)
    of = lambda table: b"".join(sized(table, n) for n in every)
    of_carousel, of_table = "4@1 4@1 4@1 7 8 8 8 4@1 4@1 end", "4@1 4@1 4@1 7 7 4@1 4@1 4@1 4@1 end"
    yield Input("lengths of 0x3B", "3 to 4,098 bytes: L under 9 or over 4,093 gives 4 at 1.", of(0x3B), of_carousel)
    yield Input("lengths of 0x3C", "The same.", of(0x3C), of_carousel)
    yield Input("lengths of 0x74", "L under 9 or over 1,021 gives 4 at 1.", of(0x74), of_table)
    yield Input("lengths of another table", "3 comes before 4.", of(0x00), "3@0 " * 9 + "end")
    over = lambda table, length: with_crc(bytes([table, 0xB0 | length >> 8, length & 255, 0, 0, 0xC1, 3, 2]) + bytes(length - 9))
    of = lambda table, *every: b"".join(over(table, n) for n in every)
    yield Input("lengths of 0x3C, numbers wrong", "At 6 only within the limits.", of(0x3C, 9, 1022, 4093, 4094, 4095), "4@6 4@6 4@6 4@1 4@1 end")
    yield Input("lengths of 0x74, numbers wrong", "The same.", of(0x74, 9, 1021, 1022, 4093, 4094), "4@6 4@6 4@1 4@1 4@1 end")


THREES = Input(
    "21,845 sections of three bytes",
    "As many as can be; so the budget, 65,536, is never used up.",
    sized(0x3C, 0) * 21_845,
    "4@1 " * 21_845 + "end",
)
# No text is longer: a section of 3 bytes has a line of its own, and of the stops that leave room for so many this has the longest name.
LONGEST = Input("the longest text", "21,845 lines, a byte of stuffing after their sections.", THREES.stdin + b"\xff", "4@1 " * 21_845 + "stuffing")
LONGEST_TEXT = 316_603  # the header's 24, the indices' 98,115, 10 more for each line, the stop's 14


def many():
    yield THREES
    yield LONGEST
    yield Input("65,536 zeros", "The same of table 0, and a byte is left.", bytes(65_536), "3@0 " * 21_845 + "short")
    size = TOGETHER // MODULES
    modules = [(k, size, k) for k in range(MODULES)]
    threes = (sized(0x3C, 0) + sized(0x74, 0)) * 10_500
    stretch = dii(1, size // BLOCKS, modules) + threes
    yield Input("three bytes each, a full record", "It has 32 modules of 1,024 blocks all the while.", stretch, "new " + "4@1 " * 21_000 + "end")
    ends = (0, MODULES - 1)
    modules = [(k, BLOCKS if k in ends else 1, 0) for k in range(MODULES)]
    blocks = [ddb(1, k, 0, 97 * b % BLOCKS, bytes([b % 256])) for b in range(BLOCKS) for k in ends]
    shows = "The first and the last of 32 modules, every block once."
    yield Input("2,048 blocks of one byte", shows, dii(1, 1, modules) + b"".join(blocks), "new " + "stored " * 2048 + "end")
    every = b"".join(sized(table, 0) for table in range(256))
    wanted = ["4@1" if table in (0x3B, 0x3C, 0x74) else "3@0" for table in range(255)]
    yield Input("every table number", "All but 0xFF are taken.", every, " ".join(wanted) + " stuffing")


# ---- at random; what must come out is only what the program above says

LISTS = [[(3, 20, 0), (4, 13, 33)], [(3, 20, 0), (4, 13, 33)], [(4, 13, 33), (259, 8, 255), (3, 20, 32)]]
DESCRIPTORS = [desc(*d) for d in ((1, b"eng\x04tide"), (2, b"\0\1\7\0\1"), (2, b"\0\3\7\1a\0"), (5, bytes(7)), (0x15, b"/x"), (0x33, b"raw"))]


def random_table(rnd):
    some = lambda: b"".join(rnd.choice(DESCRIPTORS) for _ in range(rnd.randrange(3)))
    mostly_one = lambda: rnd.choice([1] * 9 + [0, 2])
    return ait(some(), b"".join(app(some() + d00(labels=some()[:3]) * mostly_one()) for _ in range(rnd.randrange(3))))


def random_block(rnd):
    number, size, version = rnd.choice(rnd.choice(LISTS))
    b = rnd.randrange(-(-size // 8) + (rnd.random() < 0.1))
    data = bytes(number % 256 + b for _ in range(min(8, max(0, size - 8 * b)) + (rnd.random() < 0.05)))
    header = byte5(version + rnd.choice([0] * 19 + [1]))
    return ddb(rnd.choice([1] * 9 + [2]), number, version, b, data if rnd.random() < 0.95 else data[:-1] + b"!", byte5=header)


def damaged(rnd, s):
    """A byte or two changed, but not the length; the CRC is mended, mostly."""
    s = bytearray(s)
    for _ in range(rnd.choice([1, 1, 2])):
        s[rnd.choice([0, 5, 6, 7] + [rnd.randrange(3, len(s) - 4)] * 12)] = rnd.choice([0, 1, 3, 8, 0x3B, 0x3C, 0x74, rnd.randrange(255)])
    return with_crc(bytes(s[:-4])) if rnd.random() < 0.9 else spoiled(bytes(s))


def random_section(rnd):
    roll = rnd.random()
    if roll < 0.08:
        s = dii(rnd.choice([1, 1, 1, 2]), 8, rnd.choice(LISTS * 4 + [LISTS[0] * 2]), info=bytes(rnd.randrange(3)), private=bytes(rnd.randrange(3)))
    else:
        s = random_table(rnd) if roll < 0.18 else random_block(rnd)
    return damaged(rnd, s) if rnd.random() < 0.3 else s


def at_random():
    for seed in range(1, 9):
        yield Input("bytes at random, %d" % seed, "Whatever is heard, each place has its one answer.", random.Random(seed).randbytes(66_000))
    for seed in range(11, 15):
        few = random.Random(seed).choices([0x00, 0x3B, 0x3C, 0x74, 0xB0, 0xC1, 0x11, 0x03], k=66_000)
        yield Input("bytes of few values at random, %d" % seed, "Heads that look right.", bytes(few))
    for seed in range(21, 27):
        rnd = random.Random(seed)
        stretch = b"".join(random_section(rnd) for _ in range(2000))
        yield Input("sections at random, %d" % seed, "A byte or two damaged, the CRC mended; more than 1,000 sections are taken.", stretch)


TOPICS = (beginnings, endings, cuts, tables, block_by_block, announcements, kept, soundings, bigger, stale, numbers, places, lengths, many, at_random)


# ---- what is known of the inputs without the built program


def told(output):
    """An output as an input's `wanted` has it: each section's kind, or its number if refused, with its place; then the stop."""
    *sections, stop = [line.split(",") for line in output.decode().splitlines()[1:]]
    at = lambda place: "@" + place if place else ""
    return [(kind if answer == "0" else answer) + at(place) for _, answer, kind, place in sections] + stop[1:]


def check_order_of_stops():
    """R1, where the program's budget cannot show it."""
    for stretch, wanted in ((b"", "end"), (b"\xff", "stuffing"), (b"\x3c\xb0", "short"), (b"\x3c\xb0\0", "budget")):
        assert stop_at(stretch, 0, 0) == wanted


def check_both_complete():
    image = bytearray(IMAGE)
    _, _, record = run(ODD_ORDER, BUDGET, Record(), image)
    for module in (TIDES, DRIFT):
        assert receiver.handout(record, image, module[0]) == (0, contents(module))


def check_words(cases):
    """Each output is what the paper's words tell, and together they show each number, kind and stop that can be."""
    met = set()
    for i, output in cases:
        words = told(output)
        assert i.wanted is None or words == i.wanted.split(), (i.name, words)
        assert not i.name.startswith("sections at random") or len(words) > 1001, i.name
        met.update(word.split("@")[0] for word in words)
    kinds, stops = {"new", "same", "stored", "repeated", "table"}, {"end", "stuffing", "short"}
    assert met == kinds | stops | {str(n) for n in REACHED - {0}}, met


def cut_up(stretch, count):
    """The first so many sections."""
    at = 0
    for _ in range(count):
        yield stretch[at : at + whole(stretch, at)]
        at += whole(stretch, at)


def clause(s, answer, place):
    """A line's answer and the request's words for its place."""
    if answer == "5":
        assert place == str(len(s) - 4), (place, s.hex())
        return "5 at the first CRC byte"
    return "%s at %s" % (answer, place) if place else answer


def check_places(cases):
    """02, §9: each place by either rule. But 2 never comes, since a taken section is whole, nor 3 of a table: 0x74 is what leads to its rule."""
    met = {"application": set(), "carousel": set()}
    for i, output in cases:
        lines = output.decode().splitlines()
        for line, s in zip(lines[1:-1], cut_up(i.stdin, len(lines) - 2)):
            _, answer, _, place = line.split(",")
            assert answer != "2", i.name
            met["application" if s[0] == 0x74 else "carousel"].add(clause(s, answer, place))
    placed = {"4 at 1", "4 at 6", "5 at the first CRC byte", "6 at 5"}
    assert met["application"] == placed | {"0", "7", "18"}, met
    assert met["carousel"] == placed | {"3 at 0"} | {str(n) for n in REACHED - {3, 4, 5, 6, 18}}, met


def checked_cases():
    """Each input with its output."""
    assert program(EXAMPLE.stdin) == PRINTED
    check_order_of_stops()
    check_both_complete()
    cases = [(i, program(i.stdin)) for topic in TOPICS for i in topic()]
    assert len({i.name for i, _ in cases}) == len(cases), "two inputs of one name"
    check_words(cases)
    check_places(cases)
    assert max(len(output) for _, output in cases) == len(program(LONGEST.stdin)) == LONGEST_TEXT
    return cases


# ---- the built program

LIMIT = 20  # seconds


def differs(name, how):
    sys.exit("program.py: %s: %s" % (name, how))


def check_same(name, got, wanted):
    if got == wanted:
        return
    pairs = zip(got.splitlines(True) + [b"(nothing)"], wanted.splitlines(True) + [b"(nothing)"])
    n, (a, b) = next((n, p) for n, p in enumerate(pairs, 1) if p[0] != p[1])
    differs(name, "line %d is %r, not %r" % (n, a, b))


def check_ended(name, status, stderr, unheard=False):
    """With status 0 and a quiet standard error. Where no one hears it, any status will do, and SIGPIPE, but no other signal."""
    if stderr:
        differs(name, "standard error has %r" % stderr[:200])
    if status != 0 and not (unheard and (status > 0 or status == -signal.SIGPIPE)):
        differs(name, "ended with status %d" % status)


def run_it(command, name, stdin, stdout=subprocess.PIPE, unheard=False, **how):
    """What it printed."""
    try:
        done = subprocess.run(command, stdin=stdin, stdout=stdout, stderr=subprocess.PIPE, timeout=LIMIT, **how)
    except subprocess.TimeoutExpired:
        differs(name, "has not ended after %d s" % LIMIT)
    check_ended(name, done.returncode, done.stderr, unheard)
    return done.stdout


def file_of(data):
    f = tempfile.TemporaryFile(buffering=0)
    f.write(data)
    f.seek(0)
    return f


def from_file(command, i, **how):
    """What it printed. The file's place after it tells how much was read: nothing beyond the first 65,536 bytes."""
    with file_of(i.stdin) as f:
        out = run_it(command, i.name, f, **how)
        if f.tell() > READ:
            differs(i.name, "%d bytes were read" % f.tell())
    return out


def unread(pipe):
    return int.from_bytes(fcntl.ioctl(pipe, termios.FIONREAD, bytes(4)), sys.byteorder)


def feed(process, data, size):
    """Each piece goes into the pipe once the last has been read."""
    give_up = time.monotonic() + LIMIT
    for at in range(0, len(data), size):
        process.stdin.write(data[at : at + size])
        while unread(process.stdin):
            if process.poll() is not None or time.monotonic() > give_up:
                return
            time.sleep(0)


def fed(command, stdin, size, out, err):
    """The status; None where it did not end."""
    process = subprocess.Popen(command, stdin=subprocess.PIPE, stdout=out, stderr=err, bufsize=0)
    try:
        feed(process, stdin, size)
    except BrokenPipeError:
        pass  # it has read what it wants
    process.stdin.close()
    try:
        return process.wait(LIMIT)
    except subprocess.TimeoutExpired:
        process.kill()


def in_pieces(command, i, size):
    """What it printed, its input coming through a pipe in pieces of that size."""
    with file_of(b"") as out, file_of(b"") as err:
        status = fed(command, i.stdin, size, out, err)
        out.seek(0)
        err.seek(0)
        if status is None:
            differs(i.name, "has not ended after %d s" % LIMIT)
        check_ended(i.name, status, err.read())
        return out.read()


def check_unheard(command):
    """Standard output closed, or a pipe that no one reads, with SIGPIPE and without, or a full disk: it ends, and quietly."""
    for i in (EXAMPLE, THREES):
        named = lambda how: i._replace(name="%s, standard output %s" % (i.name, how))
        from_file(command, named("closed"), stdout=None, unheard=True, preexec_fn=lambda: os.close(1))
        for restore in (True, False):
            reader, writer = os.pipe()
            os.close(reader)
            from_file(command, named("a broken pipe"), stdout=writer, unheard=True, restore_signals=restore)
            os.close(writer)
        with open("/dev/full", "wb") as disk:
            from_file(command, named("a full disk"), stdout=disk, unheard=True)


def check_unread(command):
    """Standard input closed, or one that cannot be read: as if there were none."""
    directory = os.open("/", os.O_RDONLY)
    for name, stdin, before in (("standard input closed", None, lambda: os.close(0)), ("standard input a directory", directory, None)):
        check_same(name, run_it(command, name, stdin, preexec_fn=before), program(b""))
    os.close(directory)


def check_pieces(command, cases):
    """From a pipe in pieces as from a file, also where there is more than is read."""
    for i, output in cases:
        if i.name in ("the paper's example", "a tail of 2 bytes", "much beyond", "sections at random, 21"):
            for size in (1, 7, 4096) if len(i.stdin) < 5000 else (7, 4096):
                name = "%s, in pieces of %d" % (i.name, size)
                check_same(name, in_pieces(command, i._replace(name=name), size), output)


def check_beyond(command, cases):
    """Bytes beyond the first 65,536 do not change the output."""
    for i, output in cases:
        for tail in (b"", b"\xff" * 5000, announcement()) if len(i.stdin) >= READ else ():
            other = i._replace(name=i.name + ", another tail", stdin=i.stdin[:READ] + tail)
            check_same(other.name, from_file(command, other), output)


def check_time(command):
    times = []
    for _ in range(3):
        begun = time.monotonic()
        from_file(command, THREES)
        times.append(time.monotonic() - begun)
    print("program.py: %s: %.3f s, best of three" % (THREES.name, min(times)))
    if min(times) >= 1:
        differs(THREES.name, "not under a second")


def kit():
    """The kit's compiler and C library."""
    return Path(shutil.which("rt")).resolve().parents[1] / "toolchain"


def under_the_kit(path):
    """The command that runs a program under the kit's loader."""
    return [kit() / "lib" / "ld-linux-x86-64.so.2", "--library-path", kit() / "lib", path]


def built():
    return under_the_kit(ROOT / "target" / "bin" / "receive")


def check_built(command, cases):
    for i, output in cases:
        check_same(i.name, from_file(command, i), output)
    check_time(command)
    check_beyond(command, cases)
    check_pieces(command, cases)
    check_unread(command)
    check_unheard(command)


# ---- the sample


def settle_sample(write):
    """The crate's stored files are the paper's example."""
    for name, made in (("stdin", EXAMPLE.stdin), ("stdout", PRINTED)):
        path = ROOT / "crates" / "receive" / name
        if write and not path.exists():
            path.parent.mkdir(exist_ok=True)
            path.write_bytes(made)
        if not path.exists() or path.read_bytes() != made:
            sys.exit("%s is not what tests/program.py makes: remove it, run 'program.py sample' and look at the change" % path)


def main():
    arguments = sys.argv[1:]
    if arguments == ["built"]:
        arguments = ["run", *built()]
    if arguments not in ([], ["sample"]) and (len(arguments) < 2 or arguments[0] != "run"):
        sys.exit(__doc__)
    cases = checked_cases()
    counts = "program.py: %d inputs, %d lines" % (len(cases), sum(output.count(b"\n") for _, output in cases))
    if arguments[1:]:
        check_built(arguments[1:], cases)
        print(counts + " compared")
    else:
        settle_sample(arguments == ["sample"])
        print(counts + ", as the paper's words tell; the sample is the paper's example")


if __name__ == "__main__":
    main()
