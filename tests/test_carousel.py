#!/usr/bin/env python3
"""What crates/test_carousel must print, by a second program.

Written from the paper (01, "The messages" to "False bearings"; 02, §5, §6, §8 and §9), not from the Rattle code: the receiver is
tests/receiver.py, and here are the sequences that both are led through. Where a sequence knows its answer from the paper's words, it says so (`wanted`), and
where a section broke (`place`). A step's refusal is printed with its place, where it has one: `5@12`.

    test_carousel.py          compare crates/test_carousel/stdin and stdout with what this program makes
    test_carousel.py --write  write both
    test_carousel.py --count  and say on standard error how often each number and kind was met
"""
import random
import sys
from collections import Counter

import receiver
from receiver import BLOCKS, IMAGE, LARGEST, MODULES, TOGETHER, WORDS, byte5, ddb, dii, message, section
from second import settle, with_crc, with_place

FIELDS = ["download", "block_size", "count", "number", "size", "version", "start", "marks"]
MEMORY = TOGETHER + 64
ALL = 0xFFFF_FFFF  # a word of marks
BITS = dict(zip(FIELDS, (32, 16, 16, 16, 32, 8, 32, 32)))


def mixed(d, n):
    return (d * 16777619 + n + 1) % 4294967291


def digest(numbers):
    d = 0
    for n in numbers:
        d = mixed(d, n)
    return d


def halves(n):
    return [n >> 16, n & 0xFFFF]


def fields(r):
    return [r.download, r.block_size, r.count] + [f for m in r.modules for f in m.fields()] + [r.marks]


def record_digest(r):
    *words, marks = fields(r)
    words += [marks >> 32 * i & ALL for i in range(MODULES * WORDS)]
    return digest(h for w in words for h in halves(w))


class Script:
    """The commands so far, and what the program must print."""

    def __init__(self):
        self.given, self.lines, self.met, self.places, self.large = bytearray(), [], Counter(), Counter(), 0
        self.record, self.image, self.beyond = receiver.Record(), bytearray(), bytearray(MEMORY)

    def command(self, letter, *parts):
        self.given += letter + b"".join(n.to_bytes(k, "big") for n, k in parts)

    def start(self, length, fill=0):
        self.command(b"s", (length, 3), (fill, 1))
        self.shown(length)
        self.record, self.image = receiver.Record(), bytearray([fill]) * length
        self.lines.append("start %d" % length)

    def length(self, n):
        self.command(b"l", (n, 3))
        self.shown(n)
        self.lines.append("length %d" % n)

    def shown(self, n):
        """The image is the first n bytes of a memory; what lies past it is kept, and shown when it grows."""
        memory = self.image + self.beyond
        assert len(memory) == MEMORY
        self.image, self.beyond = memory[:n], memory[n:]

    def poke(self, field, value, place=0):
        self.command(b"p", (FIELDS.index(field), 1), (place, 2), (value, 4))
        value %= 1 << BITS[field]
        if field == "marks":
            self.record.marks = self.record.marks & ~(ALL << 32 * place) | value << 32 * place
        else:
            setattr(self.record if hasattr(self.record, field) else self.record.modules[place], field, value)
        self.lines.append("poke")

    def peek(self, field, place=0):
        if field == "marks":
            return self.record.marks >> 32 * place & ALL
        return getattr(self.record if hasattr(self.record, field) else self.record.modules[place], field)

    def paint(self, place, value):
        self.command(b"i", (place, 3), (value, 1))
        self.image[place] = value
        self.lines.append("paint")

    def step(self, s, wanted=None, place=None):
        self.command(b"t", (len(s), 2))
        self.given += s
        before, bytes_before = fields(self.record), bytes(self.image)
        n, kind, at, self.record = receiver.step(self.record, self.image, s)
        assert wanted in (None, n, kind) and place in (None, at), (wanted, place, n, kind, at, s.hex())
        self.place_met(s, n, at)
        if kind in ("none", "same", "repeated"):
            assert before == fields(self.record) and bytes_before == self.image
        self.large += len(self.image) > 70_000
        self.met["step %d" % n if n else kind] += 1
        self.lines.append("step %s %s %08x %08x" % (with_place(n, at), kind, record_digest(self.record), digest(self.image)))
        return n, kind

    def place_met(self, s, n, at):
        """02, §9: each of 2 to 6 has its place, and nothing else has one."""
        places = {2: {len(s): "the lent length"}, 3: {0: "zero"}, 4: {1: "one", 6: "six"}, 5: {len(s) - 4: "the first CRC byte"}, 6: {5: "five"}}
        self.places["%d at %s" % (n, places[n][at]) if n in places else "none"] += 1
        assert n in places or at is None, (n, at)

    def handout(self, number, wanted=None):
        self.command(b"h", (number, 2))
        n, part = receiver.handout(self.record, self.image, number)
        assert wanted in (None, n), (wanted, n)
        assert (n == 0) == (part != b"")
        self.met["handout %d" % n] += 1
        self.lines.append("handout %d %d %08x" % (n, len(part), digest(part)))

    def missing(self, number, wanted=None):
        """wanted: the number of a refusal, or the list of missing blocks."""
        self.command(b"m", (number, 2))
        n, blocks = receiver.missing(self.record, number)
        assert wanted in (None, n or blocks), (wanted, n, blocks)
        self.met["missing %d" % n if n or blocks else "missing none"] += 1
        self.lines.append("missing %d" % n + ("" if n else " %d %d" % (len(blocks), blocks[0]) if blocks else " none"))

    def ask(self, *numbers):
        for n in numbers:
            self.missing(n)
            self.handout(n)


# ---- one carousel that most sequences use: three blocks, one block, and two that divide evenly

ID, SIZE = 0x0A0B_0C0D, 10
LIST = [(7, 25, 3), (0x1234, 10, 0), (9, 20, 255)]
TOTAL = 55
PATTERN = bytes(range(100, 155))


def announcement(**given):
    return dii(ID, SIZE, LIST, **given)


def block(place, b, data=None, **given):
    """A block of LIST as it should be, unless told otherwise."""
    number, size, version = LIST[place]
    at = sum(z for _, z, _ in LIST[:place]) + SIZE * b
    right = PATTERN[at : at + min(SIZE, size - SIZE * b)] if SIZE * b < size else b""
    arguments = {"download": ID, "module": number, "version": version, "block": b, "data": right if data is None else data, **given}
    return ddb(**arguments)


EVERY = [(0, 0), (0, 1), (0, 2), (1, 0), (2, 0), (2, 1)]


def begun(t, length=TOTAL, blocks=(), fill=0):
    t.start(length, fill)
    t.step(announcement(), "new")
    for b in blocks:
        t.step(block(*b), "stored")


def filled(size):
    return bytes(k * 7 % 251 for k in range(size))


# ---- the sequences


def soundings(t):
    t.start(1000)
    t.step(dii(5, 400, [(1, 1000, 0)]), "new")
    t.missing(1, [0, 1, 2])
    t.step(ddb(5, 1, 0, 0, filled(400)), "stored")
    t.step(ddb(5, 1, 0, 2, filled(200)), "stored")
    t.missing(1, [1])
    t.handout(1, 20)
    t.step(ddb(5, 1, 0, 300, b"x", number=44), 16)
    t.step(ddb(5, 1, 0, 300, b"x", number=45), 9)
    t.step(ddb(5, 1, 0, 1, filled(399)), 16)
    t.step(ddb(5, 1, 0, 1, filled(400)), "stored")
    t.ask(1, 0, 2)
    t.start(800)
    t.step(dii(5, 400, [(1, 800, 0)]), "new")
    for data in (b"", b"x", filled(400)):
        t.step(ddb(5, 1, 0, 2, data), 16)
    for size, number in ((262_143, "new"), (262_144, 10)):
        t.step(dii(5, 400, [(1, size, 0), (2, 1, 0)]), number)
    t.length(1024)
    for size, number in ((1024, "new"), (1025, 10)):
        t.step(dii(5, 1, [(1, size, 0)]), number)
    t.step(ddb(5, 1, 0, 1023, b"x", number=255), "stored")
    t.step(ddb(5, 1, 0, 1024, b"x", number=0), 16)
    # the four sections of the paper's run
    t.start(1)
    t.step(dii(5, 2, [(1, 1, 0)]), "new")
    for version, wanted in ((0, "stored"), (0, "repeated"), (1, 14)):
        t.step(ddb(5, 1, version, 0, b"x"), wanted)
    # the largest block, and the last of 17
    t.start(65_536)
    t.step(dii(5, LARGEST, [(1, 65_536, 0)]), "new")
    largest = ddb(5, 1, 0, 0, filled(LARGEST))
    assert len(largest) == 3 + 4093
    t.step(largest, "stored")
    for data, wanted in ((filled(479), 16), (filled(481), 16), (filled(480), "stored")):
        t.step(ddb(5, 1, 0, 16, data), wanted)
    t.step(ddb(5, 1, 0, 17, b"x"), 16)
    t.missing(1, list(range(1, 16)))
    t.step(ddb(5, 1, 1, 0, b"x"), 14)
    for length, wanted in ((65_535, 15), (65_537, 16), (65_536, 16)):
        t.length(length)
        t.step(ddb(5, 1, 0, 0, b"x"), wanted)
        t.handout(1)
    t.poke("marks", (1 << 17) - 1)
    t.handout(1, 0)
    t.length(65_535)
    t.handout(1, 15)
    # 65,537 bytes: 65 x 1,008, and 17. Announced; in the programs' image its blocks are 15, in one of a byte more they are stored
    t.length(IMAGE)
    t.step(dii(5, 65, [(1, 65_537, 0)]), "new")
    last = ddb(5, 1, 0, 1008, filled(17), number=240)
    for length, wanted, handed in ((IMAGE, 15, 15), (IMAGE + 1, "stored", 20), (IMAGE, 15, 15)):
        t.length(length)
        t.step(last, wanted)
        t.handout(1, handed)


def most(t):
    """An image of 262,144 bytes, as many as the sizes may be together."""
    t.start(0)
    t.step(dii(5, 400, [(1, TOGETHER - 1, 0), (2, 1, 0)]), "new")
    for length, data, wanted in ((-1, b"z", 15), (0, b"z", "stored"), (0, b"y", 17), (1, b"z", "repeated")):
        t.length(TOGETHER + length)
        t.step(ddb(5, 2, 0, 0, data), wanted)
        t.handout(2, 15 if wanted == 15 else 0)
    t.missing(1, list(range(656)))
    t.length(0)
    t.step(dii(5, 256, [(1, TOGETHER, 0)]), "new")
    t.length(TOGETHER)
    t.step(ddb(5, 1, 0, BLOCKS - 1, filled(256)), "stored")
    t.step(ddb(5, 1, 0, BLOCKS, b""), 16)
    for w in range(WORDS):
        t.missing(1, list(range(32 * w, BLOCKS - 1)))
        t.poke("marks", ALL, w)
    t.handout(1, 0)
    t.length(TOGETHER - 1)
    t.handout(1, 15)


def framing(t):
    """7 and 8: each length too long and too short by one, adaptation bytes, the exception."""
    begun(t, blocks=[(0, 0)])
    for n in (0, 1, 2, 4, 11):
        t.step(section(0x3B, message(0x1002, b"")[:n]), 7)
        t.step(section(0x3C, bytes(n)), 7)
    t.step(section(0x3B, message(0x1002, b"")), 7)
    t.step(section(0x3C, bytes(12)), 8)
    for k, wrong in enumerate(({"first": 0x10}, {"second": 0x02}, {"code": 0x1006}, {"code": 0x1003}, {"code": 0x0002}, {"code": 0x1102})):
        for more in ({}, {"size": 999, "privates": 9}) if k < 2 else ({},):
            t.step(dii(ID, SIZE, LIST[:1], **wrong, **more), 8)
    for k, wrong in enumerate(({"first": 0x91}, {"second": 0x13}, {"code": 0x1002}, {"code": 0x1001})):
        for more in ({}, {"size": 0}, {"adapted": 255}) if k < 2 else ({},):
            t.step(block(0, 1, **wrong, **more), 8)
    for adaptation in (b"", b"ab", bytes(range(255))):
        n = len(adaptation)
        t.step(announcement(adaptation=adaptation), "same")
        t.step(block(0, 0, adaptation=adaptation), "repeated")
        for less in (-1, 1) if n < 255 else ():
            if 0 <= n + less:
                t.step(announcement(adaptation=adaptation, adapted=n + less), 7)
            t.step(announcement(adaptation=adaptation, size=len(announcement()) - 24 + n + less), 7)
            t.step(block(0, 0, adaptation=adaptation, size=16 + n + less), 7)
        if n < 255:
            t.step(block(0, 0, adaptation=adaptation, adapted=n + 1), 9)
    t.step(block(0, 0, adapted=1, module=0x0100), 9)
    for size in range(8):
        short = message(0x1003, bytes([0, 7, 3, 255, 0, 0, 99])[:size], ID)
        t.step(section(0x3C, short, extension=7, byte5=byte5(3)), 7 if size < 6 else 16)
        t.step(section(0x3C, message(0x1003, bytes(size), ID, b"ab"), extension=7), 7 if size < 6 else 9)
    for adapted, wanted in ((15, 7), (16, 7), (17, 7), (11, 7), (255, 7)):
        t.step(block(0, 0, adapted=adapted), wanted)
    for part in ("info", "compatibility", "private"):
        told = {"info": "infos", "compatibility": "compatible", "private": "privates"}[part]
        for contents in (b"", b"info!"):
            t.step(announcement(**{part: contents}), "same")
            for n in {max(0, len(contents) - 1), len(contents) + 1} - {len(contents)}:
                t.step(announcement(**{part: contents, told: n}), 7)
    t.step(dii(ID, SIZE, LIST[:1], info=bytes(255), compatibility=bytes(256), private=bytes(257)), "new")
    t.step(announcement(), "new")
    t.step(announcement(info=b"in", compatibility=b"compatible", private=b"private", adaptation=b"adapted"), "same")
    t.step(announcement(compatible=65_535), 7)
    t.step(announcement(privates=65_535), 7)
    t.step(announcement(tail=b"\0"), 7)
    for n in (0, 2, 4, 65_535):
        t.step(announcement(count=n), 7)
    # cut anywhere: only the whole fits
    payload = announcement(info=b"i", compatibility=b"co", private=b"pri")[20:-4]
    for n in range(len(payload) + 1):
        if n % 8 == 0 or n > len(payload) - 5 or 16 < n < 22:
            t.step(section(0x3B, message(0x1002, payload[:n])), 7 if n < len(payload) else "same")
    t.ask(7, 0x1234)


def headers(t):
    """2 to 6, and what of the header is not looked at."""
    begun(t, blocks=[(0, 0)])
    for whole in (announcement(), block(0, 0)):
        for n in (0, 1, 2, 3, 4, 11, 12, len(whole) - 1):
            t.step(whole[:n], 2, n)
        t.step(whole + b"\0", 2, len(whole) + 1)
        t.step(whole[:-1] + bytes([whole[-1] ^ 1]), 5, len(whole) - 4)
        for k in (3, 5, 8, 20, len(whole) - 4):
            t.step(whole[:k] + bytes([whole[k] ^ 0x10]) + whole[k + 1 :], 5, len(whole) - 4)
    for length in (0, 8, 9):
        s = with_crc(bytes([0x3B, 0xB0, length, 0, 0, 0xC1, 0, 0])[: length - 1]) if length else b"\x3b\xb0\x00"
        t.step(s, *(4, 1) if length < 9 else (7, None))
    for table in (0x00, 0x3A, 0x3D, 0x74, 0xFF):
        t.step(announcement(table=table), 3, 0)
        t.step(block(0, 0, table=table), 3, 0)
    t.step(announcement(table=0x3C), 8)
    t.step(block(0, 0, table=0x3B), 8)
    t.step(announcement(flags=0x30), 4, 1)
    t.step(block(0, 0, flags=0x70), 4, 1)
    t.step(announcement(number=2, last=1), 4, 6)
    t.step(block(0, 1, last=0), 4, 6)
    # numbers wrong and the syntax indicator 0, or L; the numbers alone, though 5 and 6 apply as well
    t.step(section(0x3B, b"", number=3, last=2, flags=0x30), 4, 1)
    t.step(with_crc(bytes([0x3C, 0xB0, 8, 0, 0, 0xC1, 255])), 4, 1)
    t.step(section(0x3C, b"", number=3, last=2, byte5=0xC0)[:-1] + b"\0", 4, 6)
    t.step(announcement(byte5=0xC0), 6, 5)
    t.step(block(0, 0, byte5=0xFE), 6, 5)
    for same in (
        {"extension": 0xFFFF}, {"byte5": 0x01}, {"byte5": 0xFF}, {"number": 5, "last": 5}, {"flags": 0xC0}, {"flags": 0xF0},
        {"identifier": 0xFFFF_FFFF}, {"unread": 0}, {"unread10": bytes([9] * 10)},
    ):
        t.step(announcement(**same), "same")
    for same in ({"byte5": 0x07}, {"byte5": 0x47}, {"byte5": 0x87}, {"last": 0}, {"flags": 0x80}, {"unread": 0}, {"reserved": 0}):
        t.step(block(0, 0, **same), "repeated")
    for nine in ({"extension": 8}, {"extension": 0x0107}, {"number": 1}, {"extension": 0, "number": 3}):
        t.step(block(0, 0, **nine), 9)


def stale(t):
    """9 for the section version (02, §6): the message's module version mod 32, before any look at the record."""
    for version, header, wanted in ((32, 0, "stored"), (33, 0, 9), (0, 31, 9), (255, 31, "stored")):
        t.start(1)
        t.step(dii(5, 2, [(1, 1, version)], byte5=byte5(header)), "new")
        t.step(ddb(5, 1, version, 0, b"x", byte5=byte5(header)), wanted)
    # no announcement; another download, module, version, image, length, other bytes: 9 under an old header, and else their own
    old = {"byte5": byte5(2)}
    t.start(TOTAL)
    t.step(block(0, 0, **old), 9)
    t.step(block(0, 0), 12)
    begun(t, blocks=[(0, 0)])
    for wrong, number in (({"download": 1}, 12), ({"module": 8}, 13), ({"version": 35}, 14), ({"version": 4}, 14), ({"data": b"x"}, 16), ({"data": bytes(10)}, 17)):
        t.step(block(0, 0, **wrong, **old), 9)
        t.step(block(0, 0, **wrong), number)
    # a block of another version under the header of the announced one, and the announced one under that of the other
    t.step(block(0, 1, version=4, byte5=byte5(3)), 9)
    t.step(block(0, 1, byte5=byte5(4)), 9)
    t.length(TOTAL - 1)
    t.step(block(0, 1, **old), 9)
    t.step(block(0, 1), 15)
    t.length(TOTAL)
    t.missing(7, [1, 2])
    # a header wrong in one bit
    for bit in range(5):
        t.step(block(0, 1, byte5=byte5(3 ^ 1 << bit)), 9)
    t.step(block(0, 1, size=1, **old), 7)
    t.step(block(0, 1, second=4, **old), 8)
    t.step(block(0, 1), "stored")


def limits(t):
    """10 and 11."""
    t.start(0)
    for size, wanted in ((0, 10), (1, "new"), (LARGEST, "new"), (LARGEST + 1, 10), (65_535, 10)):
        t.step(dii(1, size, [(3, 1, 1)]), wanted)
    for count, wanted in ((0, 10), (1, "new"), (MODULES, "new"), (MODULES + 1, 10)):
        modules = [(k, 100 + k, k) for k in range(count)]
        t.step(dii(1, 50, modules), wanted)
        t.ask(0, MODULES - 1, MODULES)
    t.step(dii(1, 0, [(5, 1, 0), (5, 1, 0)]), 10)
    # with 256 the most blocks are the most bytes
    for size in (1, 50, 256):
        for z, wanted in ((0, 10), (BLOCKS * size, "new"), (BLOCKS * size + 1, 10), (0xFFFF_FFFF, 10)):
            t.step(dii(size, size, [(5, z, 0)]), wanted)
    t.step(dii(1, 1, [(k, BLOCKS + k // (MODULES - 1), 0) for k in range(MODULES)]), 10)  # the last of them alone is over
    t.step(dii(1, LARGEST, [(5, BLOCKS * LARGEST, 0)]), 10)
    t.step(dii(1, LARGEST, [(5, TOGETHER, 0)]), "new")
    t.step(dii(1, LARGEST, [(5, TOGETHER + 1, 0)]), 10)
    half, share = TOGETHER // 2, TOGETHER // MODULES
    for sizes, wanted in (
        ([TOGETHER - 1, 1], "new"), ([1, TOGETHER - 1], "new"), ([TOGETHER - 1, 2], 10), ([2, TOGETHER - 1], 10), ([TOGETHER, 1], 10), ([1, TOGETHER], 10),
        ([half, half], "new"), ([half, half + 1], 10), ([share] * MODULES, "new"), ([share] * (MODULES - 1) + [share + 1], 10),
        ([0xFFFF_FFFF, 1], 10), ([1, 0], 10), ([0, 1], 10),
    ):
        t.step(dii(1, 400, [(k, z, 9) for k, z in enumerate(sizes)]), wanted)
    but_one = list(range(MODULES - 1))
    for numbers, wanted in (
        ([1, 1], 11), ([1, 2, 1], 11), ([1, 2, 2], 11), ([0, 0xFFFF], "new"), ([0, 0], 11), ([1, 257], "new"),
        (but_one + [0], 11), (but_one + [MODULES - 2], 11),
    ):
        t.step(dii(1, 8, [(n, 3 + k, k) for k, n in enumerate(numbers)]), wanted)


def announcements(t):
    """Same and new. Nothing of the image changes by a new one."""
    begun(t, blocks=EVERY, fill=7)
    t.ask(7, 0x1234, 9)
    t.step(announcement(), "same")
    t.step(announcement(info=b"x", private=b"y", compatibility=b"z", adaptation=b"w", identifier=3, extension=99), "same")
    t.ask(7, 0x1234, 9, 8)
    t.step(dii(ID + 1, SIZE, LIST), "new")
    t.missing(7, [0, 1, 2])
    t.step(announcement(), "new")
    t.step(block(0, 0), "stored")
    t.missing(7, [1, 2])
    # the same list with a number twice, or over a limit, is no announcement
    t.step(dii(ID, SIZE, LIST + [(7, 25, 3)]), 11)
    t.step(dii(ID, 0, LIST), 10)
    # downloadId 0 is like any other, and the empty record has none
    t.start(TOTAL)
    t.step(block(0, 0, download=0), 12)
    t.step(block(0, 0), 12)
    t.ask(0, 7)
    t.step(dii(0, SIZE, LIST), "new")
    t.step(block(0, 0), 12)
    t.step(block(0, 0, download=0), "stored")
    t.step(dii(0, 1, [(0, 1, 0)]), "new")
    t.step(ddb(0, 0, 0, 0, b"z"), "stored")
    t.ask(0, 7)


FULL = [0b111, 0b1, 0b11]  # the marks of LIST, module by module


def held(t, *marks):
    """The marks are these, module by module, and no other is set."""
    assert t.record.marks == sum(m << BLOCKS * i for i, m in enumerate(marks)), hex(t.record.marks)


def keeping(t):
    """02, §5: what is and begins as before keeps its marks, at its new place. All else begins empty, and no image byte moves."""
    seven, middle, nine = LIST
    others = [
        # what is announced, the marks then, and those when LIST is announced again
        (dii(ID ^ 0x8000_0000, SIZE, LIST), [], []),
        (dii(ID, SIZE + 1, LIST), [], []),
        (dii(ID, SIZE - 1, LIST), [], []),
        # other orders: 7 and 9 turn about 0x1234; all begin elsewhere; the first two are swapped, and 9 begins where it did
        (dii(ID, SIZE, [nine, middle, seven]), [], []),
        (dii(ID, SIZE, [middle, nine, seven]), [], []),
        (dii(ID, SIZE, [middle, seven, nine]), [0, 0, 3], [0, 0, 3]),
        # dropped and announced again, at the end and in front of others; one more; one in front
        (dii(ID, SIZE, LIST[:2]), [7, 1], [7, 1]),
        (dii(ID, SIZE, [seven, nine]), [7], [7]),
        (dii(ID, SIZE, LIST + [(0, 1, 0)]), FULL, FULL),
        (dii(ID, SIZE, [(0, 1, 0)] + LIST), [], []),
        # another version, number or size; then the size of the one before, and of two alike
        (dii(ID, SIZE, LIST[:2] + [(9, 20, 254)]), [7, 1], [7, 1]),
        (dii(ID, SIZE, [(7, 25, 35), middle, nine]), [0, 1, 3], [0, 1, 3]),
        (dii(ID, SIZE, LIST[:2] + [(10, 20, 255)]), [7, 1], [7, 1]),
        (dii(ID, SIZE, [(0x1007, 25, 3), middle, nine]), [0, 1, 3], [0, 1, 3]),
        (dii(ID, SIZE, LIST[:2] + [(9, 19, 255)]), [7, 1], [7, 1]),
        (dii(ID, SIZE, [seven, (0x1234, 9, 0), nine]), [7], [7]),
        (dii(ID, SIZE, [(7, 24, 3), (0x1234, 11, 0), nine]), [0, 0, 3], [0, 0, 3]),
        # at other places: two instead of one, and one instead of two
        (dii(ID, SIZE, [(1, 10, 0), (2, 15, 0), middle, nine]), [0, 0, 1, 3], [0, 1, 3]),
        (dii(ID, SIZE, [(1, 35, 0), nine]), [0, 3], [0, 0, 3]),
    ]
    begun(t, TOTAL, EVERY, 7)
    for k, (other, then, again) in enumerate(others):
        held(t, *FULL)
        t.step(other, "new")
        held(t, *then)
        t.missing((7, 0x1234, 9)[k % 3])
        t.step(announcement(), "new")
        held(t, *again)
        for i, m in enumerate(FULL):
            if m not in again[i : i + 1]:
                t.poke("marks", m, WORDS * i)
    assert bytes(t.image) == PATTERN
    # two of one size swapped, and the old bytes of another version
    t.step(dii(ID, SIZE, [(3, 10, 0), (4, 10, 0)]), "new")
    t.poke("marks", 1)
    t.poke("marks", 1, WORDS)
    t.step(dii(ID, SIZE, [(4, 10, 0), (3, 10, 0)]), "new")
    held(t)
    t.step(dii(ID, SIZE, [(4, 10, 1), (3, 10, 0)]), "new")
    t.handout(4, 20)
    assert bytes(t.image) == PATTERN
    # complete, kept and handed out at once; then 15, and handed out where there is room again
    begun(t, TOTAL, EVERY)
    t.step(dii(ID, SIZE, [(7, 25, 4), middle, nine]), "new")
    for number, wanted in ((7, 20), (0x1234, 0), (9, 0)):
        t.handout(number, wanted)
    t.step(block(2, 1), "repeated")
    t.step(block(2, 1, bytes(10)), 17)
    t.step(dii(ID, SIZE, [(7, 25, 4), middle, nine, (0, 1, 0)]), "new")
    t.missing(9, [])
    t.handout(9, 15)
    t.step(block(2, 1), 15)
    t.length(TOTAL + 1)
    t.handout(9, 0)
    # 1,024 marks from the last place to the second, and back
    many = [(i, 1, 0) for i in range(MODULES - 1)] + [(99, BLOCKS, 0)]
    few = [(100, MODULES - 1, 0), (99, BLOCKS, 0)]
    t.step(dii(1, 1, many), "new")
    for k, w in enumerate(range((MODULES - 1) * WORDS, MODULES * WORDS)):
        if k % 8 in (0, 7):
            t.poke("marks", ALL >> k, w)
    last = t.record.marks >> BLOCKS * (MODULES - 1)
    for modules, place in ((few, 1), (many, MODULES - 1)):
        t.step(dii(1, 1, modules), "new")
        assert t.record.marks == last << BLOCKS * place != 0
        t.missing(99)


def blocks(t):
    """12 to 17, stored and repeated."""
    begun(t, fill=0xEE)
    for place, b in ((0, 2), (2, 0), (1, 0), (0, 0), (2, 1)):
        t.step(block(place, b, adaptation=b"abc"[place:]), "stored")
        t.ask(7, 0x1234, 9)
        t.step(block(place, b), "repeated")
    t.step(block(0, 1, version=4), 14)
    t.step(block(0, 1, download=ID - 1), 12)
    for module in (0, 6, 8, 0x0700, 0xFFFF):
        t.step(block(0, 1, module=module), 13)
    for size in (0, 1, 9, 11, 20):
        t.step(block(0, 1, b"q" * size), 16)
    for size in (0, 4, 6, 10):
        t.step(block(0, 2, b"q" * size), 16)
    for b in (3, 256, BLOCKS - 1, BLOCKS, 65_535):
        for data in (b"", b"q" * 10):
            t.step(block(0, b, data), 16)
    for place, b in ((1, 1), (2, 2)):
        for data in (b"", b"q" * 10):
            t.step(block(place, b, data), 16)
    for b in (256, BLOCKS):
        t.step(block(0, b, PATTERN[:10]), 16)
    # 17, and it does not overwrite
    for k in (0, 5, 9):
        t.step(block(0, 0, PATTERN[:k] + b"\0" + PATTERN[k + 1 : 10]), 17)
        t.step(block(0, 0), "repeated")
    t.step(block(0, 2, b"other"), 17)
    t.step(block(0, 0, PATTERN[:9]), 16)
    t.paint(3, 1)
    t.step(block(0, 0), 17)
    t.step(block(0, 0, PATTERN[:3] + b"\1" + PATTERN[4:10]), "repeated")
    t.paint(3, PATTERN[3])
    t.step(block(0, 0), "repeated")
    t.paint(10, 77)
    t.step(block(0, 0), "repeated")
    t.step(block(0, 1), "stored")
    t.ask(7, 0x1234, 9)
    t.paint(30, 78)
    t.handout(0x1234, 0)
    # two copies of block 0 do not make two blocks
    begun(t)
    for wanted in ("stored", "repeated", "repeated"):
        t.step(block(2, 0), wanted)
        t.missing(9, [1])
        t.handout(9, 20)
    t.step(block(2, 1), "stored")
    t.handout(9, 0)


def many_blocks(t):
    """1,024 blocks of a byte, the last of them, and 32 modules with marks in their first and last words."""
    t.start(BLOCKS + 41, 0xEE)
    t.step(dii(1, 1, [(1, BLOCKS, 0), (2, 40, 0), (3, 1, 0)]), "new")
    # four blocks share a section number: the number in the message tells them apart
    heard = []
    for b, number in ((0, 0), (255, 255), (256, 0), (511, 255), (512, 0), (767, 255), (768, 0), (1023, 255), (31, 31), (32, 32), (992, 224)):
        t.step(ddb(1, 1, 0, b, bytes([b // 4]), number=number), "stored")
        heard.append(b)
        t.missing(1, [n for n in range(BLOCKS) if n not in heard])
    t.step(ddb(1, 1, 0, 512, bytes([128]), number=0), "repeated")
    t.step(ddb(1, 1, 0, 768, bytes([0]), number=0), 17)
    for b, number in ((256, 1), (1023, 254), (1024, 1)):
        t.step(ddb(1, 1, 0, b, b"a", number=number), 9)
    for b in (1024, 1280):
        t.step(ddb(1, 1, 0, b, b"a", number=0), 16)
    for b in (39, 0, 31, 32, 40):
        t.step(ddb(1, 2, 0, b, b"b"), 16 if b == 40 else "stored")
        t.ask(2)
    for w in range(WORDS):
        t.poke("marks", ALL, w)
        if w in (0, 7, 8, WORDS - 2, WORDS - 1):
            t.ask(1)
    t.poke("marks", ALL, WORDS)
    t.missing(2, list(range(33, 39)))
    t.poke("marks", 0xFF, WORDS + 1)
    t.ask(2, 3)
    t.poke("marks", 0x7FFF_FFFF, WORDS - 1)
    t.missing(1, [1023])
    t.handout(1, 20)
    t.poke("marks", 0xFFFF_FFFE, 0)
    t.missing(1, [0, 1023])
    # a last block at each end of a word: every mark up to it, and then the one past it
    counts = [31, 32, 33, BLOCKS - 1, BLOCKS]
    t.start(0)
    t.step(dii(1, 1, [(i, n, 0) for i, n in enumerate(counts)]), "new")
    t.length(sum(counts))
    for i, n in enumerate(counts):
        for w in range(-(-n // 32)):
            t.poke("marks", (1 << min(32, n - 32 * w)) - 1, WORDS * i + w)
        t.handout(i, 0)
        past = BLOCKS * i + n
        before = t.peek("marks", past // 32)
        t.poke("marks", before | 1 << past % 32, past // 32)
        t.missing(i, 1)
        t.poke("marks", before, past // 32)
        t.missing(i, [])
    # every module of 1,024: block i of it, and the last but i; then the last module's last block
    t.start(0)
    t.step(dii(2, 1, [(100 + i, BLOCKS, i) for i in range(MODULES)]), "new")
    for i in range(MODULES):
        t.poke("marks", 1 << i, WORDS * i)
        t.poke("marks", 1 << 31 - i, WORDS * i + WORDS - 1)
    for i in range(MODULES):
        t.missing(100 + i, [b for b in range(BLOCKS) if b not in (i, BLOCKS - 1 - i)])
    number, version = 99 + MODULES, MODULES - 1
    for w in range(WORDS):
        t.poke("marks", ALL if w < WORDS - 1 else 0x7FFF_FFFF, WORDS * (MODULES - 1) + w)
    t.missing(number, [1023])
    t.handout(number, 15)
    t.length(MODULES * BLOCKS)
    t.handout(number, 20)
    t.step(ddb(2, number, version, 1023, b"l", number=255), "stored")
    assert t.peek("marks", MODULES * WORDS - 1) == ALL
    t.missing(number, [])
    t.handout(number, 0)
    t.step(ddb(2, number, version, 1023, b"m", number=255), 17)


def lengths(t):
    """15: the image against the sum of all sizes, also for blocks that would fit."""
    begun(t, 0)
    for n, wanted in ((0, 15), (1, 15), (TOTAL - 1, 15), (TOTAL, "stored"), (TOTAL + 1, "repeated"), (TOTAL + 9, "repeated"), (TOTAL, "repeated"), (54, 15), (55, "repeated")):
        t.length(n)
        t.step(announcement(), "same")
        t.step(block(1, 0), wanted)
        t.step(block(1, 0, version=9), 14)
        t.step(block(1, 0, b""), 15 if wanted == 15 else 16)
        t.ask(0x1234, 7, 5)
    t.length(TOTAL - 1)
    t.step(dii(ID, SIZE, LIST[:2]), "new")
    t.step(block(1, 0), "repeated")
    for length in (0, 1, 2):
        t.start(length, 9)
        t.step(dii(3, 1, [(1, 1, 0)]), "new")
        t.step(ddb(3, 1, 0, 0, b"p"), 15 if length == 0 else "stored")
        t.ask(1)


def pairs(t):
    """Each two faults that can meet in one section: the lower number is given."""
    cut = lambda s: s[:-1]
    spoil = lambda s: s[:-1] + bytes([s[-1] ^ 0x55])
    head = {3: {"table": 0x3D}, 4: {"number": 9, "last": 8}, 6: {"byte5": 0xC0}, 7: {"size": 1}, 8: {"second": 4}}
    after = {2: cut, 5: spoil}
    of_block = {**head, 9: {"extension": 0x7777}, 12: {"download": 1}, 13: {"module": 99}, 14: {"version": 200}, 16: {"data": b"012345678"}, 17: {"data": b"0123456789"}}
    of_list = {**head, 10: {"block_size": 0}, 11: {"modules": LIST[:1] * 2}}
    begun(t, blocks=[(0, 0)])

    def tried(faults, make, a, b):
        given = {**faults.get(b, {}), **faults.get(a, {})}
        s = make(**given)
        for n in (5, 2):
            s = after[n](s) if n in (a, b) else s
        lower = 8 if {a, b} == {7, 8} else min(a, b)
        if 15 in (a, b):
            t.length(TOTAL - 1)
        t.step(s, lower)
        if 15 in (a, b):
            t.length(TOTAL)

    numbers = sorted(set(of_block) | set(after) | {15})
    for a in numbers:
        for b in numbers:
            if a <= b:
                tried(of_block, lambda **g: block(0, 0, **g), a, b)
    numbers = sorted(set(of_list) | set(after))
    for a in numbers:
        for b in numbers:
            if a <= b:
                tried(of_list, lambda **g: dii(**{"download": ID, "block_size": SIZE, "modules": LIST[:1], **g}), a, b)
    # all at once, from the front
    faults = [{"table": 0x3D}, {"number": 9, "last": 8}, {"byte5": 0xC0}, {"second": 4}, {"size": 1}, {"extension": 0x7777}, {"download": 1}, {"version": 200}, {"data": b"x"}]
    for k, wanted in enumerate((3, 4, 6, 8, 7, 9, 12, 14, 16)):
        t.step(block(0, 0, **{key: v for f in faults[k:] for key, v in f.items()}), wanted)


def broken(t):
    """Records that break their rule: every call answers 1, and nothing changes. Mended, all is as before."""
    begun(t, TOTAL + 5, EVERY)
    # module 7 has 3 blocks in words 0 to 31, 0x1234 one in 32 to 63, 9 two in 64 to 95
    last, words = MODULES - 1, MODULES * WORDS
    ways = [
        ("count", MODULES + 1, 0), ("count", 65_535, 0), ("count", 2, 0), ("count", 4, 0), ("count", 0, 0), ("count", MODULES, 0),
        ("block_size", 0, 0), ("block_size", LARGEST + 1, 0), ("block_size", 65_535, 0), ("block_size", 13, 0), ("block_size", 25, 0),
        ("size", 0, 1), ("size", BLOCKS * SIZE + 1, 2), ("size", 0xFFFF_FFFF, 0), ("size", 0xFFFF_FFFF, 2), ("size", 26, 0), ("size", 9, 1), ("size", 10, 2), ("size", 1, 2),
        ("number", 7, 1), ("number", 0x1234, 2), ("number", 9, 0),
        ("start", 1, 0), ("start", 24, 1), ("start", 26, 1), ("start", 34, 2), ("start", 36, 2), ("start", 0, 2), ("start", 0xFFFF_FFFF, 0),
        ("number", 1, 3), ("size", 1, 3), ("version", 1, 3), ("start", 55, 3), ("number", 1, last), ("size", 0x100_0000, last), ("version", 128, last), ("start", 1, last),
        ("marks", 15, 0), ("marks", 0x8000_0007, 0), ("marks", 1, 1), ("marks", 1, 8), ("marks", 0x10, 16), ("marks", 0x8000_0000, WORDS - 1),
        ("marks", 3, WORDS), ("marks", 1, WORDS + 1), ("marks", 0x8000_0000, 2 * WORDS - 1), ("marks", 7, 2 * WORDS), ("marks", 1, 2 * WORDS + 8),
        ("marks", 1, 3 * WORDS - 1), ("marks", 1, 3 * WORDS), ("marks", 1, 127), ("marks", 1, 128), ("marks", 1, words - WORDS), ("marks", 0x8000_0000, words - 1),
    ]
    for k, (field, value, place) in enumerate(ways):
        before = t.peek(field, place)
        t.poke(field, value, place)
        assert not receiver.ruled(t.record), (field, value, place)
        t.step((announcement(), block(0, 2), dii(1, 1, [(1, 1, 1)]), block(0, 2))[k % 4], 1)
        t.handout((7, 0x1234, 9)[k % 3], 1)
        t.missing((7, 0x1234, 9, 8)[k % 4], 1)
        t.poke(field, before, place)
        t.handout((7, 0x1234, 9)[k % 3], 0)
    # changed as well, but not broken
    for field, value, place in (("download", 0, 0), ("size", 11, 2), ("block_size", 9, 0), ("version", 9, 0), ("number", 0, 1), ("marks", 0, 0), ("marks", 5, 0), ("marks", 2, 2 * WORDS)):
        before = t.peek(field, place)
        t.poke(field, value, place)
        assert receiver.ruled(t.record), (field, value, place)
        t.ask(7, 0x1234, 9, 0)
        t.step(block(0, 0))
        t.poke(field, before, place)
    # 1 before every other number
    t.poke("start", 1)
    for s in (
        b"", block(0, 0)[:-1], block(0, 0, table=0x74), block(0, 0, flags=0), block(0, 0)[:-1] + b"\0", block(0, 0, byte5=0),
        block(0, 0, size=3), block(0, 0, first=0), block(0, 0, extension=1), dii(1, 0, []), dii(1, 1, [(1, 1, 1)] * 2),
        block(0, 0, download=1), block(0, 0, module=1), block(0, 0, version=1), block(0, 5, b""), block(0, 0, b"0123456789"), announcement(),
    ):
        t.step(s, 1)
    t.length(3)
    t.step(block(0, 0), 1)
    t.ask(7, 8)
    # no announcement: then all is zero
    t.start(20, 1)
    for field, value, place in (
        ("download", 1, 0), ("download", 0x8000_0000, 0), ("block_size", 1, 0), ("count", 1, 0), ("count", MODULES + 1, 0), ("count", 0x8000, 0),
        ("number", 1, 0), ("size", 1, 0), ("version", 1, 0), ("start", 1, 0), ("start", 1, 7), ("version", 255, last), ("marks", 1, 0),
        ("marks", 0x8000_0000, 0), ("marks", 2, 77), ("marks", 0x8000_0000, 127), ("marks", 1, 128), ("marks", 1, words - 1), ("marks", 0x8000_0000, words - 1),
    ):
        t.poke(field, value, place)
        t.step(dii(1, 1, [(1, 1, 1)]) if value % 2 else ddb(0, 0, 0, 0, b"x"), 1)
        t.missing(0, 1)
        t.handout(0, 1)
        t.poke(field, 0, place)
    t.ask(0)
    t.step(dii(1, 1, [(1, 1, 1)]), "new")
    # the sum, with each size within its own limit
    for sizes, good in (([TOGETHER - 1, 1], True), ([TOGETHER - 1, 2], False), ([TOGETHER], True), ([TOGETHER + 1], False), ([160_000, 160_000], False)):
        t.start(10)
        t.poke("block_size", 400)
        t.poke("count", len(sizes))
        for i, z in enumerate(sizes):
            t.poke("number", i, i)
            t.poke("size", z, i)
            t.poke("start", sum(sizes[:i]), i)
        assert receiver.ruled(t.record) == good
        t.step(ddb(0, 0, 0, 0, b""), 15 if good else 1)
        t.ask(0, 1)
    # the largest block, and one more
    t.start(9)
    t.step(dii(1, LARGEST, [(5, 9, 1)]), "new")
    for value, wanted in ((0, 1), (LARGEST + 1, 1), (LARGEST, 20), (65_535, 1), (9, 20), (8, 20)):
        t.poke("block_size", value)
        t.missing(5)
        t.handout(5, wanted)
    # 32 modules of which the last is at fault, or one more is told
    at = 3 * last
    t.start(at + 5)
    t.step(dii(1, 2, [(i, 3, i) for i in range(MODULES)]), "new")
    for field, value, wanted in (
        ("size", 5, 16), ("size", 0, 1), ("number", 0, 1), ("number", last - 1, 1), ("start", at - 1, 1), ("start", at + 1, 1),
        ("size", 2 * BLOCKS, 15), ("size", 2 * BLOCKS + 1, 1), ("size", TOGETHER - at, 1),
    ):
        before = t.peek(field, last)
        t.poke(field, value, last)
        t.step(ddb(1, last, last, 1, b"l"), wanted)
        t.ask(last)
        t.poke(field, before, last)
    t.poke("count", MODULES + 1)
    t.missing(last, 1)
    t.handout(last, 1)
    t.poke("count", MODULES)
    for i in (0, 15, 16, last):
        t.step(ddb(1, i, i, 1, b"l"), "stored")
        t.missing(i, [0])
    t.poke("marks", 3, words - WORDS)
    t.handout(last, 0)
    for value, place in ((7, words - WORDS), (1, words - WORDS + 8), (1, words - 1), (0x8000_0000, words - 1)):
        before = t.peek("marks", place)
        t.poke("marks", value, place)
        t.handout(last, 1)
        t.poke("marks", before, place)
    t.handout(last, 0)


def walk(t, seed, steps):
    """Announcements and blocks at random, some of them damaged, the CRC mended after that or not."""
    rnd = random.Random(seed)
    numbers = [3, 4, 259, 0]
    lists = []
    for _ in range(2):
        modules = [(n, rnd.randrange(2, 25), rnd.choice([0, 32, 255])) for n in rnd.sample(numbers, rnd.randrange(1, 4))]
        lists.append((rnd.choice([1, 2]), rnd.choice([6, 8, 8]), modules))
    # the last again: its first module newer, or one more before all, with some of the first's bytes
    (n, z, v), *rest = modules
    part = rnd.randrange(1, z)
    lists.append((*lists[1][:2], rnd.choice([[(n, z, v ^ 1)], [(77, part, 0), (n, z - part, v)]]) + rest))
    t.start(80, rnd.randrange(256))
    for _ in range(steps):
        r = t.record
        roll = rnd.random()
        if roll < 0.10 or not r.count:
            s = dii(*rnd.choice(lists), info=bytes(rnd.randrange(3)), private=bytes(rnd.randrange(3)), adaptation=bytes(rnd.randrange(3)))
        elif roll < 0.90:
            i = rnd.randrange(r.count)
            m = r.modules[i]
            b = rnd.choice(r.missing(i) or [0]) if rnd.random() < 0.5 else rnd.randrange(r.blocks(i) + (rnd.random() < 0.1))
            size = min(r.block_size, max(0, m.size - b * r.block_size)) + (rnd.choice([-1, 1]) if rnd.random() < 0.08 else 0)
            fresh = 1 if rnd.random() < 0.06 else 0
            data = bytes((m.number + k + 16 * b + fresh) % 256 for k in range(max(0, size)))
            version = m.version ^ rnd.choice([0] * 18 + [1, 32])
            header = byte5(version ^ rnd.choice([0] * 18 + [1, 32]))
            s = ddb(r.download ^ (rnd.random() < 0.05), m.number, version, b, data, adaptation=bytes(rnd.choice([0, 0, 0, 2])), byte5=header)
        else:
            again = rnd.choice(lists)
            s = dii(*again)
        if rnd.random() < 0.15:
            s = bytearray(s)
            for _ in range(rnd.choice([1, 1, 2])):
                s[rnd.randrange(3, len(s) - 4)] = rnd.choice([0, 1, 3, 4, 255, rnd.randrange(256)])
            s = with_crc(bytes(s[:-4])) if rnd.random() < 0.85 else bytes(s)
        t.step(s)
        if rnd.random() < 0.3:
            t.ask(rnd.choice(numbers))
        if rnd.random() < 0.03:
            t.paint(rnd.randrange(len(t.image)), rnd.randrange(256))
        if rnd.random() < 0.03:
            t.length(rnd.choice([20, 40, 60, 80]))
        elif len(t.image) < 80 and rnd.random() < 0.3:
            t.length(80)


def records(t, seed, times):
    """Records at random: made by the rule, then a field set to what is near."""
    rnd = random.Random(seed)
    for _ in range(times):
        size = rnd.choice([1, 2, 7, 32])
        modules = [(n, rnd.randrange(1, 70 * size) if size < 7 else rnd.randrange(1, 5 * size), rnd.randrange(256)) for n in rnd.sample(range(6), rnd.randrange(1, 5))]
        t.start(rnd.choice([0, 64, 128, 600]), rnd.randrange(256))
        t.step(dii(rnd.randrange(3), size, modules), "new")
        i = rnd.randrange(len(modules))
        last = t.record.blocks(i) - 1
        w = last // 32
        for k in range(w):
            t.poke("marks", rnd.choice([ALL, ALL, 0xFFFE_FFFF]), WORDS * i + k)
        t.poke("marks", (1 << last % 32 + 1) - 1 + rnd.choice([0, 0, -1, -(1 << last % 32), 1 << last % 32 + 1 if last % 32 < 31 else 0]), WORDS * i + w)
        t.ask(*[n for n, _, _ in modules])
        field, place = rnd.choice(FIELDS), rnd.randrange(len(modules) + 1)
        t.poke(field, t.peek(field, place) + rnd.choice([1, -1, 256]) & ALL, place)
        t.ask(modules[0][0], modules[-1][0])


def main():
    t = Script()
    for sequence in (soundings, most, framing, headers, stale, limits, announcements, keeping, blocks, many_blocks, lengths, pairs, broken):
        at = len(t.given)
        sequence(t)
        if "--count" in sys.argv:
            print("%s: %d bytes" % (sequence.__name__, len(t.given) - at), file=sys.stderr)
    for seed, steps in ((1, 26), (2, 26), (3, 26), (4, 26)):
        walk(t, seed, steps)
    records(t, 13, 18)
    steps = ["new", "same", "stored", "repeated"] + ["step %d" % n for n in range(1, 18)]
    asked = ["handout %d" % n for n in (0, 1, 13, 15, 20)] + ["missing %d" % n for n in (0, 1, 13)] + ["missing none"]
    for name in steps + asked:
        assert t.met[name] > 3, name
        if "--count" in sys.argv:
            print("%-12s %4d" % (name, t.met[name]), file=sys.stderr)
    places = ["2 at the lent length", "3 at zero", "4 at one", "4 at six", "5 at the first CRC byte", "6 at five", "none"]
    assert set(t.places) == set(places) and min(t.places.values()) > 3, t.places
    assert t.large < 20, t.large  # an image's digest at each step is slow
    settle("test_carousel", bytes(t.given), "".join(l + "\n" for l in t.lines).encode())
    print("test_carousel: %d commands, %d bytes: stdin and stdout are the second program's" % (len(t.lines), len(t.given)))


main()
