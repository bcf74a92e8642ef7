"""A carousel receiver in plain Python, and makers of its sections. Written from the paper (01) and 02, §5, §6, §8 and §9, not from the
Rattle code.

The marks are one number of 32,768 bits, not words; a section's numbers are gathered and the lowest taken, not tested in turn.
"""
from itertools import accumulate

from second import CAROUSEL, Malformed, Reader, place_of, refusal, with_crc

MODULES, BLOCKS, LARGEST, TOGETHER = 32, 1024, 4066, 262_144  # 02, §8; TOGETHER is the most that all sizes may be
WORDS = BLOCKS // 32  # of marks, for each module
IMAGE = 65_536  # the programs'; a call takes any


# ---- the record


class Module:
    def __init__(self, number=0, size=0, version=0, start=0):
        self.number, self.size, self.version, self.start = number, size, version, start

    def fields(self):
        return [self.number, self.size, self.version, self.start]


class Record:
    """The empty one, as the receiver starts."""

    def __init__(self):
        self.download = self.block_size = self.count = self.marks = 0
        self.modules = [Module() for _ in range(MODULES)]

    def used(self):
        return self.modules[: self.count]

    def total(self):
        return sum(m.size for m in self.used())

    def place(self, number):
        return next((i for i, m in enumerate(self.used()) if m.number == number), None)

    def blocks(self, i):
        return -(-self.modules[i].size // self.block_size)

    def missing(self, i):
        """The numbers of the module's blocks that have no mark."""
        return [b for b in range(self.blocks(i)) if not self.marks >> (BLOCKS * i + b) & 1]


def over_limits(block_size, sizes):
    """Refusal 10."""
    if not 1 <= block_size <= LARGEST or not 1 <= len(sizes) <= MODULES:
        return True
    return any(not 1 <= z <= BLOCKS * block_size for z in sizes) or sum(sizes) > TOGETHER


def twice(numbers):
    """Refusal 11."""
    return len(set(numbers)) < len(numbers)


def ruled(r):
    if r.count > MODULES or any(any(m.fields()) for m in r.modules[r.count :]):
        return False
    if r.count == 0:
        return r.download == r.block_size == r.marks == 0
    sizes = [m.size for m in r.used()]
    if over_limits(r.block_size, sizes) or twice([m.number for m in r.used()]):
        return False
    if any(m.start != at for m, at in zip(r.used(), accumulate(sizes, initial=0))):
        return False
    possible = sum((1 << r.blocks(i)) - 1 << BLOCKS * i for i in range(r.count))
    return r.marks | possible == possible


# ---- the messages


class Announcement:
    def __init__(self, r):
        self.download, self.block_size = r.number(4), r.number(2)
        r.take(10)
        r.take(r.number(2))
        self.modules = []
        for _ in range(r.number(2)):
            self.modules.append((r.number(2), r.number(4), r.number(1)))
            r.take(r.number(1))
        r.take(r.number(2))
        if r.left():
            raise Malformed

    def record(self):
        r = Record()
        r.download, r.block_size, r.count = self.download, self.block_size, len(self.modules)
        at = 0
        for i, (number, size, version) in enumerate(self.modules):
            r.modules[i] = Module(number, size, version, at)
            at += size
        return r


class Block:
    def __init__(self, r, download):
        self.download, self.number, self.version = download, r.number(2), r.number(1)
        r.take(1)
        self.block, self.data = r.number(2), r.rest()


def judged(s):
    """A section by itself: its number, 2 to 11 or 0, and what it says."""
    n = refusal(s, *CAROUSEL)
    if n:
        return n, None
    r = Reader(s[8:-4])
    if r.left() < 12:
        return 7, None
    dii = s[0] == 0x3B
    if r.take(2) != b"\x11\x03" or r.number(2) != (0x1002 if dii else 0x1003):
        return 8, None
    identifier, _, adaptation, length = r.number(4), r.number(1), r.number(1), r.number(2)
    try:
        if length != r.left() or adaptation > length:
            raise Malformed
        r.take(adaptation)
        message = Announcement(r) if dii else Block(r, identifier)
    except Malformed:
        return 7, None
    if dii:
        if over_limits(message.block_size, [z for _, z, _ in message.modules]):
            return 10, None
        return (11 if twice([n for n, _, _ in message.modules]) else 0), message
    header = s[3] * 256 + s[4], s[6], s[5] % 64 // 2  # extension, section number, section version
    return (0 if header == (message.number, message.block % 256, message.version % 32) else 9), message


# ---- the calls; an image is a bytearray, and each answers a number first


def step(r, image, s):
    """The number, the kind, where the section broke (02, §9; None but of 2 to 6) and the record after it. The image changes in place."""
    if not ruled(r):
        return 1, "none", None, r
    n, message = judged(s)
    if n:
        return n, "none", place_of(s, *CAROUSEL), r
    n, kind, after = announced(r, message) if s[0] == 0x3B else received(r, image, message)
    return n, kind, None, after


def announced(r, a):
    """The number, the kind and the record after it; so also of a block."""
    if (r.download, r.block_size) == (a.download, a.block_size) and [(m.number, m.size, m.version) for m in r.used()] == a.modules:
        return 0, "same", r
    new = a.record()
    new.marks = kept(r, new)
    return 0, "new", new


def kept(old, new):
    """The marks under a new announcement (02, §5): a module that is and begins as before has its own, at its new place; no other has any."""
    if (old.download, old.block_size) != (new.download, new.block_size):
        return 0
    marks = 0
    for i, m in enumerate(new.used()):
        was = old.place(m.number)
        if was is not None and old.modules[was].fields() == m.fields():
            marks |= (old.marks >> BLOCKS * was) % (1 << BLOCKS) << BLOCKS * i
    return marks


def received(r, image, d):
    applies = set()
    if r.count == 0 or r.download != d.download:
        applies.add(12)
    i = r.place(d.number)
    if i is None:
        return min(applies | {13}), "none", r
    m = r.modules[i]
    left = m.size - d.block * r.block_size
    at = m.start + d.block * r.block_size
    there = bytes(image[at : at + len(d.data)])
    marked = d.block < BLOCKS and r.marks >> (BLOCKS * i + d.block) & 1
    if d.version != m.version:
        applies.add(14)
    if len(image) < r.total():
        applies.add(15)
    if left <= 0 or len(d.data) != min(left, r.block_size):
        applies.add(16)
    if marked and there != d.data:
        applies.add(17)
    if applies:
        return min(applies), "none", r
    if marked:
        return 0, "repeated", r
    image[at : at + len(d.data)] = d.data
    r.marks |= 1 << (BLOCKS * i + d.block)
    return 0, "stored", r


def handout(r, image, number):
    """The number and the part."""
    if not ruled(r):
        return 1, b""
    i = r.place(number)
    if i is None:
        return 13, b""
    if len(image) < r.total():
        return 15, b""
    if r.missing(i):
        return 20, b""
    m = r.modules[i]
    return 0, bytes(image[m.start : m.start + m.size])


def missing(r, number):
    """The number and, where it is 0, the missing blocks."""
    if not ruled(r):
        return 1, []
    i = r.place(number)
    return (13, []) if i is None else (0, r.missing(i))


# ---- sections; what is left out is right for the rest


def byte5(version):
    """Of a current section of this version, its low five bits."""
    return 0xC1 | version % 32 * 2


def section(table, body, extension=0, number=0, last=None, byte5=0xC1, flags=0xB0, length=None):
    length = len(body) + 9 if length is None else length
    last = 255 if last is None else last
    return with_crc(bytes([table, flags | length >> 8, length & 255, extension >> 8, extension & 255, byte5, number, last]) + body)


def message(number, payload, identifier=0, adaptation=b"", first=0x11, second=0x03, unread=0xFF, adapted=None, size=None):
    adapted = len(adaptation) if adapted is None else adapted
    size = len(adaptation) + len(payload) if size is None else size
    head = bytes([first, second]) + number.to_bytes(2, "big") + identifier.to_bytes(4, "big") + bytes([unread, adapted]) + size.to_bytes(2, "big")
    return head + adaptation + payload


HEADS = ("extension", "number", "last", "byte5", "flags", "length")


def whole(table, number, payload, given):
    head = {k: given.pop(k) for k in list(given) if k in HEADS}
    return section(given.pop("table", table), message(given.pop("code", number), payload, **given), **head)


def dii(download, block_size, modules, info=b"", compatibility=b"", private=b"", unread10=bytes(10), infos=None, compatible=None, count=None, privates=None, tail=b"", **given):
    """modules: (number, size, version). infos, compatible, count and privates are lengths that may be told wrong."""
    two = lambda n: n.to_bytes(2, "big")
    infos = len(info) if infos is None else infos
    out = download.to_bytes(4, "big") + two(block_size) + unread10
    out += two(len(compatibility) if compatible is None else compatible) + compatibility + two(len(modules) if count is None else count)
    for number, size, version in modules:
        out += two(number) + size.to_bytes(4, "big") + bytes([version, infos]) + info
    out += two(len(private) if privates is None else privates) + private + tail
    return whole(0x3B, 0x1002, out, given)


def ddb(download, module, version, block, data, reserved=0xFF, **given):
    payload = module.to_bytes(2, "big") + bytes([version, reserved]) + block.to_bytes(2, "big") + data
    given = {"extension": module, "number": block % 256, "byte5": byte5(version), "identifier": download, **given}
    return whole(0x3C, 0x1003, payload, given)
