#!/usr/bin/env python3
"""What crates/test_play must print, by a second program.

Written from the words on the shore player (02, §13, and points 13.1 to 13.7), not from the Rattle code: the player is tests/player.py, and
here are the commands that both are given. Where a command knows its refusal from the words, it says so (`wanted`). A command has, most
significant byte first: download 32, block size 16, count 16; how many modules follow 8, each number 16, size 32, version 8; the length of
the image, identifier, place and the length of the buffer, 32 each. Entries that do not follow are rubbish: number 1, size 5, version 6.

    test_play.py          compare crates/test_play/stdin and stdout with what this program makes
    test_play.py --write  write both
"""
import itertools
import random
from typing import NamedTuple

from player import Announced, Module, call, limits, packed
from receiver import BLOCKS, LARGEST, MODULES, TOGETHER
from second import settle

IMAGE, ROOM, MARK = 262_200, 5_000, b"\xee"
PAINTED = bytes((7 * k + k // 256 + 5 * (k // 65_536)) % 256 for k in range(IMAGE))
RUBBISH = Module(1, 5, 6)
PAIR = (Module(1, 6, 0), Module(2, 4, 33))  # in blocks of 4: a full one and a short one, then a full one
END = 2**32 - 1


class Command(NamedTuple):
    size: int = 4  # of a block
    modules: tuple = PAIR
    place: int = 0
    count: int | None = None  # None: as many as follow
    image: int | None = None  # None: as long as the sizes together
    room: int | None = None  # None: more than is needed
    identifier: int = 0x8000_0002
    download: int = 0x0D21_F700
    wanted: int | None = 0


# ---- a command, and its lines


def announced(c):
    """With as many modules as the count says: those that follow, then rubbish."""
    count = len(c.modules) if c.count is None else c.count
    return Announced(c.download, c.size, [*c.modules, *[RUBBISH] * count][:count])


def together(modules):
    return sum(m.size for m in modules)


def section(c):
    """The whole of it; nothing where there is none."""
    return call(announced(c), PAINTED, c.identifier, c.place, ROOM)[1]


def settled(c):
    """With the lengths of what is lent."""
    a = announced(c)
    image = min(together(a.modules), IMAGE) if c.image is None else c.image
    enough = 3 + (30 + min(a.size, LARGEST) if c.place else 46 + 8 * MODULES)
    room = enough if c.room is None else c.room
    assert image <= IMAGE and room <= ROOM, c
    return c._replace(count=len(a.modules), image=image, room=room)


def spelled(c):
    entries = [packed((m.number, 16), (m.size, 32), (m.version, 8)) for m in c.modules]
    head = packed((c.download, 32), (c.size, 16), (c.count, 16), (len(entries), 8))
    return head + b"".join(entries) + packed((c.image, 32), (c.identifier, 32), (c.place, 32), (c.room, 32))


def digest(data):
    d = 0
    for byte in data:
        d = (d * 16_777_619 + byte + 1) % 4_294_967_291
    return d


def answers(c):
    """Of both calls: the refusal, what is told, and the buffer after a write."""
    a = announced(c)
    met = limits(a)
    sections = 0 if met else 1 + sum(-(-m.size // a.size) for m in a.modules)
    refusal, written = call(a, PAINTED[: c.image], c.identifier, c.place, c.room)
    assert c.wanted is None or refusal == c.wanted, (c, refusal)
    return (min(met, default=0), sections), (refusal, len(written), written + MARK * (c.room - len(written)))


# ---- commands: the limits


def many(n, size=3):
    return tuple(Module(100 + k, size, k) for k in range(n))


def of_sizes(size, sizes, **more):
    return Command(size, tuple(Module(10 + k, z, 7 * k) for k, z in enumerate(sizes)), **more)


def block_sizes():
    modules = (Module(9, 5, 0), Module(8, 1, 33), Module(7, 7, 255))
    for place in (0, 1):
        yield from (Command(size, modules, place) for size in (1, 2, 7, LARGEST - 1, LARGEST))
        yield from (Command(size, modules, place, wanted=10) for size in (0, LARGEST + 1, LARGEST + 2, 8_192, 65_535))


def counts():
    for count in (1, 2, 31, MODULES):
        yield from (Command(3, many(MODULES), place, count) for place in (0, 1, count))
        yield Command(3, many(MODULES), count + 1, count, wanted=19)
    for modules in (many(MODULES), PAIR, ()):
        yield from (Command(3, modules, 0, count, wanted=10) for count in (0, 33, 65_535))
    yield from (Command(3, PAIR, 1, count, wanted=10) for count in (0, 34, 64, 255, 256, 257, 258, 0x8001, 0xFF02))


def unused():
    """Entries from the count on, that follow and that do not; and rubbish within the count, which is looked at."""
    one, most = Module(1, 6, 0), many(MODULES - 1)
    for bad in (one, Module(3, 0, 0), Module(3, END, 0), Module(3, TOGETHER, 9)):
        yield from (Command(4, (one, bad), place, 1) for place in (0, 2))
        yield Command(4, (one, bad), 3, 1, wanted=19)
        yield from (Command(4, (*most, bad._replace(number=100)), place, MODULES - 1) for place in (0, MODULES - 1))
    yield from (Command(4, (one,), place) for place in (0, 1, 2))
    yield from (Command(4, (Module(2, 6, 0),), place, 2) for place in (0, 2, 3, 4))
    yield from (Command(4, (one,), place, count, wanted=11) for place in (0, 1) for count in (2, 3))
    yield from (Command(4, (), place, 1) for place in (0, 1, 2))


def module_sizes():
    for size in (1, 2, 100, 255, 256):
        most = BLOCKS * size
        yield from (of_sizes(size, sizes) for sizes in ([1], [most], [most - 1, 1], [1, most - 1]))
        yield of_sizes(size, [most], place=BLOCKS)
        over = ([0], [0, 1], [1, 0], [1, 0, 1], [most + 1], [most + 1, 1], [1, most + 1], [most + 2], [END], [1, END])
        yield from (of_sizes(size, sizes, wanted=10) for sizes in over)


def all_sizes():
    """Together 262,144, or one more."""
    for size in (257, 4_000, LARGEST):
        whole = ([TOGETHER], [TOGETHER - 1, 1], [1, TOGETHER - 1])
        yield from (of_sizes(size, sizes, place=place) for sizes in whole for place in (0, 2))
        yield from (of_sizes(size, sizes, wanted=10) for sizes in ([TOGETHER + 1], [TOGETHER, 1], [1, TOGETHER]))
    shares = [TOGETHER // MODULES] * MODULES
    for size in (8, 1_024):
        yield from (of_sizes(size, shares, place=place) for place in (0, MODULES * shares[0] // size))
        yield from (of_sizes(size, [*shares[:k], shares[k] + 1, *shares[k + 1 :]], wanted=10) for k in (0, 31) if size > 8)


def numbers_twice():
    several = ((5, 5), (0, 0), (65_535, 65_535), (5, 5, 6), (6, 5, 5), (5, 6, 5), (5, 5, 5), (9, 8, 7, 8, 6))
    for numbers in several:
        yield from (Command(4, tuple(Module(n, 6, 0) for n in numbers), place, wanted=11) for place in (0, 1))
    for one, other in ((0, 1), (30, 31), (0, 31), (15, 16), (7, 23)):
        modules = list(many(MODULES))
        modules[other] = modules[other]._replace(number=modules[one].number)
        yield Command(4, tuple(modules), wanted=11)
        yield Command(4, tuple(modules), count=other)
    for numbers in ((0x0101, 0x0001, 0x0100), (0, 65_535), (255, 511), (1, 0x8001), (5, 6)):
        yield from (Command(4, tuple(Module(n, 6, 0) for n in numbers), place) for place in (0, 1, 3))


# ---- commands: what is lent, and the place


def images():
    for size, modules, last in ((4, PAIR, 3), (3, many(MODULES), MODULES), (4, (Module(1, 1, 0),), 1), (LARGEST, (Module(1, TOGETHER, 0),), 65)):
        whole = together(modules)
        for place in (0, 1, last):
            yield from (Command(size, modules, place, image=n) for n in (whole, whole + 1, whole + 50))
            yield from (Command(size, modules, place, image=n, wanted=15) for n in sorted({0, whole // 2, whole - 1}))
        yield Command(size, modules, END, image=whole - 1, wanted=15)


def places():
    for size, modules in ((4, PAIR), (4, PAIR[:1]), (1, many(MODULES)), (1, (Module(5, BLOCKS, 0),))):
        count = 1 + sum(-(-m.size // size) for m in modules)
        yield Command(size, modules, count - 1)
        past = (count, count + 1, count + 255, count + 256, 65_535, 65_536, 65_537, 2**31, 2**31 + 1, END - 1, END)
        yield from (Command(size, modules, place, wanted=19) for place in past)
    shares = [TOGETHER // MODULES] * MODULES
    yield from (of_sizes(8, shares, place=place, wanted=19) for place in (MODULES * BLOCKS + 1, 65_536))


def rooms():
    large = (Module(1, LARGEST + 7, 0),)
    for size, modules, place in (
        (4, PAIR[:1], 0),
        (4, PAIR, 0),
        (3, many(MODULES), 0),
        (4, PAIR, 1),
        (4, PAIR, 2),
        (1, (Module(5, 1, 0),), 1),
        (LARGEST, large, 1),
        (LARGEST, large, 2),
    ):
        whole = len(section(Command(size, modules, place)))
        enough, short = {whole, whole + 1, whole + 2, whole + 100, 4_096}, {whole - 1, whole - 2, whole - 4, 8, 4, 1, 0}
        yield from (Command(size, modules, place, room=n) for n in sorted(enough))
        yield from (Command(size, modules, place, room=n, wanted=21) for n in sorted(short))


# ---- commands: refusals that meet

TENS = (
    {},
    {"size": 0},
    {"size": LARGEST + 1},
    {"first": 0},
    {"first": 4 * BLOCKS + 1},
    {"last": END},
    {"count": 0},
    {"count": 33},
    {"count": 65_535},
)
SPOILED = {11: {"number": 1}, 15: {"image": 9}, 19: {"place": 4}, 21: {"room": 31}}


def spoiled(place, size=4, first=6, last=4, number=2, **more):
    return Command(**{"size": size, "modules": (Module(1, first, 0), Module(number, last, 0)), "place": place, "image": 10, **more})


def meeting():
    """10 in each of its ways or not at all, with any of the others: the lowest is given."""
    for place, ten in itertools.product((0, 2), TENS):
        for met in itertools.chain.from_iterable(itertools.combinations(SPOILED, n) for n in range(len(SPOILED) + 1)):
            others = {name: value for number in met for name, value in SPOILED[number].items()}
            yield spoiled(**{"place": place, **ten, **others, "wanted": min([10] * bool(ten) + list(met), default=0)})


# ---- commands: the bytes


def versions():
    for version in (0, 1, 30, 31, 32, 33, 63, 64, 127, 128, 254, 255):
        modules = (Module(1, 6, version), Module(2, 4, 255 - version))
        yield from (Command(4, modules, place) for place in range(4))


def block_numbers():
    """The section number is that of the block mod 256, the last one at most 255."""
    asked = (0, 1, 127, 254, 255, 256, 257, 299, 300, 511, 512, 513, 768, 1_022, 1_023)
    for blocks in (1, 2, 255, 256, 257, 258, 300, 512, BLOCKS):
        modules = (Module(77, 3, 0), Module(0x1234, 2 * blocks - 1, 32))
        yield from (Command(2, modules, 3 + b) for b in asked if b < blocks)
        yield Command(2, modules, 3 + blocks, wanted=19)


def identifiers():
    for n in (0, 1, 0xFF, 0x100, 0xFFFF, 0x1_0000, 0x1_0001, 0x1234_5678, 0x7FFF_FFFF, 0x8000_0002, 0xFFFF_0000, END):
        yield from (Command(place=place, identifier=n) for place in (0, 1))
        yield from (Command(place=place, download=n) for place in (0, 1))
    for n in (0, 1, 0xFF, 0x100, 0x1234, 0x8000, 0xFFFF):
        yield from (Command(4, (PAIR[1], Module(n, 5, 8)), place) for place in (0, 2, 3))


def largest():
    """Up to 4,096 bytes in all."""
    for whole in (LARGEST - 1, LARGEST, LARGEST + 1, 2 * LARGEST, TOGETHER):
        modules = (Module(60_000, whole, 31),)
        last = -(-whole // LARGEST)
        yield from (Command(LARGEST, modules, place, room=room) for place in sorted({1, last}) for room in (4_096, ROOM))
    yield Command(LARGEST, (Module(1, TOGETHER, 0),), 64, room=4_095, wanted=21)


def every_place():
    for size, sizes in ((5, [1, 5, 6, 10, 3, 11]), (1, [2, 1, 3]), (300, [301, 1, 600, 299])):
        sections = 1 + sum(-(-z // size) for z in sizes)
        yield from (of_sizes(size, sizes, place=place) for place in range(sections))
        yield of_sizes(size, sizes, place=sections, wanted=19)


def at_random(rnd, n):
    for _ in range(n):
        size = rnd.choice([1, 2, 7, 100, LARGEST])
        count = rnd.choice([1, 2, 3, 5])
        sizes = [rnd.choice([size, rnd.randint(1, 8 * size)]) for _ in range(count)]
        modules = tuple(Module(n, z, rnd.randrange(256)) for n, z in zip(rnd.sample(range(65_536), count), sizes))
        sections = 1 + sum(-(-z // size) for z in sizes)
        image = min(sum(sizes) + rnd.choice([0, 0, 0, 1, -1, 64]), IMAGE)
        c = Command(size, modules, rnd.randrange(sections + 1), None, image, None, rnd.getrandbits(32), rnd.getrandbits(32), None)
        yield c._replace(room=max(0, len(section(c)) + rnd.choice([0, 1, 2, 9, -1])))


TOPICS = (
    block_sizes,
    counts,
    unused,
    module_sizes,
    all_sizes,
    numbers_twice,
    images,
    places,
    rooms,
    meeting,
    versions,
    block_numbers,
    identifiers,
    largest,
    every_place,
)


def commands():
    for topic in TOPICS:
        yield from topic()
    yield from at_random(random.Random(13), 60)


def main():
    given = [settled(c) for c in commands()]
    told = [answers(c) for c in given]
    lines = ["count %d %d\nwrite %d %d %d\n" % (*count, *written[:2], digest(written[2])) for count, written in told]
    counted, written = [count[0] for count, _ in told], [w[0] for _, w in told]
    assert set(counted) == {0, 10, 11} and set(written) == {0, 10, 11, 15, 19, 21}
    least = min(*(counted.count(n) for n in (10, 11)), *(written.count(n) for n in (10, 11, 15, 19, 21)))
    assert least >= 8, least
    settle("test_play", b"".join(map(spelled, given)), "".join(lines).encode())
    by_words = sum(c.wanted is not None for c in given)
    sizes = len(given), 2 * len(given), by_words, least
    print("test_play: %d commands, %d answers, %d of the writes as the words tell; each of 10, 11, 15, 19 and 21 at least %d times" % sizes)


if __name__ == "__main__":
    main()
