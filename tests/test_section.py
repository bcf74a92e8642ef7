#!/usr/bin/env python3
"""What crates/test_section must print, by a second program.

Written from the paper (01, "The section" and the table of numbers) and 02, §9 (the place of a refusal), not from the Rattle code. Its CRC is
driven by a table of 256 entries made by polynomial division (tests/second.py), so that it shares no method with the
register that shifts bit by bit.

A line for each stretch: its CRC, the answer by the application rule and that by the carousel rule, and what the header says where one of
them accepts. An answer is 0, or a refusal's number with its place, `5@12`.

    test_section.py          compare crates/test_section/stdin and stdout with what this program makes
    test_section.py --write  write both
"""
import random

from second import APPLICATION, CAROUSEL, crc, framed, place_of, refusal, remainder, settle, with_crc, with_place


# The same register by one long division of the whole message: its first 32 bits turned over, 32 zeros after it.
def crc_by_division(data):
    bits = 8 * len(data)
    value = int.from_bytes(data, "big") << 32
    value ^= 0xFFFF_FFFF << bits
    return remainder(value, bits + 32)


def answer(s, rule):
    return with_place(refusal(s, *rule), place_of(s, *rule))


def line(s):
    a, c = answer(s, APPLICATION), answer(s, CAROUSEL)
    out = "%08x %s %s" % (crc(s), a, c)
    if "0" in (a, c):
        out += " %02x %04x %02x %02x %02x" % (s[0], s[3] * 256 + s[4], s[5] // 2 % 32, s[6], s[7])
    return out + "\n"


def section(table, size, fill=0, flags=0xB0, extension=0x8001, byte5=0xC7, number=0, last=0, length=None):
    """A section of `size` bytes in all, with its CRC; under 7 there is no room for one after L."""
    length = size - 3 if length is None else length
    head = bytes([table, flags | length >> 8, length & 255, extension >> 8, extension & 255, byte5, number, last])
    return with_crc((head + bytes([fill]) * size)[: size - 4]) if size >= 7 else head[:size]


def spoiled(s, k=-1):
    """Another bit of byte k; of the last one, which is the CRC's, if it is not told."""
    s = bytearray(s)
    s[k] ^= 4
    return bytes(s)


# ---- 02, §9: where it broke. Each section with what its own rule must answer by the request's words

OVER = {"number": 3, "last": 2}  # section number 3 over last 2
ABOVE = {"number": 255, "last": 0}  # where L = 8, a CRC byte stands in the last number's place: 255 is over it
NO_SYNTAX, NOT_CURRENT = {"flags": 0x30}, {"byte5": 0xC6}


def lent(table):
    """2: as many bytes as there are, also under 3, and whatever else is wrong."""
    whole = section(table, 16)
    for n in (0, 1, 2, 3, 4, 11, 12, 15):
        yield "2@%d" % n, whole[:n]
    yield "2@17", whole + b"\0"
    yield "2@3", section(table, 3, length=9)
    yield "2@15", section(0x00, 16, **OVER, **NO_SYNTAX, **NOT_CURRENT)[:-1]
    yield "2@11", section(table, 11, length=9)
    yield "2@12", section(table, 12, length=8)


def of_another_table():
    """3: zero, whatever else is wrong."""
    for size in (3, 11, 12, 16):
        yield "3@0", section(0x73, size)
        yield "3@0", section(0x3D, size, **NO_SYNTAX, **NOT_CURRENT)
    yield "3@0", section(0x75, 16, **OVER)
    yield "3@0", spoiled(section(0xFF, 16))
    yield "3@0", spoiled(section(0x3A, 16, **OVER, **NOT_CURRENT))


def at_one(table):
    """4: one, where L or the syntax indicator is wrong, and the numbers too or not."""
    for length in range(9):
        yield "4@1", section(table, 3 + length)
    yield "4@1", section(table, 11, **ABOVE)
    for flags in (0x00, 0x30, 0x40, 0x70):
        yield "4@1", section(table, 16, flags=flags)
        yield "4@1", section(table, 16, flags=flags, **OVER)
        yield "4@1", section(table, 11, flags=flags, **ABOVE)
    yield "4@1", section(table, 12, **NO_SYNTAX)
    # 5 and 6 apply as well
    for wrong in (NO_SYNTAX, {**NO_SYNTAX, **OVER}):
        yield "4@1", spoiled(section(table, 16, **wrong))
        yield "4@1", section(table, 16, **wrong, **NOT_CURRENT)
        yield "4@1", spoiled(section(table, 16, **wrong, **NOT_CURRENT))
    yield "4@1", spoiled(section(table, 11, **ABOVE, **NOT_CURRENT))


def at_six(table):
    """4: six, where only the section numbers are wrong. What 5 and 6 say does not count."""
    for number, last in ((3, 2), (1, 0), (255, 254), (255, 0), (128, 127)):
        yield "4@6", section(table, 16, number=number, last=last)
    for flags in (0x80, 0xC0, 0xF0):
        yield "4@6", section(table, 16, flags=flags, **OVER)
    yield "4@6", section(table, 12, **OVER)
    yield "4@6", spoiled(section(table, 16, **OVER))
    yield "4@6", section(table, 16, **OVER, **NOT_CURRENT)
    yield "4@6", spoiled(section(table, 16, **OVER, **NOT_CURRENT))


def later(table):
    """5: the first CRC byte, whichever byte was damaged. 6: five. And none of them."""
    for length in (9, 10, 13, 300):
        whole = section(table, 3 + length)
        for k in (-4, -1, 3):
            yield "5@%d" % (length - 1), spoiled(whole, k)
        yield "5@%d" % (length - 1), spoiled(section(table, 3 + length, **NOT_CURRENT))
        yield "6@5", section(table, 3 + length, **NOT_CURRENT)
        yield "0", whole
    yield "0", section(table, 16, number=2, last=2)


def at_the_limit(table, limit):
    """L as large as may be, and one more."""
    yield "0", section(table, 3 + limit, 0x5A)
    yield "4@6", section(table, 3 + limit, **OVER)
    yield "5@%d" % (limit - 1), spoiled(section(table, 3 + limit))
    yield "4@1", section(table, 4 + limit, 0x5A)
    yield "4@1", section(table, 4 + limit, **OVER)


def placed():
    """Each stretch with the rule and what must be answered by it."""
    for rule in (APPLICATION, CAROUSEL):
        tables, limit = rule
        for table in sorted(tables):
            for told in (lent(table), at_one(table), at_six(table), later(table), at_the_limit(table, limit) if table != 0x3B else ()):
                yield from ((rule, wanted, s) for wanted, s in told)
    for wanted, s in of_another_table():
        yield APPLICATION, wanted, s
        yield CAROUSEL, wanted, s


# A refusal's number and the request's words for its place
CLAUSES = {(2, "the lent length"), (3, "zero"), (4, "one"), (4, "six"), (5, "the first CRC byte"), (6, "five")}


def clause(s, rule):
    number, place = refusal(s, *rule), place_of(s, *rule)
    words = {2: {len(s): "the lent length"}, 3: {0: "zero"}, 4: {1: "one", 6: "six"}, 5: {len(s) - 4: "the first CRC byte"}, 6: {5: "five"}, 0: {None: "none"}}
    return number, words[number][place]


def check_places(every):
    """The stretches that know their answer have it, and each clause is met by each rule; nothing else is."""
    for rule, wanted, s in placed():
        assert answer(s, rule) == wanted, (answer(s, rule), wanted, s.hex())
    for rule in (APPLICATION, CAROUSEL):
        assert {clause(s, rule) for s in every} == CLAUSES | {(0, "none")}, rule
        for s in every:
            # six as the reading of the request says it: L is within its limits, and the syntax indicator is 1
            shape = len(s) >= 3 and 9 <= len(s) - 3 <= rule[1] and s[1] >= 128
            assert refusal(s, *rule) != 4 or place_of(s, *rule) == (6 if shape else 1), s.hex()


def stretches():
    rnd = random.Random(13818)
    anything = lambda n: bytes(rnd.randrange(256) for _ in range(n))
    yield b"123456789"
    yield b""
    for n in list(range(1, 65)) + [4096]:
        yield anything(n)
    for n in (1, 2, 3, 4, 8, 12, 64, 1024):
        yield bytes(n)
        yield b"\xff" * n
    # each refusal at and just past its limit; L at the limit and one more are below, with their places
    for size in (3, 11, 12, 13, 1023):
        yield section(0x74, size)
    for size in (11, 12, 4095, 4098):
        yield section(0x3C, size, 0x5A)
    for table in (0x00, 0x3A, 0x3B, 0x3C, 0x3D, 0x73, 0x75, 0xFF):
        yield section(table, 20)
    for number, last in ((0, 0), (1, 0), (7, 7), (8, 7), (255, 254), (255, 255)):
        yield section(0x74, 16, number=number, last=last)
    for flags in (0x00, 0x30, 0x40, 0x70, 0x80, 0xC0, 0xF0):
        yield section(0x3B, 16, flags=flags)
    for byte5 in (0x00, 0x01, 0x3E, 0x3F, 0xC0, 0xC1, 0xFE, 0xFF):
        yield section(0x3C, 16, byte5=byte5)
    whole = section(0x74, 40, 0xA5)
    yield whole[:-1]
    yield whole + b"\0"
    for k in range(len(whole)):
        yield whole[:k] + bytes([whole[k] ^ 1 << k % 8]) + whole[k + 1 :]
    # and many more, each with some of its parts spoiled
    for _ in range(300):
        size = rnd.choice([3, 7, 11, 12, 13, 16, 24, 40])
        s = section(
            rnd.choice([0x74, 0x74, 0x3B, 0x3C, 0x3C, rnd.randrange(256)]),
            size,
            rnd.randrange(256),
            rnd.choice([0xB0, 0xB0, 0xF0, 0x30]),
            rnd.randrange(65536),
            rnd.choice([rnd.randrange(256) | 1, rnd.randrange(256)]),
            rnd.randrange(3),
            rnd.choice([2, 255, rnd.randrange(4)]),
            rnd.choice([size - 3] * 5 + [size - 2]),
        )
        if rnd.random() < 0.2:
            k = rnd.randrange(len(s))
            s = s[:k] + bytes([rnd.randrange(256)]) + s[k + 1 :]
        yield s
    # where it broke; each once, though both rules have the stretches that are too short for a table
    yield from dict.fromkeys(s for _, _, s in placed())


def main():
    assert crc(b"123456789") == 0x0376_E6E7
    every = list(stretches())
    for s in every:
        assert crc(s) == crc_by_division(s), s.hex()
    check_places(every)
    given = framed(every)
    settle("test_section", given, "".join(map(line, every)).encode())
    print("test_section: %d stretches, %d bytes: stdin and stdout are the second program's" % (len(every), len(given)))


main()
