#!/usr/bin/env python3
"""What crates/test_drift must print, by a second program.

Written from 02, §1, and points 1.1 to 1.10 of how it is read, not from the Rattle code; a list's bits and a record's faults are those of tests/driftlist.py.
A case has 128 bytes: 0 for a list, 1 for numbers; how many bytes are meant; these; zeros.

    test_drift.py          compare crates/test_drift/stdin and stdout with what this program makes
    test_drift.py --write  write both
"""
import itertools
import random

import driftlist
from driftlist import HEAD, RECORD, Row, SIGNED, WIDTHS, faults, packed, spell, unpacked
from second import settle

CASE, PLACES, MARK = 128, 5, 0xAA
NAMES = ("none", "fix", "last")
GOOD = Row(10, 1, -8_145_678, 27_321_234, 4_567)
LATER = Row(11, 2, 1, -1, 0)

# ---- the calls


def told(row):
    return "0 %d %s %d %d %d" % (row.buoy, NAMES[row.state], row.longitude, row.latitude, row.minute)


def record_at(data, k):
    refusal, _, rows = driftlist.read(data)
    return str(refusal) if refusal else told(rows[k]) if k < len(rows) else "19"


def walk_at(data, k):
    """The length, the place, then this record alone and the buoy before it."""
    if len(data) < HEAD or len(data) != HEAD + RECORD * int.from_bytes(data[2:4], "big"):
        return "30"
    rows = [unpacked(int.from_bytes(data[at : at + RECORD], "big")) for at in range(HEAD, len(data), RECORD)]
    if k >= len(rows):
        return "19"
    met = faults(rows[k], rows[k - 1].buoy if k else 0)
    return str(min(met)) if met else told(rows[k])


def fits(value, width, signed):
    low, high = (-(2 ** (width - 1)), 2 ** (width - 1)) if signed else (0, 2**width)
    return low <= value < high


def write_refusal(issue, count, numbers, room):
    rows = [Row(*numbers[i : i + 5]) for i in range(0, len(numbers) - 4, 5)]
    if issue > 65_535 or count > 65_535 or len(numbers) != 5 * count:
        return 36
    if not all(fits(*field) for row in rows for field in zip(row[:5], WIDTHS, SIGNED)):
        return 36
    for before, row in zip([0] + [r.buoy for r in rows], rows):
        if met := faults(row, before):
            return min(met)
    return 37 if room < HEAD + RECORD * count else 0


def written(issue, count, numbers, room):
    """The answer, and the bytes that it leaves."""
    refusal = write_refusal(issue, count, numbers, room)
    if refusal:
        return "%d" % refusal, bytes([MARK]) * room
    made = spell(issue, count, [numbers[i : i + 5] for i in range(0, len(numbers), 5)])
    return "0 %d" % len(made), made + bytes([MARK]) * (room - len(made))


# ---- a case, and its lines


def case(kind, data):
    assert len(data) <= CASE - 2, len(data)
    return (bytes([kind, len(data)]) + data).ljust(CASE, b"\0")


def reading(data):
    refusal, issue, rows = driftlist.read(data)
    yield "read %d" % refusal if refusal else "read 0 %d %d" % (issue, len(rows))
    for k in range(PLACES):
        yield "record %d %s" % (k, record_at(data, k))
        yield "walk %d %s" % (k, walk_at(data, k))


def list_case(data):
    return case(0, data), list(reading(data))


def write_case(issue, count, numbers, room):
    data = issue.to_bytes(4, "big") + count.to_bytes(4, "big") + bytes([room]) + b"".join((n % 2**32).to_bytes(4, "big") for n in numbers)
    answer, left = written(issue, count, numbers, room)
    return case(1, data), ["write %s %s" % (answer, left.hex())]


# ---- the cases

# each field at both ends of its range, and one past
EDGES = {
    "buoy": (0, 9, 10, 11, 2**20 - 1),
    "state": (0, 1, 2, 3),
    "longitude": (-(2**27), -108_000_000, -107_999_999, -1, 0, 1, 108_000_000, 108_000_001, 2**27 - 1),
    "latitude": (-(2**26), -54_000_001, -54_000_000, -1, 0, 1, 54_000_000, 54_000_001, 2**26 - 1),
    "minute": (0, 10_079, 10_080, 2**14 - 1),
    "spare": (0, 1, 16, 31),
}
# a field that brings each number by itself
SPOILED = {31: {"latitude": 54_000_001}, 32: {"minute": 10_080}, 33: {"buoy": 0}, 34: {"spare": 1}, 35: {"state": 3}}
# wider than any field, and the ends of an i32
WIDE = {
    "buoy": (-1, 2**20, 2**31 - 1, -(2**31)),
    "state": (-1, 4, 256, 257),
    "longitude": (2**27, -(2**27) - 1, 2**31 - 1, -(2**31)),
    "latitude": (2**26, -(2**26) - 1),
    "minute": (-1, 2**14, 65_536),
}


def lists():
    yield b""
    for n in range(1, 6):
        yield spell(7, 0, [])[:n].ljust(n, b"\0")
    whole = spell(51_966, 2, [GOOD, LATER])
    yield from (whole[:n] for n in (3, 4, 15, 16, 17, 27))
    yield from (whole + bytes(n) for n in (1, 12))
    yield from (spell(7, count, [GOOD, LATER]) for count in (0, 1, 3, 65_535))
    for name, values in EDGES.items():
        for value in values:
            yield spell(1, 1, [GOOD._replace(**{name: value})])
            yield spell(1, 2, [GOOD, LATER._replace(**{name: value})])
    yield from (spell(1, 1, [Row(1, s, x, y, 0)]) for s in range(4) for x in (-1, 0) for y in (0, 1))
    for (_, a), (_, b) in itertools.product(SPOILED.items(), repeat=2):
        yield spell(2, 1, [GOOD._replace(**{**a, **b})])
        yield spell(2, 3, [GOOD._replace(buoy=5), GOOD._replace(**a), LATER._replace(**b)])
    yield spell(65_535, 10, [Row(k, 1, k, -k, k) for k in range(1, 11)])


def writes():
    rows = lambda *rs: [n for r in rs for n in r[:5]]
    both = rows(GOOD, LATER)
    yield from ((51_966, 2, both, room) for room in (0, 3, 4, 27, 28, 29, 60))
    yield from ((7, 0, [], room) for room in (0, 3, 4, 5))
    yield from ((issue, 1, rows(GOOD), 20) for issue in (0, 65_535, 65_536, 2**32 - 1))
    yield from ((7, count, both, 60) for count in (0, 1, 3, 65_536 + 2, 2**32 - 1))
    yield from ((7, 2, both[:n], 60) for n in (0, 4, 5, 9))
    yield (7, 1, both[:6], 60)
    for name, values in itertools.chain(EDGES.items(), WIDE.items()):
        for value in values:
            if name != "spare":
                yield (1, 1, rows(GOOD._replace(**{name: value})), 16)
                yield (1, 2, rows(GOOD, LATER._replace(**{name: value})), 30)
    spoiled = {n: f for n, f in SPOILED.items() if n != 34}
    for a, b in itertools.product(spoiled.values(), repeat=2):
        yield (2, 1, rows(GOOD._replace(**{**a, **b})), 0)
        yield (2, 2, rows(GOOD._replace(**a), LATER._replace(**b)), 28)
    for a in spoiled.values():  # 36 before all others, at a later record too
        yield (2, 2, rows(GOOD._replace(**a), LATER._replace(minute=2**14)), 0)


def random_lists(rnd, n):
    for _ in range(n):
        buoys = sorted(rnd.sample(range(1, 2**20), rnd.randrange(1, 5)))
        rows = [Row(b, rnd.choice([1, 2]), rnd.randint(-107_999_999, 108_000_000), rnd.randint(-54_000_000, 54_000_000), rnd.randrange(10_080)) for b in buoys]
        bits = int.from_bytes(spell(rnd.randrange(65_536), len(rows), rows), "big")
        size = HEAD + RECORD * len(rows)
        yield (bits ^ rnd.choice([0, 1 << rnd.randrange(8 * size)])).to_bytes(size, "big")


def cases():
    yield from map(list_case, lists())
    yield from (write_case(*w) for w in writes())
    yield from map(list_case, random_lists(random.Random(51_966), 60))


def check():
    """The words of the request on the first of them."""
    assert packed(Row(1, 1, -1, 54_000_000, 10_079)).to_bytes(12, "big").hex() == "000017ffffffd9bfcc04ebe0"
    assert record_at(spell(1, 1, [GOOD._replace(state=3, longitude=-108_000_000)]), 0) == "31"
    assert write_refusal(1, 1, [10, 1, 2**27, 0, 0], 0) == 36 and write_refusal(1, 1, [10, 1, 1, 1, 0], 15) == 37


check()
made = list(cases())
answers = [line.split() for _, lines_ in made for line in lines_]
numbers = [int(a[1] if a[0] in ("read", "write") else a[2]) for a in answers]
assert {0, 19, *range(30, 38)} == set(numbers), sorted(set(numbers))
settle("test_drift", b"".join(c for c, _ in made), "".join(line + "\n" for _, lines_ in made for line in lines_).encode())
print("test_drift: %d cases, %d answers; each of 19 and 30 to 37 at least %d times" % (len(made), len(answers), min(map(numbers.count, (19, *range(30, 38))))))
