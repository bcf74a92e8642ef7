#!/usr/bin/env python3
"""What crates/driftlist must print, by a second program.

Written from the words on the drift list (§1, and points 1.1 to 1.5), the paper (01), 02, §8, and the lines below, not from the Rattle code.
The carousel's rules are tests/receiver.py, the run tests/program.py; what is new here reads a handed-out module as a drift list.

Standard input is read as the paper's program reads it. The one argument is a module's number, of 16 bits and in decimal. After the run
that module is asked for, and one of these is printed:

    handout,N                                           where the hand-out answers 1, 13 or 15
    handout,20,COUNT,LOWEST                             where it answers 20: how many blocks are missing, and the lowest of them
    list,N                                              where its bytes are refused as a drift list, 30 to 35
    issue,ISSUE                                         else, and below it
    buoy,state,longitude,latitude,minute,position,time  this line, and one for each record

The state is none, fix or last; the coordinates are in 1/10,000 minute; the position is DD MM.MMMM N DDD MM.MMMM E, with S and W
below 0, and empty where the state is none; the time is D HH:MM, with the day of the week from 0. Where the arguments are not one number
of 16 bits, "usage: driftlist MODULE" goes to standard error and nothing to standard output, and the status is left open; else it is 0
and standard error is quiet. A number is 1 to 4,096 digits, leading zeros among them. What cannot be read is as if it were not there.

    driftlist.py          check the inputs, and compare crates/driftlist/args, stdin and stdout with what this program makes
    driftlist.py --write  check the inputs, and write the three
    driftlist.py built    the first, then run target/bin/driftlist, which tools/build.sh builds, on every input and compare what
                          it prints on standard output and standard error, byte for byte; then its ends closed, broken, slow
"""
import itertools
import os
import random
import signal
import subprocess
import sys
import time
from typing import NamedTuple

import program
import receiver
from program import BUDGET, READ, sized
from receiver import BLOCKS, IMAGE, LARGEST, MODULES, TOGETHER, Record, ddb, dii
from second import ROOT, settle
from test_ait import ait

# ---- the list: a record is one number of 96 bits, its first field topmost


class Row(NamedTuple):
    """A record of the list."""

    buoy: int
    state: int
    longitude: int
    latitude: int
    minute: int
    spare: int = 0


WIDTHS = Row(20, 2, 28, 27, 14, 5)
SIGNED = Row(False, False, True, True, False, False)
HEAD, RECORD = 4, 12  # bytes
NONE, FIX, LAST = 0, 1, 2


def field(value, width, signed):
    """A value as the bits of its field."""
    low, high = (-(2 ** (width - 1)), 2 ** (width - 1)) if signed else (0, 2**width)
    assert low <= value < high, (value, width)
    return value % 2**width


def packed(row):
    bits = 0
    for value, width, signed in zip(Row(*row), WIDTHS, SIGNED):
        bits = bits * 2**width + field(value, width, signed)
    return bits


def unpacked(bits):
    values = []
    for width, signed in zip(reversed(WIDTHS), reversed(SIGNED)):
        bits, value = divmod(bits, 2**width)
        values.append(value - 2**width if signed and value >= 2 ** (width - 1) else value)
    return Row(*reversed(values))


def spell(issue, count, records):
    """The bytes, whether or not they are a good list. A record has the five fields, or the spare bits besides."""
    head = field(issue, 16, False) * 2**16 + field(count, 16, False)
    return head.to_bytes(HEAD, "big") + b"".join(packed(r).to_bytes(RECORD, "big") for r in records)


def faults(row, before):
    """Every number that the record meets; before is the buoy of the record before it, 0 where there is none."""
    met = set()
    if not -107_999_999 <= row.longitude <= 108_000_000 or not -54_000_000 <= row.latitude <= 54_000_000:
        met.add(31)
    if row.minute >= 10_080:
        met.add(32)
    if row.buoy <= before:
        met.add(33)
    if row.spare != 0:
        met.add(34)
    if row.state == 3 or (row.state == NONE) != (row.longitude == row.latitude == 0):
        met.add(35)
    return met


def read(data):
    """The refusal, the issue and the records. Where the refusal is not 0 there is nothing besides."""
    issue, count = int.from_bytes(data[:2], "big"), int.from_bytes(data[2:4], "big")
    if len(data) < HEAD or len(data) != HEAD + RECORD * count:
        return 30, None, []
    rows = [unpacked(int.from_bytes(data[at : at + RECORD], "big")) for at in range(HEAD, len(data), RECORD)]
    for before, row in zip([0] + [r.buoy for r in rows], rows):
        if met := faults(row, before):
            return min(met), None, []
    return 0, issue, rows


# ---- the program

HEADER = "buoy,state,longitude,latitude,minute,position,time"
USAGE = "usage: driftlist MODULE\n"


def angle(value, digits, letters):
    """Degrees of so many digits, and minutes; the first letter from 0 up, the second below."""
    degrees, rest = divmod(abs(value), 600_000)
    return "%0*d %02d.%04d %s" % (digits, degrees, rest // 10_000, rest % 10_000, letters[value < 0])


def line(row):
    position = angle(row.latitude, 2, "NS") + " " + angle(row.longitude, 3, "EW") if row.state != NONE else ""
    hour = "%d %02d:%02d" % (row.minute // 1440, row.minute // 60 % 24, row.minute % 60)
    return "%d,%s,%d,%d,%d,%s,%s" % (row.buoy, ("none", "fix", "last")[row.state], *row[2:5], position, hour)


def lines(record, image, number):
    answer, part = receiver.handout(record, image, number)
    if answer == 20:
        blocks = receiver.missing(record, number)[1]
        return ["handout,20,%d,%d" % (len(blocks), min(blocks))]
    if answer:
        return ["handout,%d" % answer]
    refusal, issue, rows = read(part)
    return ["list,%d" % refusal] if refusal else ["issue,%d" % issue, HEADER, *map(line, rows)]


def module_number(arguments):
    """The number that the arguments are, each of them bytes; None where they are not one number of 16 bits."""
    if len(arguments) != 1 or not 1 <= len(arguments[0]) <= 4096 or not all(c in b"0123456789" for c in arguments[0]):
        return None
    number = int(arguments[0])
    return number if number <= 65_535 else None


def printed(arguments, stdin):
    """What goes to standard output, and what to standard error."""
    number = module_number(arguments)
    if number is None:
        return b"", USAGE.encode()
    image = bytearray(IMAGE)
    _, _, record = program.run(stdin[:READ], BUDGET, Record(), image)
    return "".join(l + "\n" for l in lines(record, image, number)).encode(), b""


# ---- an input, and the carousel of most of them


class Input(NamedTuple):
    name: str
    shows: str
    stdin: bytes
    wanted: str | None = None  # where the words tell it: what is printed
    arguments: tuple = (b"300",)


class Module(NamedTuple):
    data: bytes
    number: int = 300
    version: int = 5


DOWNLOAD, SIZE = 0x0D21_F700, 39  # so that no record begins with a block


def announcement(*modules, size=SIZE, download=DOWNLOAD):
    return dii(download, size, [(m.number, len(m.data), m.version) for m in modules])


def blocks(module, size=SIZE, download=DOWNLOAD):
    data, number, version = module
    return [ddb(download, number, version, at // size, data[at : at + size]) for at in range(0, len(data), size)]


def sent(*modules, size=SIZE):
    """The modules announced, and every block of each."""
    return announcement(*modules, size=size) + b"".join(s for m in modules for s in blocks(m, size))


def listing(rows, issue=42):
    return spell(issue, len(rows), rows)


def carried(data):
    """Those bytes as the module that is asked for, and no other."""
    return sent(Module(data))


def told(issue, *lines):
    return "".join(l + "\n" for l in ("issue,%d" % issue, HEADER, *lines))


# ---- the sample: each state and each corner

SAMPLE_ROWS = [
    (1, NONE, 0, 0, 0),
    (2, FIX, 108_000_000, 0, 1439),
    (3, LAST, -107_999_999, -1, 1440),
    (4, FIX, 0, 54_000_000, 10_079),
    (5, LAST, 0, -54_000_000, 0),
    (6, FIX, 1, 0, 59),
    (7, FIX, -1, 0, 60),
    (20, LAST, 0, 1, 1441),
    (300, FIX, 8_145_678, 27_321_234, 4567),
    (4000, NONE, 0, 0, 10_079),
    (50_000, LAST, 599_999, -600_000, 8640),
    (1_048_575, FIX, 107_999_999, -53_999_999, 8639),
]
SAMPLE_PRINTED = """\
issue,51966
buoy,state,longitude,latitude,minute,position,time
1,none,0,0,0,,0 00:00
2,fix,108000000,0,1439,00 00.0000 N 180 00.0000 E,0 23:59
3,last,-107999999,-1,1440,00 00.0001 S 179 59.9999 W,1 00:00
4,fix,0,54000000,10079,90 00.0000 N 000 00.0000 E,6 23:59
5,last,0,-54000000,0,90 00.0000 S 000 00.0000 E,0 00:00
6,fix,1,0,59,00 00.0000 N 000 00.0001 E,0 00:59
7,fix,-1,0,60,00 00.0000 N 000 00.0001 W,0 01:00
20,last,0,1,1441,00 00.0001 N 000 00.0000 E,1 00:01
300,fix,8145678,27321234,4567,45 32.1234 N 013 34.5678 E,3 04:07
4000,none,0,0,10079,,6 23:59
50000,last,599999,-600000,8640,01 00.0000 S 000 59.9999 E,6 00:00
1048575,fix,107999999,-53999999,8639,89 59.9999 S 179 59.9999 E,5 23:59
"""
LIST = Module(listing(SAMPLE_ROWS, 0xCAFE))  # 148 bytes, blocks 0 to 3
TIDES = Module(b"high water at noon, low water at six in the evening", 44, 9)  # 51 bytes, blocks 0 and 1


def sample_stdin():
    """The list and another module beside it. The blocks come in another order, one twice."""
    b, other = blocks(LIST), blocks(TIDES)
    return announcement(TIDES, LIST) + b"".join([b[2], other[1], b[0], b[3], b[0], b[1]])


SAMPLE = Input("the sample", "A dozen records, each state and each corner.", sample_stdin(), SAMPLE_PRINTED)


# ---- inputs: lists that are good

# buoy, state, both coordinates and minute 1; and all ones, the coordinates -1, minute 0
ONES = bytes.fromhex("0007 0001 000014000000400000080020")
MINUS_ONES = bytes.fromhex("FFFF 0001 FFFFFBFFFFFFFFFFFFF80000")


def by_hand():
    wanted = told(7, "1,fix,1,1,1,00 00.0001 N 000 00.0001 E,0 00:01")
    yield Input("ones, bytes by hand", "Each field's lowest bit.", carried(ONES), wanted)
    wanted = told(65_535, "1048575,last,-1,-1,0,00 00.0001 S 000 00.0001 W,0 00:00")
    yield Input("minus ones, bytes by hand", "Each coordinate's every bit.", carried(MINUS_ONES), wanted)


LONGITUDES = [
    (108_000_000, "180 00.0000 E"),
    (107_999_999, "179 59.9999 E"),
    (-107_999_999, "179 59.9999 W"),
    (-107_400_000, "179 00.0000 W"),
    (60_000_000, "100 00.0000 E"),
    (59_999_999, "099 59.9999 E"),
    (-6_000_000, "010 00.0000 W"),
    (600_000, "001 00.0000 E"),
    (-600_000, "001 00.0000 W"),
    (599_999, "000 59.9999 E"),
    (-599_999, "000 59.9999 W"),
    (100_000, "000 10.0000 E"),
    (-10_000, "000 01.0000 W"),
    (9_999, "000 00.9999 E"),
    (-1_000, "000 00.1000 W"),
    (1, "000 00.0001 E"),
    (-1, "000 00.0001 W"),
]
LATITUDES = [
    (54_000_000, "90 00.0000 N"),
    (-54_000_000, "90 00.0000 S"),
    (53_999_999, "89 59.9999 N"),
    (-53_999_999, "89 59.9999 S"),
    (6_000_000, "10 00.0000 N"),
    (-5_999_999, "09 59.9999 S"),
    (600_000, "01 00.0000 N"),
    (-600_000, "01 00.0000 S"),
    (599_999, "00 59.9999 N"),
    (-100_000, "00 10.0000 S"),
    (10_000, "00 01.0000 N"),
    (-9_999, "00 00.9999 S"),
    (1, "00 00.0001 N"),
    (-1, "00 00.0001 S"),
]
MINUTES = [
    (0, "0 00:00"),
    (9, "0 00:09"),
    (59, "0 00:59"),
    (60, "0 01:00"),
    (719, "0 11:59"),
    (720, "0 12:00"),
    (1439, "0 23:59"),
    (1440, "1 00:00"),
    (2047, "1 10:07"),
    (8191, "5 16:31"),
    (8192, "5 16:32"),
    (8640, "6 00:00"),
    (10_079, "6 23:59"),
]


def tabled(name, shows, table, row, text):
    """A record for each line of the table, and its line."""
    rows = [row(k, value) for k, (value, _) in enumerate(table, 1)]
    return Input(name, shows, carried(listing(rows)), told(42, *[text % (k, *entry) for k, entry in enumerate(table, 1)]))


def corners():
    text = "%d,fix,%d,0,0,00 00.0000 N %s,0 00:00"
    shows = "Along the equator, both sides of 180 and of 0; the equator is N."
    yield tabled("longitudes", shows, LONGITUDES, lambda k, value: (k, FIX, value, 0, 0), text)
    text = "%d,last,0,%d,0,%s 000 00.0000 E,0 00:00"
    shows = "Along the zero meridian, both poles; the zero meridian is E."
    yield tabled("latitudes", shows, LATITUDES, lambda k, value: (k, LAST, 0, value, 0), text)
    text = "%d,none,0,0,%d,,%s"
    shows = "The first and last of a day and of the week; state none has a minute, too."
    yield tabled("minutes", shows, MINUTES, lambda k, value: (k, NONE, 0, 0, value), text)


def kinds():
    yield SAMPLE
    rows = [(1, NONE, 0, 0, 1), (2, FIX, 1, 0, 2), (3, LAST, 0, -1, 3)]
    three = (
        "1,none,0,0,1,,0 00:01",
        "2,fix,1,0,2,00 00.0000 N 000 00.0001 E,0 00:02",
        "3,last,0,-1,3,00 00.0001 S 000 00.0000 E,0 00:03",
    )
    yield Input("the three states", "One coordinate may be zero in states 1 and 2.", carried(listing(rows)), told(42, *three))
    for issue in (0, 1, 255, 256, 65_535):
        yield Input("issue %d" % issue, "Every number of 16 bits is an issue.", carried(listing(rows, issue)), told(issue, *three))
    buoys = (1, 2, 255, 256, 65_535, 65_536, 1_048_574, 1_048_575)
    stdin, wanted = carried(listing(empty_rows(buoys))), told(42, *empty_lines(buoys))
    yield Input("buoys rising", "By one or by much, up to 20 bits.", stdin, wanted)


def empty_rows(buoys):
    return [(buoy, NONE, 0, 0, 0) for buoy in buoys]


def empty_lines(buoys):
    return ["%d,none,0,0,0,,0 00:00" % buoy for buoy in buoys]


def full(rows):
    """A list in the largest blocks: the fewest section heads."""
    return sent(Module(listing(rows)), size=LARGEST)


LONGEST_ROWS = [(1_043_160 + k, LAST, -107_999_999, -54_000_000, 10_079) for k in range(5416)]
LONGEST = Input(
    "the longest output",
    "As many records as can be read, 5,416, each of the longest line.",
    full(LONGEST_ROWS),
    told(42, *["%d,last,-107999999,-54000000,10079,90 00.0000 S 179 59.9999 W,6 23:59" % r[0] for r in LONGEST_ROWS]),
)


def counts():
    yield Input("an empty list", "Count 0 with 4 bytes is fine.", carried(b"\x01\x02\0\0"), told(258))
    yield LONGEST
    most, more = empty_rows(range(1, 5417)), empty_rows(range(1, 5418))
    assert len(full(most)) <= READ < len(full(more))
    yield Input("5,416 records", "Each of a short line.", full(most), told(42, *empty_lines(range(1, 5417))))
    yield Input("5,417 records", "The last block ends beyond what is read.", full(more), "handout,20,1,15\n")
    level = most[:2000] + most[1999:2000] + most[2001:]
    yield Input("5,416 records, one not rising", "At place 2,000, and nothing is printed of those before it.", full(level), "list,33\n")
    spare = most[:-1] + [(5416, NONE, 0, 0, 0, 1)]
    yield Input("5,416 records, the last with spare bits", "All are looked at before any is printed.", full(spare), "list,34\n")
    bytewise = sent(Module(listing(most[:85])), size=1)
    yield Input("blocks of one byte", "1,024 of them make 85 records.", bytewise, told(42, *empty_lines(range(1, 86))))


# ---- inputs: lists that are refused

GOOD_ROWS = [
    Row(10, FIX, 7, -7, 100),
    Row(20, NONE, 0, 0, 200),
    Row(30, LAST, -8_145_678, 27_321_234, 300),
    Row(40, FIX, 108_000_000, -54_000_000, 400),
    Row(50, LAST, 5, 0, 500),
]


def with_changes(changes):
    """The good list, but with other fields at some places: {place: {field: value}}."""
    return listing([row._replace(**changes.get(k, {})) for k, row in enumerate(GOOD_ROWS)])


# one field of each, so that any of them can be had together
FAULTS = {31: {"longitude": -108_000_000}, 32: {"minute": 10_080}, 33: {"buoy": 0}, 34: {"spare": 1}, 35: {"state": 3}}
# at any record with state 1 or 2
EVERYWHERE = [
    (31, "longitude -108,000,000", {"longitude": -108_000_000}),
    (31, "longitude 108,000,001", {"longitude": 108_000_001}),
    (31, "the lowest longitude of 28 bits", {"longitude": -134_217_728}),
    (31, "the highest longitude of 28 bits", {"longitude": 134_217_727}),
    (31, "latitude 54,000,001", {"latitude": 54_000_001}),
    (31, "latitude -54,000,001", {"latitude": -54_000_001}),
    (31, "the lowest latitude of 27 bits", {"latitude": -67_108_864}),
    (31, "the highest latitude of 27 bits", {"latitude": 67_108_863}),
    (31, "both out of range", {"longitude": -134_217_728, "latitude": 67_108_863}),
    (31, "longitude out of range, latitude 0", {"longitude": 108_000_001, "latitude": 0}),
    (31, "state 0, longitude out of range", {"state": NONE, "longitude": 108_000_001, "latitude": 0}),
    (31, "state 3, latitude out of range", {"state": 3, "latitude": 54_000_001}),
    (32, "minute 10,080", {"minute": 10_080}),
    (32, "the highest minute of 14 bits", {"minute": 16_383}),
    (33, "buoy 0", {"buoy": 0}),
    *((34, "spare %d" % n, {"spare": n}) for n in (1, 2, 4, 8, 16, 31)),
    (35, "state 3", {"state": 3}),
    (35, "state 3, both coordinates zero", {"state": 3, "longitude": 0, "latitude": 0}),
    (35, "state 0 with coordinates", {"state": NONE, "longitude": 1, "latitude": -1}),
    (35, "state 0 with a longitude", {"state": NONE, "longitude": -1, "latitude": 0}),
    (35, "state 0 with a latitude", {"state": NONE, "longitude": 0, "latitude": 54_000_000}),
    (35, "state 1 with both zero", {"state": FIX, "longitude": 0, "latitude": 0}),
    (35, "state 2 with both zero", {"state": LAST, "longitude": 0, "latitude": 0}),
]
NOT_RISING = [(1, 10), (1, 9), (1, 1), (2, 20), (2, 19), (2, 11), (2, 10), (4, 40), (4, 1)]  # a place, and its buoy


def refusals():
    for (number, what, change), place in itertools.product(EVERYWHERE, (0, 2, 4)):
        stdin = carried(with_changes({place: change}))
        yield Input("%s, at place %d" % (what, place), "Alone, it gives %d." % number, stdin, "list,%d\n" % number)
    for place, buoy in NOT_RISING:
        stdin = carried(with_changes({place: {"buoy": buoy}}))
        yield Input("buoy %d at place %d" % (buoy, place), "Not above the one before it.", stdin, "list,33\n")
    highest = carried(with_changes({3: {"buoy": 1_048_575}}))
    yield Input("none above the highest buoy", "The one after it does not rise.", highest, "list,33\n")
    stdin = carried(with_changes({k: {"buoy": k} for k in range(5)}))
    yield Input("buoys rising from 0", "0 is no buoy, at the first place neither.", stdin, "list,33\n")
    yield Input("the good list", "With no fault it is printed.", carried(with_changes({})), GOOD_PRINTED)


GOOD_PRINTED = """\
issue,42
buoy,state,longitude,latitude,minute,position,time
10,fix,7,-7,100,00 00.0007 S 000 00.0007 E,0 01:40
20,none,0,0,200,,0 03:20
30,last,-8145678,27321234,300,45 32.1234 N 013 34.5678 W,0 05:00
40,fix,108000000,-54000000,400,90 00.0000 S 180 00.0000 E,0 06:40
50,last,5,0,500,00 00.0000 N 000 00.0005 E,0 08:20
"""


def together():
    """Several faults: the first faulty record, and there the lowest number."""
    sets = [c for n in (2, 3, 4, 5) for c in itertools.combinations(FAULTS, n)]
    for numbers, place in itertools.product(sets, (0, 2)):
        change = {k: v for n in numbers for k, v in FAULTS[n].items()}
        name = "%s at place %d" % (" and ".join(map(str, numbers)), place)
        yield Input(name, "The lowest.", carried(with_changes({place: change})), "list,%d\n" % min(numbers))
    for (first, second), place in itertools.product(itertools.permutations(FAULTS, 2), (0, 2)):
        stdin = carried(with_changes({place: FAULTS[first], place + 1: FAULTS[second]}))
        yield Input("%d, and %d after it, at place %d" % (first, second, place), "The first faulty record.", stdin, "list,%d\n" % first)
    stdin = carried(with_changes({0: FAULTS[35], 4: FAULTS[31]}))
    yield Input("35 at the first place, 31 at the last", "The first faulty record, far before the other.", stdin, "list,35\n")
    for number, change in FAULTS.items():
        stdin = carried(with_changes({0: change}) + b"\0")
        yield Input("30 and %d" % number, "The length before all others.", stdin, "list,30\n")


def wrong_lengths():
    thirty = lambda name, shows, data: Input(name, shows, carried(data), "list,30\n")
    for n in (1, 2, 3):
        yield thirty("%d bytes" % n, "Under 4 bytes.", bytes(n))
    yield thirty("5 bytes", "Count 0, and a byte after it.", bytes(5))
    one = listing(GOOD_ROWS[:1])
    yield thirty("a byte too few", "Of one record.", one[:-1])
    yield thirty("a byte too many", "After one record.", one + b"\0")
    yield thirty("the head alone", "Count 1, and no record.", one[:4])
    for count in (0, 4, 6, 5 + 256, 65_535):
        yield thirty("five records, count %d" % count, "Not 4 + 12 x count.", spell(42, count, GOOD_ROWS))
    for count in (16_384, 32_768, 49_152):
        yield thirty("no record, count %d" % count, "12 x count is 0 in 16 bits.", spell(42, count, []))
        yield thirty("five records, count %d" % (count + 5), "12 x count is 60 in 16 bits.", spell(42, count + 5, GOOD_ROWS))
    yield thirty("one record, issue 1, count 5", "The issue comes first, then the count.", spell(1, 5, GOOD_ROWS[:1]))
    yield Input("no list at all", "A complete module of other bytes.", sent(TIDES), "list,30\n", (b"44",))


# ---- inputs: the hand-out. Never 1, since the run keeps the record's rule


def without(module, gone, size=SIZE):
    """Its blocks, but not those."""
    return b"".join(s for b, s in enumerate(blocks(module, size)) if b not in gone)


def handouts():
    head = announcement(LIST)
    for gone in ((0,), (1,), (3,), (0, 1), (1, 3), (0, 1, 2), (1, 2, 3)):
        name = "missing %s of 4 blocks" % " and ".join(map(str, gone))
        yield Input(name, "How many, and the lowest.", head + without(LIST, gone), "handout,20,%d,%d\n" % (len(gone), gone[0]))
    yield Input("announced, and no block", "All are missing.", head, "handout,20,4,0\n")
    twice = blocks(LIST)[0] * 4
    yield Input("one block four times", "It is one block.", head + twice, "handout,20,3,1\n")
    yield Input("nothing at all", "No byte: nothing is announced.", b"", "handout,13\n")
    yield Input("blocks without announcement", "They are refused.", without(LIST, ()), "handout,13\n")
    yield Input("nothing announced, module 0", "The empty record has no module 0.", b"", "handout,13\n", (b"0",))
    for other in (b"299", b"301", b"44", b"5", b"1", b"0", b"65535"):
        yield Input("module %s is not announced" % other.decode(), "300 is, and is complete.", sent(LIST), "handout,13\n", (other,))
    largest = dii(DOWNLOAD, LARGEST, [(300, IMAGE, 5)])
    yield Input("the largest module", "5,461 records would fill it; its 17 blocks are missing.", largest, "handout,20,17,0\n")
    yield Input("the largest module, its last block", "Of 480 bytes.", largest + ddb(DOWNLOAD, 300, 5, 16, bytes(480)), "handout,20,16,0\n")


def beyond():
    """15 (02, §8): more is announced than the image holds."""
    of = lambda *sizes: dii(DOWNLOAD, LARGEST, [(300 + k, z, 5) for k, z in enumerate(sizes)])
    for size in (IMAGE + 1, TOGETHER):
        yield Input("size %d" % size, "It is announced, and the image is too short.", of(size), "handout,15\n")
    last = ddb(DOWNLOAD, 300, 5, 16, bytes(481))
    yield Input("size 65537, its last block", "It is not stored, and that the others are missing is not told.", of(IMAGE + 1) + last, "handout,15\n")
    yield Input("size 262145", "10: nothing is announced.", of(TOGETHER + 1), "handout,13\n")
    yield Input("a module beyond the image, another asked for", "13 comes before 15.", of(TOGETHER), "handout,13\n", (b"301",))
    chart = Module(bytes(IMAGE + 1 - len(LIST.data)), 44, 9)
    whole = announcement(LIST, chart, size=150) + b"".join(blocks(LIST, 150))
    yield Input("a chart beside the list, a byte too large", "The list would fit; it is not stored.", whole, "handout,15\n")
    fits = Module(chart.data[1:], 44, 9)
    whole = announcement(LIST, fits, size=150) + b"".join(blocks(LIST, 150))
    yield Input("a chart beside the list, to the image's end", "The list is complete.", whole, SAMPLE_PRINTED)
    whole = announcement(fits, LIST, size=150) + b"".join(blocks(LIST, 150))
    yield Input("a chart before the list", "The list is the image's last bytes.", whole, SAMPLE_PRINTED)
    yield Input("a larger one after the list", "The list is no longer announced as it was.", sent(LIST) + of(TOGETHER), "handout,15\n")
    yield Input("the list after a larger one", "It is stored and printed.", of(TOGETHER) + sent(LIST), SAMPLE_PRINTED)
    yield Input("one too large after the list", "10: it changes nothing.", sent(LIST) + of(TOGETHER + 1), SAMPLE_PRINTED)


def many_blocks():
    """1,024 blocks of one byte, of a module at the first place and at the last: the missing ones at the ends of the marks' words."""
    module = Module(listing(empty_rows(range(1, 86))))
    assert len(module.data) == BLOCKS
    others = [Module(bytes(16), 400 + k) for k in range(MODULES - 1)]
    few = lambda *heard: [b for b in range(BLOCKS) if b not in heard]
    gone = ([255], [1023], [256, 512, 768], few(), few(0), few(0, 1, 256), few(1023), few(31, 32, 255, 511, 991), range(32, 1024), range(256, 1024), [*range(33, 992), 1000])
    for k, missing in enumerate(gone):
        wanted = "handout,20,%d,%d\n" % (len(missing), missing[0])
        for place, modules in (("first", [module]), ("last of 32", [*others, module])):
            stdin = announcement(*modules, size=1) + without(module, missing, 1)
            yield Input("1,024 blocks, gap %d, %s" % (k, place), "%d missing, from %d on." % (len(missing), missing[0]), stdin, wanted)
    whole = announcement(*others, module, size=1) + without(module, (), 1)
    yield Input("1,024 blocks, last of 32", "None is missing.", whole, told(42, *empty_lines(range(1, 86))))


def beside():
    """Other modules beside the list."""
    other = Module(with_changes({}), 301)
    yield Input("a second module is the list", "The first is complete, too.", sent(TIDES, LIST), SAMPLE_PRINTED)
    yield Input("a first module is the list", "The second is complete, too.", sent(LIST, TIDES), SAMPLE_PRINTED)
    yield Input("the module beside the list", "It is asked for, and is no list.", sent(TIDES, LIST), "list,30\n", (b"44",))
    alone = announcement(TIDES, LIST) + without(LIST, ())
    yield Input("the other module missing", "The list is complete.", alone, SAMPLE_PRINTED)
    yield Input("the other module asked for", "It is missing, the list is complete.", alone, "handout,20,2,0\n", (b"44",))
    yield Input("two lists, the first", "Each by its own number.", sent(LIST, other), SAMPLE_PRINTED)
    yield Input("two lists, the second", "Each by its own number.", sent(LIST, other), GOOD_PRINTED, (b"301",))
    bad = Module(with_changes({1: FAULTS[34]}), 301)
    yield Input("a good list beside a bad one", "The bad one is not asked for.", sent(bad, LIST), SAMPLE_PRINTED)
    yield Input("a bad list beside a good one", "The good one is not asked for.", sent(bad, LIST), "list,34\n", (b"301",))
    others = [Module(bytes([k]) * 50, k) for k in range(MODULES - 1)]
    yield Input("the last of 32 modules", "It begins far in the image.", sent(*others, LIST), SAMPLE_PRINTED)
    yield Input("32 modules, one asked for", "A module of 50 bytes is no list.", sent(*others, LIST), "list,30\n", (b"30",))
    yield Input("33 modules", "10: nothing is announced.", sent(*others, TIDES, LIST), "handout,13\n")
    yield Input("33 modules after the list", "10: they change nothing.", sent(LIST) + announcement(*others, TIDES, LIST), SAMPLE_PRINTED)


def orders():
    head, b = announcement(LIST), blocks(LIST)
    for k, order in enumerate(itertools.permutations(range(4))):
        yield Input("order %d" % k, "Blocks %d, %d, %d, %d." % order, head + b"".join(b[n] for n in order), SAMPLE_PRINTED)
    yield Input("every block three times", "Repeated blocks change nothing.", head + b"".join(b) * 3, SAMPLE_PRINTED)
    wrong = [ddb(DOWNLOAD, 300, 5, n, bytes(SIZE)) for n in range(3)]
    around = head + b[1] + wrong[1] + b[0] + wrong[0] + b[3] + b[1] + b[2] + wrong[2] + wrong[1]
    yield Input("wrong repeats in between", "17: a late bad copy moves no buoy.", around, SAMPLE_PRINTED)
    early = head + wrong[1] + b"".join(b)
    yield Input("a wrong block first", "It is stored, and the right one refused: the record at place 3 is zeros.", early, "list,33\n")
    others = [s for good in b for s in (ait(), program.spoiled(good), good, sized(0x3C, 0))]
    stdin = head + b"".join(others)
    yield Input("other sections in between", "A table, a wrong CRC and a short one: none changes the list.", stdin, SAMPLE_PRINTED)
    yield Input("the announcement before each block", "The same again keeps what is stored.", b"".join(head + s for s in b), SAMPLE_PRINTED)


# ---- inputs: a new announcement, and an input that is cut

THIS_WEEK = Module(listing([(k, FIX, 1, k, 0) for k in range(1, 13)], 7), 300, 6)  # as long as LIST, last week's
THIS_PRINTED = told(7, *["%d,fix,1,%d,0,00 00.%04d N 000 00.0001 E,0 00:00" % (k, k, k) for k in range(1, 13)])


def weeks():
    last, head, new = sent(LIST), announcement(THIS_WEEK), blocks(THIS_WEEK)
    assert len(THIS_WEEK.data) == len(LIST.data)
    yield Input("this week's list", "Whole, after last week's.", last + head + b"".join(new), THIS_PRINTED)
    yield Input("this week announced", "Last week's list is not printed.", last + head, "handout,20,4,0\n")
    for gone in range(4):
        stdin = last + head + without(THIS_WEEK, (gone,))
        yield Input("this week without block %d" % gone, "Nor is a mixture of both.", stdin, "handout,20,1,%d\n" % gone)
    old = b"".join(blocks(LIST))
    yield Input("last week's blocks again", "14: they are of another version.", last + head + new[2] + old, "handout,20,3,0\n")
    yield Input("this week, old blocks in between", "They change nothing.", last + head + b"".join(n + old for n in new), THIS_PRINTED)
    yield Input("last week announced again", "It begins empty: the version before was another.", last + head + b"".join(new) + announcement(LIST), "handout,20,4,0\n")
    yield Input("last week sent again", "The announcement sent last counts.", last + head + b"".join(new) + last, SAMPLE_PRINTED)


def announcements():
    last = sent(LIST)
    other = announcement(LIST, download=1)
    yield Input("another download", "Its blocks are missing.", last + other, "handout,20,4,0\n")
    yield Input("another download, old blocks", "12: they are of the old one.", last + other + without(LIST, ()), "handout,20,4,0\n")
    yield Input("another download, sent whole", "The same list.", last + other + b"".join(blocks(LIST, download=1)), SAMPLE_PRINTED)
    yield Input("another block size", "Seven blocks now, all missing.", last + announcement(LIST, size=24), "handout,20,7,0\n")
    yield Input("without the list", "It is no longer announced.", last + announcement(TIDES), "handout,13\n")
    yield Input("the same announcement", "The list stays.", last + announcement(LIST), SAMPLE_PRINTED)
    refused = [program.spoiled(other), announcement(LIST, LIST), dii(DOWNLOAD, 0, [(300, 148, 6)]), dii(DOWNLOAD, SIZE, [])]
    yield Input("refused announcements", "5, 11 and 10: they change nothing.", last + b"".join(refused), SAMPLE_PRINTED)


def kept():
    """02, §5: the list as it was keeps its blocks."""
    newer, half, rest = TIDES._replace(version=10), Module(TIDES.data[:20], 45), Module(TIDES.data[20:], 46)
    shorter, larger = TIDES._replace(data=TIDES.data[1:]), [Module(bytes(33_000), 47), Module(bytes(33_000), 48)]
    last, after = sent(LIST), sent(TIDES, LIST)
    none = "handout,20,4,0\n"
    yield Input("a module more", "Behind the list, which is kept.", last + announcement(LIST, TIDES), SAMPLE_PRINTED)
    yield Input("a module less", "It was behind the list.", sent(LIST, TIDES) + announcement(LIST), SAMPLE_PRINTED)
    yield Input("a module in front", "The list begins elsewhere.", last + announcement(TIDES, LIST), none)
    yield Input("only the tides are newer", "The list is kept.", after + announcement(newer, LIST), SAMPLE_PRINTED)
    yield Input("only the tides are shorter", "The list begins elsewhere.", after + announcement(shorter, LIST), none)
    yield Input("the tides in two", "The list is kept at the third place.", after + announcement(half, rest, LIST), SAMPLE_PRINTED)
    yield Input("the tides in one again", "It is kept at the second.", sent(half, rest, LIST) + announcement(TIDES, LIST), SAMPLE_PRINTED)
    yield Input("the tides behind the list", "Both begin elsewhere.", after + announcement(LIST, TIDES), none)
    again = last + announcement(TIDES) + announcement(LIST)
    yield Input("without the list, and again with it", "It begins empty.", again, none)
    yield Input("another download, and the first again", "It begins empty.", last + announcement(LIST, download=1) + announcement(LIST), none)
    yield Input("another block size, and the first again", "It begins empty.", last + announcement(LIST, size=24) + announcement(LIST), none)
    yield Input("more than the image", "The list is whole, and 15.", last + announcement(LIST, *larger), "handout,15\n")
    yield Input("no more than the image again", "It was kept all the time.", last + announcement(LIST, *larger) + announcement(LIST), SAMPLE_PRINTED)
    for gone in ((0,), (3,), (1, 2)):
        wanted = "handout,20,%d,%d\n" % (len(gone), gone[0])
        part = announcement(TIDES, LIST) + without(LIST, gone) + announcement(half, rest, LIST)
        yield Input("kept without block %s" % " and ".join(map(str, gone)), "What came is kept, and no more.", part, wanted)
        late = b"".join(blocks(LIST)[b] for b in gone)
        yield Input("the same, and then block %s" % " and ".join(map(str, gone)), "The list is whole.", part + late, SAMPLE_PRINTED)


def padding(n):
    """Sections of another table, of n bytes together."""
    return b"" if n == 0 else sized(0x00, n - 3) if n <= 4098 else sized(0x00, 997) + padding(n - 1000)


def cuts():
    whole, head = sent(LIST), announcement(LIST)
    tail = len(blocks(LIST)[3])
    for n in (1, 2, tail - 3, tail - 2, tail - 1, tail):
        yield Input("%d bytes cut off" % n, "The last block is not whole.", whole[:-n], "handout,20,1,3\n")
    yield Input("cut in the block before the last", "Two are missing.", whole[: -tail - 1], "handout,20,2,2\n")
    yield Input("cut in the announcement", "Nothing is announced.", head[:-1], "handout,13\n")
    stuffed = head + without(LIST, (3,)) + b"\xff" + blocks(LIST)[3]
    yield Input("stuffing before the last block", "What follows is not read.", stuffed, "handout,20,1,3\n")
    yield Input("stuffing after the list", "What follows is not read.", whole + b"\xff" + announcement(THIS_WEEK), SAMPLE_PRINTED)
    yield Input("stuffing first", "What follows is not read.", b"\xff" + whole, "handout,13\n")
    yield Input("65,536 bytes", "The last of them ends the last block.", padding(READ - len(whole)) + whole, SAMPLE_PRINTED)
    yield Input("65,537 bytes", "The last block's last byte is not read.", padding(READ + 1 - len(whole)) + whole, "handout,20,1,3\n")
    beyond = whole + padding(READ - len(whole)) + announcement(THIS_WEEK)
    yield Input("this week announced beyond", "At byte 65,536, and it is not read.", beyond, SAMPLE_PRINTED)
    head = announcement(THIS_WEEK)
    stdin = whole + padding(READ - len(whole) - len(head)) + head
    yield Input("this week announced at the end", "Byte 65,535 is its last, and it is read.", stdin, "handout,20,4,0\n")


# ---- inputs: the arguments

NO_NUMBERS = """
    x 1x x1 30x x300 3x0 -1 +1 -300 +300 -0 - + 300, 300. 300.0 3e2 0x1 0x12c 1_0 3_00 300h 30/ 30: /00 :00 --help
    65536 65537 65836 99999 065536 1000000 4294967296 4294967596 9223372036854775808
    18446744073709551615 18446744073709551616 18446744073709551916 99999999999999999999
"""
BLANKS = [b"", b" ", b"300 ", b" 300", b"3 0", b"300\n", b"\n300", b"300\t", b"300\r"]
OTHER_DIGITS = [b"\xff", b"300\xff", b"\x80", b"\xb2", "\u0663\u0660\u0660".encode(), "\uff13\uff10\uff10".encode()]
TOO_LONG = [b"0" * 5000, b"0" * 4097, b"0" * 4094 + b"300", b"0" * 5000 + b"300", b"3" * 50_000]
LONG = [b"300" + b"0" * 4093, b"9" * 4096, b"1" * 100, b"0" * 4095 + b"x", b"0" * 4090 + b"65536"]
SEVERAL = [
    (b"300", b"300"),
    (b"300", b""),
    (b"", b"300"),
    (b"", b""),
    (b"300", b"x"),
    (b"44", b"300"),
    (b"3", b"0", b"0"),
    (b"300",) * 100,
]


def shown(argument):
    text = repr(argument)[1:]
    return text if len(text) < 40 else "%s...%s of %d bytes" % (text[:4], text[-7:], len(argument))


def arguments():
    """Refused: the sample has the module 300, so that a wrong reading shows. Taken: with or without leading zeros."""
    alone = [*NO_NUMBERS.encode().split(), *BLANKS, *OTHER_DIGITS, *TOO_LONG, *LONG]
    for given in [(), *((a,) for a in alone), *SEVERAL]:
        name = "given %d: %s" % (len(given), " ".join(map(shown, given[:3])) or "none")
        yield Input(name, "Not one number of 16 bits.", SAMPLE.stdin, USAGE, given)
    yield Input("no argument and no input", "The arguments are enough to tell.", b"", USAGE, ())
    for given in (b"0300", b"00300", b"00000300", b"0" * 100 + b"300", b"0" * 4093 + b"300"):
        shows = "Leading zeros are taken, up to 4,096 bytes."
        yield Input("the argument %s" % shown(given), shows, SAMPLE.stdin, SAMPLE_PRINTED, (given,))
    zero, one, last = (sent(Module(LIST.data, n)) for n in (0, 1, 65_535))
    for given in (b"0", b"00000", b"0" * 4096):
        yield Input("module 0: %s" % shown(given), "0 is a module's number.", zero, SAMPLE_PRINTED, (given,))
    for given in (b"1", b"01", b"00001"):
        yield Input("module 1: %s" % shown(given), "One digit is enough.", one, SAMPLE_PRINTED, (given,))
    for given in (b"65535", b"065535", b"0000000065535"):
        yield Input("module 65535: %s" % shown(given), "The highest.", last, SAMPLE_PRINTED, (given,))
    yield Input("65535 of the sample", "A number, but not announced.", SAMPLE.stdin, "handout,13\n", (b"65535",))
    yield Input("00001 of the sample", "A number, but not announced.", SAMPLE.stdin, "handout,13\n", (b"00001",))
    yield Input("65536 where 0 is the list", "It is not 0.", zero, USAGE, (b"65536",))
    yield Input("-1 where 65535 is the list", "It is not 65,535.", last, USAGE, (b"-1",))
    yield Input("1 where 0 is the list", "It is not announced.", zero, "handout,13\n", (b"1",))


# ---- inputs: bits changed, and lists at random


def with_field(data, place, name, value):
    """The list, but the field's bits at that place are those."""
    at, which = HEAD + RECORD * place, Row._fields.index(name)
    shift = sum(WIDTHS[which + 1 :])
    bits = int.from_bytes(data[at : at + RECORD], "big")
    bits += (value - (bits >> shift) % 2 ** WIDTHS[which]) << shift
    return data[:at] + bits.to_bytes(RECORD, "big") + data[at + RECORD :]


def every_bit():
    data = listing([(0x5A5A5, FIX, -1_234_567, 7_654_321, 5000), (0xA5A5A, LAST, 89_012_345, -45_678_901, 9999)])
    for k in range(8 * len(data)):
        flipped = int.from_bytes(data, "big") ^ 1 << 8 * len(data) - 1 - k
        yield Input("bit %d" % k, "Of a list of two records it alone is another.", carried(flipped.to_bytes(len(data), "big")))


def near(rnd, low, high):
    """At an end, at 0, or anywhere between."""
    return rnd.choice([low, high, 0, rnd.choice([-1, 1, 599_999, 600_000, -600_000]), *(rnd.randint(low, high) for _ in range(4))])


def random_row(rnd, buoy):
    state, minute = rnd.randrange(3), rnd.choice([0, 1439, 1440, 10_079, rnd.randrange(10_080)])
    longitude, latitude = near(rnd, -107_999_999, 108_000_000), near(rnd, -54_000_000, 54_000_000)
    if state == NONE:
        longitude = latitude = 0
    elif longitude == latitude == 0:
        latitude = rnd.choice([-1, 1])
    return Row(buoy, state, longitude, latitude, minute)


def random_rows(rnd, least=0):
    count = rnd.randrange(least, 30)
    first, step = rnd.choice([(1, 1), (1, 900), (1_000_000, 1000)])
    buoys = itertools.accumulate([first + rnd.randrange(step) if k == 0 else 1 + rnd.randrange(step) for k in range(count)])
    return [random_row(rnd, buoy) for buoy in buoys]


def random_sent(rnd, data):
    """In blocks of some size and in some order, some of them twice, with other modules beside."""
    size = rnd.choice([12, 16, 40, 100, 1000, len(data) // 200 + 1])
    module, other = Module(data, 300, rnd.randrange(256)), Module(rnd.randbytes(30), 44, rnd.randrange(256))
    modules = rnd.choice([[module], [module, other], [other, module]])
    sections = [s for m in modules for s in blocks(m, size)]
    sections += rnd.sample(sections, rnd.randrange(len(sections)))
    rnd.shuffle(sections)
    return announcement(*modules, size=size) + b"".join(sections)


def wrong_value(rnd, rows, place, name):
    """Bits with which that field alone is wrong."""
    if name == "state":
        return rnd.choice([3, FIX, LAST] if rows[place].state == NONE else [3, NONE])
    low, high = {
        "buoy": (0, rows[place - 1].buoy if place else 0),
        "longitude": (108_000_001, 2**28 - 108_000_000),
        "latitude": (54_000_001, 2**27 - 54_000_001),
        "minute": (10_080, 2**14 - 1),
        "spare": (1, 2**5 - 1),
    }[name]
    return rnd.choice([low, high, rnd.randint(low, high)])


NUMBERS = Row(buoy=33, state=35, longitude=31, latitude=31, minute=32, spare=34)  # of a field that is wrong


def random_lists():
    rnd = random.Random(102_809)
    for k in range(150):
        data = listing(random_rows(rnd), rnd.randrange(65_536))
        yield Input("a good list at random, %d" % k, "It is printed.", random_sent(rnd, data))
    for k in range(150):
        rows = random_rows(rnd, 1)
        place, name = rnd.randrange(len(rows)), Row._fields[k % 6]
        stdin = random_sent(rnd, with_field(listing(rows), place, name, wrong_value(rnd, rows, place, name)))
        yield Input("a wrong %s at random, %d" % (name, k), "It alone is wrong.", stdin, "list,%d\n" % getattr(NUMBERS, name))
    for k in range(150):
        rows = random_rows(rnd, 1)
        name = Row._fields[k % 5]
        data = with_field(listing(rows), rnd.randrange(len(rows)), name, rnd.getrandbits(getattr(WIDTHS, name)))
        yield Input("another %s at random, %d" % (name, k), "Right or wrong.", random_sent(rnd, data))
    for k in range(30):
        count = rnd.randrange(1, 20)
        data = spell(k, count, []) + rnd.randbytes(RECORD * count)
        yield Input("records of bits at random, %d" % k, "The first is nearly always refused.", random_sent(rnd, data))


def random_weeks():
    """Two lists of one length, announced by turns, with blocks of both."""
    rnd = random.Random(13_818)
    for k in range(60):
        gone = sorted(rnd.sample(range(4), rnd.randrange(1, 5)))
        stdin = sent(LIST) + announcement(THIS_WEEK) + without(THIS_WEEK, gone)
        yield Input("blocks missing at random, %d" % k, "How many, and the lowest.", stdin, "handout,20,%d,%d\n" % (len(gone), gone[0]))
    sections = [s for week in (LIST, THIS_WEEK) for s in [announcement(week)] + blocks(week) * 4]
    for k in range(60):
        stdin = sent(LIST) + b"".join(rnd.choices(sections, k=30))
        yield Input("two weeks at random, %d" % k, "The announcement that was the last new one counts.", stdin)


def of_the_paper():
    """The inputs of the paper's program: whatever the run meets, the module is asked for after it."""
    for topic in program.TOPICS:
        for i in topic():
            yield Input("of the paper: " + i.name, i.shows, i.stdin, None, (b"7",))


LISTS = (by_hand, corners, kinds, counts, refusals, together, wrong_lengths)
CAROUSELS = (handouts, beyond, many_blocks, beside, orders, weeks, announcements, kept, cuts)
TOPICS = (*LISTS, *CAROUSELS, arguments, every_bit, random_lists, random_weeks, of_the_paper)


# ---- what is known of the inputs without the built program


def check_packing():
    """The fields at hand-made places, and that reading and spelling undo each other."""
    assert spell(7, 1, [(1, FIX, 1, 1, 1)]) == ONES
    assert spell(65_535, 1, [(1_048_575, LAST, -1, -1, 0)]) == MINUS_ONES
    assert sum(WIDTHS) == 8 * RECORD and HEAD + RECORD * 5461 == IMAGE
    for row in (Row(0, 0, -(2**27), -(2**26), 0), Row(1_048_575, 3, 2**27 - 1, 2**26 - 1, 16_383, 31)):
        assert unpacked(packed(row)) == row
    rnd = random.Random(1)
    for _ in range(200):
        rows, bits = random_rows(rnd), rnd.getrandbits(96)
        assert read(listing(rows, 9)) == (0, 9, rows)
        assert packed(unpacked(bits)) == bits


def from_text(degrees, minutes, letter):
    """A coordinate out of its text."""
    value = int(degrees) * 600_000 + int(minutes.replace(".", ""))
    return -value if letter in "SW" else value


def check_lines():
    """A line tells its record in two ways, and they agree."""
    rnd = random.Random(2)
    for row in (row for _ in range(200) for row in random_rows(rnd)):
        buoy, state, longitude, latitude, minute, position, hour = line(row).split(",")
        assert Row(int(buoy), ["none", "fix", "last"].index(state), int(longitude), int(latitude), int(minute)) == row
        words = position.split()
        assert (len(position), len(words)) == (26, 6) if row.state != NONE else position == ""
        assert not words or (from_text(*words[:3]), from_text(*words[3:])) == (row.latitude, row.longitude)
        assert len(hour) == 7 and int(hour[0]) * 1440 + int(hour[2:4]) * 60 + int(hour[5:]) == row.minute


def check_words(cases):
    """Each output is what the words tell, on its own end; together they show each answer that can be."""
    met = set()
    for i, out, err in cases:
        text = (out + err).decode()
        assert i.wanted is None or text == i.wanted, (i.name, text[:200])
        assert (out == b"" and text == USAGE) if err else text.endswith("\n"), i.name
        assert not i.name.startswith("a good list") or text.startswith("issue,"), i.name
        first = text.splitlines()[0].split(",")
        met.add(first[0] if first[0] in ("issue", USAGE.strip()) else ",".join(first[:2]))
    assert met == {"handout,13", "handout,15", "handout,20", *("list,%d" % n for n in range(30, 36)), "issue", USAGE.strip()}, met


def checked_cases():
    """Each input with its output, on either end."""
    check_packing()
    check_lines()
    cases = [(i, *printed(i.arguments, i.stdin)) for topic in TOPICS for i in topic()]
    assert len({i.name for i, _, _ in cases}) == len(cases), "two inputs of one name"
    check_words(cases)
    return cases


# ---- the built program. The command is without the arguments


def built():
    return [*program.built()[:-1], ROOT / "target" / "bin" / "driftlist"]


def check_usage(command, i, stdout=subprocess.PIPE, **how):
    """The words of use, and nothing else. Its status is left open; but it ends by itself."""
    with program.file_of(i.stdin) as stdin:
        done = subprocess.run(command, stdin=stdin, stdout=stdout, stderr=subprocess.PIPE, timeout=program.LIMIT, **how)
    program.check_same(i.name + ", standard error", done.stderr, USAGE.encode())
    program.check_same(i.name, done.stdout or b"", b"")
    if done.returncode < 0:
        program.differs(i.name, "ended with status %d" % done.returncode)


def check_cases(command, cases):
    longest = (0, "")
    for i, out, err in cases:
        begun = time.monotonic()
        if err:
            check_usage([*command, *i.arguments], i)
        else:
            program.check_same(i.name, program.from_file([*command, *i.arguments], i), out)
        longest = max(longest, (time.monotonic() - begun, i.name))
    print("driftlist.py: longest run %.2f s: %s" % longest)


def check_beyond(command, cases):
    """Bytes beyond the first 65,536 do not change the output."""
    for argument in (b"300", b"7"):
        program.check_beyond([*command, argument], [(i, out) for i, out, _ in cases if i.arguments == (argument,)])


def check_pieces(command, cases):
    """From a pipe in pieces as from a file, also where there is more than is read."""
    for i, out, _ in cases:
        if i.name in (SAMPLE.name, LONGEST.name, "2 bytes cut off", "65,537 bytes", "this week announced beyond"):
            for size in (1, 7, 4096) if len(i.stdin) < 5000 else (997, 4096):
                name = "%s, in pieces of %d" % (i.name, size)
                program.check_same(name, program.in_pieces([*command, *i.arguments], i._replace(name=name), size), out)


def check_unread(command):
    """Standard input closed, or one that cannot be read: as if there were none."""
    directory = os.open("/", os.O_RDONLY)
    for name, stdin, before in (("standard input closed", None, lambda: os.close(0)), ("standard input a directory", directory, None)):
        program.check_same(name, program.run_it([*command, b"300"], name, stdin, preexec_fn=before), b"handout,13\n")
    os.close(directory)


def check_left(command):
    """Whoever reads the output leaves after ten bytes: it ends, and quietly."""
    with program.file_of(LONGEST.stdin) as stdin, program.file_of(b"") as err:
        process = subprocess.Popen([*command, b"300"], stdin=stdin, stdout=subprocess.PIPE, stderr=err, bufsize=0)
        begin = process.stdout.read(10)
        process.stdout.close()
        try:
            status = process.wait(program.LIMIT)
        finally:
            process.kill()
        err.seek(0)
        program.check_ended("an output that is left", status, err.read(), unheard=True)
    assert begin and LONGEST.wanted.encode().startswith(begin), begin


def check_unheard(command):
    """Standard output closed, or a pipe that no one reads, or a full disk: it ends, and quietly; a short output and the longest."""
    program.check_unheard([*command, b"1"])
    for i in (SAMPLE, LONGEST):
        reader, writer = os.pipe()
        os.close(reader)
        with open(writer, "wb") as pipe, open("/dev/full", "wb") as disk:
            for stdout in (pipe, disk):
                program.from_file([*command, *i.arguments], i._replace(name=i.name + ", unheard"), stdout=stdout, unheard=True)
        closed = i._replace(name=i.name + ", standard output closed")
        program.from_file([*command, *i.arguments], closed, stdout=None, unheard=True, preexec_fn=lambda: os.close(1))
    check_left(command)


def check_usage_ends(command):
    """The words of use do not need the other ends, and where no one hears them it ends nevertheless."""
    lacking = Input("no argument, other ends closed", "", b"", USAGE, ())
    check_usage(command, lacking, stdout=None, preexec_fn=lambda: (os.close(0), os.close(1)))
    for name, before in (("closed", lambda: os.close(2)), ("a full disk", lambda: os.dup2(os.open("/dev/full", os.O_WRONLY), 2))):
        done = subprocess.run(command, stdin=subprocess.DEVNULL, stdout=subprocess.PIPE, timeout=program.LIMIT, preexec_fn=before)
        if done.stdout or (done.returncode < 0 and done.returncode != -signal.SIGPIPE):
            program.differs("no argument, standard error %s" % name, "status %d, standard output %r" % (done.returncode, done.stdout[:200]))


def check_built(command, cases):
    check_cases(command, cases)
    check_beyond(command, cases)
    check_pieces(command, cases)
    check_unread(command)
    check_unheard(command)
    check_usage_ends(command)


# ---- the stored files


def settle_arguments():
    """Compare the stored arguments, a line each, with the sample's, or write them."""
    path, made = ROOT / "crates" / "driftlist" / "args", b"".join(a + b"\n" for a in SAMPLE.arguments)
    if "--write" in sys.argv:
        path.parent.mkdir(parents=True, exist_ok=True)
        path.write_bytes(made)
    elif path.read_bytes() != made:
        sys.exit("%s is not what tests/driftlist.py makes: run it with --write and look at the change" % path)


def main():
    arguments = sys.argv[1:]
    if arguments not in ([], ["--write"], ["built"]):
        sys.exit(__doc__)
    cases = checked_cases()
    settle_arguments()
    settle("driftlist", SAMPLE.stdin, SAMPLE_PRINTED.encode())
    by_words = sum(i.wanted is not None for i, _, _ in cases)
    print("driftlist.py: %d inputs, %d of them as the words tell; args, stdin and stdout are the sample's" % (len(cases), by_words))
    if arguments == ["built"]:
        check_built(built(), cases)
        lines = sum((out + err).count(b"\n") for _, out, err in cases)
        print("driftlist.py: %d inputs, %d lines compared" % (len(cases), lines))


if __name__ == "__main__":
    main()
