#!/usr/bin/env python3
"""What crates/player must write, by a second program.

Written from the words on the shore player (02, §13, and points 13.1 to 13.7), the paper (01), 02, §6 and §8, and the lines below, not from
the Rattle code. What a receiver makes of it is tests/receiver.py.

The arguments are DOWNLOAD BLOCKSIZE IDENTIFIER NUMBER VERSION FILE [NUMBER VERSION FILE ...]: numbers of 32, 16, 32, 16 and 8 bits in
decimal, 1 to 4,096 digits with leading zeros among them, and names of files, of at most 4,096 bytes (docs/DECISIONS.md 147: a longer one
could not be told). A module's bytes are its file's whole content. One of these:

    usage: player DOWNLOAD ...     on standard error, where the arguments are not as above; no file is opened before that is known
    no file NAME                   on standard error, for the first file that cannot be read; the name as it was given. A name that is no UTF-8
                                   names no file that can be read: the kit opens files by text
    refused,N                      on standard error, where the call refuses: 10 or 11, once all files were read
    one rotation                   on standard output else: the announcement with that identifier, then each block

Nothing goes to the other end, and each line ends with a line feed. The status is left open, but for a rotation, which is 0. Standard input
is not read. A file that is larger than what is left of 262,144 bytes is 10.

    player.py          check the inputs, and compare crates/player/args, data/ and stdout with what this program makes
    player.py --write  check the inputs, and write the three
    player.py built    the first, then run target/bin/player, which tools/build.sh builds, on every input and compare what it writes on
                       standard output and standard error, byte for byte; then its ends closed, broken and full
"""
import itertools
import os
import random
import shutil
import signal
import subprocess
import sys
import tempfile
from pathlib import Path
from typing import NamedTuple

import driftlist
import program
import receiver
from receiver import BLOCKS, LARGEST, MODULES, TOGETHER, ddb, dii, over_limits, twice
from second import ROOT, crc, with_crc

# ---- the sections: each field a number and its width in bits, the first topmost


def packed(*fields):
    bits = width = 0
    for value, wide in fields:
        assert 0 <= value < 2**wide, (value, wide)
        bits, width = bits * 2**wide + value, width + wide
    return bits.to_bytes(width // 8, "big")


class Module(NamedTuple):
    """As it is announced."""

    number: int
    size: int
    version: int


class Announced(NamedTuple):
    download: int
    size: int  # of a block
    modules: list


def section(table, extension, version, numbers, message, identifier, content):
    """A whole section; numbers are its own and the last one."""
    body = packed((0x11, 8), (0x03, 8), (message, 16), (identifier, 32), (0xFF, 8), (0, 8), (len(content), 16)) + content
    length = packed((1, 1), (0, 1), (0b11, 2), (5 + len(body) + 4, 12))
    head = packed((extension, 16), (0b11, 2), (version, 5), (1, 1), (numbers[0], 8), (numbers[1], 8))
    return with_crc(bytes([table]) + length + head + body)


def announcement(a, identifier):
    content = packed((a.download, 32), (a.size, 16), (0, 80), (0, 16), (len(a.modules), 16))
    for m in a.modules:
        content += packed((m.number, 16), (m.size, 32), (m.version, 8), (0, 8))
    return section(0x3B, identifier % 2**16, 0, (0, 0), 0x1002, identifier, content + packed((0, 16)))


def blocks(a, m, data):
    """The sections of a module with these bytes."""
    parts = [data[at : at + a.size] for at in range(0, len(data), a.size)]
    for b, part in enumerate(parts):
        content = packed((m.number, 16), (m.version, 8), (0xFF, 8), (b, 16)) + part
        yield section(0x3C, m.number, m.version % 32, (b % 256, min(255, len(parts) - 1)), 0x1003, a.download, content)


def starts(a):
    return itertools.accumulate((m.size for m in a.modules), initial=0)


def rotation(a, image, identifier):
    """Every section, by its place."""
    of = ((m, image[at : at + m.size]) for m, at in zip(a.modules, starts(a)))
    return [announcement(a, identifier), *(s for m, data in of for s in blocks(a, m, data))]


def limits(a):
    """Of refusals 10 and 11 those that apply."""
    tests = {10: over_limits(a.size, [m.size for m in a.modules]), 11: twice([m.number for m in a.modules])}
    return {number for number, met in tests.items() if met}


def call(a, image, identifier, place, room):
    """The library's call: the number, and the section where it is 0. All numbers that apply are gathered, and the lowest is given."""
    met = limits(a)
    if met:
        return min(met), b""
    sections = rotation(a, image.ljust(sum(m.size for m in a.modules), b"?"), identifier)
    written = sections[place] if place < len(sections) else b""
    tests = {15: len(image) < sum(m.size for m in a.modules), 19: place >= len(sections), 21: room < len(written)}
    met = {number for number, applies in tests.items() if applies}
    return (min(met), b"") if met else (0, written)


# ---- the program

USAGE = b"usage: player DOWNLOAD BLOCKSIZE IDENTIFIER NUMBER VERSION FILE [NUMBER VERSION FILE ...]\n"
FIRST, EACH = 3, 3  # arguments before the modules, and of a module


def number(argument, bits):
    """The number that the argument is; None where it is none of so many bits."""
    if not 1 <= len(argument) <= 4096 or not all(c in b"0123456789" for c in argument):
        return None
    value = int(argument)
    return value if value < 2**bits else None


def understood(arguments):
    """download, blockSize, identifier, and the number, version and name of each module; None where they are not to be understood."""
    count, left = divmod(len(arguments) - FIRST, EACH)
    if count < 1 or left:
        return None
    head = [number(argument, bits) for argument, bits in zip(arguments, (32, 16, 32))]
    entries = [arguments[at : at + EACH] for at in range(FIRST, len(arguments), EACH)]
    modules = [(number(n, 16), number(v, 8), name) for n, v, name in entries]
    return None if None in head or any(None in m or len(m[2]) > 4096 for m in modules) else (*head, modules)


def is_text(name):
    try:
        return name.decode() is not None
    except UnicodeDecodeError:
        return False


def content(folder, name):
    """What the file has; None where it cannot be read."""
    try:
        with open(os.path.join(os.fsencode(folder), name), "rb") as file:
            return file.read()
    except OSError:
        return None


def printed(arguments, folder):
    """What goes to standard output, and what to standard error; the names of files are looked up from the folder."""
    found = understood(arguments)
    if found is None:
        return b"", USAGE
    download, size, identifier, modules = found
    files = [content(folder, name) if is_text(name) else None for _, _, name in modules]
    if None in files:
        return b"", b"no file %s\n" % modules[files.index(None)][2]
    a = Announced(download, size, [Module(n, len(data), v) for (n, v, _), data in zip(modules, files)])
    met = limits(a)
    return (b"", b"refused,%d\n" % min(met)) if met else (b"".join(rotation(a, b"".join(files), identifier)), b"")


# ---- an input

FOLDER = "a folder"  # in place of a file's content


class Link(NamedTuple):
    """In place of a file's content: a link to another."""

    to: bytes


class Input(NamedTuple):
    name: str
    shows: str
    arguments: tuple
    files: dict  # by their names, which are bytes
    wanted: bytes | None = None  # where the words tell it: what goes to standard error; b"" for a rotation


def words(*arguments):
    return tuple(str(a).encode() if isinstance(a, int) else a for a in arguments)


def given(download, size, identifier, *modules):
    """The arguments of these modules: number, version, name."""
    return words(download, size, identifier, *(a for m in modules for a in m))


def made(length, seed=0):
    """Bytes that differ from those of another place, or another seed."""
    return random.Random(1000 * length + seed).randbytes(length)


def of_sizes(name, shows, size, lengths, wanted):
    """Modules of these sizes, numbered from 1, each of a file of its own length."""
    modules = [(k, 7 * k % 256, b"f%d" % length) for k, length in enumerate(lengths, 1)]
    files = {b"f%d" % length: made(length) for length in lengths}
    return Input(name, shows, given(0x0D21_F700, size, 0x8000_0002, *modules), files, wanted)


def laid_out(folder, files):
    """Puts them there."""
    for name, data in files.items():
        path = os.path.join(os.fsencode(folder), name)
        os.makedirs(os.path.dirname(path), exist_ok=True)
        if data is FOLDER:
            os.mkdir(path)
        elif isinstance(data, Link):
            os.symlink(data.to, path)
        else:
            Path(os.fsdecode(path)).write_bytes(data)


TEN, ELEVEN, ROTATION = b"refused,10\n", b"refused,11\n", b""

# ---- the sample: a drift list whose blocks are all full, a last block that is short, and more blocks than there are section numbers

DRIFT = driftlist.spell(46, 2, [(17, 1, 9_723_456, 26_101_234, 1_445), (43, 0, 0, 0, 2_880)])
TIDES = b"high water at noon, low water at six in the evening"
CHART = bytes((k ^ k >> 8) * 167 % 256 for k in range(600))
SAMPLE = Input(
    "the sample",
    "Versions 0, 33 and 255; 14, 26 and 300 blocks of 2 bytes, the last of the second short.",
    given(2026, 2, 0x8000_0002, (1, 0, b"drift"), (7, 33, b"tides"), (300, 255, b"chart")),
    {b"drift": DRIFT, b"tides": TIDES, b"chart": CHART},
    ROTATION,
)
SMALL = {b"a": b"ABCDEF", b"b": b"buoy", b"c": b"c"}
PLAIN = given(1, 4, 0x8000_0002, (1, 0, b"a"))

# ---- inputs: the limits


def block_sizes():
    for size in (1, 2, 3, 4_065, LARGEST):
        yield of_sizes("blockSize %d" % size, "Within its limits.", size, [5, 1, 7], ROTATION)
    for size in (0, LARGEST + 1, LARGEST + 2, 8_192, 65_535):
        yield of_sizes("blockSize %d" % size, "0, or over 4,066.", size, [5, 1, 7], TEN)


def numbers_of_modules():
    for count in (1, 2, 31, MODULES):
        yield of_sizes("%d modules" % count, "Up to 32.", 3, [4] * count, ROTATION)
    for count in (MODULES + 1, MODULES + 2, 64, 255, 256, 300):
        yield of_sizes("%d modules" % count, "Over 32.", 3, [4] * count, TEN)
    modules = [(k, 0, b"a") for k in range(MODULES)]
    yield Input("32 modules of one file", "A file may be given more than once.", given(1, 4, 2, *modules), SMALL, ROTATION)
    yield Input("33 modules, a number twice", "10 before 11.", given(1, 4, 2, *modules, modules[0]), SMALL, TEN)


def sizes():
    for size in (1, 2, 100, 255, 256):
        most = BLOCKS * size
        for lengths in ([most], [most - 1], [1, most - 1], [most - 1, 1]):
            yield of_sizes("blockSize %d, sizes %s" % (size, lengths), "Up to 1,024 blocks.", size, lengths, ROTATION)
        for lengths in ([most + 1], [1, most + 1], [most + 1, 1], [most + 2]):
            yield of_sizes("blockSize %d, sizes %s" % (size, lengths), "A module over 1,024 blocks.", size, lengths, TEN)
    for lengths in ([0], [0, 5], [5, 0], [5, 0, 6], [0, 0]):
        yield of_sizes("sizes %s" % lengths, "An empty file.", 4, lengths, TEN)
    yield Input("/dev/null", "An empty file, too.", given(1, 4, 2, (1, 0, b"/dev/null")), {}, TEN)
    for blocks in (254, 255, 256, 257, 300, 511, 512, 513, 1_023):
        for size in (1, 3):
            yield of_sizes("%d blocks of %d" % (blocks, size), "Section numbers go round.", size, [blocks * size, blocks * size - size + 1], ROTATION)


def sums():
    for size, lengths in ((256, [TOGETHER]), (LARGEST, [TOGETHER]), (400, [TOGETHER - 1, 1]), (400, [1, TOGETHER - 1]), (8, [8_192] * MODULES)):
        yield of_sizes("blockSize %d, %d sizes of 262,144 together from %d on" % (size, len(lengths), lengths[0]), "The most.", size, lengths, ROTATION)
    one_more = [8_192] * (MODULES - 1) + [8_193]
    for size, lengths in ((257, [TOGETHER + 1]), (LARGEST, [TOGETHER + 1]), (400, [TOGETHER, 1]), (400, [1, TOGETHER]), (LARGEST, one_more)):
        yield of_sizes("blockSize %d, %d sizes of 262,145 together from %d on" % (size, len(lengths), lengths[0]), "One byte more.", size, lengths, TEN)
    for lengths in ([300_000], [5, 300_000], [300_000, 5], [200_000, 200_000], [TOGETHER, TOGETHER], [1_000_000]):
        yield of_sizes("sizes %s" % lengths, "Much more.", LARGEST, lengths, TEN)
    yield of_sizes("the most, then an empty file", "Nothing is left, and nothing is wanted; but a size is 0.", 400, [TOGETHER, 0], TEN)


def numbers_twice():
    for numbers in ((1, 1), (0, 0), (65_535, 65_535), (1, 2, 1), (1, 2, 2), (1, 1, 1), (5, 6, 7, 8, 6)):
        modules = [(n, k, name) for k, (n, name) in enumerate(zip(numbers, itertools.cycle(SMALL)))]
        yield Input("numbers %s" % (numbers,), "One of them twice.", given(1, 4, 2, *modules), SMALL, ELEVEN)
    same = given(1, 4, 2, (b"7", 0, b"a"), (b"007", 0, b"b"))
    yield Input("7 and 007", "They are one number.", same, SMALL, ELEVEN)
    for numbers in ((0, 65_535), (0x0034, 0x0134), (0x1200, 0x1201), (300, 44)):
        modules = [(n, 0, name) for n, name in zip(numbers, SMALL)]
        yield Input("numbers %s" % (numbers,), "They differ.", given(1, 4, 2, *modules), SMALL, ROTATION)
    for size in (0, LARGEST + 1):
        yield Input("blockSize %d, a number twice" % size, "10 before 11.", given(1, size, 2, (1, 0, b"a"), (1, 0, b"b")), SMALL, TEN)
    files = {**SMALL, b"empty": b""}
    yield Input("an empty file, a number twice", "10 before 11.", given(1, 4, 2, (1, 0, b"a"), (1, 0, b"empty")), files, TEN)


def fields():
    """Numbers at their ends, and every version."""
    for name, last in (("download", 2**32 - 1), ("identifier", 2**32 - 1)):
        for value in (0, 1, 0x7FFF, 0x8000, 0xFFFF, 0x1_0000, 0x1234_5678, 0x8000_0000, last):
            pair = (value, 9) if name == "download" else (9, value)
            yield Input("%s %d" % (name, value), "A number of 32 bits.", given(pair[0], 4, pair[1], (1, 0, b"a")), SMALL, ROTATION)
    for value in (0, 1, 255, 256, 0x1234, 0x8000, 65_535):
        yield Input("module %d" % value, "A number of 16 bits.", given(1, 4, 2, (value, 0, b"a")), SMALL, ROTATION)
    for version in (0, 1, 30, 31, 32, 33, 63, 64, 127, 128, 180, 254, 255):
        yield Input("version %d" % version, "A number of 8 bits.", given(1, 4, 2, (1, version, b"a")), SMALL, ROTATION)


# ---- inputs: arguments that are none

NO_NUMBERS = "x 1x x1 -1 +1 -0 - + 1, 1. 1.0 1e0 0x1 0x 1_0 1h 1/ 1: /1 :1 --help 18446744073709551616 18446744073709551617 99999999999999999999".encode().split()
BLANKS = [b"", b" ", b"1 ", b" 1", b"1 0", b"1\n", b"\n1", b"1\t", b"1\r"]
OTHER_DIGITS = [b"\xff", b"1\xff", b"\x80", b"\xb2", "\u0661".encode(), "\uff11".encode()]
TOO_LONG = [b"0" * 4097, b"0" * 4096 + b"1", b"1" + b"0" * 4095, b"9" * 4096, b"0" * 50_000]
WIDTHS = (("DOWNLOAD", 32), ("BLOCKSIZE", 16), ("IDENTIFIER", 32), ("NUMBER", 16), ("VERSION", 8))
TWO = given(1, 4, 2, (1, 0, b"a"), (2, 0, b"b"))


def with_argument(arguments, at, argument):
    return (*arguments[:at], argument, *arguments[at + 1 :])


def no_numbers():
    """Each argument that is a number, as something that is none, or too wide."""
    for (what, bits), at in zip(WIDTHS, range(5)):
        for wrong in [*NO_NUMBERS, *BLANKS, *OTHER_DIGITS, *TOO_LONG, b"%d" % 2**bits, b"%d" % (2**bits + 1), b"0%d" % 2**bits]:
            name = "%s is %s" % (what, driftlist.shown(wrong))
            yield Input(name, "Not a number of %d bits." % bits, with_argument(PLAIN, at, wrong), SMALL, USAGE)
    for at in (6, 7):
        for wrong in (b"", b"x", b"-1", b"65536" if at == 6 else b"256"):
            name = "%s of the second is %s" % (WIDTHS[at - 3][0], driftlist.shown(wrong))
            yield Input(name, "Every module is looked at.", with_argument(TWO, at, wrong), SMALL, USAGE)


def good_numbers():
    """Leading zeros are taken, up to 4,096 digits."""
    for (what, bits), at in zip(WIDTHS, range(5)):
        plain = int(PLAIN[at])
        for right in (b"%d" % plain, b"0%d" % plain, b"000000%d" % plain, (b"%d" % plain).rjust(4096, b"0")):
            name = "%s is given as %s" % (what, driftlist.shown(right))
            yield Input(name, "Leading zeros.", with_argument(PLAIN, at, right), SMALL, ROTATION)
        if what != "BLOCKSIZE":
            yield Input("%s is the largest" % what, "Of %d bits." % bits, with_argument(PLAIN, at, b"%d" % (2**bits - 1)), SMALL, ROTATION)


def numbers_of_arguments():
    for count in (0, 1, 2, 3, 4, 5, 7, 8):
        yield Input("%d arguments" % count, "Not three and three for each module.", TWO[:count], SMALL, USAGE)
    for more in ((b"3",), (b"3", b"0")):
        yield Input("%d arguments too many" % len(more), "A module that is not whole.", (*PLAIN, *more), SMALL, USAGE)
    for many in (10, 31, 32, 33, 34):
        arguments = given(1, 4, 2, *((k, 0, b"a") for k in range(many)))
        yield Input("%d modules and a number" % many, "One is not whole.", (*arguments, b"5"), SMALL, USAGE)
    wrong = given(1, 4, 2, *((k, 256 if k == 40 else 0, b"a") for k in range(41)))
    yield Input("41 modules, the last with version 256", "Arguments are judged before 10.", wrong, SMALL, USAGE)


# ---- inputs: files

NAMES = [b"none", b"", b" ", b"a ", b" a", b"A", b"a,b", b"a\nb", b"none\n", b"-", b"--help", b"%s", b"\xff\xfe", "č".encode(), b"a/", b"a/x", b"none/a", b"n" * 255, b"n" * 256]


def no_files():
    for name in NAMES:
        wanted = b"no file %s\n" % name
        yield Input("no file %s" % driftlist.shown(name), "As it was given.", given(1, 4, 2, (1, 0, name)), SMALL, wanted)
        yield Input("no second file %s" % driftlist.shown(name), "As it was given.", given(1, 4, 2, (1, 0, b"a"), (2, 0, name)), SMALL, wanted)
    two = given(1, 4, 2, (1, 0, b"x"), (2, 0, b"y"))
    longest = b"n" * 4096
    yield Input("a name of 4,096 bytes", "It is told whole.", given(1, 4, 2, (1, 0, longest)), SMALL, b"no file %s\n" % longest)
    yield Input("a name of 4,097 bytes", "It could not be told.", given(1, 4, 2, (1, 0, longest + b"n")), SMALL, USAGE)
    late = given(1, 4, 2, (1, 0, b"none"), (2, 0, longest + b"n"))
    yield Input("no file, and then a name of 4,097 bytes", "The arguments are judged first.", late, SMALL, USAGE)
    yield Input("two files that are none", "The first.", two, SMALL, b"no file x\n")
    later = given(1, 4, 2, (1, 0, b"a"), (2, 0, b"y"), (3, 0, b"x"))
    yield Input("two later files that are none", "The first of them.", later, SMALL, b"no file y\n")
    odd = {**SMALL, b"folder": FOLDER, b"loop": Link(b"loop"), b"lost": Link(b"nowhere"), b"to folder": Link(b"folder")}
    for name in (b"folder", b"folder/", b".", b"..", b"/", b"loop", b"lost", b"to folder", b"folder/a"):
        yield Input("%s as a file" % name.decode(), "It cannot be read.", given(1, 4, 2, (1, 0, name)), odd, b"no file %s\n" % name)


def before_refusals():
    """Arguments before files, and all files before a refusal."""
    for at, wrong in ((0, b"x"), (1, b"65536"), (2, b""), (3, b"-1"), (4, b"256")):
        arguments = with_argument(given(1, 4, 2, (1, 0, b"none")), at, wrong)
        yield Input("no file, and %s is %s" % (WIDTHS[at][0], driftlist.shown(wrong)), "The arguments are judged first.", arguments, SMALL, USAGE)
    files = {**SMALL, b"empty": b"", b"large": made(TOGETHER + 1)}
    many = [(k, 0, b"a") for k in range(MODULES)]
    for what, modules, size in (
        ("blockSize 0", [(1, 0, b"a")], 0),
        ("blockSize 4,067", [(1, 0, b"a")], LARGEST + 1),
        ("an empty file", [(1, 0, b"empty")], 4),
        ("a file too large", [(1, 0, b"large")], LARGEST),
        ("a number twice", [(1, 0, b"a"), (1, 0, b"b")], 4),
        ("32 modules", many, 4),
        ("33 modules", [*many, (77, 0, b"b")], 4),
    ):
        last = (99, 0, b"none")
        yield Input("%s, and then no file" % what, "All files are opened before a refusal.", given(1, size, 2, *modules, last), files, b"no file none\n")
        yield Input("no file, and then %s" % what, "All files are opened before a refusal.", given(1, size, 2, last, *modules), files, b"no file none\n")


def good_files():
    odd = {
        **{name: b"as it is called" for name in NAMES if name and b"/" not in name and len(name) < 256},
        b"folder/inner/a": b"deep",
        b"link": Link(b"folder/inner/a"),
        b"b": b"buoy",
    }
    for name in [*odd, b"./b", b"folder/../b", b"folder//inner///a"]:
        wanted = ROTATION if is_text(name) else b"no file %s\n" % name
        yield Input("the file %s" % driftlist.shown(name), "Any name that is text.", given(1, 4, 2, (1, 0, name)), odd, wanted)
    every = {b"all": bytes(range(256)), b"ff": b"\xff" * 300, b"zero": bytes(300), b"crlf": b"\r\n\x1a\0" * 9}
    for name in every:
        yield Input("bytes %s" % name.decode(), "Any byte is data.", given(1, 7, 2, (1, 0, name)), every, ROTATION)


# ---- inputs: at random


def random_input(rnd, k):
    size = rnd.choice([1, 2, 5, rnd.randint(1, 60), rnd.randint(1, 400), LARGEST] + [0, LARGEST + 1] * (k % 7 == 0))
    count = rnd.choice([1, 1, 2, 3, 4, 9, MODULES])
    files = {b"f%d" % n: rnd.randbytes(rnd.choice([1, size or 1, 3 * size + 1, rnd.randint(1, 500), rnd.randint(1, 12 * size + 1)])) for n in range(min(count, 6))}
    names, numbers = sorted(files), rnd.sample(range(65_536), count)
    if k % 11 == 0:
        numbers[-1] = numbers[0]
    modules = [(n, rnd.randrange(256), rnd.choice(names)) for n in numbers]
    return Input("at random, %d" % k, "Right or wrong.", given(rnd.getrandbits(32), size, rnd.getrandbits(32), *modules), files)


def at_random():
    rnd = random.Random(13_818)
    for k in range(200):
        yield random_input(rnd, k)


LIMITS = (block_sizes, numbers_of_modules, sizes, sums, numbers_twice, fields)
TOPICS = (lambda: [SAMPLE], *LIMITS, no_numbers, good_numbers, numbers_of_arguments, no_files, before_refusals, good_files, at_random)


# ---- what is known without the built program

# downloadId 1, blockSize 4, module 1 of 6 bytes, "ABCDEF", version 0, identifier 0x80000002
BY_HAND = [
    "3BB033 0002 C1 0000 1103 1002 80000002 FF 00 001E 00000001 0004 00000000000000000000 0000 0001 0001 00000006 00 00 0000 13991934",
    "3CB01F 0001 C1 0001 1103 1003 00000001 FF 00 000A 0001 00 FF 0000 41424344 AC729B2F",
    "3CB01D 0001 C1 0101 1103 1003 00000001 FF 00 0008 0001 00 FF 0001 4546 920C2E31",
]


def check_by_hand():
    """Bytes that were written out by hand; 255 and more blocks by their headers."""
    wanted = [bytes.fromhex(line) for line in BY_HAND]
    a = Announced(1, 4, [Module(1, 6, 0)])
    assert rotation(a, b"ABCDEF", 0x8000_0002) == wanted and all(crc(s) == 0 for s in wanted)
    for count in (255, 256, 257, 300, 1_024):
        sections = rotation(Announced(1, 1, [Module(9, count, 33)]), bytes(count), 2)[1:]
        assert [(s[6], s[7]) for s in sections] == [(b % 256, min(255, count - 1)) for b in range(count)]
        assert {s[5] for s in sections} == {0b11_00001_1}


def check_call():
    """Each refusal of the library's call alone, and of any two the lowest; at every place 15 comes before 19."""
    good = {"size": 4, "numbers": (1, 2), "image": b"ABCDEFGHIJ", "place": 3, "room": 34}
    spoil = {10: {"size": 0}, 11: {"numbers": (1, 1)}, 15: {"image": b"ABCDEFGHI"}, 19: {"place": 4}, 21: {"room": 33}}

    def answer(size, numbers, image, place, room):
        a = Announced(1, size, [Module(numbers[0], 6, 0), Module(numbers[1], 4, 0)])
        return call(a, image, 2, place, room)

    assert answer(**good)[0] == 0 and len(answer(**good)[1]) == 34
    for one, other in itertools.combinations_with_replacement(spoil, 2):
        assert answer(**{**good, **spoil[one], **spoil[other]})[0] == min(one, other), (one, other)
    for place in (0, 1, 2, 4, 10**9):
        assert answer(**{**good, "place": place, "image": b"ABCDEFGHI"})[0] == 15
    assert [answer(**{**good, "place": 2, "room": room})[0] for room in (31, 32, 33)] == [21, 0, 0]


def check_made(a, image, identifier, sections):
    """The same sections by the makers of tests/receiver.py, with all that they leave open."""
    modules = [tuple(m) for m in a.modules]
    wanted = [dii(a.download, a.size, modules, identifier=identifier, extension=identifier % 2**16, last=0)]
    for m, at in zip(a.modules, starts(a)):
        last = -(-m.size // a.size) - 1
        for b in range(last + 1):
            data = image[at + b * a.size : min(at + b * a.size + a.size, at + m.size)]
            wanted.append(ddb(a.download, m.number, m.version, b, data, last=min(255, last)))
    assert sections == wanted


def play(sections, order, image):
    """The kinds that a receiver answers, and its record after it."""
    record, kinds = receiver.Record(), []
    for place in order:
        answer, kind, _, record = receiver.step(record, image, sections[place])
        assert answer == 0, (place, answer)
        kinds.append(kind)
    return kinds, record


def check_played(a, image, sections, rnd):
    """In order it is new, then stored; in any order with every block it ends the same, with repeats in between."""
    whole = sum(m.size for m in a.modules)
    some = [rnd.randrange(len(sections)) for _ in range(10)]
    order = [*range(1, len(sections)), *some]
    rnd.shuffle(order)
    for order in (range(len(sections)), [0, *order]):
        heard = bytearray(b"\xee" * (whole + 3))
        kinds, record = play(sections, order, heard)
        before = [place in order[:k] for k, place in enumerate(order)] if len(order) < 400 else None
        told = {(True, False): "new", (True, True): "same", (False, False): "stored", (False, True): "repeated"}
        assert before is None or kinds == [told[place == 0, again] for place, again in zip(order, before)]
        assert kinds.count("new") == 1 and kinds.count("stored") == len(sections) - 1
        for m, at in zip(a.modules, starts(a)):
            assert receiver.handout(record, heard, m.number) == (0, image[at : at + m.size])
        assert heard[whole:] == b"\xee" * 3


def check_rotations():
    """Announcements at random, made in two ways and played."""
    rnd = random.Random(13)
    for _ in range(60):
        size = rnd.choice([1, 2, 7, 100, LARGEST])
        count = rnd.choice([1, 2, 5, MODULES])
        most = min(8 * size, TOGETHER // count)
        lengths = [rnd.choice([size, rnd.randint(1, most), rnd.randint(1, most)]) for _ in range(count)]
        lengths = [min(length, most) for length in lengths]
        modules = [Module(n, z, rnd.randrange(256)) for n, z in zip(rnd.sample(range(65_536), count), lengths)]
        a, image, identifier = Announced(rnd.getrandbits(32), size, modules), rnd.randbytes(sum(lengths)), rnd.getrandbits(32)
        sections = rotation(a, image, identifier)
        assert len(sections) == 1 + sum(-(-z // size) for z in lengths)
        check_made(a, image, identifier, sections)
        check_played(a, image, sections, rnd)


def check_words(cases):
    """Each output is what the words tell, on its own end; together they show every answer that can be."""
    met = set()
    for i, out, err in cases:
        assert i.wanted is None or err == i.wanted, (i.name, err[:200], i.wanted)
        assert bool(out) != bool(err), i.name
        met.add(err.split(b" ")[0])
    assert met == {b"usage:", b"no", TEN, ELEVEN, ROTATION}, met


def in_folder(i, run):
    """What run makes of the input's arguments in a folder with its files, which are unchanged after it."""
    with tempfile.TemporaryDirectory() as folder:
        laid_out(folder, i.files)
        answer = run(i.arguments, folder)
        for name, data in i.files.items():
            assert not isinstance(data, bytes) or content(folder, name) == data, (i.name, name, "has changed")
        return answer


def checked_cases():
    """Each input with its output, on either end."""
    check_by_hand()
    check_call()
    check_rotations()
    cases = [(i, *in_folder(i, printed)) for topic in TOPICS for i in topic()]
    names = [i.name for i, _, _ in cases]
    assert len(set(names)) == len(names), [n for n in set(names) if names.count(n) > 1]
    check_words(cases)
    return cases


# ---- the built program. The command is without the arguments


def built():
    return [*program.built()[:-1], ROOT / "target" / "bin" / "player"]


def differs(name, how):
    sys.exit("player.py: %s: %s" % (name, how))


def check_bytes(name, got, wanted):
    if got != wanted:
        at = next((k for k, (a, b) in enumerate(zip(got, wanted)) if a != b), min(len(got), len(wanted)))
        differs(name, "%d bytes, not %d; from %d on %r, not %r" % (len(got), len(wanted), at, got[at : at + 40], wanted[at : at + 40]))


def ran(command, name, folder, **how):
    """It ends by itself, or where no one hears it by SIGPIPE."""
    how = {"stdin": subprocess.DEVNULL, "stdout": subprocess.PIPE, "stderr": subprocess.PIPE, **how}
    try:
        done = subprocess.run(command, cwd=folder, timeout=program.LIMIT, **how)
    except subprocess.TimeoutExpired:
        differs(name, "has not ended after %d s" % program.LIMIT)
    if done.returncode < 0 and done.returncode != -signal.SIGPIPE:
        differs(name, "ended with status %d" % done.returncode)
    return done


def check_case(command, i, out, err, **how):
    done = in_folder(i, lambda arguments, folder: ran([*command, *arguments], i.name, folder, **how))
    check_bytes(i.name + ", standard error", done.stderr, err)
    check_bytes(i.name, done.stdout, out)
    if not err and done.returncode != 0:
        differs(i.name, "ended with status %d" % done.returncode)


def check_stdin(command, cases):
    """Standard input closed, and one from which nothing comes: it is not read."""
    reader, writer = os.pipe()
    for i, out, err in cases:
        if i.name in (SAMPLE.name, "no file 'none'", "0 arguments"):
            check_case(command, i, out, err, stdin=reader)
            check_case(command, i, out, err, stdin=None, preexec_fn=lambda: os.close(0))
    os.close(reader)
    os.close(writer)


def check_unheard(command, i):
    """Standard output closed, a pipe that no one reads, a full disk: it ends, and quietly."""
    reader, writer = os.pipe()
    os.close(reader)
    with open(writer, "wb") as pipe, open("/dev/full", "wb") as disk:
        for what, how in (("a broken pipe", {"stdout": pipe}), ("a full disk", {"stdout": disk}), ("closed", {"stdout": None, "preexec_fn": lambda: os.close(1)})):
            name = "%s, standard output %s" % (i.name, what)
            done = in_folder(i, lambda arguments, folder: ran([*command, *arguments], name, folder, **how))
            check_bytes(name + ", standard error", done.stderr, b"")


def check_left(command, i, out):
    """Whoever reads the output leaves after ten bytes: it ends, and quietly."""

    def leave(arguments, folder):
        process = subprocess.Popen([*command, *arguments], cwd=folder, stdin=subprocess.DEVNULL, stdout=subprocess.PIPE, stderr=subprocess.PIPE, bufsize=0)
        begin = process.stdout.read(10)
        process.stdout.close()
        try:
            return begin, process.wait(program.LIMIT), process.stderr.read()
        finally:
            process.kill()

    begin, status, err = in_folder(i, leave)
    if err or not out.startswith(begin) or (status < 0 and status != -signal.SIGPIPE):
        differs(i.name + ", left", "status %d, standard error %r" % (status, err[:200]))


def check_untold(command, cases):
    """Standard error closed or full: it ends nevertheless, and nothing goes to standard output."""
    closed, full = lambda: os.close(2), lambda: os.dup2(os.open("/dev/full", os.O_WRONLY), 2)
    for i, _, err in cases:
        if i.name in ("no file 'none'", "0 arguments", "numbers (1, 1)", "blockSize 0"):
            for before in (closed, full):
                done = in_folder(i, lambda arguments, folder: ran([*command, *arguments], i.name, folder, stderr=None, preexec_fn=before))
                check_bytes(i.name + ", standard error not heard", done.stdout, b"")


def check_built(command, cases):
    for i, out, err in cases:
        check_case(command, i, out, err)
    check_stdin(command, cases)
    check_untold(command, cases)
    for i, out, err in cases:
        if i.name in (SAMPLE.name, "blockSize 8, 32 sizes of 262,144 together from 8192 on"):
            check_unheard(command, i)
            check_left(command, i, out)


# ---- the stored files


def stored():
    """The sample's files of the crate, by their paths in it."""
    with tempfile.TemporaryDirectory() as folder:
        laid_out(folder, SAMPLE.files)
        out, _ = printed(SAMPLE.arguments, folder)
    files = {"data/" + name.decode(): data for name, data in SAMPLE.files.items()}
    return {"args": b"".join(a + b"\n" for a in SAMPLE.arguments), "stdout": out, **files}


def settle():
    """Compare them with the crate's, or write them."""
    crate = ROOT / "crates" / "player"
    if "--write" in sys.argv:
        shutil.rmtree(crate / "data", ignore_errors=True)
        for name, made_here in stored().items():
            (crate / name).parent.mkdir(parents=True, exist_ok=True)
            (crate / name).write_bytes(made_here)
    there = [p.relative_to(crate).as_posix() for p in (crate / "data").rglob("*")]
    for name in {*stored(), *there}:
        path = crate / name
        if not path.is_file() or path.read_bytes() != stored().get(name):
            sys.exit("%s is not what tests/player.py makes: run it with --write and look at the change" % path)


def main():
    arguments = sys.argv[1:]
    if arguments not in ([], ["--write"], ["built"]):
        sys.exit(__doc__)
    cases = checked_cases()
    settle()
    by_words = sum(i.wanted is not None for i, _, _ in cases)
    written = sum(len(out) for _, out, _ in cases)
    print("player.py: %d inputs, %d of them as the words tell; args, data/ and stdout are the sample's" % (len(cases), by_words))
    if arguments == ["built"]:
        check_built(built(), cases)
        rotations = sum(not err for _, _, err in cases)
        print("player.py: %d inputs compared, %d of them rotations, of %d bytes" % (len(cases), rotations, written))


if __name__ == "__main__":
    main()
