#!/usr/bin/env python3
"""What crates/inspect must print, by a second program.

Written from the paper (01), 02, §6, §8 and §9, and the lines below, not from the Rattle code. The carousel's rules are tests/receiver.py, those
of a table tests/test_ait.py, the run tests/program.py; what is new here reads an accepted table with the place of each part.

A line each, comma-separated, all numbers decimal. For each section taken (kind: new, same, stored, repeated, table, none), and where it
broke, a byte counted from its own first as 0 (02, §9; empty for all answers but 2 to 6, of which 2 never comes):

    section,INDEX,OFFSET,LENGTH,TABLE,ANSWER,KIND,PLACE

Below an accepted table; then its common descriptors, and each application with its own:

    table,TEST,TYPE,VERSION,NUMBER,LAST,COMMON,APPLICATIONS
    application,I,ORGANISATION,NUMBER,CLASS,CODE,CODECLASS,DESCRIPTORS

A descriptor, SCOPE being "common" or the application's place; AT is a byte of the section:

    descriptor,SCOPE,J,TAG,application,PROFILES,BOUND,VISIBILITY,PRIORITY,LABELS
    descriptor,SCOPE,J,TAG,names,COUNT
    descriptor,SCOPE,J,TAG,carousel,LABEL,REMOTE,NETWORK,STREAM,SERVICE,COMPONENT   the three numbers empty where not remote
    descriptor,SCOPE,J,TAG,bases,LABEL,COUNT
    descriptor,SCOPE,J,TAG,selector,PROTOCOL,LABEL,AT,LENGTH
    descriptor,SCOPE,J,TAG,identifiers,COUNT
    descriptor,SCOPE,J,TAG,path,AT,LENGTH
    descriptor,SCOPE,J,TAG,raw,AT,LENGTH

Below it its items:

    profile,SCOPE,J,K,PROFILE,MAJOR,MINOR,MICRO
    label,SCOPE,J,K,LABEL,WHERE,PLACE        where: own, common, unresolved (no place); neither in the common loop
    name,SCOPE,J,K,LANGUAGE,AT,LENGTH        the language as one number of 24 bits
    base,SCOPE,J,K,AT,LENGTH,EXTENSIONS
    extension,SCOPE,J,K,M,AT,LENGTH
    identifier,SCOPE,J,K,ORGANISATION,APPLICATION,PRIORITY

After the last section the stop, and what is announced, if anything is:

    stop,NAME
    record,DOWNLOAD,BLOCKSIZE,MODULES
    module,PLACE,NUMBER,SIZE,VERSION,START,HANDOUT,MISSING,LOWEST,CRC   hand-out 0, 15 or 20; the blocks missing are told with 15, too;
                                                                        lowest empty where none is, CRC where nothing is handed out

    test_inspect.py          compare crates/inspect/stdin and stdout with what this program makes
    test_inspect.py --write  write both
    test_inspect.py built    run target/bin/inspect, which tools/build.sh builds, on every input and compare what it prints
"""
import random
import socket
import sys
import time
from concurrent.futures import ThreadPoolExecutor
from typing import NamedTuple

import test_ait
import program
import receiver
from test_ait import EVERY, ait, app, base, d00, d02, desc
from program import BUDGET, DRIFT, FAULTS, READ, TIDES, Input, announcement, block
from receiver import BLOCKS, IMAGE, LARGEST, TOGETHER, Record, ddb, dii
from second import ROOT, Reader, crc, settle, with_crc

# ---- an accepted table, each part with its place


class Item(NamedTuple):
    word: str
    fields: list
    below: list = []  # of a base, its extensions


class Descriptor(NamedTuple):
    tag: int
    kind: list
    items: list
    label: int | None  # of a 0x02


def until(r, end, one):
    """Repeated, ending exactly."""
    out = []
    while r.at < end:
        out.append(one(r))
    assert r.at == end
    return out


def span(r, size):
    """Where it lies, and its length."""
    r.take(size)
    return [r.at - size, size]


def profile(r):
    return Item("profile", [r.number(2), r.number(1), r.number(1), r.number(1)])


def name(r):
    return Item("name", [r.number(3), *span(r, r.number(1))])


def extended(r):
    text = span(r, r.number(1))
    extensions = [span(r, r.number(1)) for _ in range(r.number(1))]
    return Item("base", [*text, len(extensions)], extensions)


def identifier(r):
    return Item("identifier", [r.number(4), r.number(2), r.number(1)])


def of_application(r, end):
    size = r.number(1)
    profiles = until(r, r.at + size, profile)
    flags, priority = r.number(1), r.number(1)
    labels = until(r, end, lambda r: Item("label", [r.number(1)]))
    return ["application", len(profiles), flags >> 7, flags >> 5 & 3, priority, len(labels)], profiles + labels


def transport(r, end):
    protocol, label = r.number(2), r.number(1)
    if protocol == 1:
        remote = r.number(1) >> 7
        numbers = [r.number(2) for _ in range(3)] if remote else [""] * 3
        return ["carousel", label, remote, *numbers, r.number(1)], [], label
    if protocol == 3:
        bases = until(r, end, extended)
        return ["bases", label, len(bases)], bases, label
    return ["selector", protocol, label, *span(r, end - r.at)], [], label


def descriptor(r):
    tag, size = r.number(1), r.number(1)
    end = r.at + size
    items, label = [], None
    if tag == 0x00:
        kind, items = of_application(r, end)
    elif tag == 0x01:
        items = until(r, end, name)
        kind = ["names", len(items)]
    elif tag == 0x02:
        kind, items, label = transport(r, end)
    elif tag == 0x05:
        items = until(r, end, identifier)
        kind = ["identifiers", len(items)]
    else:
        kind = ["path" if tag == 0x15 else "raw", *span(r, size)]
    assert r.at == end
    return Descriptor(tag, kind, items, label)


def descriptors(r):
    size = r.length12()
    return until(r, r.at + size, descriptor)


def application(r):
    return r.number(4), r.number(2), r.number(1), descriptors(r)


def read(s):
    """The common descriptors and the applications of an accepted table."""
    r = Reader(s)
    r.take(8)
    common = descriptors(r)
    size = r.length12()
    apps = until(r, r.at + size, application)
    assert r.left() == 4
    _, others, other_apps = test_ait.judged(s)
    assert [len(common), len(apps)] == [len(others), len(other_apps)]
    return common, apps


# ---- the lines


def looked_up(label, own, common):
    for where, ds in (("own", own), ("common", common)):
        for j, d in enumerate(ds):
            if d.label == label:
                return [where, j]
    return ["unresolved", ""]


def loop_lines(scope, ds, common):
    for j, d in enumerate(ds):
        yield "descriptor", scope, j, d.tag, *d.kind
        met = {}  # places count from 0 among items of one word
        for word, fields, below in d.items:
            k = met[word] = met.get(word, -1) + 1
            if word == "label":
                fields = fields + (["", ""] if scope == "common" else looked_up(fields[0], ds, common))
            yield word, scope, j, k, *fields
            for m, x in enumerate(below):
                yield "extension", scope, j, k, m, *x


def class_of(n):
    return "unsigned" if n < 0x4000 else "signed" if n < 0x8000 else "other" if n < 0xFFFE else "wildcard"


CODES = {1: "autostart", 2: "present", 3: "destroy", 4: "kill", 6: "remote"}


def table_lines(s):
    common, apps = read(s)
    extension = s[3] * 256 + s[4]
    yield "table", extension >> 15, extension % 0x8000, s[5] // 2 % 32, s[6], s[7], len(common), len(apps)
    yield from loop_lines("common", common, common)
    for i, (organisation, n, code, own) in enumerate(apps):
        yield "application", i, organisation, n, class_of(n), code, CODES.get(code, "reserved"), len(own)
        yield from loop_lines(i, own, common)


def record_lines(record, image):
    if record.count == 0:
        return
    yield "record", record.download, record.block_size, record.count
    for i, m in enumerate(record.used()):
        number, part = receiver.handout(record, image, m.number)
        _, missing = receiver.missing(record, m.number)
        yield "module", i, *m.fields(), number, len(missing), missing[0] if missing else "", "" if number else crc(part)


def lines(stretch):
    record, image = Record(), bytearray(IMAGE)
    at = index = 0
    while not (stop := program.stop_at(stretch, at, BUDGET - index)):
        s = stretch[at : at + program.whole(stretch, at)]
        number, kind, place, record = program.taken(record, image, s)
        yield "section", index, at, len(s), s[0], number, kind, program.column(place)
        if kind == "table":
            yield from table_lines(s)
        at += len(s)
        index += 1
    yield "stop", stop
    yield from record_lines(record, image)


def printed(stdin):
    return "".join(",".join(map(str, l)) + "\n" for l in lines(stdin[:READ])).encode()


# ---- the sample: something of every kind


def labels(rnd, n, most):
    return bytes(rnd.randrange(most) for _ in range(n))


def sample_tables():
    every = b"".join(EVERY)
    yield ait(every, app(every) + app(d00(labels=bytes(range(6)))), extension=0xFFFF, byte5=0x3F, number=3, last=9)
    numbers = (0, 0x3FFF, 0x4000, 0x7FFF, 0x8000, 0xFFFD, 0xFFFE, 0xFFFF)
    yield ait(apps=b"".join(app(d00(), 0xFFFFFFFF - k, n, k) for k, n in enumerate(numbers)))
    # own first, the first hit, and no hit
    two = d02(1, 5, b"\0\1") + d02(3, 5, b"") + d02(9, 6, b"")
    yield ait(two, app(desc(9, b"") + d02(2, 6, b"") + d00(labels=b"\x05\x06\x07\x05") + d02(3, 5, b"") + d02(1, 5, b"\0\2")))
    yield ait()
    yield ait(d00() * 3, app(d00()) * 3)


def large_tables():
    """Many lines: more than one page of them."""
    rnd = random.Random(809)
    for _ in range(5):
        own = desc(1, b"slv\0" * 60) + desc(5, rnd.randbytes(35 * 7)) + d00(labels=labels(rnd, 200, 16)) + d02(3, 4, base(b"", *[b""] * 230))
        yield ait(b"".join(d02(2, k, b"") for k in range(8, 14)), app(own))
    yield ait(apps=app(d00()) * 72)


REFUSED_TABLES = [ait(apps=app(b"")), ait(desc(5, b"x")), ait(number=1), ait(byte5=0xC0), ait()[:-1] + b"\0"]
QUIET = (300, 30, 9)  # announced, and nothing of it heard
MODULES = [TIDES, QUIET, DRIFT]


def sample_carousel():
    yield block(TIDES, 0)
    yield announcement([(7, IMAGE + 1, 3)], block_size=400)
    yield block(TIDES, 0)
    yield announcement([DRIFT], download=4)
    yield block(DRIFT, 0, download=4)
    yield announcement(MODULES)
    yield announcement(MODULES)
    for m, b in ((TIDES, 2), (DRIFT, 1), (TIDES, 0), (TIDES, 0), (TIDES, 1)):
        yield block(m, b)
    yield block(DRIFT, 0, byte5=receiver.byte5(30))
    for s in FAULTS.values():
        yield s
        yield block(TIDES, 0)


def sample_places():
    """Each place of a refusal, of a table and of the carousel."""
    for table in (0x74, 0x3B, 0x3C, 0x75):
        yield from (s for s, _ in program.broken(table) if len(s) < 100)


def sample():
    carousel = list(sample_carousel())
    threes = [program.sized(t, 0) for t in (0x00, 0x3B, 0x3C, 0x74)]
    stretch = [*carousel[:6], *sample_tables(), *REFUSED_TABLES, *large_tables(), *carousel[6:], *sample_places(), *threes * 20]
    return b"".join(stretch) + b"\xff" * 7


def check_sample(stdout):
    """It has every line, kind and class, a module handed out and others not, and it fills more than a page."""
    met = set(stdout.decode().replace("\n", ",").split(","))
    words = "section table application descriptor profile label name base extension identifier stop record module"
    kinds = "names carousel bases selector identifiers path raw new same stored repeated none own common unresolved stuffing"
    classes = "unsigned signed other wildcard autostart present destroy kill remote reserved"
    assert not set((words + " " + kinds + " " + classes).split()) - met
    handouts = [l.split(",")[6] for l in stdout.decode().splitlines() if l.startswith("module")]
    assert handouts == ["0", "20", "20"] and len(stdout) > 65_536, handouts
    sections = [l.split(",") for l in stdout.decode().splitlines() if l.startswith("section")]
    assert {int(s[5]) for s in sections} == program.REACHED
    check_places(sections)


def check_places(sections):
    """Each that can be, by either rule; 3 is not of a table. The CRC's place is told by the section's length, and nothing else has one."""
    clauses = {True: set(), False: set()}
    for _, _, _, length, table, answer, _, place in sections:
        assert (place != "") == (answer in ("3", "4", "5", "6")) and answer != "2", (answer, place)
        clauses[table == "116"].add((answer, "CRC" if answer == "5" and int(place) == int(length) - 4 else place))
    wanted = {("4", "1"), ("4", "6"), ("5", "CRC"), ("6", "5")}
    assert {c for c in clauses[True] if c[1]} == wanted, clauses
    assert {c for c in clauses[False] if c[1]} == wanted | {("3", "0")}, clauses


# ---- other inputs


def random_tables(rnd, n):
    for _ in range(n):
        pick = lambda n: b"".join(rnd.choice(EVERY[1:]) for _ in range(rnd.randrange(n)))
        own = lambda: pick(3) + d00(test_ait.PROFILES[: 5 * rnd.randrange(3)], rnd.randrange(256), labels=labels(rnd, rnd.randrange(4), 7)) + pick(3)
        apps = b"".join(app(own(), rnd.randrange(2**32), rnd.randrange(65_536), rnd.randrange(9)) for _ in range(rnd.randrange(3)))
        yield ait(pick(4), apps, rnd.randrange(65_536), 0xC1 | rnd.randrange(32) << 1)


def spoiled(rnd, s):
    """A byte or two after the length changed, the CRC made anew."""
    s = bytearray(s[:-4])
    for _ in range(rnd.randrange(3)):
        s[rnd.randrange(3, len(s))] = rnd.choice([0, 1, 2, 3, 5, 0x15, rnd.randrange(256)])
    return with_crc(bytes(s))


def table_inputs():
    whole = [s for s in test_ait.sections() if len(s) >= 3 and len(s) == program.whole(s, 0)]
    for k in range(0, len(whole), 40):
        yield Input("tables %d to %d" % (k, k + 39), "All of tests/test_ait.py.", b"".join(whole[k : k + 40]))
    for seed in range(1, 13):
        rnd = random.Random(seed)
        yield Input("tables at random, %d" % seed, "Whole ones.", b"".join(random_tables(rnd, 400)))
        yield Input("damaged tables at random, %d" % seed, "The CRC mended.", b"".join(spoiled(rnd, s) for s in random_tables(rnd, 400)))


def long_inputs():
    """As many lines as a table can have, as far as can be read: the calls judge the table anew for each."""
    many = {
        "extensions": d02(3, 1, base(b"", *[b""] * 245)) * 4,
        "labels": b"".join(d00(labels=bytes(k for k in range(240))) for _ in range(4)),
        "raw descriptors": desc(3, b"") * 490,
    }
    for what, common in many.items():
        yield Input("tables full of %s" % what, "65 of about 1,000 bytes.", ait(common) * 65)
    yield Input("labels looked up", "None resolves.", ait(d02(9, 1, b"") * 100, app(d00(labels=b"\0" * 250) + d02(9, 2, b"") * 20)) * 65)


def page_inputs():
    """The page's end in many a line's middle."""
    for n in range(0, 40, 3):
        yield Input("a page's end, %d" % n, "Lines of other lengths before it.", announcement() * n + b"".join(sample_tables()) * 9 + sample())


def records():
    """02, §8: inputs, and what must be told of the record."""
    count, size = receiver.MODULES, IMAGE // receiver.MODULES
    modules = [(k, size, k) for k in range(count)]
    heard = (0, 1, count - 1)
    blocks = b"".join(ddb(2**32 - 1, k, k, b, bytes([k + b]) * n) for k in heard for b, n in ((0, 2000), (1, 48)))
    part = lambda k: bytes([k]) * 2000 + bytes([k + 1]) * 48
    told = ["module,%d,%d,2048,%d,%d," % (k, k, k, 2048 * k) + ("0,0,,%d" % crc(part(k)) if k in heard else "20,2,0,") for k in range(32)]
    stdin = dii(2**32 - 1, 2000, modules) + blocks
    yield Input("32 modules", "The first two and the last complete.", stdin), ["record,4294967295,2000,32", *told]
    more = dii(2**32 - 1, 2000, [*modules, (count, 1, 0)])
    yield Input("33 modules", "Nothing is announced.", more), []
    yield Input("33 modules after 32", "They change nothing.", stdin + more), ["record,4294967295,2000,32", *told]
    whole = dii(1, LARGEST, [(65_535, IMAGE, 255)]) + ddb(1, 65_535, 255, 16, bytes(480))
    yield Input("the whole image", "One module of 65,536 bytes, its last block heard.", whole), ["record,1,4066,1", "module,0,65535,65536,255,0,20,16,0,"]
    # 1,024 blocks of a byte, some of them missing
    one = dii(1, 1, [(5, 3, 0), (6, BLOCKS, 1)])
    first = "module,0,5,3,0,0,20,3,0,"
    data = bytes(b % 251 for b in range(BLOCKS))
    for gone, told in (
        ([1023], "20,1,1023,"),
        ([256, 512], "20,2,256,"),
        ([300, 301, 600, 1000], "20,4,300,"),
        (range(1, 1024), "20,1023,1,"),
        (range(256, 1024), "20,768,256,"),
        (range(1023), "20,1023,0,"),
        ([], "0,0,,%d" % crc(data)),
    ):
        blocks = b"".join(ddb(1, 6, 1, b, data[b : b + 1]) for b in range(BLOCKS) if b not in gone)
        shows = "Of the module of 1,024 blocks %d are missing." % len(gone)
        yield Input("1,024 blocks, " + told, shows, one + blocks), ["record,1,1,2", first, "module,1,6,1024,1,3," + told]
    # more than the image holds: no block of it is stored
    for size, missing in ((IMAGE + 1, 164), (TOGETHER, 656)):
        shows = "No block is stored, so all are missing."
        wanted = ["record,1,400,1", "module,0,5,%d,2,0,15,%d,0," % (size, missing)]
        yield Input("size %d" % size, shows, dii(1, 400, [(5, size, 2)]) + ddb(1, 5, 2, 0, bytes(400)) + ddb(1, 5, 2, 163, bytes(337))), wanted
    yield Input("size 262,145", "Nothing is announced.", dii(1, 400, [(5, TOGETHER + 1, 2)]) + ddb(1, 5, 2, 0, bytes(400))), []
    wanted = ["record,1,400,2", "module,0,5,65536,2,0,15,164,0,", "module,1,6,1,3,65536,15,1,0,"]
    blocks = ddb(1, 5, 2, 0, bytes(400)) + ddb(1, 6, 3, 0, b"x")
    yield Input("two modules beyond the image", "15 of each.", dii(1, 400, [(5, IMAGE, 2), (6, 1, 3)]) + blocks), wanted
    wanted = ["record,1,400,2", "module,0,5,65535,2,0,20,163,1,", "module,1,6,1,3,65535,0,0,,%d" % crc(b"x")]
    yield Input("two modules to the image's end", "The second is its last byte.", dii(1, 400, [(5, IMAGE - 1, 2), (6, 1, 3)]) + blocks), wanted


def carousel_inputs():
    for i, _ in records():
        yield i


def check_records():
    """The lines after the stop."""
    for i, wanted in records():
        after = printed(i.stdin).decode().splitlines()
        after = after[after.index("stop,end") + 1 :]
        assert len(i.stdin) <= READ and after == wanted, (i.name, after, wanted)


def inputs():
    yield Input("the sample", "Something of every kind.", sample())
    for topic in (*program.TOPICS, table_inputs, long_inputs, page_inputs, carousel_inputs):
        yield from topic()


# what the program gathers before it writes, and room enough for any line
PAGE, LINE = 65_536, 128


def written(command, i):
    """Its writes, one by one: this kind of socket keeps them apart."""
    ours, theirs = socket.socketpair(socket.AF_UNIX, socket.SOCK_SEQPACKET)
    with ours, theirs, ThreadPoolExecutor(1) as pool:
        reading = pool.submit(lambda: list(iter(lambda: ours.recv(2 * PAGE), b"")))
        program.from_file(command, i, stdout=theirs)
        theirs.close()
        return reading.result()


def check_writes(command, cases):
    """Lines go out whole, and as many at once as a page surely holds: who stops reading, or has a full disk, is left with no part of a line."""
    longest = sorted(cases, key=lambda case: -len(case[1]))[:9]
    for i, output in longest + cases[:9]:
        writes = written(command, i)
        program.check_same(i.name + ", its writes", b"".join(writes), output)
        if not all(w.endswith(b"\n") for w in writes) or len(writes) > 1 + len(output) // (PAGE - LINE):
            program.differs(i.name, "%d writes, of which %d end within a line" % (len(writes), sum(not w.endswith(b"\n") for w in writes)))
    assert len(longest[-1][1]) > PAGE, "none is longer than a page"


def check_built(command, cases):
    longest = (0, "")
    for i, output in cases:
        begun = time.monotonic()
        program.check_same(i.name, program.from_file(command, i), output)
        longest = max(longest, (time.monotonic() - begun, i.name))
    print("test_inspect.py: longest run %.2f s: %s" % longest)
    check_writes(command, cases)
    program.check_beyond(command, cases)
    program.check_pieces(command, cases)
    program.check_unheard(command)


def main():
    arguments = sys.argv[1:]
    if arguments not in ([], ["--write"], ["built"]):
        sys.exit(__doc__)
    stdin = sample()
    stdout = printed(stdin)
    check_sample(stdout)
    check_records()
    settle("inspect", stdin, stdout)
    print("test_inspect.py: the sample has %d bytes and %d lines: stdin and stdout are the second program's" % (len(stdin), stdout.count(b"\n")))
    if arguments == ["built"]:
        cases = [(i, printed(i.stdin)) for i in inputs()]
        command = [*program.built()[:-1], ROOT / "target" / "bin" / "inspect"]
        check_built(command, cases)
        print("test_inspect.py: %d inputs, %d lines compared" % (len(cases), sum(output.count(b"\n") for _, output in cases)))


if __name__ == "__main__":
    main()
