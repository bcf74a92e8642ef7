#!/usr/bin/env python3
"""What crates/test_ait must print, by a second program.

Written from the paper (01, "The application section"; 02, §9) and ETSI TS 102 809, not from the Rattle code: it reads a section once,
from the front to the end, into plain lists, and then answers from those. A refusal is printed with its place, where it has one: `5@12`.

    test_ait.py          compare crates/test_ait/stdin and stdout with what this program makes
    test_ait.py --write  write both
"""
import random

from second import APPLICATION, Malformed, Reader, framed, place_of, refusal, settle, with_crc, with_place


def repeated(data, one):
    r, out = Reader(data), []
    while r.left():
        out.append(one(r))
    return out


def descriptor(r):
    tag = r.number(1)
    c = Reader(r.take(r.number(1)))
    d = {"tag": tag, "profiles": [], "labels": [], "names": [], "bases": [], "identifiers": []}
    if tag == 0x00:
        p = c.number(1)
        if p % 5:
            raise Malformed
        d["profiles"] = repeated(c.take(p), lambda q: [q.number(2), q.number(1), q.number(1), q.number(1)])
        flags, priority = c.number(1), c.number(1)
        d["labels"] = list(c.rest())
        d["line"] = "application %d %d %d %d %d" % (len(d["profiles"]), flags >> 7, flags >> 5 & 3, priority, len(d["labels"]))
    elif tag == 0x01:
        d["names"] = repeated(c.rest(), lambda q: (q.take(3), q.take(q.number(1))))
        d["line"] = "names %d" % len(d["names"])
    elif tag == 0x02:
        protocol, d["label"] = c.number(2), c.number(1)
        if protocol == 1:
            if c.number(1) & 128:
                d["line"] = "remote %d %d %d %d %d" % (d["label"], c.number(2), c.number(2), c.number(2), c.number(1))
            else:
                d["line"] = "local %d %d" % (d["label"], c.number(1))
            if c.left():
                raise Malformed
        elif protocol == 3:
            d["bases"] = repeated(c.rest(), lambda q: (q.take(q.number(1)), [q.take(q.number(1)) for _ in range(q.number(1))]))
            d["line"] = "bases %d %d" % (d["label"], len(d["bases"]))
        else:
            d["line"] = "selector %d %d <%s>" % (protocol, d["label"], c.rest().hex())
    elif tag == 0x05:
        d["identifiers"] = repeated(c.rest(), lambda q: [q.number(4), q.number(2), q.number(1)])
        d["line"] = "identifiers %d" % len(d["identifiers"])
    elif tag == 0x15:
        d["line"] = "path <%s>" % c.rest().hex()
    else:
        d["line"] = "raw %d <%s>" % (tag, c.rest().hex())
    return d


def application(r):
    head = [r.number(4), r.number(2), r.number(1)]
    return head + [repeated(r.take(r.length12()), descriptor)]


def body(data):
    r = Reader(data)
    common = repeated(r.take(r.length12()), descriptor)
    apps = repeated(r.take(r.length12()), application)
    if r.left():
        raise Malformed
    return common, apps


def judged(s):
    """The section's number, its common descriptors and its applications."""
    n = refusal(s, *APPLICATION)
    if n:
        return n, [], []
    try:
        common, apps = body(s[8:-4])
    except Malformed:
        return 7, [], []
    if any([d["tag"] for d in a[3]].count(0) != 1 for a in apps):
        return 18, [], []
    return 0, common, apps


def place(s):
    """Where it broke (02, §9): 7 and 18 have no place, since the common check is content with such a section."""
    return place_of(s, *APPLICATION)


CLASSES = [(0x3FFF, "unsigned"), (0x7FFF, "signed"), (0xFFFD, "other"), (0xFFFF, "wildcard")]
CONTROLS = {1: "autostart", 2: "present", 3: "destroy", 4: "kill", 6: "remote"}


def lines(s):
    number, common, apps = judged(s)
    end = "end " + with_place(number or 19, place(s))

    def descriptors(ds):
        for d in ds:
            yield "descriptor " + d["line"]
            for p in d["profiles"]:
                yield "profile %d %d %d %d" % tuple(p)
            yield end
            for l in d["labels"]:
                yield "label %d" % l
            yield end
            for language, text in d["names"]:
                yield "name %d %d %d <%s>" % (*language, text.hex())
            yield end
            for text, extensions in d["bases"]:
                yield "base <%s> %d" % (text.hex(), len(extensions))
                for e in extensions:
                    yield "extension <%s>" % e.hex()
                yield end
            yield end
            for i in d["identifiers"]:
                yield "identifier %d %d %d" % tuple(i)
            yield end
        yield end

    def looked_up(label, own):
        for where, ds in (("own", own), ("common 0", common)):
            for j, d in enumerate(ds):
                if d["tag"] == 2 and d["label"] == label:
                    return "%s %d" % (where, j)
        return "unresolved"

    if number:
        yield "section " + with_place(number, place(s))
    else:
        extension = s[3] * 256 + s[4]
        yield "section 0 %d %d %d %d %d %d %d" % (extension >> 15, extension & 32767, s[5] >> 1 & 31, s[6], s[7], len(common), len(apps))
    yield from descriptors(common)
    for organisation, n, code, own in apps:
        kind = next(name for top, name in CLASSES if n <= top)
        yield "application %d %d %s %d %s %d" % (organisation, n, kind, code, CONTROLS.get(code, "reserved"), len(own))
        yield from descriptors(own)
        labels = next(d["labels"] for d in own if d["tag"] == 0)
        for l in labels:
            yield looked_up(l, own)
        yield end
    yield end


# ---- sections to try


def desc(tag, contents):
    return bytes([tag, len(contents)]) + contents


def d00(profiles=b"", flags=0xFF, priority=7, labels=b""):
    return desc(0, bytes([len(profiles)]) + profiles + bytes([flags, priority]) + labels)


def d02(protocol, label, selector):
    return desc(2, protocol.to_bytes(2, "big") + bytes([label]) + selector)


def base(text, *extensions):
    return bytes([len(text)]) + text + bytes([len(extensions)]) + b"".join(bytes([len(e)]) + e for e in extensions)


def app(own, organisation=0x1_0002, number=0x4000, code=1, length=None, reserved=0xF0):
    length = len(own) if length is None else length
    return organisation.to_bytes(4, "big") + number.to_bytes(2, "big") + bytes([code, reserved | length >> 8, length & 255]) + own


def ait(common=b"", apps=b"", extension=0x0001, byte5=0xC1, number=0, last=0, flags=0xB0, commons=None, loop=None, reserved=0xF0, tail=b""):
    commons = len(common) if commons is None else commons
    loop = len(apps) if loop is None else loop
    inner = bytes([reserved | commons >> 8, commons & 255]) + common + bytes([reserved | loop >> 8, loop & 255]) + apps + tail
    length = len(inner) + 9
    head = bytes([0x74, flags | length >> 8, length & 255, extension >> 8, extension & 255, byte5, number, last])
    return with_crc(head + inner)


PROFILES = bytes.fromhex("0001010203") + bytes.fromhex("8000ff00fe")
NAMES = b"eng\x04tideslv\x00fra\x03mer"
BASES = base(b"http://a/", b"x", b"", b"long") + base(b"") + base(b"b", b"y")
IDENTIFIERS = bytes.fromhex("00010002fffe05") + bytes.fromhex("0000000000010a")
EVERY = [
    d00(PROFILES, 0x5F, 9, b"\x01\x02\x03"),
    desc(1, NAMES),
    d02(1, 1, b"\x7f\x42"),
    d02(1, 2, b"\x80" + bytes(range(7))),
    d02(3, 3, BASES),
    d02(2, 4, b"raw bytes"),
    d02(0xFFFF, 4, b""),
    desc(5, IDENTIFIERS),
    desc(0x15, b"/index"),
    desc(0x03, b"kept"),
    desc(0xFF, b""),
]


def placed():
    """02, §9: where it broke, each with what must be printed. The first ones are its soundings."""
    thirteen = ait()  # L = 13
    spoiled = lambda s: s[:-1] + bytes([s[-1] ^ 1])
    yield thirteen[:2], "2@2"
    yield b"", "2@0"
    yield with_crc(bytes([0x74, 0xB0, 8, 0, 1, 0xC1, 0])), "4@1"
    yield ait(number=3, last=2), "4@6"
    yield ait(number=3, last=2, flags=0x30), "4@1"
    yield spoiled(thirteen), "5@12"
    yield ait(byte5=0xC0), "6@5"
    # and what stands beside them
    yield thirteen[:1], "2@1"
    yield thirteen + b"\0", "2@17"
    yield with_crc(b"\x75" + thirteen[1:-4]), "3@0"
    yield spoiled(with_crc(b"\x3b" + ait(number=3, last=2, flags=0x30, byte5=0xC0)[1:-4])), "3@0"
    yield b"\x74\xb0\0", "4@1"
    yield ait(flags=0x70), "4@1"
    yield ait(apps=app(d00()) * 73, number=3, last=2), "4@1"  # L = 1,035
    yield with_crc(bytes([0x74, 0xB0, 8, 0, 1, 0xC1, 255])), "4@1"
    yield spoiled(ait(flags=0x30, byte5=0xC0)), "4@1"
    yield spoiled(ait(number=3, last=2, byte5=0xC0)), "4@6"
    yield ait(b"\x15", number=1), "4@6"
    yield spoiled(ait(b"\x15", byte5=0xC0)), "5@13"
    yield ait(apps=app(b""), byte5=0xFE), "6@5"
    # no place: 7, 18, and 19, which is asked of an accepted one
    yield ait(b"\x15"), "7"
    yield ait(apps=app(b"")), "18"
    yield thirteen, "19"


def sections():
    # the soundings of the paper
    yield ait()
    yield ait(apps=app(d00()) * 72)
    yield ait(apps=app(d00()) * 72 + app(d00()))
    for n in (0, 0x3FFF, 0x4000, 0x7FFF, 0x8000, 0xFFFD, 0xFFFE, 0xFFFF):
        yield ait(apps=app(d00(), number=n))
    for code in (0, 1, 2, 3, 4, 5, 6, 7, 255):
        yield ait(apps=app(d00(), code=code))
    # every kind in both loops
    yield ait(b"".join(EVERY), app(b"".join(EVERY)) + app(d00(labels=bytes(range(6)))), extension=0xFFFF, byte5=0x3F, number=3, last=9)
    for d in EVERY:
        yield ait(d)
        yield ait(apps=app(d00() + d if d[0] else d))
    # labels: own first, first hit, unresolved, other tags and protocols
    two = d02(1, 5, b"\0\1") + d02(3, 5, b"") + d02(9, 6, b"")
    yield ait(two, app(d00(labels=b"\x05\x06\x07")))
    yield ait(two, app(desc(9, b"") + d02(2, 6, b"") + d00(labels=b"\x05\x06\x07\x05") + d02(3, 5, b"") + d02(1, 5, b"\0\2")))
    yield ait(d00(labels=b"\x01"), app(d00(labels=b"\x01") + desc(3, b"\0\1\1")))
    # 18
    yield ait(apps=app(b""))
    yield ait(d00(), app(desc(1, b"")))
    yield ait(d00() + d00(), app(d00()))
    yield ait(apps=app(d00() + d00()))
    yield ait(apps=app(d00()) + app(desc(5, b"")))
    yield ait(apps=app(b"") + app(desc(5, b"x")))
    # 7: each content at its limit and just past it, in both loops
    for contents in (
        (0, b""), (0, b"\0\0"), (0, b"\0\0\0"), (0, b"\1\0\0\0"), (0, b"\4" + bytes(6)), (0, b"\5" + bytes(6)), (0, b"\5" + bytes(7)),
        (0, b"\x0a" + bytes(11)), (0, b"\x0a" + bytes(12)), (0, b"\xfa" + bytes(252)), (0, b"\xff" + bytes(252)),
        (1, b"eng"), (1, b"eng\0"), (1, b"eng\1"), (1, b"eng\1x"), (1, b"eng\0x"), (1, b"eng\1xab"),
        (2, b""), (2, b"\0\1"), (2, b"\0\1\7"), (2, b"\0\1\7\0"), (2, b"\0\1\7\0\0"), (2, b"\0\1\7\0\0\0"), (2, b"\0\1\7\x80\0"),
        (2, b"\0\1\7\x80" + bytes(6)), (2, b"\0\1\7\x80" + bytes(7)), (2, b"\0\1\7\x80" + bytes(8)), (2, b"\0\1\7\x7f" + bytes(7)),
        (2, b"\0\3\7"), (2, b"\0\3\7\0"), (2, b"\0\3\7\0\0"), (2, b"\0\3\7\0\1"), (2, b"\0\3\7\0\1\0"), (2, b"\0\3\7\1a\0"), (2, b"\0\3\7\2a\0"),
        (2, b"\0\3\7\0\2\1x"), (2, b"\0\3\7\0\2\1x\0"), (2, b"\0\3\7\0\2\1x\1"), (2, b"\0\3\7\0\0\0"), (2, b"\0\2\7"), (2, b"\0\0"),
        (5, b""), (5, bytes(6)), (5, bytes(7)), (5, bytes(8)), (5, bytes(13)), (5, bytes(14)), (0x15, b""), (6, b"x"),
    ):
        yield ait(desc(*contents))
        yield ait(apps=app(d00() + desc(*contents)))
    # 7: the framing
    yield ait(b"\x15")
    yield ait(b"\x15\x01")
    yield ait(b"\x15\x00\x15")
    yield ait(commons=1)
    yield ait(b"\x15\x00", commons=1)
    yield ait(b"\x15\x00", commons=3)
    yield ait(commons=4095)
    yield ait(apps=app(d00()), loop=13)
    yield ait(apps=app(d00()), loop=15)
    yield ait(apps=app(d00())[:-1])
    yield ait(apps=app(d00()) + b"\0" * 8)
    yield ait(apps=app(d00(), length=4))
    yield ait(apps=app(d00(), length=6))
    yield ait(tail=b"\0")
    yield ait(loop=1)
    for n in range(5):
        yield with_crc(bytes([0x74, 0xB0, 9 + n, 0, 1, 0xC1, 0, 0]) + bytes([0xF0, 0, 0xF0, 0][:n]))
    # reserved bits are not checked; 2 to 6 come first
    yield ait(d00(), app(d00(), reserved=0), reserved=0, flags=0xC0, byte5=0x01)
    yield ait(b"\x15", byte5=0xC0)
    yield ait(b"\x15", number=1)
    yield ait(b"\x15")[:-1] + b"\0"
    yield ait()[:-1]
    yield b""
    yield from (s for s, _ in placed())
    # and many more: whole ones, each then with a byte or two spoiled and the CRC made anew
    rnd = random.Random(102809)
    for _ in range(110):
        pick = lambda n: b"".join(rnd.choice(EVERY[1:]) for _ in range(rnd.randrange(n)))
        some = lambda: pick(3) + d00(labels=bytes(rnd.randrange(7) for _ in range(rnd.randrange(4)))) + pick(3)
        apps = b"".join(app(some(), number=rnd.randrange(65536), code=rnd.randrange(9)) for _ in range(rnd.randrange(3)))
        s = bytearray(ait(pick(4), apps, rnd.randrange(65536), 0xC1 | rnd.randrange(32) << 1))[:-4]
        for _ in range(rnd.randrange(3)):
            s[rnd.randrange(8, len(s))] = rnd.choice([0, 1, 2, 3, 5, 0x15, rnd.randrange(256)])
        yield with_crc(bytes(s))


def main():
    every = list(sections())
    seen = [judged(s)[0] for s in every]
    assert set(seen) == {0, *range(2, 8), 18}, set(seen)
    for s, printed in placed():
        assert {l for l in lines(s) if l.startswith("end")} == {"end " + printed}, (printed, s.hex())
    for s in every:
        assert (place(s) is not None) == (judged(s)[0] in range(2, 7)), s.hex()
    wanted = "".join(l + "\n" for s in every for l in lines(s))
    given = framed(every)
    settle("test_ait", given, wanted.encode())
    counts = len(every), seen.count(0), len(given), wanted.count("\n")
    print("test_ait: %d sections (%d accepted), %d bytes, %d answers: stdin and stdout are the second program's" % counts)


if __name__ == "__main__":
    main()
