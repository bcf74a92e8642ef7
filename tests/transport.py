#!/usr/bin/env python3
"""What crates/sections and crates/packets must write, by a second program.

Written from the words on transport packets (02, §2), the packet of ISO/IEC 13818-1, points 2.1 to 2.15, and the lines below, not from the
Rattle code.

    sections PID   packets of 188 bytes on standard input, to its end; the whole sections of the PID on standard output, end to end, and at
                   the end a line on standard error: taken,N,repeated,N,broken,N,refused40,N,refused41,N,refused42,N,refused43,N
    packets PID    sections on standard input, until its end, byte 0xFF where one should begin, or fewer bytes than one says; on standard
                   output their packets: each section begins one (unit start, pointer 0), the rest of its last is 0xFF, no adaptation field,
                   counters from 0 on

PID is a number of 13 bits in decimal, 1 to 4,096 digits with leading zeros among them. Anything else, no argument or a second one: a usage
line on standard error, and nothing on standard output. An output that is closed ends the program, and then there is no line of counts. The
status is 0 where there is such a line, or packets were written, and left open else.

    transport.py          check the inputs, and compare args, stdin and stdout of both crates and examples/capture.ts with what is made here
    transport.py --write  check the inputs, and write them
    transport.py built    the first, then run target/bin/sections and target/bin/packets, which tools/build.sh builds, on every
                          input and compare standard output and standard error, byte for byte; then their ends closed, broken and full
"""
import itertools
import os
import random
import signal
import subprocess
import sys
from typing import NamedTuple

import program
from driftlist import shown
from second import ROOT, settle

PACKET, HEAD, NULL = 188, 4, 8191
STRETCH = 349 * PACKET  # as much as the program takes at once
NAMES = ("taken", "repeated", "broken", "refused40", "refused41", "refused42", "refused43")

# ---- a packet


class Packet(NamedTuple):
    """What a packet's bytes say; payload is None where it has none."""

    data: bytes
    pid: int
    start: bool
    counter: int
    payload: bytes | None


def fields(data):
    """The packet, and of refusals 41 to 43 those that apply."""
    word = int.from_bytes(data[:HEAD], "big")
    sync, error, start, pid = word >> 24, word >> 23 & 1, word >> 22 & 1, word >> 8 & 0x1FFF
    scrambled, adapted, paid, counter = word >> 6 & 3, word >> 5 & 1, word >> 4 & 1, word & 15
    begin = HEAD + (1 + data[HEAD] if adapted else 0)
    payload = data[begin:] if paid else None
    past = begin > PACKET or bool(paid and start and (not payload or 1 + payload[0] > len(payload)))
    wrong = bool(error or scrambled or not (adapted or paid) or past)
    return Packet(data, pid, bool(start and paid), counter, payload), {41: sync != 0x47, 43: wrong}


def judged(data, pid):
    """The packet and 0, or its lowest refusal."""
    if len(data) != PACKET:
        return None, 40
    packet, met = fields(data)
    met[42] = packet.pid != pid
    return packet, min((number for number, applies in met.items() if applies), default=0)


# ---- from packets to sections: first the runs of packets without a break, then in each run the units, then in each unit its sections


def in_step(last, packet):
    """A packet with payload counts one further; one without has the last one's counter."""
    return packet.counter == (last.counter + (packet.payload is not None)) % 16


def runs_of(pid, stream):
    """The packets that are used, a list for each run without a break; and the counts."""
    counts, runs, last = dict.fromkeys(NAMES, 0), [[]], None
    for at in range(0, len(stream), PACKET):
        packet, refused = judged(stream[at : at + PACKET], pid)
        if refused:
            counts["refused%d" % refused] += 1
            continue
        if last is not None and packet.data == last.data:
            counts["repeated"] += 1
            continue
        counts["taken"] += 1
        if last is not None and not in_step(last, packet):
            counts["broken"] += 1
            runs.append([])
        runs[-1].append(packet)
        last = packet
    return runs, counts


def units_of(run):
    """Of each unit start: the bytes in which its sections may begin, and those that may follow, up to the next one's pointer."""
    units = []
    for packet in run:
        payload = packet.payload or b""
        if packet.start:
            before = 1 + payload[0]
            if units:
                units[-1][1] += payload[1:before]
            units.append([payload[before:], b""])
        elif units:
            units[-1][1] += payload
    return units


def length_of(data):
    """3 + L of the section that begins there; None where not even that can be read."""
    return 3 + int.from_bytes(data[1:3], "big") % 4096 if len(data) >= 3 else None


def sections_in(own, after):
    """Each whole section that begins in its own bytes; 0xFF is stuffing to their end."""
    data, at = own + after, 0
    while at < len(own) and own[at] != 0xFF:
        length = length_of(data[at:])
        if length is None or len(data) < at + length:
            return
        yield data[at : at + length]
        at += length


def gathered(pid, stream):
    """The sections, and the counts."""
    runs, counts = runs_of(pid, stream)
    return [s for run in runs for unit in units_of(run) for s in sections_in(*unit)], counts


# ---- from sections to packets


def cut(data):
    """The sections up to the stop."""
    sections = []
    while data and data[0] != 0xFF and (length_of(data) or len(data) + 1) <= len(data):
        sections.append(data[: length_of(data)])
        data = data[len(sections[-1]) :]
    return sections


def packet_of(pid, counter, payload, start=0, field=None, flags=0, control=None, scrambled=0):
    """188 bytes, where payload and adaptation field together fill them; flags are the error's, 2, and the priority's, 1."""
    head = 0x47 << 24 | flags >> 1 << 23 | start << 22 | (flags & 1) << 21 | pid << 8 | scrambled << 6
    said = (2 if field is not None else 0) + (payload is not None) if control is None else control
    return (head | said << 4 | counter % 16).to_bytes(4, "big") + (field or b"") + (payload or b"")


def packed(pid, data):
    units = [b"\0" + s for s in cut(data)]
    pieces = [(at == 0, unit[at : at + 184].ljust(184, b"\xff")) for unit in units for at in range(0, len(unit), 184)]
    return b"".join(packet_of(pid, k, piece, int(start)) for k, (start, piece) in enumerate(pieces))


# ---- the programs: by their arguments and their input, what goes to standard output, and what to standard error


def pid_said(arguments):
    if len(arguments) != 1 or not 1 <= len(arguments[0]) <= 4096 or not all(c in b"0123456789" for c in arguments[0]):
        return None
    return int(arguments[0]) if int(arguments[0]) < 8192 else None


def sections_printed(arguments, stdin):
    pid = pid_said(arguments)
    if pid is None:
        return b"", b"usage: sections PID\n"
    sections, counts = gathered(pid, stdin)
    return b"".join(sections), (",".join("%s,%d" % (name, counts[name]) for name in NAMES) + "\n").encode()


def packets_printed(arguments, stdin):
    pid = pid_said(arguments)
    return (b"", b"usage: packets PID\n") if pid is None else (packed(pid, stdin), b"")


PRINTED = {"sections": sections_printed, "packets": packets_printed}


# ---- a multiplexer: sections end to end over packets, as ISO has it


def adaptation(rnd, size):
    """An adaptation field of that many bytes."""
    return bytes([size - 1]) + (bytes([rnd.choice([0, 0x10, 0x40, 0x80])]) + rnd.randbytes(size - 2) if size > 1 else b"")


def payloads(rnd, sections, gap):
    """Start and payload of each packet, with the size of its adaptation field: several sections in a packet, pointers anywhere."""
    data, at, result = b"".join(sections), 0, []
    begins = set(itertools.accumulate(map(len, sections[:-1]), initial=0))
    while at < len(data):
        # Where a section begins at once there must be room for its pointer and a byte of it.
        field = min(rnd.choice([0, 0, 0, 1, 2, 8, 100, 183, rnd.randint(1, 183)]) if gap else 0, 182 if at in begins else 183)
        room = 184 - field
        first = min((b for b in begins if at <= b < at + max(room - 1, 0)), default=None)
        if first is None:
            # A section that would begin at the payload's last byte needs the pointer's room: then the payload ends before it.
            piece = data[at : min([at + room, *(b for b in begins if at < b)])] if room else b""
            if len(piece) < room:
                field, room = field + room - len(piece), len(piece)
            result.append((0, piece, field))
            at += len(piece)
            continue
        end = at + room - 1
        if gap and rnd.random() < 0.3:
            # Only up to where some section ends, then stuffing.
            end = rnd.choice([b for b in [*begins, len(data)] if first < b <= end] or [end])
        piece = bytes([first - at]) + data[at:end]
        result.append((1, piece.ljust(room, b"\xff"), field))
        at = min(end, len(data))
    return result


def muxed(rnd, pid, sections, counter=0, gap=True):
    """A well-formed stream of one PID, packet by packet."""
    packets = []
    for start, payload, field in payloads(rnd, sections, gap):
        if gap and rnd.random() < 0.1:
            packets.append(packet_of(pid, counter - 1, None, rnd.choice([0, 0, 1]), adaptation(rnd, 184)))
        packets.append(packet_of(pid, counter, payload, start, adaptation(rnd, field) if field else None, rnd.choice([0, 1])))
        counter += 1
    assert all(len(p) == PACKET for p in packets)
    return packets


def made(rnd, length, table=None):
    """Any section of that L."""
    return bytes([rnd.randrange(255) if table is None else table, rnd.randrange(16) << 4 | length >> 8, length & 255]) + rnd.randbytes(length)


def some_sections(rnd, count, most=600):
    return [made(rnd, rnd.choice([0, 1, 2, 9, rnd.randint(0, 40), rnd.randint(0, most), 178, 180, 181, 182, 183, 184])) for _ in range(count)]


def others(rnd, packets, pids):
    """Packets of other PIDs in between."""
    for p in packets:
        while rnd.random() < 0.3:
            other = rnd.choice(pids)
            yield packet_of(other, rnd.randrange(16), rnd.randbytes(184) if other != NULL else b"\xff" * 184, rnd.randrange(2))
        yield p


# ---- the samples


def sample_packets(pid, sections):
    """Sections end to end, without stuffing in between; and packets of another PID."""
    packets = muxed(random.Random(2), pid, sections, 14, gap=False)
    other = [packet_of(301, k, bytes([1, 0, 0x3C, 0xB0, 9]) + bytes([k] * 179), 1) for k in range(3)]
    return packets, other


def whole():
    return cut((ROOT / "examples" / "whole.sections").read_bytes())


def capture():
    """examples/capture.ts: the whole capture under PID 300, one packet twice, among packets of PID 301 and null packets."""
    packets, other = sample_packets(300, whole())
    null = packet_of(NULL, 0, b"\xff" * 184)
    return b"".join([null, packets[0], other[0], packets[1], packets[1], null, *(q for p in packets[2:] for q in (p, null)), other[1]])


def sample():
    """The input that is stored: the capture's packets, one of them twice and one lost, among others; then the sections once more, and a rest."""
    packets, other = sample_packets(300, whole())
    again = muxed(random.Random(3), 300, whole()[1:4], 14 + len(packets))
    noise = [bytes([0x46]) + packets[0][1:], bytes([packets[0][0], packets[0][1] | 0x80]) + packets[0][2:]]
    return b"".join([packets[0], other[0], packets[0], *packets[2:], other[1], *noise, *again, other[2], packets[0][:100]])


SAMPLE = sample()


# ---- inputs


class Input(NamedTuple):
    name: str
    program: str
    arguments: tuple
    stdin: bytes
    wanted: bytes | None = None  # where the words tell it: what goes to standard output


def of(name, pid, packets, wanted=None, tail=b""):
    return Input(name, "sections", (b"%d" % pid,), b"".join(packets) + tail, wanted)


def plain():
    yield Input("the sample", "sections", (b"300",), SAMPLE)
    yield of("the capture", 300, [capture()], b"".join(whole()))
    for data in (b"", b"\x47", bytes(187), bytes(188), bytes(189), b"\x47" * 188, b"\xff" * 188 * 3):
        yield of("%d bytes %s" % (len(data), data[:1].hex()), 0x747, [data])
    for table in range(256):
        s = bytes([table, 0xB0, 5]) + b"buoys"
        yield of("table %d" % table, 5, [packed(5, s) or packet_of(5, 0, (b"\0" + s).ljust(184, b"\xff"), 1)], s if table != 255 else b"")


def well_formed():
    """All sections come out of a stream without losses, exact repeats or not, among any other packets."""
    rnd = random.Random(13_818)
    for k in range(120):
        pid = rnd.choice([0, 1, 300, 0x1FFE, 8191, rnd.randrange(8192)])
        sections = some_sections(rnd, rnd.choice([1, 2, 5, 30, 100]), rnd.choice([20, 600, 4095]))
        packets = muxed(rnd, pid, sections, rnd.randrange(16), gap=k % 3 > 0)
        if k % 2:
            packets = [q for p in packets for q in [p] * rnd.choice([1, 1, 1, 2, 3])]
        pids = [p for p in (0, 1, 299, 301, pid ^ 1, pid ^ 0x1000, NULL) if p != pid]
        yield of("well formed, %d" % k, pid, others(rnd, packets, pids), b"".join(sections))


def largest():
    rnd = random.Random(4_098)
    for length in (4_092, 4_093, 4_094, 4_095):
        sections = [made(rnd, length) for _ in range(3)] + [made(rnd, 0)]
        for gap in (False, True):
            yield of("L %d, gaps %s" % (length, gap), 77, muxed(rnd, 77, sections, 3, gap), b"".join(sections))


def split_heads():
    """A section that begins with the last one, two or three bytes of a payload."""
    rnd = random.Random(3)
    for left in range(1, 6):
        for length in (0, 1, 2, 3, 200, 400):
            first, second = made(rnd, 183 - left - 3), made(rnd, length)
            yield of("%d bytes left, then L %d" % (left, length), 9, muxed(rnd, 9, [first, second], gap=False), first + second)


def pointers():
    """Every pointer, with a section in hand that needs fewer bytes, as many, or more."""
    rnd = random.Random(184)
    for pointer in [*range(0, 20), 91, *range(176, 190), 255]:
        for needs in sorted({0, 1, max(pointer - 1, 0), pointer, pointer + 1, pointer + 200}):
            first, second = made(rnd, 180 + needs), made(rnd, 5)
            payload = (bytes([pointer]) + first[183 : 183 + pointer].ljust(pointer, b"\x11") + second).ljust(184, b"\xff")[:184]
            packets = [packet_of(9, 0, b"\0" + first[:183], 1), packet_of(9, 1, payload, 1), packet_of(9, 2, bytes(184))]
            yield of("pointer %d, %d bytes needed" % (pointer, needs), 9, packets)


def headers():
    """Each bit of a header; each control; each length of an adaptation field."""
    rnd = random.Random(188)
    sections = some_sections(rnd, 9)
    packets = muxed(rnd, 0x0155, sections, gap=False)
    for bit in range(32):
        for at in (0, 1, len(packets) - 1):
            flipped = (int.from_bytes(packets[at][:4], "big") ^ 1 << bit).to_bytes(4, "big") + packets[at][4:]
            yield of("bit %d of packet %d" % (bit, at), 0x0155, [*packets[:at], flipped, *packets[at + 1 :]])
    s = made(rnd, 30)
    for control in range(4):
        for size in (0, 1, 100, 149, 150, 151, 181, 182, 183, 184, 255):
            for start in (0, 1):
                data = packet_of(9, 4, bytes([size]) + (bytes(min(size, 183)) + b"\0" + s + b"\xff" * 184)[:183], start, control=control)
                before = packet_of(9, 3, (b"\0" + made(rnd, 400))[:184], 1)
                yield of("control %d, length %d, start %d" % (control, size, start), 9, [before, data, packet_of(9, 5, bytes(184))])


def counters():
    """Each counter after each kind of packet."""
    rnd = random.Random(16)
    s = made(rnd, 400)
    first = packet_of(9, 5, b"\0" + s[:183], 1)
    empty = packet_of(9, 5, None, 0, adaptation(rnd, 184))
    for counter in range(16):
        more, fresh = packet_of(9, counter, s[183:367]), packet_of(9, counter, (b"\0" + made(rnd, 9)).ljust(184, b"\xff"), 1)
        last = packet_of(9, counter + 1, s[367:].ljust(184, b"\xff"))
        idle = packet_of(9, counter, None, 0, adaptation(rnd, 184))
        for name, packets in (
            ("payload", [first, more, last]),
            ("unit start", [first, fresh]),
            ("none", [first, idle, more, last]),
            ("after none", [first, empty, more, last]),
            ("repeated after none", [first, empty, first, more]),
            ("twice", [first, more, more, more, last]),
            ("nearly twice", [first, more, more[:-1] + bytes([more[-1] ^ 1]), last]),
            ("twice, others between", [first, packet_of(8, 5, bytes(184)), first, b"\0" * 188, first, more, last]),
        ):
            yield of("counter %d, %s" % (counter, name), 9, packets)


def losses():
    """From a well-formed stream without repeats a loss of 1 to 14 costs exactly the sections with a byte in a lost packet."""
    rnd = random.Random(14)
    for k in range(60):
        sections = some_sections(rnd, 60)
        sections = [s for n, s in enumerate(sections) if s not in sections[:n]]
        packets = muxed(rnd, 9, sections, rnd.randrange(16), gap=False)
        at, count = rnd.randrange(1, len(packets)), rnd.choice([1, 1, 2, 7, 14, 15, 16, 17])
        left = packets[:at] + packets[at + count :]
        wanted = b"".join(unhurt(sections, packets, at, count)) if count < 15 else None
        yield of("loss %d" % k, 9, left, wanted)


def unhurt(sections, packets, at, count):
    """Those with no byte in the lost packets: by the streams' own bytes, which a section has between its packets' pointers."""
    places, end = [], 0
    sizes = [len(p) - 4 - (p[3] >> 5 & 1 and 1 + p[4]) - (p[1] >> 6 & 1) for p in packets]
    begins = [sum(sizes[:n]) for n in range(len(packets) + 1)]
    for s in sections:
        places.append((end, end + len(s)))
        end += len(s)
    lost = (begins[at], begins[min(at + count, len(packets))])
    return [s for s, (a, b) in zip(sections, places) if b <= lost[0] or lost[1] <= a]


def spoiled(rnd, packets):
    """Packets lost, repeated, nearly repeated, out of order, flipped, replaced by noise."""
    for p in packets:
        what = rnd.random()
        if what < 0.03:
            continue
        if what < 0.08:
            yield p
        if what < 0.10:
            yield p[:5] + rnd.randbytes(1) + p[6:]
        if what < 0.13:
            yield rnd.randbytes(188)
        if what < 0.18:
            bit = rnd.choice([rnd.randrange(40), rnd.randrange(8 * 188)])
            flipped = int.from_bytes(p, "big") ^ 1 << (8 * 188 - 1 - bit)
            yield flipped.to_bytes(188, "big")
            continue
        yield p


def bad():
    rnd = random.Random(43)
    for k in range(150):
        pid = rnd.randrange(8192)
        sections = some_sections(rnd, rnd.choice([2, 10, 60]))
        packets = [*spoiled(rnd, muxed(rnd, pid, sections, rnd.randrange(16), gap=k % 2 > 0))]
        tail = rnd.randbytes(rnd.choice([0, 1, 4, 100, 187]))
        yield of("badly heard, %d" % k, pid, others(rnd, packets, [pid ^ 1, NULL ^ (pid == NULL)]), None, tail)


def long_ones():
    """Longer than what is taken at once, to the packet and the byte; dense streams; the cut at every place of a section."""
    rnd = random.Random(349)
    for k in range(12):
        sections = some_sections(rnd, 900, rnd.choice([40, 600, 4095]))
        packets = muxed(rnd, 9, sections, 0, gap=k % 2 > 0)
        yield of("long, %d" % k, 9, others(rnd, packets, [8, NULL]), b"".join(sections))
        yield of("long and badly heard, %d" % k, 9, others(rnd, spoiled(rnd, packets), [8, NULL]), None, rnd.randbytes(rnd.randrange(188)))
    many = [bytes([n % 255, 0x30, 0]) for n in range(61 * 1_100)]
    for count in (348, 349, 350, 697, 698, 699, 1_100):
        packets = [packet_of(9, n, b"\0" + b"".join(many[61 * n : 61 * n + 61]), 1) for n in range(count)]
        for tail in (b"", b"\x47", bytes(187)):
            yield of("%d packets of sections of 3 bytes, and %d bytes" % (count, len(tail)), 9, packets, b"".join(many[: 61 * count]), tail)
    yield of("only other packets", 9, [packet_of(8, 0, bytes(184))] * 1_500, b"")


def of_sections(name, data, pid=300):
    return Input(name, "packets", (b"%d" % pid,), data)


def for_packets():
    rnd = random.Random(23)
    yield of_sections("the capture's sections", b"".join(whole()))
    for data in (b"", b"\xff", b"\0", b"\0\0", b"\0\0\0", b"\0\0\1", b"\0\0\1\0", b"\0\0\0\xff", b"\0\0\0\xff\0\0\0"):
        yield of_sections("bytes %s" % data.hex(), data)
    for length in (0, 1, 179, 180, 181, 182, 364, 365, 4_092, 4_093, 4_094, 4_095):
        s = made(rnd, length)
        for pid in (0, 255, 256, 8191):
            yield of_sections("L %d, PID %d" % (length, pid), s * 3, pid)
        yield of_sections("L %d, one byte short" % length, s + s[:-1])
        yield of_sections("L %d, stuffing" % length, s + b"\xff" + s)
    for k in range(40):
        sections = some_sections(rnd, rnd.choice([3, 30, 400]), rnd.choice([30, 600, 4095]))
        tail = rnd.choice([b"", b"\xff", sections[0][:-1], b"\xff" + sections[0]])
        yield of_sections("sections at random, %d" % k, b"".join(sections) + tail, rnd.randrange(8192))


def many_for_packets():
    """Longer than a buffer: sections that end at its end, before it, beyond it; stuffing there; many small ones, and the largest."""
    rnd = random.Random(65_536)
    for off in (-3, -2, -1, 0, 1, 2, 3, 4, 100, 4_097):
        for filling in (4_095, 600, 13):
            sections = [made(rnd, filling) for _ in range(65_536 // (filling + 3))]
            left = 65_536 + off - sum(map(len, sections))
            if left < 3:
                sections.pop()
                left += filling + 3
            while left > 4_098:
                sections.append(made(rnd, 1_000))
                left -= 1_003
            sections += [made(rnd, left - 3)] if left >= 3 else []
            begin = b"".join(sections)
            for name, tail in (("more", made(rnd, 300) * 300), ("stuffing", b"\xff" + made(rnd, 9)), ("short", made(rnd, 4_095)[:-1]), ("nothing", b"")):
                yield of_sections("%d bytes of sections of %d, then %s" % (len(begin), filling + 3, name), begin + tail)
    yield of_sections("100,000 sections of 3 bytes", b"\0\0\0" * 100_000)
    yield of_sections("200 sections of 4,098 bytes", b"".join(made(rnd, 4_095) for _ in range(200)))
    yield of_sections("200,000 bytes of stuffing", b"\xff" * 200_000)


WRONG = [
    *"x 1x x1 -1 +1 -0 - + 1, 1. 1.0 1e0 0x1 0x 1_0 1h 1/ 1: /1 :1 --help 8192 8193 08192 65536 65836 4294967296 4294967596 18446744073709551616".encode().split(),
    *(b"", b" ", b"1 ", b" 1", b"1 0", b"1\n", b"\xff", b"1\xff", "\u0661".encode(), b"0" * 4097, b"0" * 4096 + b"1", b"9" * 4096, b"0" * 50_000),
]


def arguments():
    data = {"sections": SAMPLE, "packets": b"".join(whole())}
    for name, stdin in data.items():
        for given in ((), (b"1", b"2"), (b"300", b""), (b"", b"300"), (b"300", b"300", b"300"), *((w,) for w in WRONG)):
            yield Input("%s with %s" % (name, [shown(g) for g in given]), name, given, stdin, b"")
        for right in (b"0", b"1", b"300", b"0300", b"8191", b"008191", b"300".rjust(4096, b"0")):
            yield Input("%s with %s" % (name, shown(right)), name, (right,), stdin)


TOPICS = (plain, well_formed, largest, split_heads, pointers, headers, counters, losses, bad, long_ones, for_packets, many_for_packets, arguments)


# ---- what is known without the built programs


def check_both_ways(i, out):
    """What was packed is given back, and nothing else becomes of the packets."""
    sections, counts = gathered(int(i.arguments[0]), out)
    assert sections == cut(i.stdin) and counts == {**dict.fromkeys(NAMES, 0), "taken": len(out) // PACKET}, i.name


def checked_cases():
    cases = [(i, *PRINTED[i.program](i.arguments, i.stdin)) for topic in TOPICS for i in topic()]
    names = [i.name for i, _, _ in cases]
    assert len(set(names)) == len(names), [n for n in set(names) if names.count(n) > 1]
    for i, out, err in cases:
        assert i.wanted is None or out == i.wanted, i.name
        if i.program == "packets" and not err:
            check_both_ways(i, out)
    told = [dict(zip(err.split(b",")[::2], map(int, err.split(b",")[1::2]))) for i, _, err in cases if err.startswith(b"taken")]
    assert all(any(t[name.encode()] for t in told) for name in NAMES)
    assert sum(len(i.stdin) > STRETCH for i, _, _ in cases) > 40
    return cases


# ---- the built programs. The command is without the arguments


def built(name):
    return [*program.built()[:-1], ROOT / "target" / "bin" / name]


def differs(name, how):
    sys.exit("transport.py: %s: %s" % (name, how))


def check_bytes(name, got, wanted):
    if got != wanted:
        at = next((k for k, (a, b) in enumerate(zip(got, wanted)) if a != b), min(len(got), len(wanted)))
        differs(name, "%d bytes, not %d; from %d on %r, not %r" % (len(got), len(wanted), at, got[at : at + 60], wanted[at : at + 60]))


def ran(command, name, data, **how):
    """It ends by itself, or where no one hears it by SIGPIPE."""
    how = {"stdout": subprocess.PIPE, "stderr": subprocess.PIPE, **how}
    try:
        with program.file_of(data) as file:
            done = subprocess.run(command, timeout=program.LIMIT, **{"stdin": file, **how})
    except subprocess.TimeoutExpired:
        differs(name, "has not ended after %d s" % program.LIMIT)
    if done.returncode < 0 and done.returncode != -signal.SIGPIPE:
        differs(name, "ended with status %d" % done.returncode)
    return done


def check_case(i, out, err, **how):
    done = ran([*built(i.program), *i.arguments], i.name, i.stdin, **how)
    check_bytes(i.name + ", standard error", done.stderr, err)
    check_bytes(i.name, done.stdout or b"", out)
    if not err.startswith(b"usage") and done.returncode != 0:
        differs(i.name, "ended with status %d" % done.returncode)


def check_pieces(cases):
    """The input through a pipe, in pieces."""
    for i, out, err in cases:
        if i.name not in ("the sample", "long and badly heard, 1", "sections at random, 5", "the capture's sections"):
            continue
        for size in (1, 187, 188, 189, 5_000) if len(i.stdin) < 20_000 else (1_000, 65_537):
            name = "%s, in pieces of %d" % (i.name, size)
            with program.file_of(b"") as told, program.file_of(b"") as said:
                status = program.fed([*built(i.program), *i.arguments], i.stdin, size, told, said)
                told.seek(0)
                said.seek(0)
                check_bytes(name, told.read(), out)
                check_bytes(name + ", standard error", said.read(), err)
            if status != 0:
                differs(name, "ended with status %s" % status)


def check_ends(i, out, err):
    """Standard input closed, or a folder: as if there were none. Standard output closed, left, on a full disk: it ends, and quietly."""
    none, folder = PRINTED[i.program](i.arguments, b""), os.open("/", os.O_RDONLY)
    check_case(i._replace(name=i.name + ", input closed"), *none, stdin=None, preexec_fn=lambda: os.close(0))
    check_case(i._replace(name=i.name + ", input a folder"), *none, stdin=folder)
    os.close(folder)
    reader, writer = os.pipe()
    os.close(reader)
    with open(writer, "wb") as pipe, open("/dev/full", "wb") as disk:
        for what, how in (("a broken pipe", {"stdout": pipe}), ("a full disk", {"stdout": disk}), ("closed", {"stdout": None, "preexec_fn": lambda: os.close(1)})):
            name = "%s, standard output %s" % (i.name, what)
            check_bytes(name, ran([*built(i.program), *i.arguments], name, i.stdin, **how).stderr, b"")
    for what, how in (("closed", lambda: os.close(2)), ("a full disk", lambda: os.dup2(os.open("/dev/full", os.O_WRONLY), 2))):
        name = "%s, standard error %s" % (i.name, what)
        check_bytes(name, ran([*built(i.program), *i.arguments], name, i.stdin, preexec_fn=how, stderr=None).stdout, out)


def check_chain():
    """packets | sections gives back the sections."""
    for i in many_for_packets():
        if i.name not in ("200 sections of 4,098 bytes", "100,000 sections of 3 bytes"):
            continue
        with program.file_of(i.stdin) as file:
            first = subprocess.Popen([*built("packets"), b"77"], stdin=file, stdout=subprocess.PIPE)
            last = subprocess.Popen([*built("sections"), b"77"], stdin=first.stdout, stdout=subprocess.PIPE, stderr=subprocess.PIPE)
            first.stdout.close()
            out, err = last.communicate(timeout=program.LIMIT)
        check_bytes("packets | sections, " + i.name, out, i.stdin)
        check_bytes("packets | sections, %s, standard error" % i.name, err, sections_printed((b"77",), packed(77, i.stdin))[1])
        if first.wait(program.LIMIT) or last.returncode:
            differs("packets | sections, " + i.name, "ended with status %d and %d" % (first.returncode, last.returncode))


def check_built(cases):
    for i, out, err in cases:
        check_case(i, out, err)
    check_pieces(cases)
    for i, out, err in cases:
        if i.name in ("the sample", "long, 1", "the capture's sections", "sections at random, 5"):
            check_ends(i, out, err)
    check_chain()


# ---- the stored files


def settle_file(path, made_here):
    if "--write" in sys.argv:
        path.write_bytes(made_here)
    elif path.read_bytes() != made_here:
        sys.exit("%s is not what tests/transport.py makes: run it with --write and look at the change" % path)


def settle_all():
    for crate, stdin in (("sections", SAMPLE), ("packets", b"".join(whole()))):
        settle_file(ROOT / "crates" / crate / "args", b"300\n")
        settle(crate, stdin, PRINTED[crate]((b"300",), stdin)[0])
    settle_file(ROOT / "examples" / "capture.ts", capture())


def main():
    asked = sys.argv[1:]
    if asked not in ([], ["--write"], ["built"]):
        sys.exit(__doc__)
    cases = checked_cases()
    settle_all()
    by_words = sum(i.wanted is not None for i, _, _ in cases)
    print("transport.py: %d inputs, %d of them as the words tell; args, stdin and stdout are the samples'" % (len(cases), by_words))
    if asked == ["built"]:
        check_built(cases)
        print("transport.py: %d inputs, %d bytes of output compared" % (len(cases), sum(len(out) + len(err) for _, out, err in cases)))


if __name__ == "__main__":
    main()
