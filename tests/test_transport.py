#!/usr/bin/env python3
"""What crates/test_transport must print, by a second program.

Written from the words on transport packets (02, §2), and for what the request leaves open, the lent state, 1, 21 and the writer's refusals,
from docs/DECISIONS.md (162 to 169). What a packet says, and how sections lie in packets, is tests/transport.py; here is the state that is
carried from call to call, and the cases that both programs are given. It has no machine that goes from packet to packet: the bytes in
hand are a unit that began before, and what is handed on are the units' sections. Where a case knows its answer from the words, it says so
(`wanted`). A case, after its length (16 bits), has, most significant byte first: kind 8, counter 8, pid 16, the length of the buffer 16,
that of the state 16, then its bytes. Its line:

    feed ANSWER SIZE OUT STATE             ANSWER is taken, broken, repeated or a refusal
    gather REFUSAL PASSED SIZE TAKEN REPEATED BROKEN REFUSED40 REFUSED41 REFUSED42 REFUSED43 OUT STATE
    write REFUSAL PACKETS OUT STATE
    lay OUT STATE                          the bytes were laid over the state, or it was begun anew

OUT is the digest of the buffer that was lent, STATE that of the whole state.

    test_transport.py          compare crates/test_transport/stdin and stdout with what this program makes
    test_transport.py --write  write both
"""
import itertools
import random
from collections import Counter
from typing import NamedTuple

from second import framed, settle
from test_play import digest
from transport import PACKET, Packet, adaptation, gathered, in_step, judged, length_of, made, muxed, others, packed, packet_of, sections_in
from transport import some_sections, spoiled, units_of

STATE, ROOM, MARK = 4_300, 9_000, b"\xee"  # all of the state, the largest buffer, and what fills it before a call
LEAST_STATE, LEAST_ROOM = 4_287, 4_281
BEFORE, HAND = 188, 190  # where the number of bytes in hand stands, and where they begin
FEED, GATHER, WRITE, LAY, RENEW = range(5)
PID = 300


class Case(NamedTuple):
    kind: int
    data: bytes = b""
    wanted: object = None  # where the words tell it: the answer, of a gather its refusal or its counts
    pid: int = PID
    counter: int = 0
    room: int = LEAST_ROOM
    lent: int = LEAST_STATE


# ---- the state that is lent


def told(state, pid):
    """The last packet, or None, and the bytes in hand; None where packets of the PID can't have left it."""
    if len(state) < LEAST_STATE:
        return None
    if not any(state[:HAND]):
        return None, b""
    last, refused = judged(state[:PACKET], pid)
    held = int.from_bytes(state[BEFORE:HAND], "big")
    hand = state[HAND : HAND + held]
    no_head = held and (hand[0] == 0xFF or (length_of(hand) or held + 1) <= held)
    return None if refused or no_head else (last, hand)


def lent_refusal(state, pid, room):
    return min([1] * (told(state, pid) is None) + [21] * (room < LEAST_ROOM), default=0)


def with_new(state, packet, hand):
    new = packet.data + len(hand).to_bytes(2, "big") + hand
    return new + state[len(new) :]


# ---- one packet. The bytes in hand are as those of a unit that began before it


def hand_after(unit):
    """What is left of a unit behind its whole sections, where a section begins there."""
    (own, after), done = unit, sum(map(len, sections_in(*unit)))
    return (own + after)[done:] if done < len(own) and own[done] != 0xFF else b""


def fed(state, pid, data):
    """Of a state that is told: the answer, the sections, and the state after it."""
    last, hand = told(state, pid)
    packet, refused = judged(data, pid)
    if refused:
        return refused, [], state
    if last is not None and last.data == data:
        return "repeated", [], state
    step = last is None or in_step(last, packet)
    begun = [Packet(b"", pid, True, 0, b"\0" + hand)] if hand and step else []
    units = units_of([*begun, packet])
    sections = [s for unit in units for s in sections_in(*unit)]
    return "taken" if step else "broken", sections, with_new(state, packet, hand_after(units[-1]) if units else b"")


# ---- the calls: what they say, what they write, the state after them


def cut_up(stream):
    return [stream[at : at + PACKET] for at in range(0, len(stream), PACKET)]


def tallied(answers):
    """A broken one is taken, too."""
    said = Counter(answers)
    return [said["taken"] + said["broken"], said["repeated"], said["broken"], *(said[n] for n in (40, 41, 42, 43))]


def feed(c, state):
    refused = lent_refusal(state, c.pid, c.room)
    answer, sections, state = (refused, [], state) if refused else fed(state, c.pid, c.data)
    written = b"".join(sections)
    return [answer, len(written)], written, state


def gather(c, state):
    refused = lent_refusal(state, c.pid, c.room)
    answers, written, passed = [], b"", 0
    for packet in [] if refused else cut_up(c.data):
        if c.room - len(written) < LEAST_ROOM:
            break
        answer, sections, state = fed(state, c.pid, packet)
        answers.append(answer)
        written, passed = written + b"".join(sections), passed + len(packet)
    return [refused, passed, len(written), *tallied(answers)], written, state


def write(c, state):
    pieces = [(b"\0" + c.data)[at : at + 184] for at in range(0, 1 + len(c.data), 184)]
    met = {2: length_of(c.data) != len(c.data), 3: c.data[:1] == b"\xff", 21: c.room < PACKET * len(pieces), 25: c.pid > 8191 or c.counter > 15}
    refused = min((number for number, applies in met.items() if applies), default=0)
    packets = [packet_of(c.pid, c.counter + k, piece.ljust(184, b"\xff"), int(k == 0)) for k, piece in enumerate(pieces) if not refused]
    return [refused, len(packets)], b"".join(packets), state


def lay(c, state):
    data, at = (c.data, c.pid) if c.kind == LAY else (bytes(HAND), 0)
    return [], b"", state[:at] + data + state[at + len(data) :] if at + len(data) <= len(state) else state


CALLS = {FEED: ("feed", feed), GATHER: ("gather", gather), WRITE: ("write", write), LAY: ("lay", lay), RENEW: ("lay", lay)}
MET = {"feed": ("taken", "broken", "repeated", 1, 21, 40, 41, 42, 43), "gather": (0, 1, 21), "write": (0, 2, 3, 21, 25)}


def obeyed(c, state):
    """The numbers of the case's line, the bytes that it wrote, and the state after it."""
    numbers, written, after = CALLS[c.kind][1](c, state[: c.lent])
    assert len(after) == len(state[: c.lent]) and len(written) <= c.room <= ROOM and c.lent <= STATE, c
    if c.wanted is not None:
        assert c.wanted in (numbers[0], numbers[3:]), (c, numbers)
    return numbers, written, after + state[c.lent :]


def line(c, numbers, written, state):
    out = written + MARK * (c.room - len(written))
    return " ".join(map(str, [CALLS[c.kind][0], *numbers, digest(out), digest(state)])) + "\n"


def spelled(c):
    return b"".join(n.to_bytes(size, "big") for n, size in ((c.kind, 1), (c.counter, 1), (c.pid, 2), (c.room, 2), (c.lent, 2))) + c.data


# ---- cases: what becomes of packets

NEW = Case(RENEW)


def feeds(packets, wanted=None):
    return [Case(FEED, p, wanted) for p in packets]


def started(*sections, counter=0, pointer=b""):
    """A unit start: so many bytes that are pointed over, then sections, as far as there is room for them."""
    return packet_of(PID, counter, (bytes([len(pointer)]) + pointer + b"".join(sections))[:184].ljust(184, b"\xff"), 1)


def streams():
    """A well-formed stream, packet by packet, among others."""
    rnd = random.Random(1)
    sections = [made(rnd, n) for n in (0, 9, 400, 180, 1, 181, 182, 700, 60, 2)]
    packets = muxed(rnd, PID, sections, 12)
    yield [NEW, *feeds(others(rnd, packets, [299, 8191, PID ^ 0x1000])), Case(GATHER, b"", [0] * 7)]


def steps():
    """Each packet ends the section in hand and begins the next. Its counter goes on by 0 to 15: by 1 it is in step."""
    rnd = random.Random(16)
    cases, counter, rest = [NEW], 3, b""
    for k, step in enumerate((0, 1, *range(16), 1, 1)):
        counter, s = counter + step, made(rnd, 190 + k - len(rest))
        cases += feeds([started(s, counter=counter, pointer=rest)], "taken" if step == 1 or k == 0 else "broken")
        rest = s[183 - len(rest) :]
    yield cases


def idle_steps():
    """Without payload: the same counter is in step, the hand is kept; any other breaks, and the hand is dropped."""
    rnd = random.Random(17)
    s = made(rnd, 300)
    for counter, answer in ((5, "taken"), (6, "broken"), (4, "broken"), (13, "broken")):
        idle = packet_of(PID, counter, None, 1, adaptation(rnd, 184))
        more = packet_of(PID, counter + 1, s[183:].ljust(184, b"\xff"))
        yield [NEW, *feeds([started(s, counter=5)], "taken"), *feeds([idle], answer), *feeds([idle], "repeated"), *feeds([more], "taken")]


def repeats():
    """The last packet that was not refused, exactly; a byte that differs is a break."""
    rnd = random.Random(18)
    s = made(rnd, 400)
    first, more, last = started(s, counter=15), packet_of(PID, 0, s[183:367]), packet_of(PID, 1, s[367:].ljust(184, b"\xff"))
    other, noise = packet_of(PID + 1, 15, bytes(184), 1), bytes(PACKET)
    yield [NEW, *feeds([first], "taken"), *feeds([first, first], "repeated"), *feeds([other], 42), *feeds([noise], 41), *feeds([first], "repeated")]
    yield [*feeds([more], "taken"), *feeds([more], "repeated"), *feeds([last], "taken"), *feeds([last], "repeated"), *feeds([more], "broken")]
    yield [*feeds([more[:-1] + bytes([more[-1] ^ 1])], "broken"), *feeds([more], "broken"), *feeds([first], "broken")]


def heads():
    """A section begins with one or two of its bytes, or at the packet's end; a unit start drops what is not whole; stuffing, and bytes
    between a section's end and the pointed place."""
    rnd = random.Random(19)
    s, t = made(rnd, 50), made(rnd, 179)
    for at in (0, 1, 2, 3, 52):
        first = packet_of(PID, 0, b"\0" + s[:at], 1, adaptation(rnd, 183 - at))
        yield [NEW, *feeds([first, packet_of(PID, 1, s[at:].ljust(184, b"\xff"))], "taken")]
        yield [*feeds([packet_of(PID, 2, b"\0" + s[:at], 1, adaptation(rnd, 183 - at)), started(t, counter=3)], "taken")]
    yield feeds([packet_of(PID, 4, s + t[:-51])], "taken")
    yield feeds([started(s, b"\xff", s, counter=5), started(b"\0\0\0" * 61, counter=6), started(s, s, s, s, counter=7)], "taken")
    yield feeds([started(b"\xff\0\0", s, counter=8, pointer=s[24:] + b"\0\0\0"), started(s, b"\xff\0\0" * 40, counter=9)], "taken")


# ---- cases: refusals of a packet

GOOD = started(b"\x3c\xb0\x05buoys", counter=1)


def changed(at, value, data=GOOD):
    return data[:at] + bytes([value]) + data[at + 1 :]


def with_field(length, control, payload=b"", start=0):
    """An adaptation field that says its length, whatever follows."""
    return packet_of(PID, 1, payload, start, bytes([length]), control=control).ljust(PACKET, b"\0")


def wrong_packets():
    yield from ((GOOD[:n], 40) for n in (0, 1, 4, 5, 187))
    yield from ((GOOD + bytes(n), 40) for n in (1, 188))
    yield from ((changed(0, n), 41) for n in (0, 0x46, 0x57, 0xC7, 0xFF))
    yield from ((packet_of(pid, 1, GOOD[4:], 1), 42) for pid in (299, 301, PID ^ 0x1000, PID ^ 0x100, 0, 8191))
    yield changed(1, GOOD[1] | 0x80), 43
    yield from ((changed(3, GOOD[3] | n << 6), 43) for n in (1, 2, 3))
    yield changed(3, 0x01), 43
    yield from ((with_field(n, control), 43) for n, control in ((184, 3), (184, 2), (255, 3), (255, 2)))
    yield with_field(183, 3, b"", 1), 43
    yield from ((with_field(n, 3, b"".ljust(n) + bytes([183 - n]), 1), 43) for n in (0, 100, 182))
    yield from ((changed(4, n), 43) for n in (184, 185, 255))


def right_packets():
    """At the edge of what is refused."""
    yield with_field(183, 3)
    yield from (with_field(n, 2, b"", 1) for n in (0, 100, 183))
    yield from (with_field(n, 3, b"".ljust(n) + bytes([182 - n]), 1) for n in (0, 100, 182))
    yield from (changed(4, n) for n in (0, 1, 183))
    yield from (changed(1, GOOD[1] | 0x20), changed(188 - 1, 0))


def refusals():
    """A refused packet changes nothing: the section in hand ends after all of them."""
    rnd = random.Random(43)
    s = made(rnd, 240)
    wrong = [Case(FEED, p, answer) for p, answer in wrong_packets()]
    yield [NEW, *feeds([started(s)], "taken"), *wrong, *feeds([packet_of(PID, 1, s[183:].ljust(184, b"\xff"))], "taken")]
    for p in right_packets():
        yield [NEW, *feeds([p], "taken")]


def meeting():
    """40 to 43 in every set; 1 and 21 before them."""
    for met in itertools.chain.from_iterable(itertools.combinations((41, 42, 43), n) for n in range(4)):
        p = GOOD
        for at, value in [{41: (0, 0x48), 42: (2, 0x2D), 43: (3, 0xD1)}[n] for n in met]:
            p = changed(at, value, p)
        yield [NEW, Case(FEED, p[:-1], 40), Case(FEED, p, min(met, default="taken"))]
    for p in (GOOD, b""):
        for kind in (FEED, GATHER):
            yield [Case(kind, p, 21, room=n) for n in (0, LEAST_ROOM - 1)] + [Case(kind, p, 1, lent=LEAST_STATE - 1), Case(kind, p, 1, room=0, lent=0)]
    yield [Case(FEED, GOOD, "taken"), Case(FEED, GOOD, "repeated"), Case(FEED, GOOD, 1, PID + 1)]
    yield [Case(FEED, b"", 40, lent=STATE), Case(GATHER, b"", 0, lent=STATE)]


# ---- cases: states that are spoiled


def looked_at(answer, **more):
    """By both calls, with the cheapest of packets: 40 where the state is a good one."""
    return [Case(FEED, b"", answer or 40, **more), Case(GATHER, b"", answer, **more)]


def laid(at, *values):
    return Case(LAY, bytes(values), pid=at)


def spoiled_states():
    """In hand are 183 bytes of a section of 203."""
    rnd = random.Random(190)
    s = made(rnd, 200, 0x3C)
    first, last = started(s), packet_of(PID, 1, s[183:].ljust(184, b"\xff"))
    for at in (0, 1, 3, 47, 187, 188, 189):
        yield [NEW, laid(at, 1), *looked_at(1), *looked_at(1, room=0), laid(at, 0), *looked_at(0), *looked_at(21, room=LEAST_ROOM - 1)]
    yield [NEW, laid(HAND, 1), *looked_at(0), *feeds([first], "taken"), *looked_at(0), *looked_at(1, pid=301), *looked_at(1, pid=0x2000 | PID)]
    for at, value in ((0, 0x46), (0, 0), (1, first[1] ^ 0x80), (1, first[1] ^ 1), (2, first[2] ^ 1), (3, 0xD0), (3, 0x00), (4, 184)):
        yield [laid(at, value), *looked_at(1), laid(at, first[at]), *looked_at(0)]
    for held in (203, 204, 256, 4_097, 4_098, 65_535):
        yield [laid(BEFORE, *held.to_bytes(2, "big")), *looked_at(1), *looked_at(1, room=LEAST_ROOM - 1, lent=STATE)]
    yield [laid(BEFORE, 0, 202), *looked_at(0), laid(BEFORE, 0, 2), *looked_at(0), laid(BEFORE, 0, 183), laid(HAND, 0xFF), *looked_at(1), laid(HAND, 0x3C)]
    yield [laid(HAND + 2, 180), *looked_at(1), laid(HAND + 2, 181), *looked_at(0), laid(HAND + 2, 200), laid(HAND + 183, 7, 7, 7), *feeds([last], "taken")]
    yield [*feeds([started(s, counter=2)], "taken"), laid(HAND + 1, 0x3F, 0xFF), laid(BEFORE, 0x10, 0x01), *looked_at(0, lent=STATE), *looked_at(0)]
    yield [laid(BEFORE, 0x10, 0x02), *looked_at(1), *looked_at(1, lent=STATE)]
    yield [laid(BEFORE, 0, 1), *looked_at(0), *feeds([packet_of(PID, 3, last[4:])], "taken")]
    yield [laid(STATE, 1), laid(LEAST_STATE - 1, 1), laid(LEAST_STATE - 1, 1, 1), laid(LEAST_STATE, 1), *looked_at(0)]


# ---- cases: many packets at once


def gathers(rnd, packets, room=ROOM):
    """The packets in groups."""
    while packets:
        n = rnd.choice([1, 2, 3, 8])
        yield Case(GATHER, b"".join(packets[:n]), 0, room=room)
        packets = packets[n:]


def groups():
    """The same packets at once, and in groups; with a rest, which is refused and not kept."""
    rnd = random.Random(2)
    packets = muxed(rnd, PID, some_sections(rnd, 6, 200), 9)
    stream = b"".join(packets)
    yield [NEW, Case(GATHER, stream, [len(packets)] + [0] * 6, room=ROOM)]
    yield [NEW, *gathers(rnd, packets)]
    yield [NEW, Case(GATHER, GOOD + GOOD + GOOD[:1], [1, 1, 0, 1, 0, 0, 0], room=ROOM), Case(GATHER, GOOD[1:], [0, 0, 0, 1, 0, 0, 0])]
    each = [GOOD, GOOD, changed(0, 0), changed(2, 0), changed(3, 0), changed(187, 0), GOOD, GOOD[:187]]
    yield [NEW, Case(GATHER, b"".join(each), [3, 1, 2, 1, 1, 1, 1], room=LEAST_ROOM + 100)]


def rooms():
    """One more packet is passed where there is room for all that it may hand on."""
    sections = [made(random.Random(k), 177) for k in range(3)]
    stream = packed(PID, b"".join(sections))
    for room, passed in ((LEAST_ROOM, 1), (LEAST_ROOM + 179, 1), (LEAST_ROOM + 180, 2), (LEAST_ROOM + 540, 3)):
        yield [NEW, Case(GATHER, stream, [passed] + [0] * 6, room=room)]
    yield [NEW, Case(GATHER, stream, 21, room=LEAST_ROOM - 1), Case(GATHER, b"", 21, room=0)]


def largest():
    """Of a section of 4,098 bytes all but one are in hand; the next packet hands on that one and 182 bytes of others, 4,280 in all."""
    rnd = random.Random(4_098)
    s = made(rnd, 4_095)
    pieces = [s[at : at + 184] for at in range(183, 4_047, 184)]
    packets = [started(s), *(packet_of(PID, k + 1, piece) for k, piece in enumerate(pieces))]
    packets.append(packet_of(PID, len(packets), s[4_047:4_097], 0, adaptation(rnd, 134)))
    end = started(b"\0\0\0" * 59 + b"\0\0\2\0\0", counter=len(packets), pointer=s[4_097:])
    yield [NEW, *gathers(rnd, packets, LEAST_ROOM), Case(FEED, end, 21, room=LEAST_ROOM - 1), Case(GATHER, end, [1] + [0] * 6), *feeds([end], "repeated")]


def at_random():
    """Packets lost, repeated, flipped, among noise; fed and gathered."""
    rnd = random.Random(40)
    for k in range(3):
        packets = [*others(rnd, spoiled(rnd, muxed(rnd, PID, some_sections(rnd, 7, 200), k, gap=k % 2 > 0)), [299, 301])]
        cases = [NEW]
        while packets:
            n = rnd.choice([1, 1, 1, 2, 5])
            data = b"".join(packets[:n])
            cases += feeds([data]) if n == 1 else [Case(GATHER, data, room=ROOM)]
            packets = packets[n:]
        yield cases


# ---- cases: from sections to packets


def sizes():
    rnd = random.Random(184)
    for size in (3, 4, 182, 183, 184, 366, 367, 368, 551):
        s, count = made(rnd, size - 3), size // 184 + 1
        yield [Case(WRITE, s, 0, room=PACKET * count)] + [Case(WRITE, s, 21, room=PACKET * count - 1)] * (size in (3, 183, 184, 368))
    yield [Case(WRITE, made(rnd, 4_095), 0, counter=9, room=PACKET * 23)]


def widths():
    s = b"\x3c\xb0\x05buoys"
    yield [Case(WRITE, s, 0, pid, 7, ROOM) for pid in (0, 255, 256, 8191)] + [Case(WRITE, s, 25, pid, 7, ROOM) for pid in (8192, 8192 | PID, 65_535)]
    yield [Case(WRITE, bytes([0, n << 4, 200]) + bytes(200), 0, counter=n, room=500) for n in range(0, 16, 3)]
    yield [Case(WRITE, s, 25, counter=n, room=500) for n in (16, 17, 128, 255)]


def no_sections():
    s = b"\x3c\xb0\x05buoys"
    yield [Case(WRITE, s[:n], 2, room=500) for n in range(8)] + [Case(WRITE, s + b"\xff", 2, room=500), Case(WRITE, b"\xff" * 3, 2, room=500)]
    yield [Case(WRITE, b"\xff" + made(random.Random(n), n)[1:], 3, room=500) for n in (0, 1, 5, 180, 181)] + [Case(WRITE, s, 21, room=n) for n in (0, 1, 187)]
    for met in itertools.chain.from_iterable(itertools.combinations((2, 3, 21, 25), n) for n in range(5)):
        data = (b"\xff" if 3 in met else s[:1]) + s[1 : 7 if 2 in met else 8]
        room, (pid, counter) = 187 if 21 in met else 188, ((PID, 16) if 3 in met else (8192, 3)) if 25 in met else (PID, 3)
        yield [Case(WRITE, data, min(met, default=0), pid, counter, room)]


def and_back():
    """What was written is handed on."""
    s = made(random.Random(7), 500)
    packets = [packet_of(PID, k + 14, piece.ljust(184, b"\xff"), int(k == 0)) for k, piece in enumerate([b"\0" + s[:183], s[183:367], s[367:]])]
    yield [NEW, Case(WRITE, s, 0, counter=14, room=ROOM), Case(GATHER, b"".join(packets), [3] + [0] * 6)]


TOPICS = (
    streams,
    steps,
    idle_steps,
    repeats,
    heads,
    refusals,
    meeting,
    spoiled_states,
    groups,
    rooms,
    largest,
    at_random,
    sizes,
    widths,
    no_sections,
    and_back,
)


# ---- all of them


def stories(done):
    """From each new state to the next, but for those in which bytes are laid over it."""
    begins = [k for k, (c, _, _) in enumerate(done) if c.kind == RENEW]
    for begin, end in zip(begins, [*begins[1:], len(done)]):
        if all(c.kind != LAY for c, _, _ in done[begin:end]):
            yield [(c, numbers, written) for c, numbers, written in done[begin:end] if c.kind in (FEED, GATHER) and numbers[0] not in (1, 21)]


def check_whole(story):
    """However the packets came, the sections and the counts are those that tests/transport.py has of them as one stream."""
    packets = [p for c, numbers, _ in story for p in ([c.data] if c.kind == FEED else cut_up(c.data[: numbers[1]]))]
    sound = [p for p in packets if len(p) == PACKET]
    sections, counts = gathered(PID, b"".join(sound))
    counts["refused40"] += len(packets) - len(sound)
    told_here = [tallied(numbers[:1]) if c.kind == FEED else numbers[3:] for c, numbers, _ in story]
    assert b"".join(sections) == b"".join(written for _, _, written in story), story
    assert [*counts.values()] == [sum(column) for column in zip([0] * 7, *told_here)], story


def main():
    state, done, lines = bytes(STATE), [], []
    for c in (c for topic in TOPICS for cases in topic() for c in cases):
        numbers, written, state = obeyed(c, state)
        done.append((c, numbers, written))
        lines.append(line(c, numbers, written, state))
    whole = [*stories(done)]
    for story in whole:
        check_whole(story)
    met = Counter((CALLS[c.kind][0], *numbers[:1]) for c, numbers, _ in done)
    by_words = sum(c.wanted is not None for c, _, _ in done)
    least = min(met[call, answer] for call, answers in MET.items() for answer in answers)
    assert set(met) == {("lay",), *((call, answer) for call, answers in MET.items() for answer in answers)} and least >= 6, met
    settle("test_transport", framed(spelled(c) for c, _, _ in done), "".join(lines).encode())
    sizes_met = len(done), by_words, len(whole), least
    print("test_transport: %d cases, %d of them as the words tell, %d streams the same as a whole; each answer at least %d times" % sizes_met)


if __name__ == "__main__":
    main()
