#!/usr/bin/env python3
"""The C side: include/nebosvar.h declares what the source exports, by name, order, type and number (tests/boundary.py), and the C programs, compiled with
every warning an error, print what the programs in Python print: examples/receive.c the paper's lines, and of each module what the receiver says;
examples/capture.c the same of sections that come in packets;
tests/table.c the lines of `inspect`; tests/list.c what tests/driftlist.py reads of a drift list, which it also writes again; tests/play.c the
sections that tests/player.py makes.

    embed.py          compare the declarations
    embed.py run      the same, then `make install` into a folder of its own, compile the programs with what pkg-config says of it, and run them"""
import os
import random
import re
import subprocess
import sys
import tempfile
from pathlib import Path

import boundary
import driftlist
import player
import program
import receiver
import test_inspect
from second import ROOT


def compare_declarations():
    """The header and the Rust crate beside the source; and that the comparison finds every wrong header."""
    wanted, raw = boundary.source(), boundary.HEADER.read_text()
    found = list(boundary.faults(wanted, raw))
    assert not found and len(wanted["calls"]) >= 21, "\n".join(found)
    counts = tuple(sum(map(len, part)) for part in (wanted["structs"].values(), (ps for ps, _ in wanted["calls"].values()), wanted["constants"]))
    print("embed.py: include/nebosvar.h has the source's %d calls, %d fields, %d parameters and %d constants" % (len(wanted["calls"]), *counts))
    declared = boundary.rust()
    for what in declared:
        assert declared[what] == wanted[what], (what, declared[what], wanted[what])
    compare_rust(dict(c for enum in wanted["constants"] for c in enum))
    tried = [*boundary.swaps(raw), *boundary.others(raw)]
    passed = [what for what, text in tried if not any(boundary.faults(wanted, text))]
    assert len(tried) > 1200 and not passed, passed
    print("embed.py: each of %d wrong headers, with two names or values exchanged, is found to be one" % len(tried))


def compare_rust(numbers):
    """Every number that the Rust crate takes for a case, or gives for one, and none left out."""
    taken, given = boundary.rust_constants()
    for told, enums in ((taken, ("KIND", "STOP", "CLASS", "CONTROL", "DESCRIPTOR", "ITEM", "FOUND", "STATE", "FED")), (given, ("ITEM", "STATE"))):
        named = {n: k for n, k in numbers.items() if n.split("_")[0] in enums and n not in ("KIND_NONE", "FED_REFUSED")}
        assert set(told) == set(named.items()), set(told) ^ set(named.items())
    assert boundary.rust_places() == {n: numbers[n] for n in ("COMMON", "NOWHERE")}, boundary.rust_places()
    assert list(boundary.rust_limits().items()) == list(boundary.limits().items()), (boundary.rust_limits(), boundary.limits())
    packets = boundary.transport_limits((boundary.RUST / "transport.rs").read_text())
    assert packets == [(n, numbers[n]) for n, _ in packets], packets
    words, printed = boundary.short_words(), boundary.rust_words()
    assert len(words) == 34 and words == printed, set(words.items()) ^ set(printed.items())
    print(
        "embed.py: the Rust crate has the same structs and calls, the same number for each of %d cases, the same %d limits, and the same words for %d refusals"
        % (len(set(taken)), len(boundary.rust_limits()) + len(packets), len(words))
    )


def compare_readme():
    """The examples that README shows are parts of those that the gate runs."""
    readme = (ROOT / "README.md").read_text()
    wanted = (("c", "examples/receive.c"), ("c", "examples/play.c"), ("rust", "rust/nebosvar/examples/receive.rs"))
    shown = re.findall(r"```(c|rust)\n(.*?)```", readme, re.S)
    assert [language for language, _ in shown] == [language for language, _ in wanted], shown
    for (_, path), (_, text) in zip(wanted, shown):
        assert text in (ROOT / path).read_text(), "README shows another example than %s" % path
    print("embed.py: README shows the examples that are run")


# ---- the example in C


def module_line(record, image, number):
    refusal, part = receiver.handout(record, image, number)
    if refusal == 0:
        return "module,%d,complete,%d bytes at %d" % (number, len(part), record.modules[record.place(number)].start)
    if refusal == 20:
        _, blocks = receiver.missing(record, number)
        return "module,%d,incomplete,%d blocks missing from %d on" % (number, len(blocks), blocks[0])
    return "module,%d,refused,%d" % (number, refusal)


def check_modules(command):
    """After every input: each announced module, and one that is not."""
    lines = 0
    for i, printed in program.checked_cases():
        image = bytearray(program.IMAGE)
        _, _, record = program.run(i.stdin[: program.READ], program.BUDGET, program.Record(), image)
        numbers = [m.number for m in record.used()] + [40_000]
        wanted = printed.decode() + "".join(module_line(record, image, n) + "\n" for n in numbers)
        got = subprocess.run([*command, *map(str, numbers)], input=i.stdin, capture_output=True, check=True, timeout=program.LIMIT).stdout
        program.check_same(i.name, got, wanted.encode())
        lines += len(numbers)
    return lines


def words_of(line):
    """The words that tell what kind of line it is."""
    words = line.split(",")
    more = {"descriptor": words[4:5], "label": words[-2:-1], "application": words[4:7:2], "section": words[6:7]}
    where = ["remote-carousel" if words[6] == "1" else "local"] if words[4:5] == ["carousel"] else []
    return [words[0], *more.get(words[0], []), *where]


EVERY_WORD = """application descriptor profile label name base extension identifier stop record module own common unresolved table none
names local remote-carousel bases selector identifiers path raw
unsigned signed other wildcard autostart present destroy kill remote reserved"""


def check_tables(command):
    """What `inspect` must print, line by line: of tables whole and damaged, and of the record. Lines of every kind must have come."""
    met, tables = set(), {"table": 0, "none": 0}
    sample = program.Input("the sample", "Something of every kind.", test_inspect.sample())
    for i in [sample, *test_inspect.table_inputs(), *test_inspect.carousel_inputs()]:
        printed = test_inspect.printed(i.stdin)
        program.check_same(i.name, program.from_file(command, i), printed)
        for line in printed.decode().splitlines():
            met.update(words_of(line))
            if line.startswith("section,") and line.split(",")[4] == "116":
                tables[line.split(",")[6]] += 1
    wanted = set(EVERY_WORD.split())
    assert wanted <= met and min(tables.values()) >= 300, (wanted - met, tables)
    print("embed.py: tests/table.c prints the lines of inspect for %d accepted tables and %d refused" % (tables["table"], tables["none"]))


def drift_lists():
    """Good lists, the empty and the longest among them; lists with a field that is wrong, or any bits in its place; and lists of another length."""
    rnd = random.Random(2026)
    good = [driftlist.listing(driftlist.random_rows(rnd), rnd.randrange(65_536)) for _ in range(100)]
    longest = [(k + 1, k % 3, *((0, 0) if k % 3 == 0 else (k - 30_000, 30_000 - 2 * k)), k % 10_080) for k in range(65_535)]
    good += [driftlist.ONES, driftlist.MINUS_ONES, driftlist.LIST.data, driftlist.listing([]), driftlist.listing(longest, 65_535)]
    yield from good
    for k in range(300):
        rows = driftlist.random_rows(rnd, 1)
        place, name = rnd.randrange(len(rows)), driftlist.Row._fields[k % 6]
        any_bits = rnd.getrandbits(getattr(driftlist.WIDTHS, name))
        yield driftlist.with_field(driftlist.listing(rows), place, name, rnd.choice([any_bits, driftlist.wrong_value(rnd, rows, place, name)]))
    for data in good:
        yield rnd.choice([data[:-1], data[:3], data[:-12], data + b"\0", data + bytes(12)])


def list_lines(data):
    refusal, issue, rows = driftlist.read(data)
    if refusal:
        return "list,%d\n" % refusal
    words = ("none", "fix", "last")
    return "issue,%d,%d\n" % (issue, len(rows)) + "".join("%d,%s,%d,%d,%d\n" % (r.buoy, words[r.state], r.longitude, r.latitude, r.minute) for r in rows)


def check_lists(command):
    """What the second program reads of a drift list; and what was read is written again, which tests/list.c sees to itself."""
    met = dict.fromkeys(("issue", *("list,%d\n" % n for n in range(30, 36))), 0)
    for k, data in enumerate(drift_lists()):
        name, wanted = "drift list %d" % k, list_lines(data)
        with program.file_of(data) as stdin:
            program.check_same(name, program.run_it(command, name, stdin), wanted.encode())
        met["issue" if wanted.startswith("issue") else wanted] += 1
    assert min(met.values()) >= 20, met
    print("embed.py: tests/list.c reads what tests/driftlist.py does of %d drift lists, and writes the %d that are accepted again" % (sum(met.values()), met["issue"]))


def playlists():
    """What is announced, the image and the identifier: right, beyond the limits (10), a number twice (11), and an image of one byte less (15)."""
    rnd = random.Random(1313)
    for k in range(240):
        size, count = rnd.choice([1, 2, 64, 1000, player.LARGEST]), rnd.choice([1, 2, 3, 7, player.MODULES])
        sizes = [rnd.randint(1, 3 * size if count < 8 else size) for _ in range(count)]
        numbers = rnd.sample(range(65_536), count)
        if k % 4 == 1:
            size, sizes, numbers = beyond(rnd, size, sizes, numbers)
        if k % 4 == 2:
            numbers, sizes = [*numbers[:-1], *[numbers[0]] * (2 if count == 1 else 1)], [*sizes, *[1] * (count == 1)]
        modules = [player.Module(n, z, rnd.randrange(256)) for n, z in zip(numbers, sizes)]
        image = rnd.randbytes(min(sum(sizes), player.TOGETHER))
        yield player.Announced(rnd.getrandbits(32), size, modules), image[: len(image) - (k % 4 == 3)], rnd.getrandbits(32)


def beyond(rnd, size, sizes, numbers):
    """One of the limits passed: the blockSize, a size, how many modules, or the sizes together."""
    more = rnd.sample(range(65_536), player.MODULES + 1)
    last = sizes[:-1]
    return rnd.choice([
        (rnd.choice([0, player.LARGEST + 1]), sizes, numbers),
        (size, [*last, rnd.choice([0, player.BLOCKS * size + 1])], numbers),
        (size, [1] * len(more), more),
        (size, [], []),
        (player.LARGEST, [*last, player.TOGETHER + 1 - sum(last)], numbers),
    ])


def play_input(a, image, identifier):
    """As tests/play.c reads it."""
    head = player.packed((a.download, 32), (a.size, 16), (identifier, 32), (len(a.modules), 16))
    return head + b"".join(player.packed((m.number, 16), (m.size, 32), (m.version, 8)) for m in a.modules[: player.MODULES]) + image


def play_lines(a, image, identifier):
    met = player.limits(a)
    if met:
        return ["refused,%d" % min(met)]
    sections = [s.hex() for s in player.rotation(a, image.ljust(sum(m.size for m in a.modules), b"?"), identifier)]
    short = player.call(a, image, identifier, 0, 4_096)[0]
    return ["sections,%d" % len(sections), *(["refused,%d" % short] * len(sections) if short else sections)]


def check_player(command):
    """The example that plays one module: a drift list, and what is refused, nothing and too much."""
    for size in (100, 1, 4066, 4067, player.TOGETHER, 0, player.TOGETHER + 1):
        data = bytes((7 * k + k // 256) % 256 for k in range(size))
        a = player.Announced(2026, 4066, [player.Module(1, size, 3)])
        met = player.limits(a)
        wanted = (b"", b"refused,%d\n" % min(met)) if met else (b"".join(player.rotation(a, data, 0x80000002)), b"")
        ran = subprocess.run(command, input=data, capture_output=True, check=True)
        assert (ran.stdout, ran.stderr) == wanted, "examples/play.c writes another rotation of %d bytes" % size
    print("embed.py: the C example that plays, on modules of 1 to %d bytes" % player.TOGETHER)


def check_plays(command):
    """What the second program makes of a playlist."""
    met = dict.fromkeys(("sections", "refused,10", "refused,11", "refused,15"), 0)
    for k, asked in enumerate(playlists()):
        name, wanted = "playlist %d" % k, play_lines(*asked)
        with program.file_of(play_input(*asked)) as stdin:
            program.check_same(name, program.run_it(command, name, stdin), "".join(l + "\n" for l in wanted).encode())
        met[next(m for m in reversed(met) if any(l.startswith(m) for l in wanted))] += 1
    assert min(met.values()) >= 30, met
    print("embed.py: tests/play.c writes the sections of tests/player.py for %d playlists, and refuses %d" % (met["sections"], sum(met.values()) - met["sections"]))


def packets_of(pid, sections, counter=0):
    """Each section begins a packet, and 0xFF fills its last: lists of packets, one for each section."""
    for s in sections:
        pieces = [(b"\0" + s)[k : k + 184].ljust(184, b"\xff") for k in range(0, len(s) + 1, 184)]
        yield [bytes([0x47, (k == 0) << 6 | pid >> 8, pid & 255, 0x10 | (counter + k) % 16]) + piece for k, piece in enumerate(pieces)]
        counter += len(pieces)


def captures():
    """Streams: the sections of one PID in packets among others, some twice; and with one packet of a section lost, which loses that section alone."""
    rnd = random.Random(188)
    for k in range(60):
        sizes = [rnd.randint(1, 9_000) for _ in range(rnd.randint(1, 4))]
        a = player.Announced(2026, 1_000, [player.Module(n, size, 3) for n, size in enumerate(sizes, 1)])
        sections = player.rotation(a, rnd.randbytes(sum(sizes)), 0x80000002)
        pid, lost = rnd.randrange(1, 0x2000), rnd.randrange(1, len(sections)) if k % 2 else None
        laid = list(packets_of(pid, sections, k))
        yield pid, laid, sections, lost


def stream_of(rnd, pid, laid, lost):
    """The packets of a stream, without one of the section that is lost, and how many were taken, repeated, broken and refused."""
    stream, counts = [], dict.fromkeys(("taken", "repeated", "broken", "refused"), 0)
    for place, packets in enumerate(laid):
        gone = rnd.randrange(len(packets)) if place == lost else None
        for k, packet in enumerate(packets):
            if k == gone:
                continue
            times = rnd.choice([1, 1, 1, 2])
            stream += [packet] * times
            counts["taken"] += 1
            counts["repeated"] += times - 1
            stream += [rnd.choice([b"\x47" + (pid ^ 1).to_bytes(2, "big"), b"\x46" + pid.to_bytes(2, "big")]) + bytes(185)] * rnd.randrange(3)
    last = lost == len(laid) - 1 and stream.count(laid[-1][-1]) == 0  # nothing comes after it to show the loss
    counts["broken"] = int(lost is not None and not last)
    counts["refused"] = len(stream) - counts["taken"] - counts["repeated"]
    return b"".join(stream), counts


def check_captures(command):
    """The example that takes a carousel out of a transport stream."""
    rnd, met = random.Random(13_818), {"complete": 0, "incomplete": 0}
    for pid, laid, sections, lost in captures():
        data, counts = stream_of(rnd, pid, laid, lost)
        heard = b"".join(s for place, s in enumerate(sections) if place != lost)
        image = bytearray(player.TOGETHER)
        _, _, record = program.run(heard, len(sections), program.Record(), image)
        numbers = [m.number for m in record.used()] + [40_000]
        lines = [module_line(record, image, n) for n in numbers]
        wanted = "".join("%s,%d\n" % c for c in counts.items()) + "".join(l + "\n" for l in lines)
        got = subprocess.run([*command, *map(str, [pid, *numbers])], input=data, capture_output=True, check=True, timeout=program.LIMIT).stdout
        program.check_same("a capture of %d bytes" % len(data), got, wanted.encode())
        for l in lines[:-1]:
            met[l.split(",")[2]] += 1
    assert min(met.values()) >= 20, met
    print("embed.py: the C example that takes captures, %d modules complete and %d incomplete" % (met["complete"], met["incomplete"]))


def check_needs(archive):
    """The archive defines the exported functions and asks for nothing but these two of the C library."""
    symbols = subprocess.run(["nm", archive], check=True, capture_output=True, text=True).stdout.split("\n")
    asked, defined = ({l.split()[-1] for l in symbols if " %s " % kind in l} for kind in "UT")
    assert asked <= {"memcpy", "memmove", "memset"} and defined == set(boundary.source()["calls"]), (asked, defined)


def asked_of(prefix, what):
    """What pkg-config says of the archive that is installed there."""
    told = subprocess.run(["pkg-config", what, "nebosvar"], env={**os.environ, "PKG_CONFIG_PATH": str(prefix / "lib" / "pkgconfig")}, check=True, capture_output=True, text=True)
    return told.stdout.split()


def compile_strictly(source, prefix, made):
    """Compiles a program with every warning an error, and gives the command that runs it."""
    strict = ["-Wall", "-Wextra", "-Werror", *asked_of(prefix, "--cflags")]
    subprocess.run(["g++", *strict, "-fsyntax-only", "-x", "c++", prefix / "include" / "nebosvar.h"], check=True)
    subprocess.run(["gcc", *strict, source, *asked_of(prefix, "--libs"), "-o", made], check=True)
    return [made]


def install(prefix):
    """What `make install` puts there, and that the programs among it run."""
    subprocess.run(["make", "--silent", "-C", ROOT, "install", "PREFIX=%s" % prefix], check=True)
    put = {str(p.relative_to(prefix)) for p in prefix.rglob("*") if p.is_file()}
    programs = {"bin/" + name for name in ("receive", "inspect", "driftlist", "player", "sections", "packets")}
    wanted = programs | {"lib/libnebosvar.a", "lib/pkgconfig/nebosvar.pc", "include/nebosvar.h"}
    assert put == wanted, put ^ wanted
    printed = subprocess.run(program.under_the_kit(prefix / "bin" / "receive"), input=program.EXAMPLE.stdin, capture_output=True, check=True).stdout
    assert printed == program.PRINTED, printed
    print("embed.py: make install puts %s" % ", ".join(sorted(put)))


def run_example():
    with tempfile.TemporaryDirectory() as folder:
        prefix = Path(folder) / "prefix"
        install(prefix)
        check_needs(prefix / "lib" / "libnebosvar.a")
        command = compile_strictly(ROOT / "examples" / "receive.c", prefix, Path(folder) / "receive")
        print("embed.py: the C example over %d modules" % check_modules(command))
        check_tables(compile_strictly(ROOT / "tests" / "table.c", prefix, Path(folder) / "table"))
        check_lists(compile_strictly(ROOT / "tests" / "list.c", prefix, Path(folder) / "list"))
        check_plays(compile_strictly(ROOT / "tests" / "play.c", prefix, Path(folder) / "play"))
        check_player(compile_strictly(ROOT / "examples" / "play.c", prefix, Path(folder) / "player"))
        check_captures(compile_strictly(ROOT / "examples" / "capture.c", prefix, Path(folder) / "capture"))
        subprocess.run([sys.executable, ROOT / "tests" / "program.py", "run", *command], check=True)


compare_declarations()
compare_readme()
if sys.argv[1:] == ["run"]:
    run_example()
