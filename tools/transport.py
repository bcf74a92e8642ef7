#!/usr/bin/env python3
"""python3 tools/transport.py [--sections CMD] [--packets CMD] [--dvbpsi]: the two programs of transport packets beside what others make of the same streams.
Not in the gate: tshark, ffmpeg, ffprobe, tsreport and tsinfo are of Debian's packages tshark, ffmpeg and tstools, and no part of this repository needs them.
It says which are there and leaves out the rest; it ends with 1 where one of them disagrees.

    sections PID    a transport stream in, the whole sections of the PID out, end to end; a line to standard error counts the packets
    packets PID     sections in, a transport stream out

    written     the sample and a rotation with the largest sections, through `packets`: each header by tshark, the sections that it puts together again, and how
                many packets tsreport reads; and `sections` gives them back
    muxed       a stream of ffmpeg's, through `sections`: its PAT, SDT and PMT, each section whole and its CRC right, as many as tshark sees
    exchanged   the packets of these tables replaced by those of `packets`: ffprobe and tsinfo read the same in the stream as before

--dvbpsi measures libdvbpsi (Debian's libdvbpsi-dev) besides, over 64 MiB of packets with sections of 4,096 bytes (tools/dvbpsi.c).
"""
import argparse
import collections
import re
import shlex
import shutil
import subprocess
import sys
import tempfile
from pathlib import Path

ROOT = Path(__file__).resolve().parent.parent
sys.path.insert(0, str(ROOT / "tests"))

import player
from second import crc

PACKET = 188
HEADER = ("mp2t.pid", "mp2t.cc", "mp2t.pusi", "mp2t.tei", "mp2t.tsc", "mp2t.afc", "mp2t.analysis.skips")
# tshark has one set of names for DSM-CC sections, and another for those of ISO's and DVB's own tables.
FIELDS = (*HEADER, "mpeg_sect.table_id", "mpeg_sect.section_length", "mpeg_sect.tid", "mpeg_sect.len", "mpeg_sect.crc.status")
CRC_RIGHT = 1  # as tshark tells it
TABLES = {0: ("PAT", 0x00), 17: ("SDT", 0x42), 4096: ("PMT", 0x02)}  # as ffmpeg numbers them
COUNTS = ("taken", "repeated", "broken", "refused40", "refused41", "refused42", "refused43")
DSMCC = (0x3B, 0x3C)  # tables whose sections tshark tells the number and length of

faults = []


def held(what, told, wanted):
    """Both must be the same."""
    if told != wanted:
        faults.append("%s: %s, not %s" % (what, str(told)[:300], str(wanted)[:300]))


def say(text, *values):
    print("transport.py: " + text % values, flush=True)


# ---- the programs


def ran(command, pid, data):
    done = subprocess.run([*command, str(pid)], input=data, stdout=subprocess.PIPE, stderr=subprocess.PIPE, cwd=ROOT)
    if done.returncode != 0:
        sys.exit("transport.py: %s %d ended with %d: %s" % (" ".join(command), pid, done.returncode, done.stderr.decode()[-300:]))
    return done.stdout, done.stderr.decode()


def sections_of(command, pid, stream):
    """The sections, and what became of the packets."""
    out, told = ran(command, pid, stream)
    words = told.strip().split("\n")[-1].split(",")
    held("names of the counts of PID %d" % pid, tuple(words[::2]), COUNTS)
    return cut(out), dict(zip(words[::2], map(int, words[1::2])))


def cut(sections):
    """One by one, by their lengths; a rest that is no whole section is one too."""
    parts = []
    while sections:
        length = 3 + int.from_bytes(sections[1:3], "big") % 4096
        parts.append(sections[:length])
        sections = sections[length:]
    return parts


def packets_of(stream):
    return [stream[at : at + PACKET] for at in range(0, len(stream), PACKET)]


def pid_of(packet):
    return int.from_bytes(packet[1:3], "big") % 8192


# ---- what others read


def tshark(path):
    """The fields of each packet."""
    fields = [word for field in FIELDS for word in ("-e", field)]
    asked = ["tshark", "-r", path, "-T", "fields", "-o", "mpeg_sect.verify_crc:TRUE", "-E", "occurrence=a", *fields]
    done = subprocess.run(asked, stdout=subprocess.PIPE, stderr=subprocess.DEVNULL, check=True, text=True)
    for line in done.stdout.split("\n")[:-1]:
        yield {field: [int(value, 0) for value in told.split(",") if value] for field, told in zip(FIELDS, line.split("\t"))}


def tsreport(path):
    told = subprocess.run(["tsreport", path], stdout=subprocess.PIPE, check=True, text=True).stdout
    return int(re.search(r"Read (\d+) TS packets", told)[1])


def tsinfo(path):
    """All that it says but for the file's name and where it found it."""
    told = subprocess.run(["tsinfo", path], stdout=subprocess.PIPE, text=True).stdout
    return sorted({line for line in told.split("\n") if line.strip() and not re.search(r"Reading from|[Pp]acket", line)})


def ffprobe(path):
    """The streams, with their frames counted; and what it complains of."""
    asked = ["-show_entries", "program=program_id,pmt_pid:program_tags=service_name:stream=id,codec_name,nb_read_frames", "-count_frames", "-of", "compact"]
    done = subprocess.run(["ffprobe", "-loglevel", "warning", *asked, path], stdout=subprocess.PIPE, stderr=subprocess.PIPE, text=True)
    return sorted(set(done.stdout.split("\n"))), re.sub(r"0x[0-9a-f]{6,}", "", done.stderr)


# ---- written


def samples(folder):
    yield "examples/whole.sections", (ROOT / "examples" / "whole.sections").read_bytes()
    rotation = player.of_sizes("the largest sections", "", player.LARGEST, [100_000, 1, 3_999], b"")
    player.laid_out(folder, rotation.files)
    yield "a rotation of large sections", player.printed(rotation.arguments, folder)[0]


def check_written(there, commands, folder):
    for name, data in samples(folder):
        for pid in (0x20, 0x123, 0x1FFD):  # 0x1FFE is another matter to tshark, and 0x1FFF stuffing
            stream, _ = ran(commands.packets, pid, data)
            path = Path(folder) / "written.ts"
            path.write_bytes(stream)
            sections = cut(data)
            counts = [(len(s) + 1 + 183) // 184 for s in sections]
            held("%s: bytes written" % name, len(stream), PACKET * sum(counts))
            back, became = sections_of(commands.sections, pid, stream)
            held("%s: given back" % name, back == sections, True)
            held("%s: counts" % name, became, {**dict.fromkeys(COUNTS, 0), "taken": sum(counts)})
            if "tsreport" in there:
                held("%s: packets by tsreport" % name, tsreport(path), sum(counts))
            if "tshark" in there:
                check_headers(name, pid, sections, counts, list(tshark(path)))
        say("written: %s, %d sections in %d packets, by %s", name, len(sections), sum(counts), ", ".join(sorted({"tshark", "tsreport"} & there)) or "nobody else")


def check_headers(name, pid, sections, counts, told):
    """Each packet's header; and each section of the carousel, which tshark tells at its last packet."""
    held("%s: packets by tshark" % name, len(told), sum(counts))
    starts = [int(k == 0) for count in counts for k in range(count)]
    ends = [s if k == count - 1 and s[0] in DSMCC else None for s, count in zip(sections, counts) for k in range(count)]
    for place, (fields, start, section) in enumerate(zip(told, starts, ends)):
        wanted = dict(zip(HEADER, ([pid], [place % 16], [start], [0], [0], [1], [])))
        if section is not None:
            wanted |= {"mpeg_sect.table_id": [section[0]], "mpeg_sect.section_length": [len(section) - 3]}
        held("%s: packet %d by tshark" % (name, place), {field: fields[field] for field in wanted}, wanted)


# ---- muxed


def muxed(path):
    made = ["ffmpeg", "-v", "error", "-f", "lavfi", "-i", "testsrc", "-f", "lavfi", "-i", "sine", "-t", "2", "-f", "mpegts", "-y", path]
    subprocess.run(made, check=True, stdin=subprocess.DEVNULL)
    return path.read_bytes()


def check_muxed(there, commands, path):
    """The tables of a stream that ffmpeg made; gives their sections."""
    stream = muxed(path)
    pids = collections.Counter(map(pid_of, packets_of(stream)))
    by_tshark = collections.Counter()
    if "tshark" in there:
        for fields in tshark(path):
            right = [status == CRC_RIGHT for status in fields["mpeg_sect.crc.status"]]
            by_tshark.update((fields["mp2t.pid"][0], *told) for told in zip(fields["mpeg_sect.tid"], fields["mpeg_sect.len"], right))
    found = {}
    for pid, (name, table) in TABLES.items():
        sections, became = sections_of(commands.sections, pid, stream)
        found[pid] = sections
        wanted = {**dict.fromkeys(COUNTS, 0), "taken": pids[pid], "refused42": sum(pids.values()) - pids[pid]}
        held("%s: counts" % name, became, wanted)
        held("%s: table numbers" % name, {s[0] for s in sections}, {table})
        held("%s: CRCs that are right" % name, sum(crc(s) == 0 for s in sections), len(sections))
        held("%s: lengths" % name, {len(s) - 3 - int.from_bytes(s[1:3], "big") % 4096 for s in sections}, {0})
        if "tshark" in there:
            told = collections.Counter({key: n for key, n in by_tshark.items() if key[0] == pid})
            held("%s: sections by tshark" % name, told, collections.Counter((pid, s[0], len(s) - 3, True) for s in sections))
        say("muxed: %s, %d packets of %d, %d sections of table 0x%02X", name, pids[pid], sum(pids.values()), len(sections), table)
    return stream, found


def exchanged(commands, stream, found):
    """The stream with other packets for its tables: each section in those of `packets`, where the old ones were."""
    others = {pid: iter(packets_of(ran(commands.packets, pid, b"".join(sections))[0])) for pid, sections in found.items()}
    old = packets_of(stream)
    new = [next(others[pid_of(p)], b"") if pid_of(p) in others else p for p in old]
    held("packets that are left over", {pid: len(list(rest)) for pid, rest in others.items()}, dict.fromkeys(found, 0))
    replaced = [(p, q) for p, q in zip(old, new) if pid_of(p) in others]
    say("exchanged: %d packets, of which %d are ffmpeg's byte for byte", len(replaced), sum(p == q for p, q in replaced))
    return b"".join(new)


def check_exchanged(there, commands, stream, found, before, after):
    after.write_bytes(exchanged(commands, stream, found))
    if "ffprobe" in there:
        held("ffprobe", ffprobe(after), ffprobe(before))
    if "tsinfo" in there:
        held("tsinfo", tsinfo(after), tsinfo(before))
    say("exchanged: read as before by %s", ", ".join(sorted({"ffprobe", "tsinfo"} & there)) or "nobody")


# ---- libdvbpsi


def measure_dvbpsi(commands, folder):
    """64 MiB of packets, each section with a right CRC, since libdvbpsi looks at that too and at nothing else."""
    made = subprocess.run(["gcc", "-O2", "-Wall", ROOT / "tools" / "dvbpsi.c", "-ldvbpsi", "-o", Path(folder) / "dvbpsi"])
    if made.returncode != 0:
        return say("dvbpsi: not compiled; is libdvbpsi-dev there?")
    sections = []
    for k in range(16):
        body = bytes([0x3C, 0xBF, 0xFD, 0, k, 0xC1, 0, 0]) + bytes((7 * j + k + j // 251) % 256 for j in range(4084))
        sections.append(body + crc(body).to_bytes(4, "big"))
    # A multiple of 16 packets, so that the counters go on where the stream is put behind itself.
    once, _ = ran(commands.packets, 0x123, b"".join(sections * 16))
    path = Path(folder) / "large.ts"
    path.write_bytes(once * ((64 << 20) // len(once) + 1))
    subprocess.run([Path(folder) / "dvbpsi", path], check=True)


def main():
    parser = argparse.ArgumentParser(description="Transport packets beside what others make of them.")
    parser.add_argument("--sections", default="./run sections", type=shlex.split)
    parser.add_argument("--packets", default="./run packets", type=shlex.split)
    parser.add_argument("--dvbpsi", action="store_true")
    commands = parser.parse_args()
    tools = ("tshark", "ffmpeg", "ffprobe", "tsreport", "tsinfo")
    there = {tool for tool in tools if shutil.which(tool)}
    say("there: %s; not there: %s", ", ".join(sorted(there)) or "none", ", ".join(t for t in tools if t not in there) or "none")
    with tempfile.TemporaryDirectory() as folder:
        check_written(there, commands, folder)
        if "ffmpeg" in there:
            before, after = Path(folder) / "muxed.ts", Path(folder) / "exchanged.ts"
            stream, found = check_muxed(there, commands, before)
            check_exchanged(there, commands, stream, found, before, after)
        if commands.dvbpsi:
            measure_dvbpsi(commands, folder)
    print("\n".join(faults[:40]), end="\n" if faults else "")
    say("%d faults", len(faults))
    sys.exit(bool(faults))


if __name__ == "__main__":
    main()
