#!/usr/bin/env python3
"""python3 tools/tshark.py: what tshark reads in rotations of the player, field by field beside what was meant. Not in the gate: tshark is Debian's
package of that name, and no part of this repository needs it.

The rotations are target/bin/player's where that is built, else of tests/player.py; the first line says whose. Each section is put into transport packets
of its own, which is a file that tshark takes for MPEG2-TS; it tells its fields as PDML. What was meant is worked out from the arguments and files, not
from the sections. It ends with 1 where a field is another than was meant, or was not told; it says which fields were told and are not held to anything,
and what tshark complains of.
"""
import collections
import subprocess
import sys
import tempfile
import xml.etree.ElementTree as xml
from pathlib import Path

ROOT = Path(__file__).resolve().parent.parent
sys.path.insert(0, str(ROOT / "tests"))

import player
from second import crc

PROGRAM = ROOT / "target" / "bin" / "player"
PID = 0x123
PACKET, HEAD = 188, 4
READ = ["tshark", "-o", "mpeg_dsmcc.verify_crc:TRUE", "-o", "mpeg_sect.verify_crc:TRUE", "-T", "pdml", "-r"]

# ---- what is played


def rotations():
    """The sample, the largest sections, the most modules, the most blocks, and versions and numbers of every bit."""
    yield player.SAMPLE
    yield player.of_sizes("the largest sections", "", player.LARGEST, [player.TOGETHER], b"")
    yield player.of_sizes("32 modules", "", 100, [150, 100, 99, 101] * 8, b"")
    yield player.of_sizes("1,024 blocks", "", 3, [3 * player.BLOCKS - 1], b"")
    for bit in range(0, 32, 3):
        number, other = 1 << bit, 2**32 - 1 - (1 << bit)
        modules = [(number >> 8 & 0xFFFF, bit * 8 % 256, b"a"), (other & 0xFFFF, 255 - bit, b"b")]
        yield player.Input("bit %d" % bit, "", player.given(number, 4, other, *modules), player.SMALL, b"")


def played(i, folder):
    """The rotation, by the program if there is one."""
    if not PROGRAM.exists():
        return player.printed(i.arguments, folder)[0]
    return subprocess.run([*player.built(), *i.arguments], cwd=folder, stdout=subprocess.PIPE, check=True).stdout


def cut(rotation):
    """Its sections, by their lengths."""
    sections = []
    while rotation:
        length = 3 + int.from_bytes(rotation[1:3], "big") % 4096
        sections.append(rotation[:length])
        rotation = rotation[length:]
    return sections


def packets(sections):
    """Each section begins a packet, with a pointer field of 0; what is left of its last one is stuffing."""
    counter, out = 0, b""
    for s in sections:
        room, payload = PACKET - HEAD, b"\0" + s
        for at in range(0, len(payload), room):
            start = 0x40 if at == 0 else 0
            out += bytes([0x47, start | PID >> 8, PID & 255, 0x10 | counter]) + payload[at : at + room].ljust(room, b"\xff")
            counter = (counter + 1) % 16
    return out


# ---- what was meant: each field by tshark's name of it, with all its values in a section


def header(table, length, extension, version, number, last):
    dsmcc = {"private_indicator": 0, "table_id_extension": extension, "reserved2": 3, "version_number": version}
    dsmcc |= {"current_next_indicator": 1, "section_number": number, "last_section_number": last}
    fields = {"mpeg_sect.table_id": table, "mpeg_sect.ssi": 1, "mpeg_sect.reserved": 3, "mpeg_sect.section_length": length}
    return fields | {"mpeg_dsmcc." + name: value for name, value in dsmcc.items()}


def message(number, length):
    fields = {"protocol": 0x11, "type": 3, "message_id": number, "header_reserved": 0xFF, "adaptation_length": 0, "message_length": length}
    return {"mpeg_dsmcc." + name: value for name, value in fields.items()}


def announcement(a, identifier):
    content = 22 + 8 * len(a.modules)
    fields = header(0x3B, 21 + content, identifier % 2**16, 0, 0, 0) | message(0x1002, content)
    parts = {"transaction_id": identifier, "transaction_id_originator": identifier >> 30, "transaction_id_number": identifier % 2**30}
    # tshark takes the message's number apart as that of a user-network message
    parts |= {"message_discriminator": 0, "message_scenario": 0x100, "message_type": 2}
    told = {"download_id": a.download, "block_size": a.size, "window_size": 0, "ack_period": 0, "private_data_length": 0}
    told |= {"carousel_download_window": 0, "carousel_download_scenario": 0, "compat_desc_len": 0, "module_count": len(a.modules)}
    fields |= {"mpeg_dsmcc." + name: value for name, value in parts.items()} | {"mpeg_dsmcc.dii." + name: value for name, value in told.items()}
    each = {"module_id": [m.number for m in a.modules], "module_size": [m.size for m in a.modules]}
    each |= {"module_version": [m.version for m in a.modules], "module_info_length": [0 for m in a.modules]}
    return fields | {"mpeg_dsmcc.dii." + name: values for name, values in each.items()}


def block(a, m, data, b, last):
    fields = header(0x3C, 27 + len(data), m.number, m.version % 32, b % 256, min(255, last)) | message(0x1003, 6 + len(data))
    told = {"module_id": m.number, "version": m.version, "reserved": 0xFF, "block_num": b}
    fields |= {"mpeg_dsmcc.download_id": a.download, "data.data": data.hex(":"), "data.len": len(data)}
    return fields | {"mpeg_dsmcc.ddb." + name: value for name, value in told.items()}


def meant(i):
    """Of each section in turn."""
    download, size, identifier, modules = player.understood(i.arguments)
    a = player.Announced(download, size, [player.Module(n, len(i.files[name]), v) for n, v, name in modules])
    yield announcement(a, identifier)
    for m, (_, _, name) in zip(a.modules, modules):
        parts = range(0, m.size, size)
        for b, at in enumerate(parts):
            yield block(a, m, i.files[name][at : at + size], b, len(parts) - 1)


# ---- what tshark tells


def fields_of(packet):
    """All fields of the section that ends in this packet; none where none does."""
    if not any(proto.get("name") == "mpeg_dsmcc" for proto in packet):
        return None
    told = collections.defaultdict(list)
    for field in packet.iter("field"):
        if field.get("name", "").startswith(("mpeg_", "data.", "_ws.")):
            told[field.get("name")].append(field)
    return told


def tshark(sections, folder):
    """What it tells of each section."""
    path = Path(folder) / "rotation.ts"
    path.write_bytes(packets(sections))
    done = subprocess.run([*READ, path], stdout=subprocess.PIPE, stderr=subprocess.PIPE, check=True)
    told = (fields_of(packet) for packet in xml.fromstring(done.stdout).iter("packet"))
    return [fields for fields in told if fields is not None]


def value_of(field):
    """Bytes as they are shown, all else a number."""
    return field.get("show") if field.get("name") == "data.data" else int(field.get("show"), 0)


def is_right(fields):
    """Whether the CRC was found to be right."""
    return [f.get("showname", "").endswith("[Verified]") for f in fields["mpeg_sect.crc"]] == [True]


class Held:
    """What was held to what, over all rotations."""

    def __init__(self):
        self.sections, self.verified, self.faults = 0, 0, []
        self.kinds, self.besides, self.complaints = collections.Counter(), collections.Counter(), collections.Counter()

    def hold(self, name, place, s, fields, wanted):
        self.sections += 1
        wanted = {key: value if isinstance(value, list) else [value] for key, value in wanted.items()}
        wanted["mpeg_sect.crc"] = [crc(s[:-4])]
        for key, values in wanted.items():
            told = [value_of(f) for f in fields.get(key, [])]
            self.kinds[key] += len(told)
            if told != values:
                self.faults.append("%s, section %d: %s is %s, not %s" % (name, place, key, told or "not told", values))
        self.verified += is_right(fields)
        if not is_right(fields):
            self.faults.append("%s, section %d: the CRC is not verified" % (name, place))
        for key in fields.keys() - wanted.keys():
            (self.complaints if key.startswith("_ws.") else self.besides)[key] += len(fields[key])


def check_spoilt(sections, folder):
    """A bit turned in a block's section, and tshark finds the CRC wrong: so it means something that it verifies those of the rotation."""
    s = next(s for s in sections if s[0] == 0x3C)
    spoilt = [s[:k] + bytes([s[k] ^ 1]) + s[k + 1 :] for k in (4, 5, 6, 7, 12, 16, len(s) - 5, len(s) - 1)]
    told = tshark(spoilt, folder)
    return len(told) == len(spoilt) and not any(is_right(fields) for fields in told)


def main():
    version = subprocess.run(["tshark", "--version"], stdout=subprocess.PIPE, stderr=subprocess.DEVNULL, text=True, check=True).stdout.split("\n")[0]
    by = "target/bin/player" if PROGRAM.exists() else "tests/player.py, as target/bin/player is not built"
    print("tshark.py: %s; rotations by %s" % (version, by))
    held, count = Held(), 0
    for i in rotations():
        with tempfile.TemporaryDirectory() as folder:
            player.laid_out(folder, i.files)
            sections = cut(played(i, folder))
            told, wanted = tshark(sections, folder), list(meant(i))
            spoilt_found = check_spoilt(sections, folder)
        count += 1
        if not len(sections) == len(told) == len(wanted):
            held.faults.append("%s: %d sections, %d of them told, %d meant" % (i.name, len(sections), len(told), len(wanted)))
        if not spoilt_found:
            held.faults.append("%s: a turned bit is not told" % i.name)
        for place, (s, fields, fields_meant) in enumerate(zip(sections, told, wanted)):
            held.hold(i.name, place, s, fields, fields_meant)
    print("\n".join(held.faults[:40]), end="\n" if held.faults else "")
    print("tshark.py: held, and how often: %s" % ", ".join("%s %d" % pair for pair in sorted(held.kinds.items())))
    print("tshark.py: told and not held: %s" % (", ".join(sorted(held.besides)) or "nothing"))
    print("tshark.py: complaints: %s" % (", ".join("%s %d" % pair for pair in held.complaints.items()) or "none"))
    told = held.sections, sum(held.kinds.values()), held.verified, len(held.faults)
    print("tshark.py: %d rotations, %d sections, %d fields held, %d CRCs verified, %d faults" % (count, *told))
    sys.exit(bool(held.faults))


if __name__ == "__main__":
    main()
