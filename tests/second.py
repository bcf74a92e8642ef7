"""What the second programs share: the CRC by a table, the common section check with the place of a refusal, a reader of fields, and framed
stretches. Written from the paper (01) and 02, §9, not from the Rattle code."""
import sys
from pathlib import Path

ROOT = Path(__file__).resolve().parent.parent
GENERATOR = 0x1_04C1_1DB7  # with its leading term, x^32


def remainder(value, bits):
    """value as a polynomial of that many bits, divided by the generator: what is left."""
    for k in range(bits - 1, 31, -1):
        if value >> k & 1:
            value ^= GENERATOR << (k - 32)
    return value


TABLE = [remainder(k << 32, 40) for k in range(256)]


def crc(data):
    register = 0xFFFF_FFFF
    for byte in data:
        register = (register << 8 & 0xFFFF_FFFF) ^ TABLE[register >> 24 ^ byte]
    return register


# The two rules: the tables that a call takes, and the most that L may be.
APPLICATION = {0x74}, 1021
CAROUSEL = {0x3B, 0x3C}, 4093


def refusal(s, tables, limit):
    """The lowest number of the paper's table that applies, 2 to 6; 0 where none does."""
    applies = set()
    length = (s[1] % 16) * 256 + s[2] if len(s) >= 3 else None
    if length is None or len(s) != 3 + length:
        return 2
    at = lambda i: s[i] if i < len(s) else 0
    if s[0] not in tables:
        applies.add(3)
    if length < 9 or length > limit or s[1] < 128 or at(6) > at(7):
        applies.add(4)
    if crc(s) != 0:
        applies.add(5)
    if at(5) % 2 == 0:
        applies.add(6)
    return min(applies, default=0)


def numbers_alone(s, tables, limit):
    """Of a section that 4 refuses: only its section numbers are wrong. So with the numbers made right, 4 is gone."""
    return len(s) > 7 and refusal(s[:6] + bytes(2) + s[8:], tables, limit) != 4


def place_of(s, tables, limit):
    """Where it broke (02, §9): a byte of the section, its first being 0. None where there is no refusal of 2 to 6."""
    number = refusal(s, tables, limit)
    if number == 2:
        return len(s)
    if number == 4:
        return 6 if numbers_alone(s, tables, limit) else 1
    return {3: 0, 5: len(s) - 4, 6: 5}.get(number)


def with_place(number, place):
    """As the test programs print it: 5@12, and the number alone where there is no place."""
    return "%d" % number if place is None else "%d@%d" % (number, place)


class Malformed(Exception):
    pass


class Reader:
    def __init__(self, data):
        self.data, self.at = data, 0

    def left(self):
        return len(self.data) - self.at

    def take(self, n):
        if self.left() < n:
            raise Malformed
        self.at += n
        return self.data[self.at - n : self.at]

    def number(self, n):
        return int.from_bytes(self.take(n), "big")

    def length12(self):
        return self.number(2) % 4096

    def rest(self):
        return self.take(self.left())


def with_crc(s):
    return s + crc(s).to_bytes(4, "big")


def framed(stretches):
    return b"".join(len(s).to_bytes(2, "big") + s for s in stretches)


def settle(crate, given, wanted):
    """Compare what was made with the crate's stored files, or write them."""
    assert len(given) <= 65_536, len(given)
    for name, made in (("stdin", given), ("stdout", wanted)):
        path = ROOT / "crates" / crate / name
        if "--write" in sys.argv:
            path.write_bytes(made)
        elif path.read_bytes() != made:
            sys.exit("%s is not what tests/%s makes: run it with --write and look at the change" % (path, Path(sys.argv[0]).name))
