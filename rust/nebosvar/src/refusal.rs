//! The numbers that a call may refuse with, and where a section broke.

use crate::ffi::NOWHERE;
use crate::proved::excluded;
use std::error::Error;
use std::fmt;

/// Why a call refused: a number from 1 to 20 of the paper's table, 21 of the [`player`](crate::player), from 30 to
/// 37 of a drift list, or 25 and 40 to 43 of [`transport`](crate::transport) packets. Of several that apply it is the lowest, but for the table's one exception (a message's 8 goes
/// before most cases of 7) and for drift lists, whose order is told in [`drift`](crate::drift).
///
/// ```
/// use nebosvar::{Record, Refusal};
///
/// let refusal = Record::new().missing(7).unwrap_err();
/// assert_eq!(refusal, Refusal::NO_MODULE);
/// assert_eq!(refusal.number(), 13);
/// assert_eq!(refusal.to_string(), "refusal 13: module not announced");
/// ```
///
/// Refusals 2 to 6 say besides where the section broke. They are functions of that [`place`](Refusal::place) here,
/// and equal only where it is:
///
/// ```
/// use nebosvar::{table, Refusal};
///
/// let section = [0x74, 0xB0, 13, 0, 1, 0xC1, 0, 0, 0xF0, 0, 0xF0, 0, 0, 0, 0, 0]; // and 0 is not its CRC
/// let refusal = table(&section).unwrap_err();
/// assert_eq!(refusal, Refusal::bad_crc(12));
/// assert_ne!(refusal, Refusal::bad_crc(13));
/// assert_eq!((refusal.number(), refusal.place()), (5, Some(12)));
/// assert_eq!(refusal.to_string(), "refusal 5 at byte 12: CRC");
///
/// assert_eq!(table(&section[..2]), Err(Refusal::bad_size(2)));
/// ```
///
/// A refusal that has a place is never told without it:
///
/// ```compile_fail
/// assert_ne!(nebosvar::table(&[]), Err(nebosvar::Refusal::BAD_SIZE));
/// ```
#[derive(Clone, Copy, PartialEq, Eq, Debug)]
pub struct Refusal {
    number: u8,
    /// For 2 to 6, and no other.
    place: Option<usize>,
}

impl Refusal {
    /// 1: the record breaks its rule, or the state of [`transport`](crate::transport) packets is none that they can have left.
    pub const BAD_RECORD: Refusal = Refusal::plain(1);

    /// 2: under 3 bytes, or not 3 + L. The place is the length that was lent: one past the last byte, so it is none
    /// to index with.
    pub const fn bad_size(place: usize) -> Refusal {
        Refusal::at(2, place)
    }

    /// 3: wrong table number, at byte 0.
    pub const fn bad_table(place: usize) -> Refusal {
        Refusal::at(3, place)
    }

    /// 4: L out of its limits, syntax indicator 0, or section number above last. It is at byte 1, but at byte 6 where
    /// only the section numbers are wrong.
    pub const fn bad_header(place: usize) -> Refusal {
        Refusal::at(4, place)
    }

    /// 5: CRC, at its first byte.
    pub const fn bad_crc(place: usize) -> Refusal {
        Refusal::at(5, place)
    }

    /// 6: current_next 0, at byte 5.
    pub const fn not_current(place: usize) -> Refusal {
        Refusal::at(6, place)
    }

    /// 7: a length or fixed field inside does not fit, bytes are left over, or known contents malformed.
    pub const MALFORMED: Refusal = Refusal::plain(7);
    /// 8: first two message bytes, or message number.
    pub const BAD_MESSAGE: Refusal = Refusal::plain(8);
    /// 9: a block whose extension is not its module's number, whose section number is not its own, or whose section version is
    /// not that of its message (mod 32).
    pub const BAD_BLOCK_HEADER: Refusal = Refusal::plain(9);
    /// 10: an announcement beyond the limits.
    pub const BEYOND_LIMITS: Refusal = Refusal::plain(10);
    /// 11: an announcement with a module number twice.
    pub const MODULE_TWICE: Refusal = Refusal::plain(11);
    /// 12: a block without an announcement, or of another download.
    pub const NOT_ANNOUNCED: Refusal = Refusal::plain(12);
    /// 13: module not announced.
    pub const NO_MODULE: Refusal = Refusal::plain(13);
    /// 14: version differs.
    pub const OTHER_VERSION: Refusal = Refusal::plain(14);
    /// 15: image shorter than the record's sizes together.
    pub const SHORT_IMAGE: Refusal = Refusal::plain(15);
    /// 16: block number or block length wrong.
    pub const BAD_BLOCK: Refusal = Refusal::plain(16);
    /// 17: the block has come before, with other bytes.
    pub const BYTES_DIFFER: Refusal = Refusal::plain(17);
    /// 18: an application without exactly one 0x00 descriptor.
    pub const NO_APPLICATION_DESCRIPTOR: Refusal = Refusal::plain(18);
    /// 19: no such place.
    pub const NO_PLACE: Refusal = Refusal::plain(19);
    /// 20: module not complete.
    pub const INCOMPLETE: Refusal = Refusal::plain(20);
    /// 21: bytes to write to that are too few for the section, or for what packets may need.
    pub const SHORT_BUFFER: Refusal = Refusal::plain(21);
    /// 25: a PID above 0x1FFF, or a counter above 15.
    pub const OUT_OF_RANGE: Refusal = Refusal::plain(25);
    /// 30: a drift list under 4 bytes, or not of 4 + 12 × count.
    pub const LIST_LENGTH: Refusal = Refusal::plain(30);
    /// 31: a longitude or latitude out of its range.
    pub const LIST_COORDINATE: Refusal = Refusal::plain(31);
    /// 32: a minute of the week that is not below 10,080.
    pub const LIST_MINUTE: Refusal = Refusal::plain(32);
    /// 33: a buoy zero, or not above the one before.
    pub const LIST_BUOY: Refusal = Refusal::plain(33);
    /// 34: spare bits that are not zero.
    pub const LIST_SPARE: Refusal = Refusal::plain(34);
    /// 35: state 3, or a state against its coordinates.
    pub const LIST_STATE: Refusal = Refusal::plain(35);
    /// 36: a value too wide for its field, or a count that is not the number of records.
    pub const LIST_WIDTH: Refusal = Refusal::plain(36);
    /// 37: bytes to write to that are too few for the list.
    pub const LIST_ROOM: Refusal = Refusal::plain(37);
    /// 40: a packet that has not 188 bytes.
    pub const PACKET_LENGTH: Refusal = Refusal::plain(40);
    /// 41: a packet that does not begin with the sync byte.
    pub const PACKET_SYNC: Refusal = Refusal::plain(41);
    /// 42: a packet of another PID.
    pub const PACKET_PID: Refusal = Refusal::plain(42);
    /// 43: a packet with a transport error, scrambled, with adaptation control 00, or with a field that runs past it.
    pub const PACKET_FIELD: Refusal = Refusal::plain(43);

    const fn plain(number: u8) -> Refusal {
        Refusal {
            number,
            place: None,
        }
    }

    const fn at(number: u8, place: usize) -> Refusal {
        Refusal {
            number,
            place: Some(place),
        }
    }

    /// The number, which is the paper's or a request's.
    pub const fn number(self) -> u8 {
        self.number
    }

    /// Where the section broke: a byte, counted from the section's own first as 0, wherever it stands in a stretch.
    /// Refusals 2 to 6 have it, and no other. That of a 2 is the length that was lent, so no byte stands there.
    pub const fn place(self) -> Option<usize> {
        self.place
    }

    /// The archive's number, 0 for no refusal, and its place. A call that is lent no section gives none. One of 2 to 6
    /// without a place, or another with one, is excluded.
    pub(crate) fn check(number: u8, place: usize) -> Result<(), Refusal> {
        match (number, place) {
            (0, NOWHERE) => Ok(()),
            (1 | 7..=21 | 25 | 30..=37 | 40..=43, NOWHERE) => Err(Refusal::plain(number)),
            (_, NOWHERE) => excluded(),
            (2..=6, _) => Err(Refusal::at(number, place)),
            _ => excluded(),
        }
    }
}

impl fmt::Display for Refusal {
    fn fmt(&self, f: &mut fmt::Formatter<'_>) -> fmt::Result {
        let words = match self.number {
            1 => "record breaks its rule",
            2 => "under 3 bytes, or not 3 + L",
            3 => "wrong table number",
            4 => "L under 9, or over 1,021 (AIT) or 4,093; syntax indicator 0; section number above last",
            5 => "CRC",
            6 => "current_next 0",
            7 => "a length or fixed field inside does not fit, bytes are left over, or known contents malformed",
            8 => "first two message bytes or message number not as in the paper",
            9 => "DDB: extension is not the module number, or section number is not block number mod 256; section version isn't the module version mod 32",
            10 => "DII: blockSize 0 or over 4,066; 0 or over 32 modules; a size 0 or over 1,024 × blockSize; sizes over 262,144 together",
            11 => "DII: module number twice",
            12 => "DDB: no announcement, or downloadId differs",
            13 => "module not announced",
            14 => "version differs",
            15 => "image shorter than the record's sizes together",
            16 => "block number or block length wrong",
            17 => "block marked, bytes differ",
            18 => "an application without exactly one 0x00 descriptor",
            19 => "no such place",
            20 => "module not complete",
            21 => "a short buffer",
            25 => "PID above 0x1FFF, or counter above 15",
            30 => "length",
            31 => "coordinate range",
            32 => "minute",
            33 => "buoy zero or not rising",
            34 => "spare",
            35 => "state 3, or state against coordinates",
            36 => "a value too wide for its field, or a count that isn't the number of records",
            37 => "a short buffer",
            40 => "not 188 bytes",
            41 => "sync",
            42 => "other PID",
            43 => "transport error, scrambled, adaptation control 00, or a field that runs past the packet",
            _ => excluded(),
        };
        write!(f, "refusal {}", self.number)?;
        if let Some(place) = self.place {
            write!(f, " at byte {place}")?;
        }
        write!(f, ": {words}")
    }
}

impl Error for Refusal {}
