//! The paper's "Numbers a call may answer" and those of the requests, by name, and the refusal of a section, which
//! says where it broke.

/// The refusal of a section. A call that takes none refuses by a bare number.
#[derive(Clone, Copy, PartialEq, Eq, Debug)]
pub struct Refusal {
    /// The paper's number.
    pub number: u8,
    /// Where the section broke, its first byte being 0: for 2 to 6, and for no other number (02, §9).
    pub place: Option<usize>,
}

impl Refusal {
    /// A refusal without a place.
    #[must_use]
    pub const fn plain(number: u8) -> Refusal {
        Refusal {
            number,
            place: None,
        }
    }

    /// A refusal at a place.
    #[must_use]
    pub const fn at(number: u8, place: usize) -> Refusal {
        Refusal {
            number,
            place: Some(place),
        }
    }
}

/// Record breaks its rule.
pub const RECORD: u8 = 1;
/// Under 3 bytes, or not 3 + L.
pub const SIZE: u8 = 2;
/// Wrong table number.
pub const TABLE: u8 = 3;
/// L out of its limits, syntax indicator 0, or section number above last.
pub const HEADER: u8 = 4;
/// CRC.
pub const CRC: u8 = 5;
/// current_next 0.
pub const NOT_CURRENT: u8 = 6;
/// A length or fixed field does not fit, bytes are left over, or known contents are malformed.
pub const MALFORMED: u8 = 7;
/// First two message bytes or message number not as stated.
pub const MESSAGE: u8 = 8;
/// Extension is not the module number, section number is not block number mod 256, or section version is not
/// module version mod 32 (02, §6).
pub const BLOCK_HEADER: u8 = 9;
/// Announcement out of its limits.
pub const LIMITS: u8 = 10;
/// Module number twice.
pub const TWICE: u8 = 11;
/// No announcement, or downloadId differs.
pub const DOWNLOAD: u8 = 12;
/// Module not announced.
pub const UNKNOWN_MODULE: u8 = 13;
/// Version differs.
pub const VERSION: u8 = 14;
/// Image shorter than the sizes together, of a record or of what is to be played.
pub const IMAGE: u8 = 15;
/// Block number or block length wrong.
pub const BLOCK: u8 = 16;
/// Block marked, bytes differ.
pub const DIFFERS: u8 = 17;
/// An application without exactly one 0x00 descriptor.
pub const DESCRIPTION: u8 = 18;
/// No such place.
pub const PLACE: u8 = 19;
/// Module not complete.
pub const INCOMPLETE: u8 = 20;
/// Buffer shorter than the section (02, §13), or than what packets may need (02, §2).
pub const ROOM: u8 = 21;
/// A PID or a counter too wide for its field.
pub const RANGE: u8 = 25;

// The drift list.

/// Under 4 bytes, or not 4 + 12 × count.
pub const LIST_LENGTH: u8 = 30;
/// Longitude or latitude out of its range.
pub const COORDINATE: u8 = 31;
/// Minute of the week not below 10,080.
pub const MINUTE: u8 = 32;
/// Buoy zero, or not above the one before.
pub const BUOY: u8 = 33;
/// Spare bits not zero.
pub const SPARE: u8 = 34;
/// State 3, or a state against its coordinates.
pub const STATE: u8 = 35;
/// A value too wide for its field, or a count that is not the number of records.
pub const WIDTH: u8 = 36;
/// Buffer shorter than the list.
pub const BUFFER: u8 = 37;

// Transport packets.

/// Not 188 bytes.
pub const PACKET: u8 = 40;
/// Sync byte not 0x47.
pub const SYNC: u8 = 41;
/// Other PID.
pub const PID: u8 = 42;
/// Transport error, scrambled, adaptation control 00, or a field that runs past the packet.
pub const FIELD: u8 = 43;
