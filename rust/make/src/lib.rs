//! Makes the bytes of sections by the paper's "The section", "The messages" and "The application section". Lengths and the CRC are
//! told right; what is to be wrong is put wrong before, in a field, or afterwards, in the bytes.
//!
//! Nothing here is of a receiver: the CRC is its own, a bit at a time.

pub mod drift;
mod messages;
mod tables;

pub use messages::{announcement, block, message, Announcement, Block, Module};
pub use tables::{application, described, descriptor, table, table_body, with_length};

/// The application section (AIT).
pub const APPLICATIONS: u8 = 0x74;
/// The section of an announcement (DII).
pub const ANNOUNCEMENT: u8 = 0x3B;
/// The section of a block (DDB).
pub const BLOCK: u8 = 0x3C;
/// The bytes of the CRC.
pub const CRC: usize = 4;
/// Bytes before those that L counts.
pub const BEFORE_LENGTH: usize = 3;
/// What L counts besides the body: header bytes 3 to 7, and the CRC.
pub const AROUND_BODY: usize = 9;
/// The largest L that its 12 bits can tell.
pub const MOST_TOLD: usize = 0xFFF;
/// The CRC's generator, without its leading term.
const GENERATOR: u32 = 0x04C1_1DB7;

/// The CRC register after these bytes.
pub fn crc(bytes: &[u8]) -> u32 {
    bytes.iter().fold(u32::MAX, |register, byte| {
        (0..8).rev().fold(register, |register, bit| {
            let out = register >> 31 ^ u32::from(byte >> bit & 1);
            (register << 1) ^ (out * GENERATOR)
        })
    })
}

/// The bytes with their CRC behind them.
pub fn closed(mut bytes: Vec<u8>) -> Vec<u8> {
    bytes.extend(crc(&bytes).to_be_bytes());
    bytes
}

/// Puts the right CRC into the last four bytes, if there are so many behind L.
pub fn mend(section: &mut [u8]) {
    match section.split_last_chunk_mut::<CRC>() {
        Some((bytes, last)) if bytes.len() >= BEFORE_LENGTH => {
            *last = crc(bytes).to_be_bytes();
        }
        _ => {}
    }
}

/// The section with the right CRC in its last four bytes.
pub fn mended(mut section: Vec<u8>) -> Vec<u8> {
    mend(&mut section);
    section
}

/// The section with one byte changed and its CRC made right again.
pub fn with(section: &[u8], at: usize, byte: u8) -> Vec<u8> {
    let mut changed = section.to_vec();
    changed[at] = byte;
    mended(changed)
}

/// A section before it is bytes.
#[derive(Clone)]
pub struct Section {
    pub table: u8,
    /// The four bits before L, in the upper half: syntax indicator, one unread, two reserved.
    pub flags: u8,
    pub extension: u16,
    /// The two bits before the version, in the upper ones of the byte.
    pub reserved: u8,
    pub version: u8,
    pub current: u8,
    pub number: u8,
    pub last: u8,
    pub body: Vec<u8>,
}

impl Section {
    /// A current section of version 0 with its syntax indicator set, the last of its number.
    pub fn new(table: u8, extension: u16, number: u8, body: Vec<u8>) -> Section {
        Section {
            table,
            flags: 0xB0,
            extension,
            reserved: 0xC0,
            version: 0,
            current: 1,
            number,
            last: number,
            body,
        }
    }

    /// Its bytes. A body that L can not tell is a fault of the maker.
    pub fn bytes(&self) -> Vec<u8> {
        let length = self.body.len() + AROUND_BODY;
        assert!(length <= MOST_TOLD, "a body of {}", self.body.len());
        let [high, low] = (length as u16).to_be_bytes();
        let mut bytes = vec![self.table, self.flags | high, low];
        bytes.extend(self.extension.to_be_bytes());
        bytes.push(self.reserved | self.version << 1 | self.current);
        bytes.extend([self.number, self.last]);
        bytes.extend(&self.body);
        closed(bytes)
    }
}

/// The bytes of a current section of version 0.
pub fn section(table: u8, extension: u16, number: u8, body: &[u8]) -> Vec<u8> {
    Section::new(table, extension, number, body.to_vec()).bytes()
}

#[cfg(test)]
mod tests {
    use super::*;

    #[test]
    fn a_made_section_leaves_zero() {
        let section = section(APPLICATIONS, 1, 0, &[1, 2, 3]);
        assert_eq!(crc(&section), 0);
        assert_ne!(crc(&section[1..]), 0);
    }

    #[test]
    fn the_register_of_the_usual_text() {
        // The check value of CRC-32/MPEG-2.
        assert_eq!(crc(b"123456789"), 0x0376_E6E7);
    }

    #[test]
    fn mending_makes_any_section_leave_zero() {
        let mut bytes = vec![0x74, 1, 2, 3, 4, 5, 6, 7];
        mend(&mut bytes);
        assert_eq!(crc(&bytes), 0);
        mend(&mut bytes[..6]);
        assert_eq!(crc(&bytes), 0);
    }

    #[test]
    fn the_header_field_by_field() {
        let mut made = Section::new(0x74, 0x1234, 5, vec![]);
        (made.flags, made.reserved, made.version) = (0xF0, 0x80, 0b10_101);
        (made.current, made.last) = (0, 9);
        assert_eq!(made.bytes()[..8], [0x74, 0xF0, 9, 0x12, 0x34, 0xAA, 5, 9]);
    }
}
