//! "The section": the frame that all tables share, and refusals 2 to 6, which alone have a place (02, §9).

use crate::checksum::crc;
use crate::refusal::{self, Refusal};

/// An application section (AIT).
pub const APPLICATIONS: u8 = 0x74;
/// A DSM-CC section with an announcement (DII).
pub const ANNOUNCEMENT: u8 = 0x3B;
/// A DSM-CC section with a block (DDB).
pub const BLOCK: u8 = 0x3C;

/// Where the body begins.
pub const BODY: usize = 8;

/// Where the table number stands.
const TABLE: usize = 0;
/// Where the syntax indicator and the upper bits of L stand.
const SYNTAX: usize = 1;
/// Where the version and current_next stand.
const CURRENT: usize = 5;
/// Where the section number stands; the last one follows.
const NUMBER: usize = 6;
/// Bytes before those that L counts.
pub const BEFORE_LENGTH: usize = 3;
/// The least L: header bytes 3 to 7 and the CRC.
const LEAST_LENGTH: usize = 9;
/// The bytes of the CRC.
pub const CRC_BYTES: usize = 4;

/// A section that refusals 2 to 6 do not meet.
pub struct Frame<'a> {
    /// Byte 0.
    pub table: u8,
    /// Bytes 3 and 4.
    pub extension: u16,
    /// Five bits of byte 5.
    pub version: u8,
    /// Byte 6.
    pub number: u8,
    /// Byte 7.
    pub last: u8,
    /// The bytes from 8 to the CRC.
    pub body: &'a [u8],
}

/// How many bytes the section at the beginning of `bytes` says it has, 3 + L; none when L is not all there.
pub fn whole_length(bytes: &[u8]) -> Option<usize> {
    let &[_, high, low] = bytes.first_chunk::<BEFORE_LENGTH>()?;
    Some(BEFORE_LENGTH + usize::from(u16::from_be_bytes([high & 0x0F, low])))
}

/// Takes the frame apart: refusals 2 to 6, in this order, each with its place. `most` is the largest L of these
/// tables.
///
/// 2 is at the lent length, 5 at the first CRC byte; 4 is at the section numbers where they alone are wrong.
#[inline]
pub fn frame(section: &[u8], ours: fn(u8) -> bool, most: usize) -> Result<Frame<'_>, Refusal> {
    if whole_length(section) != Some(section.len()) {
        return Err(Refusal::at(refusal::SIZE, section.len()));
    }
    let table = section[TABLE];
    if !ours(table) {
        return Err(Refusal::at(refusal::TABLE, TABLE));
    }
    let length = section.len() - BEFORE_LENGTH;
    let syntax = section[SYNTAX] & 0x80 != 0;
    if !(LEAST_LENGTH..=most).contains(&length) || !syntax {
        return Err(Refusal::at(refusal::HEADER, SYNTAX));
    }
    let (number, last) = (section[NUMBER], section[NUMBER + 1]);
    if number > last {
        return Err(Refusal::at(refusal::HEADER, NUMBER));
    }
    let end = section.len() - CRC_BYTES;
    if crc(section) != 0 {
        return Err(Refusal::at(refusal::CRC, end));
    }
    if section[CURRENT] & 0x01 == 0 {
        return Err(Refusal::at(refusal::NOT_CURRENT, CURRENT));
    }
    Ok(Frame {
        table,
        extension: u16::from_be_bytes([section[3], section[4]]),
        version: section[CURRENT] >> 1 & 0x1F,
        number,
        last,
        body: &section[BODY..end],
    })
}
