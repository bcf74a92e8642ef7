//! The drift list: issue and count, then a record of 12 bytes for each buoy, bit-packed, the most
//! significant bit first. The reader refuses by 30 to 35, and by 19 a place past the last record; the
//! writer by 36, then 31, 32, 33 and 35, then 37.
//!
//! A list is judged whole before anything of it is answered or written. Nothing is allocated except
//! by [`read`].

use std::ops::RangeInclusive;

use crate::refusal;

/// Issue and count.
const HEADER: usize = 4;
/// The bytes of a record.
const RECORD: usize = 12;
/// The numbers of a record that is to be written.
const NUMBERS: usize = 5;

/// The widths of the fields, in their order; the spare bits come last and bring them to 96.
const BUOY: u32 = 20;
const STATE: u32 = 2;
const LONGITUDE: u32 = 28;
const LATITUDE: u32 = 27;
const MINUTE: u32 = 14;
const SPARE: u32 = 5;

/// How many bits stand behind each field: those of the next one and what stands behind that.
const BEHIND_MINUTE: u32 = SPARE;
const BEHIND_LATITUDE: u32 = BEHIND_MINUTE + MINUTE;
const BEHIND_LONGITUDE: u32 = BEHIND_LATITUDE + LATITUDE;
const BEHIND_STATE: u32 = BEHIND_LONGITUDE + LONGITUDE;
const BEHIND_BUOY: u32 = BEHIND_STATE + STATE;

/// The range of a longitude, half the circle either way. Both ends would be the same meridian, and
/// the lower one is left out.
const LONGITUDES: RangeInclusive<i32> = -107_999_999..=108_000_000;
/// The range of a latitude, from pole to pole.
const LATITUDES: RangeInclusive<i32> = -54_000_000..=54_000_000;
/// The minutes of a week.
const WEEK: u32 = 10_080;

/// A record of the list. Coordinates in 1/10,000 minute.
#[derive(Clone, Copy, PartialEq, Eq, Debug)]
pub struct Fix {
    /// The buoy's number, never zero.
    pub buoy: u32,
    /// What the coordinates are worth.
    pub state: State,
    /// From -107,999,999 to 108,000,000.
    pub longitude: i32,
    /// From -54,000,000 to 54,000,000.
    pub latitude: i32,
    /// The minute of the week, below 10,080.
    pub minute: u16,
}

/// The state of a fix, by its number in the list; 3 is refused.
#[derive(Clone, Copy, PartialEq, Eq, Debug)]
pub enum State {
    /// No fix, and both coordinates zero.
    None = 0,
    /// A fix.
    Fix = 1,
    /// The last known fix.
    LastKnown = 2,
}

/// Judges the whole list and gives issue and all records.
///
/// # Errors
/// 30 for the length; then, at the first faulty record, the lowest of 31 to 35.
pub fn read(list: &[u8]) -> Result<(u16, Vec<Fix>), u8> {
    let (issue, records) = parts(list)?;
    let mut fixes = Vec::with_capacity(records.len());
    let mut before = 0;
    for bytes in records {
        let raw = Raw::unpack(bytes);
        raw.judge(before)?;
        before = raw.buoy;
        fixes.push(raw.fix());
    }
    Ok((issue, fixes))
}

/// Record `k`, from 0.
///
/// # Errors
/// The list's own refusal, as [`read`] gives it, wherever in the list the fault is; then 19 past the
/// last record.
pub fn record_at(list: &[u8], k: usize) -> Result<Fix, u8> {
    let (_, records) = judged(list)?;
    let bytes = records.get(k).ok_or(refusal::PLACE)?;
    Ok(Raw::unpack(bytes).fix())
}

/// Judges the whole list, then hands out each record in turn, and gives the issue.
///
/// # Errors
/// The list's refusal, as [`read`] gives it. Nothing is handed out then.
pub fn for_each(list: &[u8], f: impl FnMut(Fix)) -> Result<u16, u8> {
    let (issue, records) = judged(list)?;
    records
        .iter()
        .map(|bytes| Raw::unpack(bytes).fix())
        .for_each(f);
    Ok(issue)
}

/// Writes a list at the start of `out` and answers its size. `numbers` has five for each record: buoy,
/// state, longitude, latitude, minute. What `out` has past the list stays as it was.
///
/// # Errors
/// 36 for a value too wide for its field, anywhere, or a count that is not the number of records; then,
/// at the first faulty record, the lowest of 31, 32, 33 and 35; then 37 for a short buffer. Nothing is
/// written then.
pub fn write(issue: u32, count: u32, numbers: &[i32], out: &mut [u8]) -> Result<usize, u8> {
    let issue = u16::try_from(issue).map_err(|_| refusal::WIDTH)?;
    let count = u16::try_from(count).map_err(|_| refusal::WIDTH)?;
    let (records, left) = numbers.as_chunks::<NUMBERS>();
    if records.len() != usize::from(count) || !left.is_empty() || !records.iter().all(fits) {
        return Err(refusal::WIDTH);
    }
    judge(records.iter().map(Raw::of))?;
    let size = HEADER + RECORD * records.len();
    let list = out.get_mut(..size).ok_or(refusal::BUFFER)?;
    let (header, list) = list.split_at_mut(HEADER);
    header[..2].copy_from_slice(&issue.to_be_bytes());
    header[2..].copy_from_slice(&count.to_be_bytes());
    for (bytes, numbers) in list.as_chunks_mut().0.iter_mut().zip(records) {
        *bytes = Raw::of(numbers).pack();
    }
    Ok(size)
}

/// Issue and the bytes of each record: refusal 30.
fn parts(list: &[u8]) -> Result<(u16, &[[u8; RECORD]]), u8> {
    let (&[i0, i1, c0, c1], rest) = list
        .split_first_chunk::<HEADER>()
        .ok_or(refusal::LIST_LENGTH)?;
    let (records, left) = rest.as_chunks();
    let count = u16::from_be_bytes([c0, c1]);
    if records.len() != usize::from(count) || !left.is_empty() {
        return Err(refusal::LIST_LENGTH);
    }
    Ok((u16::from_be_bytes([i0, i1]), records))
}

/// The same, when no record is faulty: refusals 30 to 35.
fn judged(list: &[u8]) -> Result<(u16, &[[u8; RECORD]]), u8> {
    let (issue, records) = parts(list)?;
    judge(records.iter().map(Raw::unpack))?;
    Ok((issue, records))
}

/// Refusals 31 to 35, at the first faulty record.
fn judge(records: impl Iterator<Item = Raw>) -> Result<(), u8> {
    let mut before = 0;
    for raw in records {
        raw.judge(before)?;
        before = raw.buoy;
    }
    Ok(())
}

/// Whether each number of a record fits into its field (refusal 36).
fn fits(&[buoy, state, longitude, latitude, minute]: &[i32; NUMBERS]) -> bool {
    fits_unsigned(buoy, BUOY)
        & fits_unsigned(state, STATE)
        & fits_signed(longitude, LONGITUDE)
        & fits_signed(latitude, LATITUDE)
        & fits_unsigned(minute, MINUTE)
}

fn fits_unsigned(number: i32, width: u32) -> bool {
    (0..1 << width).contains(&number)
}

fn fits_signed(number: i32, width: u32) -> bool {
    let half = 1 << (width - 1);
    (-half..half).contains(&number)
}

/// The fields of a record as they stand in its bits, good or not; each fits into its width.
#[derive(Clone, Copy)]
struct Raw {
    buoy: u32,
    state: u32,
    longitude: i32,
    latitude: i32,
    minute: u32,
    spare: u32,
}

impl Raw {
    /// Out of numbers that fit. A record to be written has no spare of its own, so it is zero.
    fn of(&[buoy, state, longitude, latitude, minute]: &[i32; NUMBERS]) -> Raw {
        Raw {
            buoy: buoy as u32,
            state: state as u32,
            longitude,
            latitude,
            minute: minute as u32,
            spare: 0,
        }
    }

    /// Out of the bytes of a record.
    fn unpack(bytes: &[u8; RECORD]) -> Raw {
        let &[b0, b1, b2, b3, b4, b5, b6, b7, b8, b9, b10, b11] = bytes;
        let high = u32::from_be_bytes([b0, b1, b2, b3]);
        let low = u64::from_be_bytes([b4, b5, b6, b7, b8, b9, b10, b11]);
        let word = u128::from(high) << 64 | u128::from(low);
        Raw {
            buoy: field(word, BEHIND_BUOY, BUOY),
            state: field(word, BEHIND_STATE, STATE),
            longitude: signed(field(word, BEHIND_LONGITUDE, LONGITUDE), LONGITUDE),
            latitude: signed(field(word, BEHIND_LATITUDE, LATITUDE), LATITUDE),
            minute: field(word, BEHIND_MINUTE, MINUTE),
            spare: field(word, 0, SPARE),
        }
    }

    /// The bytes of a record.
    fn pack(self) -> [u8; RECORD] {
        let word = u128::from(self.buoy) << BEHIND_BUOY
            | u128::from(self.state) << BEHIND_STATE
            | u128::from(unsigned(self.longitude, LONGITUDE)) << BEHIND_LONGITUDE
            | u128::from(unsigned(self.latitude, LATITUDE)) << BEHIND_LATITUDE
            | u128::from(self.minute) << BEHIND_MINUTE
            | u128::from(self.spare);
        let [_, _, _, _, bytes @ ..] = word.to_be_bytes();
        bytes
    }

    /// The lowest of refusals 31 to 35 that applies. `before` is the buoy of the record before, 0 at
    /// the first one, so that a buoy of zero is never above it.
    fn judge(&self, before: u32) -> Result<(), u8> {
        if !LONGITUDES.contains(&self.longitude) || !LATITUDES.contains(&self.latitude) {
            return Err(refusal::COORDINATE);
        }
        if self.minute >= WEEK {
            return Err(refusal::MINUTE);
        }
        if self.buoy <= before {
            return Err(refusal::BUOY);
        }
        if self.spare != 0 {
            return Err(refusal::SPARE);
        }
        let both_zero = self.longitude == 0 && self.latitude == 0;
        if self.state == 3 || (self.state == 0) != both_zero {
            return Err(refusal::STATE);
        }
        Ok(())
    }

    /// A good record as it is handed out.
    fn fix(self) -> Fix {
        Fix {
            buoy: self.buoy,
            state: match self.state {
                0 => State::None,
                1 => State::Fix,
                // 3 has been refused
                _ => State::LastKnown,
            },
            longitude: self.longitude,
            latitude: self.latitude,
            minute: self.minute as u16,
        }
    }
}

/// The field of this width that has so many bits behind it.
fn field(word: u128, behind: u32, width: u32) -> u32 {
    (word >> behind) as u32 & mask(width)
}

/// The lowest bits, so many as the width.
fn mask(width: u32) -> u32 {
    (1 << width) - 1
}

/// The number that these bits are in two's complement of this width.
fn signed(bits: u32, width: u32) -> i32 {
    let unused = 32 - width;
    (bits << unused) as i32 >> unused
}

/// The bits of a number in two's complement of this width.
fn unsigned(number: i32, width: u32) -> u32 {
    number as u32 & mask(width)
}
