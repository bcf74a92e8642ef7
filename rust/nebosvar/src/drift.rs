//! The drift list: an issue, a count, and a record of 12 bytes for each buoy, packed into bits. It is read and
//! written; each undoes the other.
//!
//! [`DriftList`] is a list that was accepted, with its records by place and one after another; [`write()`] makes
//! one. The archive's own calls, of any bytes, are [`record_at`] and [`walk_at`].
//!
//! Refusals go in this order. Of the reader: 30 for the length; then, at the first faulty record, the lowest of
//! 31 to 35; then 19 for a place past the last record. Of the writer: 36; then, at the first faulty record, the
//! lowest of 31, 32, 33 and 35; then 37.
//!
//! ```
//! use nebosvar::drift::{write, DriftList, Fix, Row, State};
//!
//! let near = Fix {
//!     buoy: 12,
//!     state: State::Fix,
//!     longitude: -3_000_000, // 5° W
//!     latitude: 28_805_000,  // 48° 0.5' N
//!     minute: 1_439,         // of the week: 23:59 on its first day
//! };
//! let lost = Fix { buoy: 13, state: State::None, longitude: 0, latitude: 0, minute: 0 };
//!
//! let mut out = [0; 100];
//! let size = write(2026, 2, &[Row::from(near), Row::from(lost)], &mut out)?;
//!
//! let list = DriftList::read(&out[..size])?;
//! assert_eq!((size, list.issue(), list.len()), (28, 2026, 2));
//! assert_eq!(list.iter().collect::<Vec<_>>(), [near, lost]);
//! # Ok::<(), nebosvar::Refusal>(())
//! ```

use crate::ffi;
use crate::proved::excluded;
use crate::Refusal;
use std::iter::FusedIterator;
use std::ops::Range;
use std::slice;

/// The numbers of a [`Row`].
const NUMBERS: usize = 5;

/// A record of the list. Coordinates are in 1/10,000 minute, east and north positive.
#[derive(Clone, Copy, PartialEq, Eq, Debug)]
pub struct Fix {
    /// The buoy: 1 to 1,048,575.
    pub buoy: u32,
    /// What is known of it.
    pub state: State,
    /// The longitude: -107,999,999 to 108,000,000.
    pub longitude: i32,
    /// The latitude: -54,000,000 to 54,000,000.
    pub latitude: i32,
    /// The minute of the week: 0 to 10,079.
    pub minute: u16,
}

/// What is known of a buoy. The numbers are the list's; 3 is refused.
#[derive(Clone, Copy, PartialEq, Eq, Debug)]
pub enum State {
    /// No position: both coordinates are zero, and only then.
    None = 0,
    /// Where it is.
    Fix = 1,
    /// Where it last was.
    LastKnown = 2,
}

impl State {
    pub(crate) fn of(number: u8) -> State {
        match number {
            0 => State::None,
            1 => State::Fix,
            2 => State::LastKnown,
            _ => excluded(),
        }
    }
}

/// A list that was accepted; its bytes are borrowed.
///
/// ```
/// use nebosvar::drift::{DriftList, State};
/// use nebosvar::Refusal;
///
/// // Issue 7 with one record: buoy 1, a fix, longitude 1, latitude -1, minute 3.
/// let bytes = [0, 7, 0, 1, 0, 0, 0x14, 0, 0, 0, 0x7F, 0xFF, 0xFF, 0xF8, 0, 0x60];
/// let list = DriftList::read(&bytes)?;
/// assert_eq!((list.issue(), list.len()), (7, 1));
///
/// let fix = list.get(0)?;
/// assert_eq!((fix.buoy, fix.state, fix.minute), (1, State::Fix, 3));
/// assert_eq!((fix.longitude, fix.latitude), (1, -1));
/// assert_eq!(list.get(1), Err(Refusal::NO_PLACE));
///
/// // Not one byte less, and nothing in the spare bits.
/// assert_eq!(DriftList::read(&bytes[..15]), Err(Refusal::LIST_LENGTH));
/// let mut spoilt = bytes;
/// spoilt[15] |= 0x01;
/// assert_eq!(DriftList::read(&spoilt), Err(Refusal::LIST_SPARE));
/// # Ok::<(), Refusal>(())
/// ```
#[derive(Clone, Copy, PartialEq, Eq, Debug)]
pub struct DriftList<'a> {
    bytes: &'a [u8],
    issue: u16,
    count: u16,
}

impl<'a> DriftList<'a> {
    /// Judges a whole list. It can refuse with 30 to 35.
    pub fn read(bytes: &'a [u8]) -> Result<DriftList<'a>, Refusal> {
        // SAFETY: the slice lends as many bytes as its length says; no precondition.
        let list = unsafe { ffi::nebosvar_list_read(bytes.as_ptr(), bytes.len()) };
        Refusal::check(list.refusal, ffi::NOWHERE)?;
        Ok(DriftList {
            bytes,
            issue: list.issue,
            count: list.count,
        })
    }

    /// The issue.
    pub fn issue(&self) -> u16 {
        self.issue
    }

    /// How many records it has.
    pub fn len(&self) -> usize {
        usize::from(self.count)
    }

    /// Whether it has no record.
    pub fn is_empty(&self) -> bool {
        self.count == 0
    }

    /// Record `k`, from 0; 19 where there is none. It takes the same time for every place.
    pub fn get(&self, k: usize) -> Result<Fix, Refusal> {
        walk_at(self.bytes, k)
    }

    /// The records, in their order.
    ///
    /// ```
    /// # use nebosvar::drift::{write_numbers, DriftList};
    /// let mut bytes = [0; 40];
    /// write_numbers(1, 3, &[5, 0, 0, 0, 0, 8, 1, 9, 9, 60, 21, 0, 0, 0, 0], &mut bytes)?;
    /// let list = DriftList::read(&bytes)?;
    /// assert_eq!(list.iter().map(|fix| fix.buoy).collect::<Vec<_>>(), [5, 8, 21]);
    /// assert_eq!((list.iter().len(), list.iter().rev().next()), (3, list.get(2).ok()));
    /// for fix in &list {
    ///     assert!(fix.minute < 10_080);
    /// }
    /// # Ok::<(), nebosvar::Refusal>(())
    /// ```
    pub fn iter(&self) -> Fixes<'a> {
        Fixes {
            bytes: self.bytes,
            places: 0..self.len(),
        }
    }

    /// Its bytes.
    pub fn as_bytes(&self) -> &'a [u8] {
        self.bytes
    }
}

impl<'a> IntoIterator for DriftList<'a> {
    type Item = Fix;
    type IntoIter = Fixes<'a>;

    fn into_iter(self) -> Fixes<'a> {
        self.iter()
    }
}

impl<'a> IntoIterator for &DriftList<'a> {
    type Item = Fix;
    type IntoIter = Fixes<'a>;

    fn into_iter(self) -> Fixes<'a> {
        self.iter()
    }
}

/// The records of a list that was accepted: [`DriftList::iter`].
#[derive(Clone, Debug)]
pub struct Fixes<'a> {
    bytes: &'a [u8],
    places: Range<usize>,
}

impl Fixes<'_> {
    /// The record at one of the list's places. Of a list that was accepted none is refused.
    fn at(&self, k: usize) -> Fix {
        walk_at(self.bytes, k).unwrap_or_else(|_| excluded())
    }
}

impl Iterator for Fixes<'_> {
    type Item = Fix;

    fn next(&mut self) -> Option<Fix> {
        let k = self.places.next()?;
        Some(self.at(k))
    }

    fn size_hint(&self) -> (usize, Option<usize>) {
        self.places.size_hint()
    }

    fn nth(&mut self, n: usize) -> Option<Fix> {
        let k = self.places.nth(n)?;
        Some(self.at(k))
    }
}

impl DoubleEndedIterator for Fixes<'_> {
    fn next_back(&mut self) -> Option<Fix> {
        let k = self.places.next_back()?;
        Some(self.at(k))
    }
}

impl ExactSizeIterator for Fixes<'_> {}

impl FusedIterator for Fixes<'_> {}

/// A record to be written: its five numbers, right or wrong, in the order in which the writer takes them.
#[repr(C)]
#[derive(Clone, Copy, PartialEq, Eq, Debug, Default)]
pub struct Row {
    /// The buoy.
    pub buoy: i32,
    /// The state's number.
    pub state: i32,
    /// The longitude.
    pub longitude: i32,
    /// The latitude.
    pub latitude: i32,
    /// The minute of the week.
    pub minute: i32,
}

impl From<Fix> for Row {
    /// A buoy that no `i32` can tell becomes the largest one, which no field can tell either.
    fn from(fix: Fix) -> Row {
        Row {
            buoy: i32::try_from(fix.buoy).unwrap_or(i32::MAX),
            state: fix.state as i32,
            longitude: fix.longitude,
            latitude: fix.latitude,
            minute: i32::from(fix.minute),
        }
    }
}

/// Writes a list of these rows at the start of `out`, and answers its size, which is 4 + 12 × count. What `out`
/// has past the list stays as it was; a refusal writes nothing.
///
/// It can refuse with 36, for a number too wide for its field, anywhere, or a count that is not the number of
/// rows; then, at the first faulty row, with the lowest of 31, 32, 33 and 35; then with 37, for too short an `out`.
///
/// ```
/// use nebosvar::drift::{write, Row};
/// use nebosvar::Refusal;
///
/// let row = Row { buoy: 1, state: 1, longitude: 1, latitude: -1, minute: 3 };
/// let mut out = [0xEE; 18];
/// assert_eq!(write(7, 1, &[row], &mut out), Ok(16));
/// assert_eq!(out, [0, 7, 0, 1, 0, 0, 0x14, 0, 0, 0, 0x7F, 0xFF, 0xFF, 0xF8, 0, 0x60, 0xEE, 0xEE]);
///
/// assert_eq!(write(7, 2, &[row], &mut out), Err(Refusal::LIST_WIDTH));
/// assert_eq!(write(7, 2, &[row, row], &mut out), Err(Refusal::LIST_BUOY));
/// assert_eq!(write(7, 1, &[row], &mut out[..15]), Err(Refusal::LIST_ROOM));
/// let south = Row { latitude: -54_000_001, ..row };
/// assert_eq!(write(7, 1, &[south], &mut out), Err(Refusal::LIST_COORDINATE));
/// ```
pub fn write(issue: u32, count: u32, rows: &[Row], out: &mut [u8]) -> Result<usize, Refusal> {
    // SAFETY: a row is five `i32` and no padding (`ffi` asserts it), so the rows' bytes are so many numbers; they
    // stay borrowed.
    let numbers = unsafe { slice::from_raw_parts(rows.as_ptr().cast(), NUMBERS * rows.len()) };
    write_numbers(issue, count, numbers, out)
}

/// The same of bare numbers: buoy, state, longitude, latitude and minute of each record, one after another. Where
/// they are not five for each of `count` records, it refuses with 36.
///
/// ```
/// use nebosvar::drift::write_numbers;
/// use nebosvar::Refusal;
///
/// let mut out = [0; 16];
/// assert_eq!(write_numbers(7, 1, &[1, 1, 1, -1, 3], &mut out), Ok(16));
/// assert_eq!(write_numbers(7, 1, &[1, 1, 1, -1], &mut out), Err(Refusal::LIST_WIDTH));
/// assert_eq!(write_numbers(7, 1, &[1, 1, 1, -1, 3, 2], &mut out), Err(Refusal::LIST_WIDTH));
/// ```
pub fn write_numbers(
    issue: u32,
    count: u32,
    numbers: &[i32],
    out: &mut [u8],
) -> Result<usize, Refusal> {
    // SAFETY: the borrows lend as many numbers and bytes as their lengths say and do not overlap; no precondition.
    let written = unsafe {
        ffi::nebosvar_list_write(
            issue,
            count,
            numbers.as_ptr(),
            numbers.len(),
            out.as_mut_ptr(),
            out.len(),
        )
    };
    Refusal::check(written.refusal, ffi::NOWHERE)?;
    Ok(written.size)
}

/// Record `k` of any bytes, from 0: the list's own refusal, 30 to 35, wherever the fault is; then 19 past the last
/// record. The whole list is judged each time; [`DriftList`] judges it once.
///
/// ```
/// use nebosvar::drift::record_at;
/// use nebosvar::Refusal;
///
/// // Records of buoys 9 and 9, no position.
/// let bytes = [0, 7, 0, 2, 0, 0, 0x90, 0, 0, 0, 0, 0, 0, 0, 0, 0, 0, 0, 0x90, 0, 0, 0, 0, 0, 0, 0, 0, 0];
/// assert_eq!(record_at(&bytes, 0), Err(Refusal::LIST_BUOY));
/// assert_eq!(record_at(&bytes, 2), Err(Refusal::LIST_BUOY));
/// ```
pub fn record_at(list: &[u8], k: usize) -> Result<Fix, Refusal> {
    // SAFETY: the slice lends as many bytes as its length says; no precondition.
    let found = unsafe { ffi::nebosvar_list_record(list.as_ptr(), list.len(), k) };
    fix(found)
}

/// Record `k` of any bytes, judged alone and against the buoy before it, so that it takes the same time for every
/// place: 30 for the length; then 19 past the last record; then the record's own refusal, 31 to 35.
///
/// It is [`record_at`]'s answer wherever the list is accepted. Asked from 0 on, its first refusal is the list's own,
/// or 19 after the last record of an accepted list: whoever walks without reading first throws away what was walked
/// when a refusal other than 19 comes.
///
/// ```
/// use nebosvar::drift::walk_at;
/// use nebosvar::Refusal;
///
/// // Records of buoys 9 and 9, no position.
/// let bytes = [0, 7, 0, 2, 0, 0, 0x90, 0, 0, 0, 0, 0, 0, 0, 0, 0, 0, 0, 0x90, 0, 0, 0, 0, 0, 0, 0, 0, 0];
/// assert_eq!(walk_at(&bytes, 0).map(|fix| fix.buoy), Ok(9));
/// assert_eq!(walk_at(&bytes, 1), Err(Refusal::LIST_BUOY));
/// assert_eq!(walk_at(&bytes, 2), Err(Refusal::NO_PLACE));
/// ```
pub fn walk_at(list: &[u8], k: usize) -> Result<Fix, Refusal> {
    // SAFETY: the slice lends as many bytes as its length says; no precondition.
    let found = unsafe { ffi::nebosvar_list_walk(list.as_ptr(), list.len(), k) };
    fix(found)
}

/// A record that was found, or the refusal.
fn fix(found: ffi::Found) -> Result<Fix, Refusal> {
    Refusal::check(found.refusal, ffi::NOWHERE)?;
    Ok(Fix {
        buoy: found.buoy,
        state: State::of(found.state),
        longitude: found.longitude,
        latitude: found.latitude,
        minute: found.minute,
    })
}
