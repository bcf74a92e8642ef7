//! The shore player: from an announcement and an image that holds its modules it writes one rotation of a carousel,
//! a section at a time.
//!
//! Place 0 is the announcement; then comes each block, module by module in announced order. [`Playlist`] is what is
//! announced: it answers how many sections there are, and writes the one at a place.
//!
//! Refusals, of several the lowest: 10 beyond the limits, 11 for a module number twice, 15 for an image shorter than the
//! sizes together, 19 past the last section, 21 for too short a buffer.
//!
//! ```
//! use nebosvar::player::{Listed, Playlist, LARGEST_SECTION};
//! use nebosvar::Record;
//!
//! // Module 7 has 6 bytes and version 2; module 9 has 3 and version 0. They lie one after another in the image.
//! let modules = [Listed { number: 7, size: 6, version: 2 }, Listed { number: 9, size: 3, version: 0 }];
//! let playlist = Playlist::new(1, 4, &modules);
//! let image = b"buoy 3ebb";
//!
//! // One rotation, played into a receiver.
//! let (mut record, mut heard) = (Record::new(), [0; 9]);
//! let mut section = [0; LARGEST_SECTION];
//! for place in 0..playlist.section_count()? {
//!     let length = playlist.write_section(image, 0x8000_0002, place, &mut section)?;
//!     record.step(&section[..length], &mut heard)?;
//! }
//! assert_eq!(record.handout(&heard, 7), Ok(&b"buoy 3"[..]));
//! assert_eq!(record.handout(&heard, 9), Ok(&b"ebb"[..]));
//! # Ok::<(), nebosvar::Refusal>(())
//! ```

use crate::ffi;
use crate::limits::{LARGEST_BLOCK, MOST_MODULES};
use crate::Refusal;

/// The most bytes of a section: a buffer of so many is never too short (21), whatever is played. It is the largest block
/// and 30 bytes around it, 4,096.
pub const LARGEST_SECTION: usize = LARGEST_BLOCK + 30;

/// A module to be announced.
#[repr(C)]
#[derive(Clone, Copy, PartialEq, Eq, Debug, Default)]
pub struct Listed {
    /// Its number.
    pub number: u16,
    /// Its bytes.
    pub size: u32,
    /// Its version.
    pub version: u8,
}

/// What shore announces, right or wrong: every call looks at the limits first.
#[repr(C)]
#[derive(Clone, Copy, PartialEq, Eq, Debug, Default)]
pub struct Playlist {
    /// The downloadId.
    pub download: u32,
    /// Bytes of a block, but for a module's last.
    pub block_size: u16,
    /// How many modules are announced; over 32 ([`MOST_MODULES`]) is refused with 10.
    pub count: u16,
    /// The modules, in announced order; they lie in the image in this order, one after another from byte 0. Those from
    /// `count` on are not looked at.
    pub modules: [Listed; MOST_MODULES],
}

impl Playlist {
    /// A playlist of these modules. Of more than there are entries the first are kept, and `count` tells that there were more,
    /// so that every call refuses with 10.
    ///
    /// ```
    /// use nebosvar::player::{Listed, Playlist};
    /// use nebosvar::Refusal;
    ///
    /// let module = Listed { number: 7, size: 6, version: 2 };
    /// let playlist = Playlist::new(1, 4, &[module]);
    /// assert_eq!((playlist.count, playlist.modules[0]), (1, module));
    /// assert_eq!(playlist.section_count(), Ok(3));
    /// assert_eq!(Playlist::new(1, 4, &[module; 33]).section_count(), Err(Refusal::BEYOND_LIMITS));
    /// ```
    pub fn new(download: u32, block_size: u16, modules: &[Listed]) -> Playlist {
        let mut playlist = Playlist {
            download,
            block_size,
            count: u16::try_from(modules.len()).unwrap_or(u16::MAX),
            modules: [Listed::default(); MOST_MODULES],
        };
        for (entry, module) in playlist.modules.iter_mut().zip(modules) {
            *entry = *module;
        }
        playlist
    }

    /// How many sections one rotation has: the announcement and each block. It can refuse with 10 and 11.
    ///
    /// ```
    /// use nebosvar::player::{Listed, Playlist};
    /// use nebosvar::Refusal;
    ///
    /// let (seven, nine) = (Listed { number: 7, size: 1_000, version: 2 }, Listed { number: 9, size: 800, version: 0 });
    /// assert_eq!(Playlist::new(1, 400, &[seven, nine]).section_count(), Ok(1 + 3 + 2));
    /// assert_eq!(Playlist::new(1, 4_067, &[seven, nine]).section_count(), Err(Refusal::BEYOND_LIMITS));
    /// assert_eq!(Playlist::new(1, 400, &[seven, seven]).section_count(), Err(Refusal::MODULE_TWICE));
    /// ```
    pub fn section_count(&self) -> Result<usize, Refusal> {
        // SAFETY: the borrow lends one playlist; no precondition.
        let counted = unsafe { ffi::nebosvar_section_count(self) };
        Refusal::check(counted.refusal, ffi::NOWHERE)?;
        Ok(counted.sections)
    }

    /// Writes the section at a place at the start of `out`, and answers its length. The identifier is the announcement's,
    /// and its low half the announcement's extension; a block has the downloadId. What `out` has past the section stays as
    /// it was; a refusal writes nothing.
    ///
    /// It can refuse with 10 and 11; then with 15, for an image shorter than the sizes together, whatever the place; then
    /// with 19, past the last section; then with 21, for an `out` shorter than this section. One of [`LARGEST_SECTION`] is
    /// always enough.
    ///
    /// ```
    /// use nebosvar::player::{Listed, Playlist};
    /// use nebosvar::Refusal;
    ///
    /// let playlist = Playlist::new(1, 4, &[Listed { number: 1, size: 6, version: 0 }]);
    /// let mut out = [0xEE; 36];
    /// assert_eq!(playlist.write_section(b"ABCDEF", 0x8000_0002, 1, &mut out), Ok(34));
    /// assert_eq!(out, [
    ///     0x3C, 0xB0, 31, 0, 1, 0xC1, 0, 1, 0x11, 0x03, 0x10, 0x03, 0, 0, 0, 1, 0xFF, 0, 0, 10,
    ///     0, 1, 0, 0xFF, 0, 0, b'A', b'B', b'C', b'D', 0xAC, 0x72, 0x9B, 0x2F, 0xEE, 0xEE,
    /// ]);
    ///
    /// assert_eq!(playlist.write_section(b"ABCDE", 0, 0, &mut out), Err(Refusal::SHORT_IMAGE));
    /// assert_eq!(playlist.write_section(b"ABCDEF", 0, 3, &mut out), Err(Refusal::NO_PLACE));
    /// assert_eq!(playlist.write_section(b"ABCDEF", 0, 2, &mut out[..31]), Err(Refusal::SHORT_BUFFER));
    /// assert_eq!(playlist.write_section(b"ABCDEF", 0, 2, &mut out[..32]), Ok(32));
    /// ```
    pub fn write_section(
        &self,
        image: &[u8],
        identifier: u32,
        place: usize,
        out: &mut [u8],
    ) -> Result<usize, Refusal> {
        // SAFETY: the borrows lend one playlist and as many bytes as their lengths say, and do not overlap; no
        // precondition.
        let written = unsafe {
            ffi::nebosvar_write_section(
                self,
                image.as_ptr(),
                image.len(),
                identifier,
                place,
                out.as_mut_ptr(),
                out.len(),
            )
        };
        Refusal::check(written.refusal, ffi::NOWHERE)?;
        Ok(written.size)
    }
}
