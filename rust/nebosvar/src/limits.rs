//! The limits of an announcement, and with them of a record.

/// The largest block: blockSize is 1 to so many bytes.
pub const LARGEST_BLOCK: usize = 4_066;

/// The most modules of an announcement, and the entries of a [`Record`](crate::Record) or a
/// [`Playlist`](crate::player::Playlist).
pub const MOST_MODULES: usize = 32;

/// The most blocks of a module.
pub const MOST_BLOCKS: usize = 1_024;

/// The most bytes of all modules together: an image of so many is never too short (15), whatever is announced.
pub const MOST_BYTES: usize = 262_144;

/// The words of one module's marks, 32 to a word.
pub const MODULE_WORDS: usize = MOST_BLOCKS / 32;

/// The words of all marks of a [`Record`](crate::Record).
pub const MARK_WORDS: usize = MOST_MODULES * MODULE_WORDS;
