//! The limits of refusal 10 and of the record (02, §8), one set for all that is made here. The archive's crate gives them; they are held to
//! the independent receiver's where this is compiled.

pub use nebosvar::{
    LARGEST_BLOCK, MARK_WORDS, MODULE_WORDS, MOST_BLOCKS, MOST_BYTES, MOST_MODULES,
};

const _: () = {
    assert!(MOST_MODULES == baseline::MODULES);
    assert!(MOST_BLOCKS == baseline::BLOCKS as usize);
    assert!(MOST_BYTES == baseline::MOST_TOGETHER as usize);
    assert!(MODULE_WORDS == baseline::WORDS);
    assert!(MARK_WORDS == baseline::ALL_WORDS);
};

/// The marks of a word.
pub const BITS: usize = u32::BITS as usize;
/// The bytes of a module if all had as many as they can, and equally many.
pub const EQUAL_SHARE: u32 = (MOST_BYTES / MOST_MODULES) as u32;
/// After so many blocks the section numbers begin again (refusal 9).
pub const SECTION_NUMBERS: usize = 256;
/// The image of the programs: more may be announced, and is 15 there.
pub const PROGRAM_IMAGE: usize = 65_536;

/// The limits before 02, §8. Whoever still goes by them answers otherwise beyond them.
pub mod before {
    pub const MOST_MODULES: usize = 16;
    pub const MOST_BLOCKS: usize = 256;
}

/// Numbers of blocks about which a number goes round, or ends.
pub const EDGES: [usize; 10] = [
    31,
    32,
    before::MOST_BLOCKS - 1,
    before::MOST_BLOCKS,
    511,
    512,
    767,
    768,
    MOST_BLOCKS - 2,
    MOST_BLOCKS - 1,
];
