//! Announcements at every limit, from both sides: blockSize, number of modules, blocks of a module, bytes of all; a number
//! twice, at every two places; and block numbers and versions about which a header's field goes round.

use super::Draft;
use crate::limits::{EQUAL_SHARE, LARGEST_BLOCK, MOST_BLOCKS, MOST_BYTES, MOST_MODULES};
use make::Module;

const LARGEST: u16 = LARGEST_BLOCK as u16;
const MOST: u32 = MOST_BYTES as u32;

/// All of them.
pub fn all() -> impl Iterator<Item = Draft> {
    block_sizes()
        .chain(numbers_of_modules())
        .chain(sizes())
        .chain(sums())
        .chain(twice())
        .chain(two_refusals())
        .chain(rounds())
        .chain(versions())
        .chain(identifiers())
        .chain(small())
}

/// Modules of these sizes; numbers and versions are all different.
fn of_sizes(block_size: u16, sizes: &[u32]) -> Draft {
    let module = |(place, &size): (usize, &u32)| Module {
        number: (place as u16).wrapping_mul(2_647).wrapping_add(255),
        size,
        version: place as u8 ^ 0x1F,
    };
    Draft {
        download: 0x0A0B_0C0D,
        block_size,
        modules: sizes.iter().enumerate().map(module).collect(),
        identifier: 0x8000_0002,
    }
}

/// Every blockSize at and about its limits, with modules that would be in theirs.
fn block_sizes() -> impl Iterator<Item = Draft> {
    const SIZES: [u16; 12] = [
        0,
        1,
        2,
        3,
        LARGEST - 1,
        LARGEST,
        LARGEST + 1,
        LARGEST + 2,
        8_192,
        0x7FFF,
        0x8000,
        u16::MAX,
    ];
    const MODULES: [&[u32]; 5] = [&[1], &[2, 1], &[7, 3, 5], &[1_024], &[1; MOST_MODULES]];
    let all = |size| MODULES.into_iter().map(move |sizes| of_sizes(size, sizes));
    SIZES.into_iter().flat_map(all)
}

/// Every number of modules up to 35, and numbers that are as good in eight bits, or in five.
fn numbers_of_modules() -> impl Iterator<Item = Draft> {
    let counts = (0..=35).chain([64, 255, 256, 257, 288, 1_024, 32_768, 65_535]);
    counts.flat_map(|count| [1, 4].map(|size| of_sizes(size, &vec![3; count])))
}

/// Each module at its limits, alone, and as the first, the last and between others.
fn sizes() -> impl Iterator<Item = Draft> {
    let of = |block_size: u16| {
        let most = MOST_BLOCKS as u32 * u32::from(block_size);
        let sizes = [0, 1, most - 1, most, most + 1, most + 2, 1 << 31, u32::MAX];
        sizes.into_iter().flat_map(move |size| {
            let places: [&[u32]; 5] = [&[size], &[size, 3], &[3, size], &[3, size, 4], &[size; 2]];
            places.map(|sizes| of_sizes(block_size, sizes))
        })
    };
    [1, 2, 7, 100, 128, 255, 256].into_iter().flat_map(of)
}

/// The sum at its limit. Sums that are as good in 32 bits, too.
fn sums() -> impl Iterator<Item = Draft> {
    let mut shares = vec![EQUAL_SHARE; MOST_MODULES];
    let equal = shares.clone();
    shares[MOST_MODULES - 1] += 1;
    let mut fewer = equal.clone();
    fewer[0] -= 1;
    let all: Vec<(u16, Vec<u32>)> = vec![
        (256, vec![MOST]),
        (LARGEST, vec![MOST]),
        (LARGEST, vec![MOST - 1]),
        (257, vec![MOST + 1]),
        (LARGEST, vec![MOST + 1]),
        (400, vec![MOST - 1, 1]),
        (400, vec![1, MOST - 1]),
        (400, vec![MOST - 2, 1]),
        (400, vec![MOST, 1]),
        (400, vec![1, MOST]),
        (400, vec![MOST - 2, 1, 1]),
        (400, vec![MOST - 1, 1, 1]),
        (LARGEST, vec![MOST; 2]),
        (LARGEST, vec![MOST; MOST_MODULES]),
        (LARGEST, vec![1 << 31, 1 << 31]),
        (LARGEST, vec![1 << 31, 1 << 31, 1]),
        (LARGEST, vec![u32::MAX, 1]),
        (LARGEST, vec![u32::MAX, 2, 5]),
    ];
    let every = [8, 9, 64, LARGEST];
    let shared =
        every.map(|size| [equal.clone(), fewer.clone(), shares.clone()].map(|s| (size, s)));
    let all = all.into_iter().chain(shared.into_iter().flatten());
    all.map(|(block_size, sizes)| of_sizes(block_size, &sizes))
}

/// A number twice, at every two places.
fn twice() -> impl Iterator<Item = Draft> {
    let pairs = (0..MOST_MODULES).flat_map(|second| (0..second).map(move |first| (first, second)));
    pairs.map(|(first, second)| {
        let mut draft = of_sizes(2, &[3; MOST_MODULES]);
        draft
            .modules
            .truncate(MOST_MODULES.min(second + 1 + first % 5));
        draft.modules[second].number = draft.modules[first].number;
        draft
    })
}

/// A number twice and a limit passed; numbers that differ in one half only.
fn two_refusals() -> impl Iterator<Item = Draft> {
    let both = [(0, 1), (LARGEST + 1, 1), (1, 0), (1, 1_025), (300, MOST)];
    let twice = both.into_iter().map(|(block_size, size)| {
        let mut draft = of_sizes(block_size, &[size, 1, 1]);
        draft.modules[2].number = draft.modules[0].number;
        draft
    });
    let many = [MOST_MODULES + 1, 40].into_iter().map(|count| {
        let mut draft = of_sizes(1, &vec![1; count]);
        draft.modules[1].number = draft.modules[0].number;
        draft
    });
    let halves = [(0x0034, 0x0134), (0x1200, 0x1201), (0, u16::MAX)];
    let apart = halves.into_iter().map(|(one, other)| {
        let mut draft = of_sizes(3, &[7, 8]);
        (draft.modules[0].number, draft.modules[1].number) = (one, other);
        draft
    });
    twice.chain(many).chain(apart)
}

/// Numbers of blocks about which the section number goes round, in blocks that are full and with a last one that is not.
fn rounds() -> impl Iterator<Item = Draft> {
    const BLOCKS: [u32; 15] = [
        1, 2, 254, 255, 256, 257, 300, 511, 512, 513, 767, 768, 1_000, 1_023, 1_024,
    ];
    BLOCKS.into_iter().flat_map(|blocks| {
        let even =
            [1, 2, 3, 5, 8, 17, 40].map(|size| of_sizes(size, &[blocks * u32::from(size), 1]));
        let short = [2, 3, 5, 8, 17, 40, 200]
            .map(|size| of_sizes(size, &[3, blocks * u32::from(size) - 1]));
        even.into_iter().chain(short)
    })
}

/// Every version of a module.
fn versions() -> impl Iterator<Item = Draft> {
    (0..=u8::MAX).map(|version| {
        let mut draft = of_sizes(4, &[9, 4]);
        draft.modules[0].version = version;
        draft.modules[1].version = !version;
        draft
    })
}

/// Every bit of the identifier, of the downloadId and of a number.
fn identifiers() -> impl Iterator<Item = Draft> {
    (0..32).flat_map(|bit| {
        [1 << bit, !(1 << bit), u32::MAX << bit, u32::MAX >> bit].map(|number: u32| {
            let mut draft = of_sizes(4, &[5, 3]);
            draft.identifier = number;
            draft.download = number.rotate_left(11);
            draft.modules[0].number = number.rotate_left(5) as u16;
            draft.modules[1].number = !draft.modules[0].number;
            draft
        })
    })
}

/// Two modules of every small size in blocks of every small size.
fn small() -> impl Iterator<Item = Draft> {
    let sizes = (1..=6).flat_map(|block| (1..=14).map(move |first| (block, first)));
    sizes
        .flat_map(|(block, first)| [1, 2, 6, 7, 12].map(|second| of_sizes(block, &[first, second])))
}
