//! Which of the limits of 02, §8, were reached, from which side. Whoever makes the cases, by chance or at the bounds, must reach all of them.

use baseline::{Record, Refusal};
use make::{ANNOUNCEMENT, BLOCK};
use nebosvar::Kind;

use crate::limits::{before, BITS, LARGEST_BLOCK, MARK_WORDS};
use crate::limits::{MOST_BLOCKS, MOST_BYTES, MOST_MODULES, PROGRAM_IMAGE};

/// Where the adaptation bytes of a message are counted, and where they begin.
const ADAPTATION: usize = 17;
const CONTENT: usize = 20;
/// Where in an announcement blockSize stands, and the length of the compatibility bytes.
const BLOCK_SIZE: usize = 4;
const COMPATIBILITY: usize = 16;

/// What is counted.
#[derive(Clone, Copy, PartialEq, Eq, Debug)]
pub enum Limit {
    HighStored,
    LastBlockStored,
    HighBad,
    HighHeader,
    LastWord,
    ManyModules,
    MostModules,
    OneModuleMore,
    MostBlocks,
    OneBlockMore,
    MostBytes,
    OneByteMore,
    ProgramImage,
    CountOver,
    MarkPastLast,
    MarkInLastWord,
    MarkAsBefore,
}

/// Their words, in the order of [`Limit`].
pub const LIMITS: [&str; 17] = [
    "blocks above 255 stored",
    "blocks 1,023 stored",
    "blocks above 255 refused with 16",
    "blocks above 255 refused with 9",
    "marks set in the last word",
    "more than 16 modules taken",
    "32 modules taken",
    "33 modules refused with 10",
    "1,024 blocks taken",
    "1,025 blocks refused with 10",
    "sums of 262,144 taken",
    "sums of 262,145 refused with 10",
    "15 with an image of 65,536",
    "records with a count over 32",
    "records with only a mark past a last block",
    "those in the last word",
    "those at a block's place before §8",
];

/// How often each was reached.
#[derive(Clone, Default)]
pub struct Reached(pub [u64; LIMITS.len()]);

impl Reached {
    fn count(&mut self, limit: Limit, met: bool) {
        self.0[limit as usize] += u64::from(met);
    }

    /// A record that is lent first, by what its rule is broken by.
    pub fn lent(&mut self, record: &Record) {
        self.count(Limit::CountOver, usize::from(record.count) > MOST_MODULES);
        let mut clear = *record;
        clear.marks = [0; MARK_WORDS];
        if record.is_ruled() || !clear.is_ruled() {
            return;
        }
        let past: Vec<_> = past_last(record).collect();
        let last = past.iter().any(|mark| mark / BITS == MARK_WORDS - 1);
        let old = |&mark: &usize| is_block(record, mark, before::MOST_BLOCKS);
        self.count(Limit::MarkPastLast, true);
        self.count(Limit::MarkInLastWord, last);
        self.count(Limit::MarkAsBefore, past.iter().any(old));
    }

    /// A section that was taken, and the record before and after it.
    pub fn taken(
        &mut self,
        section: &[u8],
        fate: &Result<Kind, Refusal>,
        [old, new]: [&Record; 2],
        room: usize,
    ) {
        match (fate, section.first()) {
            (Ok(Kind::New), _) => self.announced(new),
            (Ok(Kind::Stored), _) => {
                let last = MARK_WORDS - 1;
                self.count(Limit::LastWord, old.marks[last] != new.marks[last]);
                self.block(section, [Limit::HighStored, Limit::LastBlockStored]);
            }
            (Err(Refusal { number: 16, .. }), _) => self.block(section, [Limit::HighBad; 1]),
            (Err(Refusal { number: 9, .. }), _) => self.block(section, [Limit::HighHeader; 1]),
            (Err(Refusal { number: 15, .. }), _) => {
                self.count(Limit::ProgramImage, room == PROGRAM_IMAGE);
            }
            (Err(Refusal { number: 10, .. }), Some(&ANNOUNCEMENT)) => self.beyond(section),
            _ => {}
        }
    }

    /// A block by its number: above 255, and the last that can be.
    fn block<const N: usize>(&mut self, section: &[u8], limits: [Limit; N]) {
        let Some(number) = block_number(section) else {
            return;
        };
        let met = [number >= before::MOST_BLOCKS, number == MOST_BLOCKS - 1];
        for (limit, met) in limits.into_iter().zip(met) {
            self.count(limit, met);
        }
    }

    /// The record after an announcement that was new.
    fn announced(&mut self, record: &Record) {
        let count = usize::from(record.count);
        let sizes: Vec<_> = record.modules[..count].iter().map(|m| m.size).collect();
        let most = MOST_BLOCKS as u32 * u32::from(record.block_size);
        self.count(Limit::ManyModules, count > before::MOST_MODULES);
        self.count(Limit::MostModules, count == MOST_MODULES);
        self.count(Limit::MostBlocks, sizes.contains(&most));
        self.count(Limit::MostBytes, sum(&sizes) == MOST_BYTES as u64);
    }

    /// An announcement that was refused with 10: only one of its limits was passed, and that by one.
    fn beyond(&mut self, section: &[u8]) {
        let Some((block_size, sizes)) = announced_sizes(section) else {
            return;
        };
        let most = MOST_BLOCKS as u32 * u32::from(block_size);
        let sized = (1..=LARGEST_BLOCK).contains(&usize::from(block_size));
        let few = sizes.len() <= MOST_MODULES;
        let short = sizes.iter().all(|size| (1..=most).contains(size));
        let (all, bytes) = (sum(&sizes), MOST_BYTES as u64);
        let one_module = sizes.len() == MOST_MODULES + 1 && short && all <= bytes;
        let one_byte = few && short && all == bytes + 1;
        let one_block = few && all <= bytes && sizes.contains(&(most + 1));
        self.count(Limit::OneModuleMore, sized && one_module);
        self.count(Limit::OneByteMore, sized && one_byte);
        self.count(Limit::OneBlockMore, sized && one_block);
    }
}

/// Whether a mark is that of an announced block, if each module had so many marks.
fn is_block(record: &Record, mark: usize, marks: usize) -> bool {
    let (place, block) = (mark / marks, mark % marks);
    let size = usize::from(record.block_size);
    place < usize::from(record.count) && block * size < record.modules[place].size as usize
}

/// The marks that are set past a last block.
fn past_last(record: &Record) -> impl Iterator<Item = usize> + '_ {
    let set = |mark: &usize| record.marks[mark / BITS] >> (mark % BITS) & 1 == 1;
    let past = move |mark: &usize| set(mark) && !is_block(record, *mark, MOST_BLOCKS);
    (0..BITS * MARK_WORDS).filter(past)
}

fn sum(sizes: &[u32]) -> u64 {
    sizes.iter().map(|&size| u64::from(size)).sum()
}

/// What a message says, behind its adaptation bytes.
fn content(section: &[u8]) -> Option<&[u8]> {
    let adaptation = usize::from(*section.get(ADAPTATION)?);
    section.get(CONTENT + adaptation..)
}

/// The number of a block.
fn block_number(section: &[u8]) -> Option<usize> {
    let &[_, _, _, _, high, low] = content(section)?.first_chunk()?;
    (section[0] == BLOCK).then_some(usize::from(u16::from_be_bytes([high, low])))
}

/// The blockSize and the sizes of an announcement whose lengths are right.
fn announced_sizes(section: &[u8]) -> Option<(u16, Vec<u32>)> {
    let content = content(section)?;
    let number = |at: usize| {
        let pair = content.get(at..)?.first_chunk()?;
        Some(u16::from_be_bytes(*pair))
    };
    let mut at = COMPATIBILITY + 2 + usize::from(number(COMPATIBILITY)?);
    let count = number(at)?;
    at += 2;
    let mut sizes = vec![];
    for _ in 0..count {
        // Number, size, version, and the length of the info.
        let &[_, _, s0, s1, s2, s3, _, info] = content.get(at..)?.first_chunk()?;
        sizes.push(u32::from_be_bytes([s0, s1, s2, s3]));
        at += 8 + usize::from(info);
    }
    Some((number(BLOCK_SIZE)?, sizes))
}

#[cfg(test)]
mod tests {
    use super::*;
    use make::{Announcement, Block};

    fn refused(reached: &mut Reached, number: u8, section: &[u8], room: usize) {
        let none = Record::empty();
        reached.taken(section, &Err(Refusal::plain(number)), [&none; 2], room);
    }

    #[test]
    fn sizes_and_numbers_are_found_behind_what_need_not_be_there() {
        let mut made = Announcement::new(1, 0x0506, &[(7, 0x090A_0B0C, 0), (8, 3, 0)]);
        (made.info, made.compatibility, made.adaptation) = (vec![1; 3], vec![2; 5], vec![3; 2]);
        let wanted = (0x0506, vec![0x090A_0B0C, 3]);
        assert_eq!(announced_sizes(&made.bytes()), Some(wanted));
        let mut block = Block::new(1, 0x0203, 0xB4, 0x0506, b"buoy");
        block.adaptation = vec![9, 9, 9];
        assert_eq!(block_number(&block.bytes()), Some(0x0506));
        assert_eq!(block_number(&made.bytes()), None);
    }

    #[test]
    fn a_limit_is_reached_by_one_and_by_nothing_else() {
        let mut reached = Reached::default();
        let announced = |bs, sizes: &[u32]| {
            let module = |(place, &size): (usize, &u32)| (place as u16, size, 0);
            let modules: Vec<_> = sizes.iter().enumerate().map(module).collect();
            Announcement::new(1, bs, &modules).bytes()
        };
        for (bs, sizes) in [
            (1, &[1; 33][..]),
            (1, &[1_025]),
            (400, &[262_144, 1]),
            // None of these is passed by one alone.
            (0, &[1; 33]),
            (1, &[1; 34]),
            (1, &[1_026]),
            (400, &[262_144, 2]),
            (1, &[262_145]),
        ] {
            refused(&mut reached, 10, &announced(bs, sizes), 0);
        }
        for limit in [
            Limit::OneModuleMore,
            Limit::OneBlockMore,
            Limit::OneByteMore,
        ] {
            assert_eq!(reached.0[limit as usize], 1, "{limit:?}");
        }
        assert_eq!(reached.0.iter().sum::<u64>(), 3);
    }

    #[test]
    fn a_block_is_counted_by_its_number_and_by_its_image() {
        let mut reached = Reached::default();
        for (number, block, room) in [
            (16, 256, 0),
            (16, 255, 0),
            (9, 256, 0),
            (15, 0, 65_536),
            (15, 0, 65_537),
        ] {
            refused(
                &mut reached,
                number,
                &make::block(1, 7, 0, block, b"b"),
                room,
            );
        }
        for limit in [Limit::HighBad, Limit::HighHeader, Limit::ProgramImage] {
            assert_eq!(reached.0[limit as usize], 1, "{limit:?}");
        }
        assert_eq!(reached.0.iter().sum::<u64>(), 3);
    }
}
