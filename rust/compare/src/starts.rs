//! Records and images to start from: empty, left by earlier sections, or lent broken. A record is made here by
//! its fields, in the independent receiver's type; the other receiver is lent the same.

use baseline::{Module, Record};

use crate::carousels::Carousel;
use crate::limits::{before, BITS, EDGES, PROGRAM_IMAGE};
use crate::limits::{LARGEST_BLOCK, MOST_BLOCKS, MOST_BYTES, MOST_MODULES};
use crate::random::Random;

/// How many clauses of the record's rule [`break_clause`] knows.
pub const CLAUSES: usize = 23;

/// The record after an announcement, its marks clear. Sums go round past 32 bits: a broken record may have them.
pub fn announced(download: u32, block_size: u16, modules: &[make::Module]) -> Record {
    let mut record = Record::empty();
    record.download = download;
    record.block_size = block_size;
    record.count = modules.len() as u16;
    let mut start = 0u32;
    for (entry, module) in record.modules.iter_mut().zip(modules) {
        *entry = Module {
            number: module.number,
            size: module.size,
            version: module.version,
            start,
        };
        start = start.wrapping_add(module.size);
    }
    record
}

/// The record that holds this carousel's announcement.
pub fn announced_of(carousel: &Carousel) -> Record {
    announced(carousel.download, carousel.block_size, &carousel.modules)
}

/// Sets mark 1,024 × place + block; a word's lowest bit is its first mark.
pub fn mark(record: &mut Record, place: usize, block: usize) {
    set_bit(record, MOST_BLOCKS * place + block);
}

fn set_bit(record: &mut Record, mark: usize) {
    record.marks[mark / BITS] |= 1 << (mark % BITS);
}

/// Marks some blocks of the carousel, and puts their bytes into the image where it has room for all.
pub fn receive_some(
    random: &mut Random,
    record: &mut Record,
    carousel: &Carousel,
    image: &mut [u8],
) {
    // None, all, most or some of a module.
    let of = random.pick(&[1, 2, 3, 20]);
    for place in 0..carousel.modules.len() {
        let all = random.one_in(3);
        for block in 0..carousel.blocks(place) {
            if all || random.below(of) > 0 {
                mark(record, place, block);
                let at = carousel.start(place) + block * usize::from(carousel.block_size);
                let data = carousel.data(place, block);
                if let Some(part) = image.get_mut(at..at + data.len()) {
                    part.copy_from_slice(data);
                }
            }
        }
    }
}

/// Marks all blocks of the carousel.
pub fn receive_all(record: &mut Record, carousel: &Carousel) {
    for place in 0..carousel.modules.len() {
        for block in 0..carousel.blocks(place) {
            mark(record, place, block);
        }
    }
}

/// An image of a length where something changes for a carousel of this total, filled with any bytes.
pub fn image(random: &mut Random, total: usize) -> Vec<u8> {
    let any = random.below(70_000);
    let room = match random.below(20) {
        0 => 0,
        1 => 1,
        2 | 3 => total - 1,
        4..=10 => total,
        11 | 12 => total + 1,
        13 => PROGRAM_IMAGE - 1,
        14..=18 => PROGRAM_IMAGE,
        _ => any,
    };
    random.bytes(room)
}

/// A record that breaks this clause of its rule, and where it can no other. The record given keeps the rule and
/// has a module.
pub fn break_clause(random: &mut Random, clause: usize, record: &Record) -> Record {
    let mut broken = *record;
    let used = usize::from(record.count);
    let place = random.below(used);
    let (free, last) = (used < MOST_MODULES, MOST_MODULES - 1);
    let over = MOST_MODULES as u16 + 1;
    match clause {
        0 => broken.count = random.pick(&[over, over + 1, 255, 256, 0xFFFF]),
        1 => broken.count += 1,
        2 => broken.count -= 1,
        3 if free => broken.modules[used].number = 1,
        4 if free => broken.modules[last].size = 1,
        5 if free => broken.modules[used].version = 1,
        6 if free => broken.modules[last].start = 1,
        7 => broken.modules[place].start ^= 1 << random.below(32),
        8 => return past_last(random),
        9 if free => mark(&mut broken, used, random.below(MOST_BLOCKS)),
        10 => return doubled(random),
        11 => return clear_with_size(record, 0),
        12 => return clear_with_size(record, random.pick(&[LARGEST_BLOCK as u16 + 1, 0xFFFF])),
        13 => return of_sizes(random, 4, &[3, 0, 5]),
        14 => return one_more(random),
        15 => return of_sizes(random, 400, &[MOST_BYTES as u32, 1]),
        16 => return going_round(random),
        17 => return with(|none| none.download = 1),
        18 => return with(|none| none.block_size = 1),
        19 => return with(|none| none.modules[place].version = 1),
        20 => return with(|none| mark(none, place, 0)),
        21 if free => mark(&mut broken, last, MOST_BLOCKS - 1),
        22 => return as_before(random),
        _ => broken.count = over,
    }
    broken
}

/// The record that announces nothing, but for one thing.
fn with(change: impl FnOnce(&mut Record)) -> Record {
    let mut record = Record::empty();
    change(&mut record);
    record
}

/// Modules of these sizes, numbers in turn.
fn of_sizes(random: &mut Random, block_size: u16, sizes: &[u32]) -> Record {
    let modules: Vec<_> = sizes
        .iter()
        .enumerate()
        .map(|(place, &size)| make::Module {
            number: place as u16,
            size,
            version: 0,
        })
        .collect();
    announced(random.number() as u32, block_size, &modules)
}

/// A mark past the last block of a module: the next one, one in its word or in a later one, or the last there is.
fn past_last(random: &mut Random) -> Record {
    let last = MOST_BLOCKS - 1;
    let (any, edge) = (random.within(1..=last), random.pick(&EDGES));
    let blocks = random.pick(&[any, edge]);
    let count = random.pick(&[2, before::MOST_MODULES + 1, MOST_MODULES]);
    let place = random.pick(&[1, count - 1]);
    let mut sizes = vec![2; count];
    sizes[place] = blocks as u32 * 2 - 1;
    let mut record = of_sizes(random, 2, &sizes);
    let past = random.within(blocks..=last);
    let word = blocks.next_multiple_of(BITS).min(last);
    mark(&mut record, place, random.pick(&[blocks, past, word, last]));
    record
}

/// A mark where the record before 02, §8, had that of a block of an announced module; here it is past a last one.
fn as_before(random: &mut Random) -> Record {
    let count = random.within(2..=before::MOST_MODULES);
    let blocks = random.within(1..=before::MOST_BLOCKS);
    let mut record = of_sizes(random, 1, &vec![blocks as u32; count]);
    let place = random.within(1..=count - 1);
    // At every fourth place it would begin another module's marks.
    let place = if place.is_multiple_of(4) {
        place - 1
    } else {
        place
    };
    set_bit(
        &mut record,
        before::MOST_BLOCKS * place + random.below(blocks),
    );
    record
}

/// A number twice.
fn doubled(random: &mut Random) -> Record {
    let mut record = of_sizes(random, 2, &[1; MOST_MODULES]);
    let half = MOST_MODULES / 2;
    let (one, other) = (random.below(half), half + random.below(half));
    record.modules[other].number = record.modules[one].number;
    record
}

/// Another blockSize, and no marks, that could be past a last block now.
fn clear_with_size(record: &Record, block_size: u16) -> Record {
    let mut broken = *record;
    broken.marks = Record::empty().marks;
    broken.block_size = block_size;
    broken
}

/// A size of one byte over the most blocks.
fn one_more(random: &mut Random) -> Record {
    // One byte less than that with which the most blocks are the most bytes.
    let block_size = random.within(1..=MOST_BYTES / MOST_BLOCKS - 1);
    let size = MOST_BLOCKS * block_size + 1;
    of_sizes(random, block_size as u16, &[size as u32, 1])
}

/// Sizes whose sum is small only past 32 bits.
fn going_round(random: &mut Random) -> Record {
    let large = random.pick(&[u32::MAX, u32::MAX - 99, 1 << 31]);
    of_sizes(
        random,
        LARGEST_BLOCK as u16,
        &[large, large.wrapping_neg(), 5],
    )
}

#[cfg(test)]
mod tests {
    use super::*;

    #[test]
    fn what_was_announced_keeps_the_rule() {
        for stretch in 0..300 {
            let random = &mut Random::of(1, stretch);
            let carousel = Carousel::any(random);
            let mut record = announced_of(&carousel);
            receive_some(random, &mut record, &carousel, &mut []);
            assert!(record.is_ruled());
        }
    }

    #[test]
    fn every_clause_is_broken() {
        for stretch in 0..300 {
            let random = &mut Random::of(1, stretch);
            let carousel = Carousel::any(random);
            let mut record = announced_of(&carousel);
            receive_some(random, &mut record, &carousel, &mut []);
            for clause in 0..CLAUSES {
                let broken = break_clause(random, clause, &record);
                assert!(!broken.is_ruled(), "{clause}: {broken:?}");
            }
        }
    }
}
