//! Cases at the limits of 02, §8, from both sides: what is announced, which blocks come, which records and images are lent. Each is what its
//! [`Bound`] says, and nothing of it is by chance.

use baseline::Record;
use make::{Announcement, Block, Module};

use crate::carousels::Carousel;
use crate::fence::Edge;
use crate::limits::{before, BITS, EQUAL_SHARE, LARGEST_BLOCK, PROGRAM_IMAGE};
use crate::limits::{MARK_WORDS, MOST_BLOCKS, MOST_BYTES, MOST_MODULES};
use crate::random::Random;
use crate::starts::{announced, announced_of, mark, receive_all};
use crate::stretches::Case;

/// What a case is about.
#[derive(Clone, Copy, Debug)]
pub enum Bound {
    /// So many modules announced, from none to far too many.
    Counts,
    /// Sizes about so many blocks of this blockSize.
    Sizes(u16),
    /// Sizes together about the limits, in one, two and 32 modules of this blockSize.
    Sums(u16),
    /// A number twice, at places far and near.
    Twice,
    /// The same announcement, and others that differ in one field at a late place.
    Same,
    /// Every kind of block number at a place among so many modules, under right and wrong section numbers.
    Numbers { places: usize, place: usize },
    /// The last block of a module of so many, and those past it.
    LastOf(usize),
    /// Every block of so many modules.
    Whole(usize),
    /// The last marks of all, in an image that has so many bytes beside the sizes together, and one.
    LastMarks { block_size: u16, room: usize },
    /// Sizes of so many bytes together, in an image of so many.
    Image { size: usize, room: usize },
    /// A record of so many modules, each of so many blocks, with this bit set besides.
    Poked {
        modules: usize,
        blocks: usize,
        bit: usize,
    },
    /// A record that breaks its rule in this way.
    Broken(usize),
}

/// The blocks of modules in records with a bit more.
const POKED: [(usize, usize); 5] = [(1, 8), (16, 256), (32, 256), (4, 1_024), (32, 1_000)];
/// Numbers of blocks where a word of marks, a section number or a module ends.
const BLOCKS: [usize; 16] = [
    1, 2, 31, 32, 33, 255, 256, 257, 511, 512, 513, 767, 768, 769, 1_023, 1_024,
];
/// Images beside what is announced.
const IMAGES: [(usize, usize); 10] = [
    (PROGRAM_IMAGE - 1, PROGRAM_IMAGE),
    (PROGRAM_IMAGE, PROGRAM_IMAGE),
    (PROGRAM_IMAGE + 1, PROGRAM_IMAGE),
    (PROGRAM_IMAGE + 1, PROGRAM_IMAGE + 1),
    (MOST_BYTES, PROGRAM_IMAGE),
    (MOST_BYTES, MOST_BYTES - 1),
    (MOST_BYTES, MOST_BYTES),
    (MOST_BYTES, MOST_BYTES + 1),
    (MOST_BYTES - 1, MOST_BYTES - 1),
    (1, 0),
];

/// All cases, each with the edge at which it is lent.
pub fn all() -> Vec<(Bound, Option<Edge>)> {
    let edges = [None, Some(Edge::Ends), Some(Edge::Begins)];
    let at_each = |bound| edges.map(|edge| (bound, edge));
    let mut all: Vec<_> = walked().into_iter().flat_map(at_each).collect();
    // So many that each is lent at one edge only.
    let lent = pokes().into_iter().zip(edges.into_iter().cycle());
    all.extend(lent);
    all
}

fn walked() -> Vec<Bound> {
    let mut all = vec![Bound::Counts, Bound::Twice, Bound::Same];
    all.extend([1, 2, 3, 8, 255, 256, 257, 400, LARGEST_BLOCK as u16].map(Bound::Sizes));
    all.extend([256, 257, 400, LARGEST_BLOCK as u16].map(Bound::Sums));
    let numbers = [(1, 0), (17, 16), (32, 0), (32, 15), (32, 16), (32, 31)];
    all.extend(numbers.map(|(places, place)| Bound::Numbers { places, place }));
    all.extend(BLOCKS.map(Bound::LastOf));
    all.extend((before::MOST_MODULES..=MOST_MODULES).map(Bound::Whole));
    for block_size in [1, EQUAL_SHARE as u16 / MOST_BLOCKS as u16] {
        all.extend([0, 1, 2].map(|room| Bound::LastMarks { block_size, room }));
    }
    all.extend(IMAGES.map(|(size, room)| Bound::Image { size, room }));
    all.extend((0..broken().len()).map(Bound::Broken));
    all
}

/// Every word of marks with its first or its last bit set.
fn pokes() -> Vec<Bound> {
    let poked = |(modules, blocks)| {
        (0..MARK_WORDS).map(move |word| Bound::Poked {
            modules,
            blocks,
            bit: BITS * word + [0, BITS - 1][(word + modules) % 2],
        })
    };
    let past = BLOCKS.into_iter().flat_map(|blocks| {
        let near = [
            blocks - 1,
            blocks,
            blocks + 1,
            blocks.next_multiple_of(BITS),
            255,
            256,
            1_023,
        ];
        near.into_iter().flat_map(move |block| {
            [0, 15, 16, 31].map(|place| Bound::Poked {
                modules: MOST_MODULES,
                blocks,
                bit: (MOST_BLOCKS * place + block).min(BITS * MARK_WORDS - 1),
            })
        })
    });
    POKED.into_iter().flat_map(poked).chain(past).collect()
}

impl Bound {
    pub fn case(self) -> Case {
        match self {
            Bound::Counts => heard(counts()),
            Bound::Sizes(block_size) => heard(sizes(block_size)),
            Bound::Sums(block_size) => heard(sums(block_size)),
            Bound::Twice => heard(twice()),
            Bound::Same => heard(same()),
            Bound::Numbers { places, place } => numbers(places, place),
            Bound::LastOf(blocks) => last_of(blocks),
            Bound::Whole(modules) => whole(modules),
            Bound::LastMarks { block_size, room } => last_marks(block_size, room),
            Bound::Image { size, room } => image(size, room),
            Bound::Poked {
                modules,
                blocks,
                bit,
            } => poked(modules, blocks, bit),
            Bound::Broken(which) => lent(broken().swap_remove(which)),
        }
    }
}

/// A carousel of modules of these sizes.
fn carousel(block_size: u16, sizes: &[u32]) -> Carousel {
    let modules = modules(sizes);
    let total = sizes.iter().sum::<u32>() as usize;
    Carousel {
        download: 8,
        block_size,
        modules,
        bytes: Random::of(8, total as u64).bytes(total),
    }
}

fn modules(sizes: &[u32]) -> Vec<Module> {
    let module = |(place, &size): (usize, &u32)| Module {
        number: 100 + place as u16,
        size,
        version: (7 * place) as u8,
    };
    sizes.iter().enumerate().map(module).collect()
}

fn announcement(carousel: &Carousel) -> Vec<u8> {
    Announcement::new(carousel.download, carousel.block_size, &carousel.modules).bytes()
}

/// A block of the module at a place with this number, which need not be one of its own, and these bytes.
fn block(carousel: &Carousel, place: usize, number: usize, data: &[u8]) -> Block {
    let Module {
        number: module,
        version,
        ..
    } = carousel.modules[place];
    Block::new(carousel.download, module, version, number as u16, data)
}

/// The block of this number, with its own bytes.
fn own_block(carousel: &Carousel, place: usize, number: usize) -> Vec<u8> {
    block(carousel, place, number, carousel.data(place, number)).bytes()
}

/// From no announcement, in an image that the carousel just fills.
fn from_nothing(carousel: &Carousel, stretch: Vec<u8>) -> Case {
    Case {
        record: Record::empty(),
        image: vec![0xEE; carousel.total()],
        stretch,
        budget: usize::MAX,
    }
}

/// Announcements, each twice, and in an image that none of them looks at.
fn heard(announcements: Vec<(u16, Vec<Module>)>) -> Case {
    let twice = |(block_size, modules): (u16, Vec<Module>)| {
        let section = Announcement::new(8, block_size, &modules).bytes();
        [section.clone(), section].concat()
    };
    let stretch = announcements.into_iter().flat_map(twice).collect();
    Case {
        record: Record::empty(),
        image: vec![],
        stretch,
        budget: usize::MAX,
    }
}

fn counts() -> Vec<(u16, Vec<Module>)> {
    let counts = [
        0, 1, 2, 15, 16, 17, 31, 32, 33, 34, 40, 64, 65, 255, 256, 257, 288, 400,
    ];
    let of = |block_size| counts.map(|count| (block_size, modules(&vec![1; count])));
    [1, 400, LARGEST_BLOCK as u16].map(of).concat()
}

/// Alone, before another, and as the last of 32.
fn sizes(block_size: u16) -> Vec<(u16, Vec<Module>)> {
    let mut all = vec![];
    for blocks in [before::MOST_BLOCKS, MOST_BLOCKS, 2 * MOST_BLOCKS] {
        let size = blocks as u32 * u32::from(block_size);
        for size in [size - 1, size, size + 1] {
            let mut many = vec![1; MOST_MODULES];
            many[MOST_MODULES - 1] = size;
            for sizes in [vec![size], vec![size, 1], many] {
                all.push((block_size, modules(&sizes)));
            }
        }
    }
    all.push((block_size, modules(&[0])));
    all
}

/// In one module, in two and in 32, the rest at each of some places.
fn sums(block_size: u16) -> Vec<(u16, Vec<Module>)> {
    let mut all = vec![];
    for limit in [PROGRAM_IMAGE as u32, MOST_BYTES as u32] {
        for sum in [limit - 1, limit, limit + 1] {
            let half = sum / 2;
            all.extend([
                vec![sum],
                vec![sum - 1, 1],
                vec![1, sum - 1],
                vec![half, sum - half],
            ]);
            for place in [0, 15, 16, 31] {
                let share = sum / MOST_MODULES as u32;
                let mut sizes = vec![share; MOST_MODULES];
                sizes[place] = sum - share * (MOST_MODULES as u32 - 1);
                all.push(sizes);
            }
        }
    }
    // Past what 32 bits can tell, and small there.
    let mut round = vec![EQUAL_SHARE; MOST_MODULES];
    round[MOST_MODULES - 1] = (EQUAL_SHARE * (MOST_MODULES as u32 - 1)).wrapping_neg();
    all.extend([vec![u32::MAX, 2], vec![u32::MAX], vec![1 << 31; 2], round]);
    all.iter()
        .map(|sizes| (block_size, modules(sizes)))
        .collect()
}

/// The places of two modules of one number.
const PAIRS: [(usize, usize); 7] = [
    (0, 1),
    (0, 31),
    (15, 16),
    (16, 17),
    (14, 30),
    (30, 31),
    (7, 24),
];

fn twice() -> Vec<(u16, Vec<Module>)> {
    let with = |(one, other): (usize, usize)| {
        let mut modules = modules(&[1; MOST_MODULES]);
        modules[other].number = modules[one].number;
        (1, modules)
    };
    PAIRS.map(with).to_vec()
}

/// Between any two of them the first comes again, so that each is told from it.
fn same() -> Vec<(u16, Vec<Module>)> {
    let first = modules(&[2; MOST_MODULES]);
    let mut all = vec![
        (1, first.clone()),
        (2, first.clone()),
        (1, first[1..].to_vec()),
    ];
    all.push((1, first[..MOST_MODULES - 1].to_vec()));
    for place in [0, 15, 16, 30, 31] {
        let changes: [fn(&mut Module); 3] = [
            |module| module.number += 500,
            |module| module.size = 1,
            |module| module.version ^= 32,
        ];
        for change in changes {
            let mut other = first.clone();
            change(&mut other[place]);
            all.push((1, other));
        }
        let mut other = first.clone();
        other.swap(place, (place + 1) % MOST_MODULES);
        all.push((1, other));
    }
    all.into_iter()
        .flat_map(|other| [other, (1, first.clone())])
        .collect()
}

fn numbers(places: usize, place: usize) -> Case {
    let carousel = carousel(1, &vec![MOST_BLOCKS as u32; places]);
    let mut stretch = announcement(&carousel);
    let past = [
        1_024, 1_025, 1_279, 1_280, 2_047, 2_048, 4_096, 32_767, 32_768, 65_535,
    ];
    let own = [
        0, 1, 31, 32, 127, 128, 255, 256, 257, 511, 512, 767, 768, 1_022, 1_023,
    ];
    for number in own.into_iter().chain(past) {
        let data = carousel.data(place, number % MOST_BLOCKS);
        let other = [!data[0]];
        let right = block(&carousel, place, number, data).section();
        let beside = [number + 1, number + 255, number >> 8, number ^ 0x80].map(|at| at as u8);
        for wrong in beside.into_iter().filter(|&wrong| wrong != right.number) {
            let mut section = right.clone();
            (section.number, section.last) = (wrong, 255);
            stretch.extend(section.bytes());
        }
        stretch.extend(right.bytes().repeat(2));
        stretch.extend(block(&carousel, place, number, &other).bytes());
    }
    from_nothing(&carousel, stretch)
}

/// Of blocks of two bytes the last has one.
fn last_of(blocks: usize) -> Case {
    let carousel = carousel(2, &[3, 2 * blocks as u32 - 1, 4]);
    let mut stretch = announcement(&carousel);
    let last = blocks - 1;
    let near = [
        last,
        blocks,
        blocks + 1,
        last + 256,
        last + 768,
        last + MOST_BLOCKS,
    ];
    for number in near {
        for data in [&[5, 5][..], &[], &[5, 5, 5], carousel.data(1, last)] {
            stretch.extend(block(&carousel, 1, number, data).bytes());
        }
    }
    stretch.extend(own_block(&carousel, 1, last));
    stretch.extend(own_block(&carousel, 1, last / 2));
    from_nothing(&carousel, stretch)
}

/// From the last one on.
fn whole(modules: usize) -> Case {
    let carousel = carousel(4, &vec![9; modules]);
    let mut stretch = announcement(&carousel);
    for place in (0..modules).rev() {
        for number in (0..carousel.blocks(place)).rev() {
            stretch.extend(own_block(&carousel, place, number));
        }
    }
    from_nothing(&carousel, stretch)
}

/// All blocks have come but some at the ends of words, of old limits, and of all marks.
fn last_marks(block_size: u16, room: usize) -> Case {
    let size = MOST_BLOCKS as u32 * u32::from(block_size);
    let carousel = carousel(block_size, &[size; MOST_MODULES]);
    let (mut record, mut image) = (announced_of(&carousel), carousel.bytes.clone());
    receive_all(&mut record, &carousel);
    let mut stretch = vec![];
    for (place, number) in [
        (31, 1_023),
        (31, 992),
        (31, 991),
        (0, 1_023),
        (15, 255),
        (16, 256),
    ] {
        let bit = MOST_BLOCKS * place + number;
        record.marks[bit / BITS] &= !(1 << (bit % BITS));
        let at = carousel.start(place) + number * usize::from(block_size);
        image[at..at + usize::from(block_size)].fill(0xEE);
        stretch.extend(own_block(&carousel, place, number).repeat(2));
    }
    image.resize(carousel.total() + room - 1, 0xEE);
    Case {
        record,
        image,
        stretch,
        budget: usize::MAX,
    }
}

/// The first block, the last and those that a lower number refuses, or a higher one.
fn image(size: usize, room: usize) -> Case {
    let carousel = carousel(LARGEST_BLOCK as u16, &[size as u32]);
    let last = carousel.blocks(0) - 1;
    let first = carousel.data(0, 0);
    let mut stretch = announcement(&carousel);
    stretch.extend(own_block(&carousel, 0, 0));
    stretch.extend(own_block(&carousel, 0, last));
    stretch.extend(block(&carousel, 0, last + 1, first).bytes());
    let changes: [fn(&mut Block); 2] = [|block| block.version ^= 32, |block| block.module += 1];
    for change in changes {
        let mut other = block(&carousel, 0, 0, first);
        change(&mut other);
        stretch.extend(other.bytes());
    }
    Case {
        image: vec![0xEE; room],
        ..from_nothing(&carousel, stretch)
    }
}

fn poked(modules: usize, blocks: usize, bit: usize) -> Case {
    let mut record = announced(8, 1, &self::modules(&vec![blocks as u32; modules]));
    record.marks[bit / BITS] |= 1 << (bit % BITS);
    lent(record)
}

/// A record that is lent, with a section of each kind.
fn lent(record: Record) -> Case {
    let carousel = carousel(1, &[1]);
    Case {
        record,
        image: vec![0xEE; 40],
        stretch: [
            announcement(&carousel),
            own_block(&carousel, 0, 0),
            make::table(&[], &[]),
        ]
        .concat(),
        budget: 2,
    }
}

/// Records that break their rule beyond its limits, or at their far end, and some at the limits that keep it.
fn broken() -> Vec<Record> {
    let of = |block_size, sizes: &[u32]| announced(8, block_size, &modules(sizes));
    let (full, few) = (of(2, &[3; MOST_MODULES]), of(2, &[3; 17]));
    let mut all = counted([full, few, Record::empty()]);
    for place in [17, 24, 31] {
        all.extend(changed(few, place, UNUSED));
        all.extend(changed(Record::empty(), place, UNUSED));
    }
    for place in [15, 16, 31] {
        all.extend(changed(full, place, USED));
    }
    for (one, other) in PAIRS {
        let mut record = full;
        record.modules[other].number = record.modules[one].number;
        all.push(record);
    }
    for block_size in [0, LARGEST_BLOCK as u16 + 1] {
        all.push(of(block_size, &[3; MOST_MODULES]));
    }
    let limits = sums(400).into_iter().chain(sizes(8));
    all.extend(limits.map(|(block_size, modules)| announced(8, block_size, &modules)));
    let mut last = Record::empty();
    mark(&mut last, MOST_MODULES - 1, MOST_BLOCKS - 1);
    all.push(last);
    all
}

/// A change of an entry.
type Change = fn(&mut baseline::Module);

/// Of one that is not used, and of one that is.
const UNUSED: [Change; 4] = [
    |module| module.number = 1,
    |module| module.size = 1,
    |module| module.version = 1,
    |module| module.start = 51,
];
const USED: [Change; 4] = [
    |module| module.start += 1,
    |module| module.start = 0,
    |module| module.size = 0,
    |module| module.size = 2_049,
];

fn changed(record: Record, place: usize, changes: [Change; 4]) -> [Record; 4] {
    changes.map(|change| {
        let mut other = record;
        change(&mut other.modules[place]);
        other
    })
}

/// The same records with another count.
fn counted(records: [Record; 3]) -> Vec<Record> {
    let counts = [31, 33, 34, 63, 64, 255, 256, 1_024, 0x8000, 0xFFFF];
    let counted = |count| records.map(|record| Record { count, ..record });
    counts.into_iter().flat_map(counted).collect()
}

#[cfg(test)]
mod tests {
    use super::*;
    use baseline::{Answer, Refusal};

    /// What becomes of the sections of a case.
    fn answers(bound: Bound) -> Vec<Answer> {
        let mut case = bound.case();
        let places = crate::stretches::sections(&case.stretch);
        let step =
            |place: std::ops::Range<usize>| case.record.step(&case.stretch[place], &mut case.image);
        places.into_iter().map(step).collect()
    }

    fn count(answers: &[Answer], answer: Answer) -> usize {
        answers.iter().filter(|other| **other == answer).count()
    }

    #[test]
    fn announcements_are_taken_up_to_the_limits() {
        let refused = Answer::Refused(Refusal::plain(10));
        let counts = answers(Bound::Counts);
        assert_eq!(
            (count(&counts, Answer::New), count(&counts, refused)),
            (3 * 7, 3 * 22)
        );
        assert_eq!(
            counts[14..18],
            [Answer::New, Answer::Same, refused, refused]
        );
        let twice = answers(Bound::Twice);
        assert_eq!(
            count(&twice, Answer::Refused(Refusal::plain(11))),
            2 * PAIRS.len()
        );
        // With a blockSize of 256 a sum of 262,144 in one module is the most blocks, too.
        for block_size in [256, 4_066] {
            let sums = answers(Bound::Sums(block_size));
            assert_eq!(count(&sums, refused), 2 * (8 + 4));
        }
        assert_eq!(count(&answers(Bound::Same), refused), 0);
    }

    #[test]
    fn blocks_are_stored_up_to_the_limits() {
        for (places, place) in [(1, 0), (32, 31)] {
            let all = answers(Bound::Numbers { places, place });
            assert_eq!(count(&all, Answer::Stored), 15);
            assert_eq!(count(&all, Answer::Refused(Refusal::plain(17))), 15);
            assert_eq!(count(&all, Answer::Refused(Refusal::plain(16))), 3 * 10);
            // Of blocks 0, 257 and 65,535 the upper byte is the right number.
            assert_eq!(count(&all, Answer::Refused(Refusal::plain(9))), 4 * 25 - 3);
        }
        for blocks in BLOCKS {
            assert!(
                count(&answers(Bound::LastOf(blocks)), Answer::Stored) >= 1,
                "{blocks}"
            );
        }
        for modules in 17..=32 {
            assert_eq!(
                count(&answers(Bound::Whole(modules)), Answer::Stored),
                3 * modules
            );
        }
    }

    #[test]
    fn blocks_need_an_image_for_all() {
        for (room, stored) in [(0, 0), (1, 6), (2, 6)] {
            let all = answers(Bound::LastMarks {
                block_size: 8,
                room,
            });
            assert_eq!(
                (count(&all, Answer::Stored), count(&all, Answer::Repeated)),
                (stored, stored)
            );
            assert_eq!(
                count(&all, Answer::Refused(Refusal::plain(15))),
                12 - 2 * stored
            );
        }
        for (size, room) in IMAGES {
            let short = count(
                &answers(Bound::Image { size, room }),
                Answer::Refused(Refusal::plain(15)),
            );
            assert_eq!(short, if room < size { 3 } else { 0 }, "{size} {room}");
        }
    }

    #[test]
    fn most_lent_records_break_their_rule() {
        let ruled = |bound: &Bound| bound.case().record.is_ruled();
        assert!(pokes().iter().filter(|bound| !ruled(bound)).count() > 2_000);
        assert!(pokes().iter().filter(|bound| ruled(bound)).count() > 1_000);
        let all = broken();
        assert!(all.iter().filter(|record| !record.is_ruled()).count() > 80);
        assert!(all.iter().filter(|record| record.is_ruled()).count() > 20);
    }
}
