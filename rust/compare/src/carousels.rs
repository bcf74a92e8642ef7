//! Carousels by chance: what is announced, the bytes of its modules, and sections of both, right and wrong.

use crate::limits::{before, EDGES, EQUAL_SHARE, PROGRAM_IMAGE, SECTION_NUMBERS};
use crate::limits::{LARGEST_BLOCK, MOST_BLOCKS, MOST_BYTES, MOST_MODULES};
use crate::random::Random;
use make::{Announcement, Block, Module, Section};

/// The largest blockSize.
const MOST_BLOCK_SIZE: u16 = LARGEST_BLOCK as u16;

/// A carousel that a station could send.
#[derive(Clone)]
pub struct Carousel {
    pub download: u32,
    pub block_size: u16,
    pub modules: Vec<Module>,
    /// The bytes of all modules, one after another.
    pub bytes: Vec<u8>,
}

/// A blockSize and the sizes of modules, within the paper's limits and often at them.
fn shape(random: &mut Random) -> (u16, Vec<u32>) {
    let size = random.within(1..=64);
    let few = random.within(1..=4);
    let many = random.within(before::MOST_MODULES + 1..=MOST_MODULES);
    let mut sizes = |count: usize, most: usize| -> Vec<u32> {
        (0..count).map(|_| random.within(1..=most) as u32).collect()
    };
    match size {
        // As many blocks as there can be, one byte short of them, and in every module: a mark for each bit.
        1 | 2 => (size as u16, vec![MOST_BLOCKS as u32 * size as u32; few]),
        3 => (3, vec![3 * MOST_BLOCKS as u32 - 1]),
        4 => (1, vec![MOST_BLOCKS as u32; many.max(few * 8)]),
        // What the programs' image has room for, and a byte more.
        5 => (MOST_BLOCK_SIZE, vec![PROGRAM_IMAGE as u32]),
        6 => (256, vec![PROGRAM_IMAGE as u32, 1]),
        7 if few == 1 => largest(random),
        7 => (1, last_full()),
        8 => (MOST_BLOCK_SIZE, sizes(few, 16_000)),
        9 => (size as u16, sizes(MOST_MODULES, 2 * size)),
        10 | 11 => (size as u16, sizes(many, 2 * size)),
        // Sizes that divide evenly.
        15..=24 => (size as u16, vec![size as u32 * few as u32; few]),
        _ => (size as u16, sizes(few, 5 * size)),
    }
}

/// The last of all modules has as many blocks as there can be.
fn last_full() -> Vec<u32> {
    let mut sizes = vec![1; MOST_MODULES];
    sizes[MOST_MODULES - 1] = MOST_BLOCKS as u32;
    sizes
}

/// The sum at its limit. Such an image is dear to compare, so only few have one.
fn largest(random: &mut Random) -> (u16, Vec<u32>) {
    let most = MOST_BYTES as u32;
    match random.below(5) {
        0 => (400, vec![most - 1, 1]),
        1 => ((MOST_BYTES / MOST_BLOCKS) as u16, vec![most]),
        2 => (MOST_BLOCK_SIZE, vec![most]),
        3 => (MOST_BLOCK_SIZE - 1, vec![EQUAL_SHARE; MOST_MODULES]),
        // Every limit at once.
        _ => (
            (EQUAL_SHARE as usize / MOST_BLOCKS) as u16,
            vec![EQUAL_SHARE; MOST_MODULES],
        ),
    }
}

impl Carousel {
    /// Any carousel within the limits.
    pub fn any(random: &mut Random) -> Carousel {
        let (block_size, sizes) = shape(random);
        // An odd stride, so that the numbers differ; they go round past 0xFFFF.
        let first = random.pick(&[0, 1, 0xFFFF, 0x0100, 0x7FF8]);
        let stride = 2 * random.below(200) as u16 + 1;
        let modules = sizes.iter().enumerate().map(|(place, &size)| Module {
            number: (place as u16).wrapping_mul(stride).wrapping_add(first),
            size,
            version: random.byte(),
        });
        let modules = modules.collect();
        let other = random.number() as u32;
        let mut carousel = Carousel {
            download: random.pick(&[0, 1, u32::MAX, other, other]),
            block_size,
            modules,
            bytes: vec![],
        };
        carousel.fill(random);
        carousel
    }

    /// Gives the modules other bytes, as many as their sizes say.
    fn fill(&mut self, random: &mut Random) {
        self.bytes = random.bytes(self.total());
    }

    /// The sizes together.
    pub fn total(&self) -> usize {
        self.start(self.modules.len())
    }

    /// Where the module at a place begins: the sizes before it, together.
    pub fn start(&self, place: usize) -> usize {
        let sizes = self.modules[..place].iter().map(|module| module.size);
        sizes.sum::<u32>() as usize
    }

    /// How many blocks the module at a place has.
    pub fn blocks(&self, place: usize) -> usize {
        self.modules[place]
            .size
            .div_ceil(u32::from(self.block_size)) as usize
    }

    /// The data of a block.
    pub fn data(&self, place: usize, block: usize) -> &[u8] {
        let size = usize::from(self.block_size);
        let module = &self.bytes[self.start(place)..][..self.modules[place].size as usize];
        let (_, rest) = module.split_at(block * size);
        &rest[..rest.len().min(size)]
    }

    /// A place and a block there; now and then the last place, and a block where a number goes round.
    pub fn any_block(&self, random: &mut Random) -> (usize, usize) {
        let count = self.modules.len();
        let place = random.below(count);
        let place = random.pick(&[place, place, count - 1]);
        let blocks = self.blocks(place);
        let (any, edge) = (random.below(blocks), random.pick(&EDGES));
        (place, random.pick(&[any, any, edge.min(blocks - 1)]))
    }

    /// Gives the modules bytes after another list. What is as it was there has its old ones, as a station sends them; now and then
    /// all are others.
    pub fn fill_after(&mut self, old: &Carousel, random: &mut Random) {
        self.fill(random);
        if random.one_in(10) {
            return;
        }
        for place in 0..self.modules.len() {
            if self.is_as_in(old, place) {
                let start = self.start(place);
                let part = start..start + self.modules[place].size as usize;
                self.bytes[part.clone()].copy_from_slice(&old.bytes[part]);
            }
        }
    }

    /// Whether the module at a place is one of the other list's, and begins where it did (02, §5).
    fn is_as_in(&self, old: &Carousel, place: usize) -> bool {
        let module = &self.modules[place];
        let before = old.modules.iter().position(|other| other == module);
        (self.download, self.block_size) == (old.download, old.block_size)
            && before.is_some_and(|before| old.start(before) == self.start(place))
    }

    /// One thing is announced otherwise, so that "same" must be told from "new" by every field.
    pub fn change(&mut self, random: &mut Random) {
        let old = self.clone();
        let place = random.below(self.modules.len());
        let module = &mut self.modules[place];
        match random.below(9) {
            0 => self.download ^= 1 << random.below(32),
            1 if self.block_size < MOST_BLOCK_SIZE => self.block_size += 1,
            2 => module.version ^= 1 << random.below(8),
            3 => module.number ^= 1 << random.below(16),
            4 if module.size > 1 => module.size -= 1,
            5 => self.modules.rotate_left(1),
            6 if self.modules.len() > 1 => drop(self.modules.pop()),
            7 if self.modules.len() < MOST_MODULES && self.total() < MOST_BYTES => {
                let number = self.modules[0].number ^ 0x8000;
                self.modules.push(Module {
                    number,
                    size: 1,
                    version: 0,
                });
            }
            _ => *self = Carousel::any(random),
        }
        self.fill_after(&old, random);
    }

    /// The announcement, with what need not be there and is not read there by chance.
    pub fn announcement(&self, random: &mut Random) -> Announcement {
        let mut announcement = Announcement::new(self.download, self.block_size, &self.modules);
        random.fill(&mut announcement.unread);
        announcement.identifier = random.number() as u32;
        announcement.compatibility = some(random);
        announcement.private = some(random);
        announcement.info = some(random);
        announcement.adaptation = some(random);
        announcement
    }

    /// The block of this number in the module at a place.
    pub fn block(&self, random: &mut Random, place: usize, block: usize) -> Block {
        let data = self.data(place, block).to_vec();
        // The largest block leaves no room for adaptation bytes.
        let adaptation = if data.len() > 4_000 {
            vec![]
        } else {
            some(random)
        };
        Block {
            download: self.download,
            module: self.modules[place].number,
            version: self.modules[place].version,
            unread: random.byte(),
            number: block as u16,
            data,
            adaptation,
        }
    }

    /// The announcement with one of the limits of refusals 10 and 11 met, or passed by one.
    pub fn at_limits(&self, random: &mut Random) -> Announcement {
        let mut announcement = self.announcement(random);
        for _ in 0..random.pick(&[1, 1, 1, 2]) {
            set_limit(random, &mut announcement);
        }
        announcement
    }
}

/// Mostly nothing, else a few bytes.
fn some(random: &mut Random) -> Vec<u8> {
    let length = random.pick(&[0, 0, 0, 1, 2, 9]);
    random.bytes(length)
}

fn set_limit(random: &mut Random, announcement: &mut Announcement) {
    let most = MOST_BLOCKS as u32 * u32::from(announcement.block_size);
    let modules = &mut announcement.modules;
    let place = random.below(modules.len().max(1));
    match random.below(6) {
        0 => {
            announcement.block_size =
                random.pick(&[0, 1, MOST_BLOCK_SIZE, MOST_BLOCK_SIZE + 1, 0xFFFF])
        }
        1 => *modules = same_size(random.pick(&[0, 1, 16, 17, 31, 32, 33, 40]), 1),
        2 => {
            if let Some(module) = modules.get_mut(place) {
                let (all, image) = (MOST_BYTES as u32, PROGRAM_IMAGE as u32);
                module.size =
                    random.pick(&[0, 1, most, most + 1, image + 1, all, all + 1, u32::MAX]);
            }
        }
        3 => {
            // Together as many bytes as there can be, one more, or past what 32 bits can tell.
            let share = EQUAL_SHARE;
            let round = share.wrapping_mul(MOST_MODULES as u32 - 1).wrapping_neg();
            announcement.block_size = random.pick(&[9, 400, MOST_BLOCK_SIZE]);
            *modules = same_size(MOST_MODULES, share);
            let size = random.pick(&[share - 1, share, share + 1, round, u32::MAX]);
            modules[place % MOST_MODULES].size = size;
        }
        4 => {
            announcement.block_size = random.pick(&[255, 256, 257, 400]);
            *modules = same_size(2, 1);
            modules[place % 2].size = random.pick(&[MOST_BYTES as u32 - 1, MOST_BYTES as u32]);
        }
        _ => {
            if let Some(&module) = modules.get(place) {
                let at = random.within(0..=modules.len());
                modules.insert(at, module);
            }
        }
    }
}

/// So many modules of one size.
fn same_size(count: usize, size: u32) -> Vec<Module> {
    let module = |place| Module {
        number: place as u16,
        size,
        version: 0,
    };
    (0..count).map(module).collect()
}

/// A block with a field that may meet one of refusals 9 and 12 to 17, or two, so that the order is seen.
pub fn wrong_block(random: &mut Random, carousel: &Carousel) -> Section {
    let (place, number) = carousel.any_block(random);
    let mut block = carousel.block(random, place, number);
    let faults = random.pick(&[1, 1, 1, 2]);
    for _ in 0..faults {
        set_wrong(random, &mut block, carousel.blocks(place));
    }
    let mut section = block.section();
    match random.below(8) {
        0 => section.extension ^= 1 << random.below(16),
        1 => {
            // Beside the right one, or the upper half of a large number.
            let beside = section.number.wrapping_add(random.pick(&[1, 255]));
            section.number = random.pick(&[beside, beside, (block.number >> 8) as u8]);
            section.last = 255;
        }
        2 => section.version ^= 1 << random.below(5),
        _ => {}
    }
    section
}

/// A block as announced, mostly under the section header of another version (02, §6).
pub fn stale_block(random: &mut Random, carousel: &Carousel) -> Section {
    let (place, number) = carousel.any_block(random);
    let mut section = carousel.block(random, place, number).section();
    let another = random.byte() % 32;
    section.version = match random.below(3) {
        0 => section.version ^ 1 << random.below(5),
        1 => section.version.wrapping_sub(1) % 32,
        _ => random.pick(&[0, 31, another]),
    };
    section
}

fn set_wrong(random: &mut Random, block: &mut Block, blocks: usize) {
    match random.below(10) {
        0 => block.download ^= 1 << random.below(32),
        1 => block.module ^= 1 << random.below(16),
        2 => block.version ^= 1 << random.below(8),
        3 => {
            // Past the last by one or more; so that the section number is that of a block; as a mark of the next module.
            let number = usize::from(block.number);
            let past = blocks + random.below(400);
            let round = number + SECTION_NUMBERS * random.within(1..=200);
            block.number = random.pick(&[blocks, past, round, number + MOST_BLOCKS, 0xFFFF]) as u16;
        }
        4 => block.number ^= 1,
        5 => drop(block.data.pop()),
        6 if block.data.len() < 4_000 => block.data.push(random.byte()),
        7 | 8 if !block.data.is_empty() => {
            let at = random.below(block.data.len());
            block.data[at] ^= 1 << random.below(8);
        }
        _ => block.data.clear(),
    }
}

#[cfg(test)]
mod tests {
    use super::*;
    use baseline::{Answer, Record, Refusal};

    #[test]
    fn every_carousel_is_accepted_and_handed_out() {
        for stretch in 0..300 {
            let random = &mut Random::of(1, stretch);
            let carousel = Carousel::any(random);
            let mut record = Record::empty();
            let mut image = vec![0; carousel.total()];
            let section = carousel.announcement(random).section().bytes();
            assert_eq!(record.step(&section, &mut image), Answer::New);
            for place in 0..carousel.modules.len() {
                for block in 0..carousel.blocks(place) {
                    let section = carousel.block(random, place, block).section().bytes();
                    assert_eq!(record.step(&section, &mut image), Answer::Stored);
                }
                assert!(!record
                    .handout(&image, carousel.modules[place].number)
                    .is_empty());
            }
            assert_eq!(image, carousel.bytes);
        }
    }

    #[test]
    fn a_changed_carousel_is_another() {
        for stretch in 0..300 {
            let random = &mut Random::of(1, stretch);
            let mut carousel = Carousel::any(random);
            let before = (
                carousel.download,
                carousel.block_size,
                carousel.modules.clone(),
            );
            carousel.change(random);
            // Only a lone module, turned round, stays what it was.
            let after = (carousel.download, carousel.block_size, carousel.modules);
            assert!(before != after || before.2.len() == 1);
        }
    }

    #[test]
    fn stale_blocks_are_refused_and_nothing_else_is_wrong_with_them() {
        let mut seen = [0; 2];
        for stretch in 0..300 {
            let random = &mut Random::of(1, stretch);
            let carousel = Carousel::any(random);
            let mut record = Record::empty();
            let mut image = vec![0; carousel.total()];
            record.step(&carousel.announcement(random).bytes(), &mut image);
            let mut section = stale_block(random, &carousel);
            let place = carousel
                .modules
                .iter()
                .position(|module| module.number == section.extension);
            let own = carousel.modules[place.unwrap()].version % 32;
            let stale = section.version != own;
            let answer = record.step(&section.bytes(), &mut image);
            assert_eq!(
                answer,
                if stale {
                    Answer::Refused(Refusal::plain(9))
                } else {
                    Answer::Stored
                }
            );
            seen[usize::from(stale)] += 1;
            section.version = own;
            let answer = record.step(&section.bytes(), &mut image);
            assert_eq!(
                answer,
                if stale {
                    Answer::Stored
                } else {
                    Answer::Repeated
                }
            );
        }
        assert!(seen[0] > 0 && seen[1] > 200, "{seen:?}");
    }

    #[test]
    fn limits_and_wrong_blocks_meet_their_refusals() {
        let mut seen = [false; 21];
        for stretch in 0..3_000 {
            let random = &mut Random::of(1, stretch);
            let carousel = Carousel::any(random);
            let mut record = Record::empty();
            let mut image = vec![0; carousel.total()];
            let announcement = carousel.announcement(random).section();
            let sections = [
                carousel.at_limits(random).section(),
                announcement,
                wrong_block(random, &carousel),
            ];
            for section in sections {
                if let Answer::Refused(refusal) = record.step(&section.bytes(), &mut image) {
                    seen[usize::from(refusal.number)] = true;
                }
            }
        }
        for number in [9, 10, 11, 12, 13, 14, 16] {
            assert!(seen[number], "{number}");
        }
    }
}
