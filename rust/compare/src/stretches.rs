//! A case: a record and an image to start from, a stretch of sections, and a budget.

use std::ops::Range;

use baseline::Record;

use crate::carousels::{stale_block, wrong_block, Carousel};
use crate::damage;
use crate::limits::{EDGES, PROGRAM_IMAGE};
use crate::random::Random;
use crate::starts;
use crate::tables;
use make::BEFORE_LENGTH;

/// The budget of the programs: more sections than a stretch has.
const PROGRAM_BUDGET: usize = 65_536;
/// The blocks of a module that are mostly sent in a row, at most.
const ROW: usize = 20;

/// What both receivers are lent.
pub struct Case {
    pub record: Record,
    pub image: Vec<u8>,
    pub stretch: Vec<u8>,
    pub budget: usize,
}

impl Case {
    /// Any case.
    pub fn any(random: &mut Random) -> Case {
        let mut carousel = Carousel::any(random);
        let mut image = starts::image(random, carousel.total());
        let record = start(random, &carousel, &mut image);
        let stretch = stretch(random, &mut carousel);
        let budget = budget(random, sections(&stretch).len());
        Case {
            record,
            image,
            stretch,
            budget,
        }
    }
}

/// Nothing announced, a carousel partly received, or a record that breaks its rule.
fn start(random: &mut Random, carousel: &Carousel, image: &mut [u8]) -> Record {
    let kind = random.below(20);
    if kind < 8 {
        return Record::empty();
    }
    let mut record = starts::announced_of(carousel);
    starts::receive_some(random, &mut record, carousel, image);
    if kind < 17 {
        return record;
    }
    let clause = random.below(starts::CLAUSES);
    starts::break_clause(random, clause, &record)
}

/// None, one, just enough, one too few, or more than enough.
fn budget(random: &mut Random, sections: usize) -> usize {
    match random.below(20) {
        0 => 0,
        1 => 1,
        2..=4 => sections,
        5..=7 => sections.saturating_sub(1),
        8 => usize::MAX,
        _ => PROGRAM_BUDGET,
    }
}

/// Where the sections of a stretch lie, until it ends, is stuffed or falls short.
pub fn sections(stretch: &[u8]) -> Vec<Range<usize>> {
    let mut all = vec![];
    let mut at = 0;
    while let Some(length) = length_at(&stretch[at..]) {
        all.push(at..at + length);
        at += length;
    }
    all
}

/// The length of the section that stands whole at the head of these bytes.
fn length_at(bytes: &[u8]) -> Option<usize> {
    let &[table, high, low] = bytes.first_chunk::<BEFORE_LENGTH>()?;
    let length = BEFORE_LENGTH + usize::from(u16::from_be_bytes([high & 0x0F, low]));
    (table != 0xFF && length <= bytes.len()).then_some(length)
}

/// A stretch of several pieces. Mostly it begins with the carousel's announcement: without it blocks are only 12.
fn stretch(random: &mut Random, carousel: &mut Carousel) -> Vec<u8> {
    let mut stretch = vec![];
    if !random.one_in(5) {
        stretch.extend(carousel.announcement(random).section().bytes());
    }
    // Comparing an image of the most bytes takes its time.
    let most = if carousel.total() > PROGRAM_IMAGE + 1 {
        6
    } else {
        24
    };
    for _ in 0..random.within(0..=most) {
        piece(random, carousel, &mut stretch);
    }
    finish(random, carousel, &mut stretch);
    stretch
}

/// A piece: a section or some. The carousel may become another one.
fn piece(random: &mut Random, carousel: &mut Carousel, stretch: &mut Vec<u8>) {
    match random.below(100) {
        0..=8 => stretch.extend(carousel.announcement(random).section().bytes()),
        9..=13 => {
            carousel.change(random);
            stretch.extend(carousel.announcement(random).section().bytes());
        }
        14..=33 => some_blocks(random, carousel, stretch),
        34..=40 => whole_module(random, carousel, stretch),
        41..=52 => stretch.extend(wrong_block(random, carousel).bytes()),
        53..=55 => stretch.extend(stale_block(random, carousel).bytes()),
        56..=62 => stretch.extend(carousel.at_limits(random).section().bytes()),
        63..=70 => stretch.extend(tables::any(random, false).bytes()),
        71..=74 => stretch.extend(tables::any(random, true).bytes()),
        75..=91 => {
            let mut section = any_section(random, carousel);
            damage::damage(random, &mut section);
            stretch.extend(section);
        }
        92..=94 => stretch.extend(damage::any_body(random)),
        95..=98 => stretch.extend(damage::edge_of_length(random)),
        _ => {
            let length = random.within(1..=30);
            stretch.extend(random.bytes(length));
        }
    }
}

/// A section that was made right.
fn any_section(random: &mut Random, carousel: &Carousel) -> Vec<u8> {
    let section = match random.below(3) {
        0 => carousel.announcement(random).section(),
        1 => {
            let (place, block) = carousel.any_block(random);
            carousel.block(random, place, block).section()
        }
        _ => tables::any(random, false),
    };
    section.bytes()
}

/// Some blocks in any order; one may come twice.
pub fn some_blocks(random: &mut Random, carousel: &Carousel, stretch: &mut Vec<u8>) {
    for _ in 0..random.within(1..=5) {
        let (place, number) = carousel.any_block(random);
        let section = carousel.block(random, place, number).section().bytes();
        for _ in 0..random.pick(&[1, 1, 1, 2]) {
            stretch.extend(&section);
        }
    }
}

/// All blocks of a module, from the last or from the first; of a module with many mostly a row of them, about a number that goes round.
pub fn whole_module(random: &mut Random, carousel: &Carousel, stretch: &mut Vec<u8>) {
    let (place, _) = carousel.any_block(random);
    let blocks = carousel.blocks(place);
    let edge = random.pick(&EDGES).min(blocks - 1);
    let first = edge.saturating_sub(ROW / 2);
    let mut numbers: Vec<_> = (first..blocks.min(first + ROW)).collect();
    // The more blocks there are, the rarer all of them.
    if blocks <= ROW || random.below(blocks) < ROW {
        numbers = (0..blocks).collect();
    }
    if random.one_in(2) {
        numbers.reverse();
    }
    for number in numbers {
        stretch.extend(carousel.block(random, place, number).section().bytes());
    }
}

/// How a stretch ends: at a section's end, with stuffing, or short.
fn finish(random: &mut Random, carousel: &Carousel, stretch: &mut Vec<u8>) {
    match random.below(8) {
        0 | 1 => {
            let length = random.pick(&[1, 2, 3, 20]);
            stretch.extend(vec![0xFF; length]);
        }
        2 | 3 => {
            let mut section = any_section(random, carousel);
            let most = random.pick(&[1, 2, 3, 8, section.len() - 1]);
            section.truncate(most);
            stretch.extend(section);
        }
        4 => {
            let cut = random.within(0..=2);
            stretch.truncate(stretch.len().saturating_sub(cut));
        }
        _ => {}
    }
}

#[cfg(test)]
mod tests {
    use super::*;

    #[test]
    fn sections_are_found_until_a_stop() {
        let section = [0x74, 0xF0, 2, 9, 9];
        let twice = [section, section].concat();
        let stuffed = [&section[..], &[0xFF; 5]].concat();
        assert_eq!(sections(&twice), [0..5, 5..10]);
        assert_eq!(sections(&twice[..9]), sections(&section));
        assert_eq!(sections(&stuffed), sections(&section));
        assert_eq!(sections(&[]), []);
    }

    #[test]
    fn a_case_is_made_again_from_its_seed() {
        let (one, again) = (
            Case::any(&mut Random::of(3, 5)),
            Case::any(&mut Random::of(3, 5)),
        );
        assert_eq!(one.stretch, again.stretch);
        assert_eq!(one.image, again.image);
        assert_eq!(one.record, again.record);
    }
}
