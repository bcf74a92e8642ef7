//! Cases of many new announcements (02, §5). Each changes a little of the last, so that modules are kept, moved, emptied, dropped and
//! announced again; among them come blocks of what is announced and of what was.

use baseline::Record;
use make::Module;

use crate::carousels::{wrong_block, Carousel};
use crate::limits::{LARGEST_BLOCK, MOST_BLOCKS, MOST_BYTES, MOST_MODULES};
use crate::random::Random;
use crate::starts;
use crate::stretches::{some_blocks, whole_module, Case};

/// More sections than a stretch has.
const BUDGET: usize = 65_536;
/// The image is compared after each of many sections, so mostly it is short.
const SHORT: usize = 4_000;
/// Until a list is within the limits, so often another is tried.
const TRIES: usize = 50;

/// Any such case.
pub fn case(random: &mut Random) -> Case {
    let mut carousel = first(random);
    let mut image = image(random, carousel.total());
    let record = start(random, &carousel, &mut image);
    let mut past = vec![];
    let mut stretch = carousel.announcement(random).bytes();
    for _ in 0..random.within(2..=8) {
        blocks(random, &carousel, &past, &mut stretch);
        let next = next(random, &carousel, &past);
        past.push(std::mem::replace(&mut carousel, next));
        stretch.extend(carousel.announcement(random).bytes());
    }
    blocks(random, &carousel, &past, &mut stretch);
    Case {
        record,
        image,
        stretch,
        budget: BUDGET,
    }
}

/// The carousel that is announced first: mostly a short one, and often one with as many modules or blocks as there can be.
fn first(random: &mut Random) -> Carousel {
    let full = random.one_in(5);
    loop {
        let carousel = Carousel::any(random);
        let short = carousel.total() <= SHORT || random.one_in(40);
        if short && (is_full(&carousel) || !full) {
            return carousel;
        }
    }
}

/// Whether the last place is taken, or a module has the most blocks.
fn is_full(carousel: &Carousel) -> bool {
    let count = carousel.modules.len();
    count == MOST_MODULES || (0..count).any(|place| carousel.blocks(place) == MOST_BLOCKS)
}

/// Room for what is announced first, and mostly for some more: later lists may be longer, and are 15 then.
fn image(random: &mut Random, total: usize) -> Vec<u8> {
    if random.one_in(20) {
        return starts::image(random, total);
    }
    let more = random.below(200);
    let room = total + random.pick(&[0, 1, more, more]);
    random.bytes(room)
}

/// Nothing announced, or the first carousel partly received.
fn start(random: &mut Random, carousel: &Carousel, image: &mut [u8]) -> Record {
    if random.one_in(3) {
        return Record::empty();
    }
    let mut record = starts::announced_of(carousel);
    starts::receive_some(random, &mut record, carousel, image);
    record
}

/// What comes between two announcements.
fn blocks(random: &mut Random, now: &Carousel, past: &[Carousel], stretch: &mut Vec<u8>) {
    for _ in 0..random.within(1..=4) {
        match random.below(10) {
            0..=2 => some_blocks(random, now, stretch),
            3..=5 => whole_module(random, now, stretch),
            6 => stretch.extend(wrong_block(random, now).bytes()),
            7 => stretch.extend(now.announcement(random).bytes()),
            8 => some_blocks(random, past.last().unwrap_or(now), stretch),
            _ => {
                let place = random.within(0..=past.len());
                some_blocks(random, past.get(place).unwrap_or(now), stretch);
            }
        }
    }
}

/// Another announcement, mostly: what stood before, or the list with a change or two.
fn next(random: &mut Random, now: &Carousel, past: &[Carousel]) -> Carousel {
    if !past.is_empty() && random.one_in(5) {
        return past[random.below(past.len())].clone();
    }
    for _ in 0..TRIES {
        let mut next = now.clone();
        for _ in 0..random.pick(&[1, 1, 1, 2]) {
            change(random, &mut next);
        }
        if is_within(&next) {
            next.fill_after(now, random);
            return next;
        }
    }
    now.clone()
}

/// One change of the list. It may pass a limit, or leave no module.
fn change(random: &mut Random, carousel: &mut Carousel) {
    let fresh = fresh(random, &carousel.modules);
    let modules = &mut carousel.modules;
    let Some(last) = modules.len().checked_sub(1) else {
        return;
    };
    let place = random.within(0..=last);
    let other = random.within(0..=last);
    let size = random.within(1..=3 * usize::from(carousel.block_size) + 1) as u32;
    match random.below(20) {
        0 | 1 => {
            let version = &mut modules[place].version;
            *version = version.wrapping_add(random.pick(&[1, 32, 224, 255]));
        }
        // One more at the end, or in front of others.
        2 => modules.push((fresh, size, random.byte()).into()),
        3 => modules.insert(place, (fresh, size, random.byte()).into()),
        4 => drop(modules.pop()),
        5 => drop(modules.remove(place)),
        // Another module where one was.
        6 => modules[place].number = fresh,
        // Near the front, so that many lie behind.
        7..=10 => join(random, modules, place.min(other), fresh),
        11..=14 => split(random, modules, place.min(other), fresh),
        15 => modules.swap(place, other),
        16 if random.one_in(2) => modules[place].size += 1,
        16 => shorten(&mut modules[place]),
        // A byte more of one and less of another: what lies past both begins where it did.
        17 => {
            modules[place].size += 1;
            shorten(&mut modules[other]);
        }
        18 => carousel.download ^= 1 << random.below(32),
        _ if random.one_in(2) => carousel.block_size += 1,
        _ => carousel.block_size = carousel.block_size.saturating_sub(1),
    }
}

/// A byte less.
fn shorten(module: &mut Module) {
    module.size = module.size.saturating_sub(1);
}

/// One module instead of several from a place on, with as many bytes: those behind move towards the front.
fn join(random: &mut Random, modules: &mut Vec<Module>, place: usize, number: u16) {
    let most = modules.len().min(place + 4);
    let end = random.within(place + 1..=most);
    let size = modules.drain(place..end).map(|module| module.size).sum();
    modules.insert(place, (number, size, random.byte()).into());
}

/// A module's bytes are those of two: those behind move towards the rear.
fn split(random: &mut Random, modules: &mut Vec<Module>, place: usize, number: u16) {
    let size = modules[place].size;
    let front = random.within(0..=size as usize) as u32;
    modules[place].size -= front;
    modules.insert(place, (number, front, random.byte()).into());
}

/// A number that is not in the list.
fn fresh(random: &mut Random, modules: &[Module]) -> u16 {
    let mut number = random.number() as u16;
    while modules.iter().any(|module| module.number == number) {
        number = number.wrapping_add(1);
    }
    number
}

/// Whether refusal 10 does not meet the list. A number stands in it only once, by how it is made.
fn is_within(carousel: &Carousel) -> bool {
    let block_size = usize::from(carousel.block_size);
    let most = (MOST_BLOCKS * block_size).min(MOST_BYTES) as u32;
    let sizes = || carousel.modules.iter().map(|module| module.size);
    (1..=LARGEST_BLOCK).contains(&block_size)
        && (1..=MOST_MODULES).contains(&carousel.modules.len())
        && sizes().all(|size| (1..=most).contains(&size))
        && sizes().sum::<u32>() <= MOST_BYTES as u32
}

#[cfg(test)]
mod tests {
    use super::*;
    use crate::kept::{Kept, BECAME};
    use crate::stretches::sections;
    use baseline::Answer;

    /// What the independent receiver alone makes of so many cases.
    #[derive(Default)]
    struct Seen {
        kept: Kept,
        same: u64,
        stored: u64,
        repeated: u64,
        /// By number.
        refused: [u64; 21],
        /// Modules that stood in an earlier list, not in the last, and stand in this one as they were.
        again: u64,
    }

    fn seen(cases: u64) -> Seen {
        let mut seen = Seen::default();
        for number in 0..cases {
            let Case {
                mut record,
                mut image,
                stretch,
                ..
            } = case(&mut Random::of(1, number));
            let mut past = vec![];
            for place in sections(&stretch) {
                let before = record;
                match record.step(&stretch[place], &mut image) {
                    Answer::New => {
                        seen.kept.announced([&before, &record], image.len());
                        seen.again += again(&past, &before, &record);
                        past.push(before);
                    }
                    Answer::Same => seen.same += 1,
                    Answer::Stored => seen.stored += 1,
                    Answer::Repeated => seen.repeated += 1,
                    Answer::Refused(refusal) => seen.refused[usize::from(refusal.number)] += 1,
                }
            }
        }
        seen
    }

    /// How many modules an earlier record had, the last had not, and this one has again. They begin empty.
    fn again(past: &[Record], last: &Record, new: &Record) -> u64 {
        let has = |record: &Record, number: u16| {
            let used = &record.modules[..usize::from(record.count)];
            used.iter().any(|module| module.number == number)
        };
        let mut count = 0;
        for (place, module) in new.modules[..usize::from(new.count)].iter().enumerate() {
            let earlier = past.iter().any(|record| record.modules.contains(module));
            if earlier && !has(last, module.number) {
                let words = baseline::WORDS;
                let marks = &new.marks[place * words..(place + 1) * words];
                assert!(marks.iter().all(|&word| word == 0));
                count += 1;
            }
        }
        count
    }

    #[test]
    fn announcements_keep_move_empty_and_drop_what_has_marks() {
        let seen = seen(400);
        for (name, count) in BECAME.iter().zip(seen.kept.became) {
            assert!(count > 20, "{name}: {count}, {:?}", seen.kept.became);
        }
        assert!(
            seen.kept.became[0] * 3 > seen.kept.new,
            "{:?}",
            seen.kept.became
        );
        assert!(seen.again > 50, "{}", seen.again);
    }

    #[test]
    fn among_them_blocks_of_all_kinds_come() {
        let seen = seen(400);
        for count in [seen.kept.new, seen.same, seen.stored, seen.repeated] {
            assert!(count > 400, "{count}");
        }
        for number in [12, 13, 14, 15, 16, 17] {
            assert!(seen.refused[number] > 20, "{number}: {:?}", seen.refused);
        }
        // What is announced is within the limits.
        assert_eq!(seen.refused[10..=11], [0, 0]);
    }

    #[test]
    fn a_case_is_made_again_from_its_seed() {
        let [one, again] = [case(&mut Random::of(3, 5)), case(&mut Random::of(3, 5))];
        assert_eq!(one.stretch, again.stretch);
        assert_eq!((one.record, one.image), (again.record, again.image));
    }
}
