//! One step at a time: what a block costs that is stored, repeated or refused, and what an announcement costs that keeps modules, empties
//! them or is the same, in records of few modules and of many.

use std::hint::black_box;
use std::time::{Duration, Instant};

use make::{Announcement, Module};
use nebosvar::{LARGEST_BLOCK, MOST_MODULES};

use crate::receiver::{Fate, Receiver, ROOM};

/// Each kind of step is gone through so often; the best time counts.
const ROUNDS: usize = 500;
/// The download, and the version of all modules.
const DOWNLOAD: u32 = 1;
const VERSION: u8 = 1;

/// The announcements of a round.
const RENEWALS: u8 = 32;

/// The modules of the records.
const MODULES: [usize; 3] = [1, 16, MOST_MODULES];

/// How much is sent.
#[derive(Clone, Copy)]
struct Size {
    /// The bytes of a block.
    block: usize,
    /// The blocks of the module that is sent, each a step; and of each other module.
    sent: usize,
    others: usize,
}

/// Sections of 94 bytes.
const SMALL: Size = Size {
    block: 64,
    sent: 128,
    others: 28,
};
/// Sections of 4,096 bytes: so few that the blocks of 32 modules do not pass what may be announced.
const LARGE: Size = Size {
    block: LARGEST_BLOCK,
    sent: 32,
    others: 1,
};

/// So many modules, of which the last is sent.
#[derive(Clone, Copy)]
struct Carousel {
    modules: usize,
    size: Size,
}

/// What is measured.
struct Kind {
    name: &'static str,
    carousel: Carousel,
    fate: Fate,
    sections: Vec<Vec<u8>>,
}

/// A record to start from, its image, and the best time.
struct Started<R> {
    /// Announced, and announced with all that is sent.
    fresh: R,
    full: R,
    image: Vec<u8>,
    best: Duration,
}

/// Measures each kind of step and prints its line, or tells what differed.
pub fn measure() -> Result<(), String> {
    println!(
        "Steps: nanoseconds of one call, best of {ROUNDS} rounds each, in turn. Blocks of the last module, {} of {} bytes or {} of {}, from a\n\
         copy of the record that is not measured; an image of {ROOM}. Announcements come to a record in which the last module is whole.",
        SMALL.sent, SMALL.block, LARGE.sent, LARGE.block
    );
    println!(
        "{:<18}{:>8}{:>8}{:>12}{:>16}{:>8}",
        "step", "modules", "bytes", "ours ns", "baseline ns", "times"
    );
    for modules in MODULES {
        for kind in kinds(modules) {
            line(&kind)?;
        }
    }
    Ok(())
}

impl Carousel {
    fn announcement(self) -> Vec<u8> {
        self.announced(DOWNLOAD, VERSION)
    }

    /// With this download, and this version of the first module.
    fn announced(self, download: u32, first: u8) -> Vec<u8> {
        let size = self.size;
        let module = |place: usize| {
            let last = place + 1 == self.modules;
            let blocks = if last { size.sent } else { size.others };
            Module {
                number: place as u16,
                size: (blocks * size.block) as u32,
                version: if place == 0 { first } else { VERSION },
            }
        };
        let modules: Vec<_> = (0..self.modules).map(module).collect();
        Announcement::new(download, size.block as u16, &modules).bytes()
    }

    /// Announcements that are new one after the other: of other versions of the first module, so that all others are kept; or of other
    /// downloads, so that none is.
    fn renewals(self, kept: bool) -> Vec<Vec<u8>> {
        let renewal = |round: u8| match kept {
            true => self.announced(DOWNLOAD, VERSION + 1 + round % 2),
            false => self.announced(DOWNLOAD + 1 + u32::from(round % 2), VERSION),
        };
        (0..RENEWALS).map(renewal).collect()
    }

    /// The blocks of the last module, in this version.
    fn blocks(self, version: u8) -> Vec<Vec<u8>> {
        let last = self.modules as u16 - 1;
        let block = |number: usize| {
            let data = vec![number as u8 ^ 0x5A; self.size.block];
            make::block(DOWNLOAD, last, version, number as u16, &data)
        };
        (0..self.size.sent).map(block).collect()
    }
}

/// Small blocks of every fate; large ones accepted; announcements.
fn kinds(modules: usize) -> Vec<Kind> {
    let [small, large] = [SMALL, LARGE].map(|size| Carousel { modules, size });
    let (good, old) = (small.blocks(VERSION), small.blocks(VERSION + 1));
    let mut damaged = good.clone();
    for section in &mut damaged {
        let last = section.len() - 1;
        section[last] ^= 1;
    }
    let kind = |name, carousel, fate, sections| Kind {
        name,
        carousel,
        fate,
        sections,
    };
    let same = vec![small.announcement(); usize::from(RENEWALS)];
    let mut all = vec![
        kind("stored", small, Fate::Stored, good.clone()),
        kind("repeated", small, Fate::Repeated, good),
        kind("refused with 14", small, Fate::Refused(14), old),
        kind("refused with 5", small, Fate::Refused(5), damaged),
        kind("stored", large, Fate::Stored, large.blocks(VERSION)),
        kind("repeated", large, Fate::Repeated, large.blocks(VERSION)),
        kind("same", small, Fate::Same, same),
        kind("new, none kept", small, Fate::New, small.renewals(false)),
    ];
    if modules > 1 {
        all.push(kind(
            "new, one emptied",
            small,
            Fate::New,
            small.renewals(true),
        ));
    }
    all
}

impl<R: Receiver> Started<R> {
    /// Nothing of this is measured.
    fn new(carousel: Carousel) -> Started<R> {
        let (mut record, mut image) = (R::start(), vec![0; ROOM]);
        record.step(&carousel.announcement(), &mut image);
        let fresh = record;
        for section in carousel.blocks(VERSION) {
            record.step(&section, &mut image);
        }
        Started {
            fresh,
            full: record,
            image,
            best: Duration::MAX,
        }
    }

    /// One round; gives how many steps were answered as they should, and the record that they left.
    fn round(&mut self, kind: &Kind) -> (usize, R) {
        let stored = matches!(kind.fate, Fate::Stored);
        let mut record = black_box(if stored { self.fresh } else { self.full });
        let mut met = 0;
        let begin = Instant::now();
        for section in &kind.sections {
            let fate = record.step(black_box(section), black_box(&mut self.image));
            met += usize::from(fate == kind.fate);
        }
        self.best = self.best.min(begin.elapsed());
        (black_box(met), record)
    }

    /// Of one step, in the best round of so many.
    fn nanoseconds(&self, steps: usize) -> f64 {
        self.best.as_nanos() as f64 / steps as f64
    }
}

fn line(kind: &Kind) -> Result<(), String> {
    let (name, carousel, steps) = (kind.name, kind.carousel, kind.sections.len());
    let (modules, length) = (carousel.modules, kind.sections[0].len());
    let mut ours = Started::<nebosvar::Record>::new(carousel);
    let mut theirs = Started::<baseline::Record>::new(carousel);
    for _ in 0..ROUNDS {
        let (met, record) = ours.round(kind);
        let (their_met, their_record) = theirs.round(kind);
        let records = compare::pair::theirs(&record) == their_record;
        if [met, their_met] != [steps; 2] || !records || ours.image != theirs.image {
            return Err(format!(
                "{name}, {modules} modules, {length} bytes: the steps differ"
            ));
        }
    }
    let (best, their_best) = (ours.nanoseconds(steps), theirs.nanoseconds(steps));
    println!(
        "{name:<18}{modules:>8}{length:>8}{best:>12.0}{their_best:>16.0}{:>8.2}",
        best / their_best
    );
    Ok(())
}

#[cfg(test)]
mod tests {
    use super::*;

    #[test]
    fn every_step_is_what_it_is_called() {
        for modules in MODULES {
            for kind in kinds(modules) {
                let mut ours = Started::<nebosvar::Record>::new(kind.carousel);
                let mut theirs = Started::<baseline::Record>::new(kind.carousel);
                let steps = kind.sections.len();
                assert_eq!(ours.round(&kind).0, steps, "{}", kind.name);
                assert_eq!(theirs.round(&kind).0, steps, "{}", kind.name);
            }
        }
    }

    #[test]
    fn announcements_keep_the_last_module_or_empty_it() {
        for modules in MODULES {
            for kind in kinds(modules).iter().filter(|kind| kind.fate == Fate::New) {
                let left = Started::<nebosvar::Record>::new(kind.carousel)
                    .round(kind)
                    .1;
                let marked = left.marks.iter().any(|word| *word != 0);
                assert_eq!(marked, kind.name == "new, one emptied", "{modules} modules");
            }
        }
    }

    #[test]
    fn sections_of_both_lengths_are_stored_and_repeated() {
        for modules in MODULES {
            let lengths = |name| {
                let kinds = kinds(modules)
                    .into_iter()
                    .filter(move |kind| kind.name == name);
                kinds.map(|kind| kind.sections[0].len()).collect::<Vec<_>>()
            };
            assert_eq!(lengths("stored"), [94, 4_096]);
            assert_eq!(lengths("repeated"), [94, 4_096]);
        }
    }
}
