//! How the cost of a byte grows: in short sections and long ones, in records of few modules and of many; stored, repeated and
//! refused.

use compare::random::Random;
use nebosvar::MOST_MODULES;

use crate::race::race;
use crate::receiver::Fate;
use crate::stretch::{Mix, Stretch, AROUND_DATA, STRETCH};
use crate::ROUNDS;

/// The bytes of a round, at least.
const TOGETHER: usize = 8 << 20;
/// The bytes of a block's section.
const LENGTHS: [usize; 3] = [64, 512, 4_096];
/// The download of all but the stored blocks, and the version of all modules.
const DOWNLOAD: u32 = 1;
const VERSION: u8 = 1;
/// Of no table that a receiver takes.
const FOREIGN: u8 = 0x42;

/// What is measured: for records of so many modules, a mix of so many bytes at least.
struct Kind {
    name: &'static str,
    modules: &'static [usize],
    mix: fn(&Carousel, usize) -> Mix,
}

const KINDS: [Kind; 5] = [
    Kind {
        name: "blocks stored",
        modules: &[1, 8, MOST_MODULES],
        mix: stored,
    },
    Kind {
        name: "blocks repeated",
        modules: &[8],
        mix: repeated,
    },
    Kind {
        name: "refused (5): a wrong CRC",
        modules: &[8],
        mix: damaged,
    },
    Kind {
        name: "refused (3): a foreign table number",
        modules: &[8],
        mix: foreign,
    },
    Kind {
        name: "refused (14): another version",
        modules: &[8],
        mix: outdated,
    },
];

/// Measures each kind and prints its lines, or tells what differed.
pub fn measure() -> Result<(), String> {
    println!(
        "Growth: nanoseconds of a byte, best of {ROUNDS} runs each, in turn, over {} MiB in stretches of at most 64 KiB. Where blocks are\n\
         stored, each stretch begins with a new announcement; where they are repeated, with the same one; refused sections come alone.",
        TOGETHER >> 20
    );
    println!(
        "{:<36}{:>8}{:>8}{:>12}{:>16}{:>8}",
        "sections", "modules", "bytes", "ours ns", "baseline ns", "times"
    );
    for kind in KINDS {
        for &modules in kind.modules {
            for length in LENGTHS {
                line(&kind, modules, length)?;
            }
        }
    }
    Ok(())
}

fn line(kind: &Kind, modules: usize, length: usize) -> Result<(), String> {
    let name = kind.name;
    let mix = (kind.mix)(&Carousel::new(modules, length), TOGETHER);
    let raced =
        race(&mix).map_err(|told| format!("{name}, {modules} modules, {length} bytes: {told}"))?;
    let nanoseconds = 1e9 / mix.bytes() as f64;
    println!(
        "{name:<36}{modules:>8}{length:>8}{:>12.4}{:>16.4}{:>8.2}",
        raced.ours.best * nanoseconds,
        raced.theirs.best * nanoseconds,
        raced.times()
    );
    Ok(())
}

/// A carousel that fills a stretch with sections of one length.
struct Carousel {
    /// The bytes of a block.
    block_size: usize,
    /// How many blocks of each module are sent.
    shares: Vec<usize>,
}

impl Carousel {
    /// So many modules, and as many blocks as a stretch has room for, shared out evenly.
    fn new(modules: usize, length: usize) -> Carousel {
        let mut carousel = Carousel {
            block_size: length - AROUND_DATA,
            shares: vec![0; modules],
        };
        // How many blocks are announced does not change an announcement's length.
        let room = STRETCH - carousel.announcement(DOWNLOAD).len();
        let before = |place| room / length * place / modules;
        let share = |place| before(place + 1) - before(place);
        carousel.shares = (0..modules).map(share).collect();
        carousel
    }

    /// A module of which nothing is sent has a block all the same, since none may be empty.
    fn announcement(&self, download: u32) -> Vec<u8> {
        let size = |share: usize| (share.max(1) * self.block_size) as u32;
        let shares = self.shares.iter().zip(0..);
        let modules: Vec<_> = shares
            .map(|(&share, number)| (number, size(share), VERSION))
            .collect();
        make::announcement(download, self.block_size as u16, &modules)
    }

    /// The blocks that are sent, module by module, in this version.
    fn blocks(&self, download: u32, version: u8) -> Vec<Vec<u8>> {
        let mut random = Random::of(5, download.into());
        let mut blocks = vec![];
        for (&share, module) in self.shares.iter().zip(0..) {
            for number in 0..share as u16 {
                let data = random.bytes(self.block_size);
                blocks.push(make::block(download, module, version, number, &data));
            }
        }
        blocks
    }

    /// The announcement and the blocks.
    fn stretch(&self, download: u32, announced: Fate, sent: Fate) -> Stretch {
        let mut stretch = Stretch::default();
        stretch.push(&self.announcement(download), announced);
        for block in self.blocks(download, VERSION) {
            stretch.push(&block, sent);
        }
        stretch
    }

    /// This stretch over and over, after all blocks were stored.
    fn over_and_over(&self, stretch: &Stretch, together: usize) -> Mix {
        Mix {
            before: self.stretch(DOWNLOAD, Fate::New, Fate::Stored),
            ..Mix::filled(together, |_| stretch.clone())
        }
    }

    /// These sections alone, over and over.
    fn refused(&self, number: u8, sections: &[Vec<u8>], together: usize) -> Mix {
        let mut stretch = Stretch::default();
        for section in sections {
            stretch.push(section, Fate::Refused(number));
        }
        self.over_and_over(&stretch, together)
    }
}

fn stored(carousel: &Carousel, together: usize) -> Mix {
    Mix::filled(together, |place| {
        carousel.stretch(place as u32 + 1, Fate::New, Fate::Stored)
    })
}

fn repeated(carousel: &Carousel, together: usize) -> Mix {
    let again = carousel.stretch(DOWNLOAD, Fate::Same, Fate::Repeated);
    carousel.over_and_over(&again, together)
}

fn damaged(carousel: &Carousel, together: usize) -> Mix {
    let mut sections = carousel.blocks(DOWNLOAD, VERSION);
    for section in &mut sections {
        let last = section.len() - 1;
        section[last] ^= 1;
    }
    carousel.refused(5, &sections, together)
}

/// The CRC is right, so that the table number alone is wrong.
fn foreign(carousel: &Carousel, together: usize) -> Mix {
    let blocks = carousel.blocks(DOWNLOAD, VERSION);
    let foreign = |block: &Vec<u8>| make::with(block, 0, FOREIGN);
    let sections: Vec<_> = blocks.iter().map(foreign).collect();
    carousel.refused(3, &sections, together)
}

fn outdated(carousel: &Carousel, together: usize) -> Mix {
    let sections = carousel.blocks(DOWNLOAD, VERSION + 1);
    carousel.refused(14, &sections, together)
}

#[cfg(test)]
mod tests {
    use super::*;
    use crate::receiver::Lent;

    /// At the head of a stretch of each kind, and behind it.
    const WANTED: [(&[Fate], Fate); 5] = [
        (&[Fate::New], Fate::Stored),
        (&[Fate::Same], Fate::Repeated),
        (&[], Fate::Refused(5)),
        (&[], Fate::Refused(3)),
        (&[], Fate::Refused(14)),
    ];

    /// Two stretches at least of each carousel that is measured so.
    fn mixes(kind: &Kind) -> Vec<Mix> {
        let mut mixes = vec![];
        for &modules in kind.modules {
            for length in LENGTHS {
                let carousel = Carousel::new(modules, length);
                mixes.push((kind.mix)(&carousel, STRETCH + 1));
            }
        }
        mixes
    }

    #[test]
    fn every_section_becomes_what_it_was_laid_for() {
        for (kind, (head, others)) in KINDS.iter().zip(WANTED) {
            for mix in mixes(kind) {
                let fates = Lent::<baseline::Record>::new().fates(&mix);
                assert_eq!(fates, mix.fates(), "{}", kind.name);
                for stretch in &mix.stretches {
                    let (first, rest) = stretch.fates.split_at(head.len());
                    assert_eq!(first, head, "{}", kind.name);
                    assert!(rest.iter().all(|fate| *fate == others), "{}", kind.name);
                }
            }
        }
    }

    #[test]
    fn blocks_of_the_length_asked_for_fill_a_stretch() {
        for length in LENGTHS {
            for modules in [1, 8, MOST_MODULES] {
                let carousel = Carousel::new(modules, length);
                let blocks = carousel.blocks(DOWNLOAD, VERSION);
                assert!(blocks.iter().all(|block| block.len() == length));
                let stretch = carousel.stretch(DOWNLOAD, Fate::New, Fate::Stored);
                assert!((STRETCH - length + 1..=STRETCH).contains(&stretch.bytes.len()));
            }
        }
    }

    #[test]
    fn blocks_are_shared_out_evenly() {
        let shares = |modules, length| Carousel::new(modules, length).shares;
        assert_eq!(shares(1, 64), [1_023]);
        assert_eq!(shares(8, 4_096), [1, 2, 2, 2, 2, 2, 2, 2]);
        // Fewer blocks than modules: every second module has one, or so.
        let few = shares(MOST_MODULES, 4_096);
        assert_eq!(few.iter().sum::<usize>(), 15);
        assert!(few.iter().all(|share| *share <= 1));
        assert_eq!(few[MOST_MODULES - 1], 1);
    }
}
