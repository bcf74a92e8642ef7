//! Whole rotations, of ours into their receiver and of theirs into ours: in order, and after the announcement in any order
//! with repeats. "New" and then "stored" each; repeats are "repeated", the announcement again "same"; and in the end every
//! module is complete and equal to shore's.

use nebosvar::player::LARGEST_SECTION;
use nebosvar::{Kind, Refusal, Stop};

use super::counts::Counts;
use super::writing::{ours, their_modules, theirs};
use super::Draft;
use crate::difference::{same, same_bytes, Same};
use crate::random::Random;

/// A rotation of more sections, or more bytes, is rarely played whole.
const FEW: usize = 60;
const SHORT: usize = 4_000;
const RARELY: usize = 12;

/// Plays one announcement whose image this is.
pub fn compare(draft: &Draft, shore: &[u8], random: &mut Random, counts: &mut Counts) -> Same {
    let sections: usize = 1 + draft.blocks().sum::<usize>();
    if (sections > FEW || shore.len() > SHORT) && !random.one_in(RARELY) {
        return Ok(());
    }
    let (ours, theirs) = rotations(draft, shore, sections, random)?;
    let mut play = Play {
        draft,
        shore,
        random,
        counts,
    };
    play.in_order(&ours, Receiver::theirs())?;
    play.in_order(&theirs, Receiver::ours())?;
    play.at_a_run(&ours, Receiver::theirs())?;
    play.at_a_run(&theirs, Receiver::ours())?;
    play.in_any_order(&ours, Receiver::theirs())?;
    play.in_any_order(&theirs, Receiver::ours())
}

type Sections = Vec<Vec<u8>>;

/// All sections of both, which are the same.
fn rotations(
    draft: &Draft,
    shore: &[u8],
    sections: usize,
    random: &mut Random,
) -> Same<(Sections, Sections)> {
    let (listed, identifier) = (their_modules(draft), draft.identifier);
    let (ours, theirs) = (ours(draft, random), theirs(draft, &listed));
    let mut both = (vec![], vec![]);
    let mut out = [0; LARGEST_SECTION];
    for place in 0..sections {
        let length = ours.write_section(shore, identifier, place, &mut out);
        both.0.push(out[..length.unwrap_or(0)].to_vec());
        let length = theirs.write_section(shore, identifier, place, &mut out);
        both.1.push(out[..length.unwrap_or(0)].to_vec());
        same_bytes(&format!("section {place}"), &both.0[place], &both.1[place])?;
    }
    Ok(both)
}

/// One of the receivers.
enum Receiver {
    Ours(Box<nebosvar::Record>),
    Theirs(Box<baseline::Record>),
}

impl Receiver {
    fn ours() -> Receiver {
        Receiver::Ours(Box::new(nebosvar::Record::new()))
    }

    fn theirs() -> Receiver {
        Receiver::Theirs(Box::new(baseline::Record::empty()))
    }

    fn step(&mut self, section: &[u8], image: &mut [u8]) -> Result<Kind, u8> {
        match self {
            Receiver::Ours(record) => record.step(section, image).map_err(Refusal::number),
            Receiver::Theirs(record) => match record.step(section, image) {
                baseline::Answer::New => Ok(Kind::New),
                baseline::Answer::Same => Ok(Kind::Same),
                baseline::Answer::Stored => Ok(Kind::Stored),
                baseline::Answer::Repeated => Ok(Kind::Repeated),
                baseline::Answer::Refused(refusal) => Err(refusal.number),
            },
        }
    }

    /// Sections taken, bytes passed, and whether it came to the end.
    fn run(&mut self, stretch: &[u8], image: &mut [u8]) -> (usize, usize, bool) {
        match self {
            Receiver::Ours(record) => {
                let passage = record.run(stretch, image, usize::MAX);
                (passage.taken, passage.passed, passage.stop == Stop::End)
            }
            Receiver::Theirs(record) => {
                let passage = record.run(stretch, image, usize::MAX);
                let end = passage.stop == baseline::Stop::End;
                (passage.taken, passage.passed, end)
            }
        }
    }

    /// A complete module; nothing where it is refused.
    fn handout<'a>(&self, image: &'a [u8], number: u16) -> &'a [u8] {
        match self {
            Receiver::Ours(record) => record.handout(image, number).unwrap_or_default(),
            Receiver::Theirs(record) => record.handout(image, number),
        }
    }

    fn is_whole(&self, number: u16) -> bool {
        match self {
            Receiver::Ours(record) => record.missing(number) == Ok(None),
            Receiver::Theirs(record) => record.missing(number) == baseline::Missing::Whole,
        }
    }
}

/// What is played, and what goes with it.
struct Play<'a> {
    draft: &'a Draft,
    shore: &'a [u8],
    random: &'a mut Random,
    counts: &'a mut Counts,
}

impl Play<'_> {
    /// An image of any bytes, at least as long as the sizes together.
    fn unheard(&mut self) -> Vec<u8> {
        let more = self.random.pick(&[0, 0, 1, 40]);
        self.random.bytes(self.shore.len() + more)
    }

    fn in_order(&mut self, sections: &[Vec<u8>], receiver: Receiver) -> Same {
        let places: Vec<_> = (0..sections.len()).collect();
        self.step_by_step(sections, &places, receiver)
    }

    /// The announcement, then every block at least once, some again, and the announcement again.
    fn in_any_order(&mut self, sections: &[Vec<u8>], receiver: Receiver) -> Same {
        let mut places: Vec<_> = (1..sections.len()).collect();
        for _ in 0..self.random.within(1..=sections.len()) {
            places.push(self.random.below(sections.len()));
        }
        for last in (1..places.len()).rev() {
            places.swap(last, self.random.below(last + 1));
        }
        places.insert(0, 0);
        self.step_by_step(sections, &places, receiver)
    }

    /// The sections at these places, the announcement's first.
    fn step_by_step(
        &mut self,
        sections: &[Vec<u8>],
        places: &[usize],
        mut receiver: Receiver,
    ) -> Same {
        let before = self.unheard();
        let mut image = before.clone();
        let mut heard = vec![false; sections.len()];
        for &place in places {
            let wanted = match (place, heard[place]) {
                (0, false) => Kind::New,
                (0, true) => Kind::Same,
                (_, false) => Kind::Stored,
                (_, true) => Kind::Repeated,
            };
            heard[place] = true;
            let answer = receiver.step(&sections[place], &mut image);
            same(&format!("section {place} played"), &answer, &Ok(wanted))?;
            self.counts.repeated += u64::from(wanted == Kind::Repeated);
            self.counts.same += u64::from(wanted == Kind::Same);
        }
        self.counts.played += places.len() as u64;
        self.is_whole(&receiver, &image, &before)
    }

    /// All of it as one stretch.
    fn at_a_run(&mut self, sections: &[Vec<u8>], mut receiver: Receiver) -> Same {
        let before = self.unheard();
        let mut image = before.clone();
        let stretch = sections.concat();
        let passage = receiver.run(&stretch, &mut image);
        let wanted = (sections.len(), stretch.len(), true);
        same("run over a rotation", &passage, &wanted)?;
        self.counts.played += sections.len() as u64;
        self.is_whole(&receiver, &image, &before)
    }

    /// Every module is complete and equal to shore's, and past them the image is as it was.
    fn is_whole(&mut self, receiver: &Receiver, image: &[u8], before: &[u8]) -> Same {
        let mut begin = 0;
        for module in &self.draft.modules {
            let (number, end) = (module.number, begin + module.size as usize);
            same(
                &format!("module {number} is complete"),
                &receiver.is_whole(number),
                &true,
            )?;
            let part = receiver.handout(image, number);
            same_bytes(
                &format!("module {number} played"),
                part,
                &self.shore[begin..end],
            )?;
            begin = end;
        }
        same_bytes("image past the modules", &image[begin..], &before[begin..])?;
        self.counts.rotations += 1;
        Ok(())
    }
}
