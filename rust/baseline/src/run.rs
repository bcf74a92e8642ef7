//! "The run": one place of a stretch, and the walk over all of it.

use crate::ait;
use crate::record::{Answer, Record};
use crate::refusal::Refusal;
use crate::section;

/// The byte that stands for stuffing where a section would begin.
const STUFFING: u8 = 0xFF;

/// What became of a section the run took.
#[derive(Clone, Copy, PartialEq, Eq, Debug)]
pub enum Fate {
    /// An application section, accepted.
    Table,
    /// An announcement, answered "new".
    New,
    /// An announcement, answered "same".
    Same,
    /// A block, answered "stored".
    Stored,
    /// A block, answered "repeated".
    Repeated,
    /// A refusal; its kind is "none". Never 2, as a section taken has its 3 + L bytes.
    Refused(Refusal),
}

impl From<Answer> for Fate {
    fn from(answer: Answer) -> Fate {
        match answer {
            Answer::New => Fate::New,
            Answer::Same => Fate::Same,
            Answer::Stored => Fate::Stored,
            Answer::Repeated => Fate::Repeated,
            Answer::Refused(refusal) => Fate::Refused(refusal),
        }
    }
}

/// Why the run stopped.
#[derive(Clone, Copy, PartialEq, Eq, Debug)]
pub enum Stop {
    /// Nothing is left.
    End,
    /// The next byte is 0xFF.
    Stuffing,
    /// Fewer than 3 bytes, or fewer than 3 + L, are left.
    Short,
    /// The budget is used up.
    Budget,
    /// The record breaks its rule.
    State,
}

/// What happened at one place of a stretch.
#[derive(Clone, Copy, PartialEq, Eq, Debug)]
pub enum Taken {
    /// No section was taken.
    Stopped(Stop),
    /// One was, accepted or refused.
    Section {
        /// Its bytes, 3 + L.
        length: usize,
        /// What became of it.
        fate: Fate,
    },
}

/// What a run answers.
#[derive(Clone, Copy, PartialEq, Eq, Debug)]
pub struct Passage {
    /// Sections taken.
    pub taken: usize,
    /// Bytes passed.
    pub passed: usize,
    /// Why it stopped.
    pub stop: Stop,
}

impl Record {
    /// One place of a stretch: its first section, unless the run stops here. A record that breaks its rule
    /// stops it before any other stop.
    pub fn take(&mut self, stretch: &[u8], image: &mut [u8], budget: usize) -> Taken {
        if !self.is_ruled() {
            return Taken::Stopped(Stop::State);
        }
        match next(stretch, budget) {
            Err(stop) => Taken::Stopped(stop),
            Ok(section) => Taken::Section {
                length: section.len(),
                fate: self.pass(section, image),
            },
        }
    }

    /// The run over a stretch of whole sections. The record's rule is checked once, as every step keeps it.
    pub fn run(&mut self, stretch: &[u8], image: &mut [u8], budget: usize) -> Passage {
        let mut passage = Passage {
            taken: 0,
            passed: 0,
            stop: Stop::State,
        };
        if !self.is_ruled() {
            return passage;
        }
        loop {
            match next(&stretch[passage.passed..], budget - passage.taken) {
                Err(stop) => {
                    passage.stop = stop;
                    return passage;
                }
                Ok(section) => {
                    self.pass(section, image);
                    passage.passed += section.len();
                    passage.taken += 1;
                }
            }
        }
    }

    /// One section on a ruled record: 0x74 by the application rules, every other by the carousel's.
    fn pass(&mut self, section: &[u8], image: &mut [u8]) -> Fate {
        if section.first() == Some(&section::APPLICATIONS) {
            match ait::read(section) {
                Ok(_) => Fate::Table,
                Err(refusal) => Fate::Refused(refusal),
            }
        } else {
            self.ruled_step(section, image).into()
        }
    }
}

/// The section at the beginning of the stretch, or why to stop: end, stuffing, short, budget, in this order.
fn next(stretch: &[u8], budget: usize) -> Result<&[u8], Stop> {
    match stretch.first() {
        None => return Err(Stop::End),
        Some(&STUFFING) => return Err(Stop::Stuffing),
        Some(_) => {}
    }
    let section = section::whole_length(stretch)
        .and_then(|length| stretch.get(..length))
        .ok_or(Stop::Short)?;
    if budget == 0 {
        return Err(Stop::Budget);
    }
    Ok(section)
}
