//! What the carousel answers.

use crate::proved::excluded;
use crate::Refusal;

/// What an accepted section was.
#[derive(Clone, Copy, PartialEq, Eq, Debug)]
pub enum Kind {
    /// An application section. Only [`take`](crate::Record::take) and [`run`](crate::Record::run) meet
    /// one; it changes nothing.
    Table,
    /// An announcement other than the record's, which the record holds now. A module whose downloadId, blockSize,
    /// number, version, size and start are as before keeps its marks; all others begin empty. No image byte moves.
    New,
    /// The record's announcement again: nothing changed.
    Same,
    /// A block that had not come yet: its bytes are in the image and its mark is set.
    Stored,
    /// A block that had come before, with the same bytes: nothing changed.
    Repeated,
}

impl Kind {
    /// A section's refusal, its place, and the section's kind.
    pub(crate) fn check(refusal: u8, place: usize, kind: u8) -> Result<Kind, Refusal> {
        Refusal::check(refusal, place)?;
        match kind {
            1 => Ok(Kind::Table),
            2 => Ok(Kind::New),
            3 => Ok(Kind::Same),
            4 => Ok(Kind::Stored),
            5 => Ok(Kind::Repeated),
            _ => excluded(),
        }
    }
}

/// Why no section was taken.
#[derive(Clone, Copy, PartialEq, Eq, Debug)]
pub enum Stop {
    /// Nothing is left.
    End,
    /// A byte 0xFF where a section would begin.
    Stuffing,
    /// Fewer than 3 bytes, or fewer than the section's 3 + L.
    Short,
    /// The budget is used up.
    Budget,
    /// The record breaks its rule. This goes before every other stop.
    State,
}

impl Stop {
    pub(crate) fn of(number: u8) -> Stop {
        match number {
            1 => Stop::End,
            2 => Stop::Stuffing,
            3 => Stop::Short,
            4 => Stop::Budget,
            5 => Stop::State,
            _ => excluded(),
        }
    }
}

/// What stood at the head of a stretch.
#[derive(Clone, Copy, PartialEq, Eq, Debug)]
pub enum Taken {
    /// One section was taken, accepted or refused.
    Section {
        /// Its bytes: the next one begins there.
        length: usize,
        /// What became of it. A refusal's place is counted from its own first byte.
        fate: Result<Kind, Refusal>,
    },
    /// None was taken.
    Stopped(Stop),
}

/// How far a run came.
#[derive(Clone, Copy, PartialEq, Eq, Debug)]
pub struct Passage {
    /// Sections taken, accepted or refused.
    pub taken: usize,
    /// Their bytes together: a next run goes on there.
    pub passed: usize,
    /// Why it stopped.
    pub stop: Stop,
}

/// The blocks that a module lacks.
#[derive(Clone, Copy, PartialEq, Eq, Debug)]
pub struct Missing {
    /// How many, at least 1.
    pub count: usize,
    /// The lowest of them.
    pub lowest: usize,
}
