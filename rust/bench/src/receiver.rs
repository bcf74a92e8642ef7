//! A receiver as it is measured: its record, its image, what it answered and how long it took.

use std::hint::black_box;
use std::time::{Duration, Instant};

use nebosvar::MOST_BYTES;

use crate::stretch::Mix;

/// The room of an image: enough for all that may be announced.
pub const ROOM: usize = MOST_BYTES;
/// Enough sections for every stretch.
const BUDGET: usize = 65_536;

/// How far a run came: sections taken, bytes passed.
type Passage = (usize, usize);

/// What becomes of a section.
#[derive(Clone, Copy, PartialEq, Eq, Debug)]
pub enum Fate {
    Table,
    New,
    Same,
    Stored,
    Repeated,
    /// With the paper's number.
    Refused(u8),
}

impl Fate {
    fn ours(fate: Result<nebosvar::Kind, nebosvar::Refusal>) -> Fate {
        match fate {
            Ok(nebosvar::Kind::Table) => Fate::Table,
            Ok(nebosvar::Kind::New) => Fate::New,
            Ok(nebosvar::Kind::Same) => Fate::Same,
            Ok(nebosvar::Kind::Stored) => Fate::Stored,
            Ok(nebosvar::Kind::Repeated) => Fate::Repeated,
            Err(refusal) => Fate::Refused(refusal.number()),
        }
    }

    fn theirs(fate: baseline::Fate) -> Fate {
        match fate {
            baseline::Fate::Table => Fate::Table,
            baseline::Fate::New => Fate::New,
            baseline::Fate::Same => Fate::Same,
            baseline::Fate::Stored => Fate::Stored,
            baseline::Fate::Repeated => Fate::Repeated,
            baseline::Fate::Refused(refusal) => Fate::Refused(refusal.number),
        }
    }

    pub fn is_accepted(self) -> bool {
        !matches!(self, Fate::Refused(_))
    }
}

/// What both receivers can do.
pub trait Receiver: Copy {
    /// The record to start from.
    fn start() -> Self;
    /// Runs over a stretch.
    fn run(&mut self, stretch: &[u8], image: &mut [u8]) -> Passage;
    /// The length of the section at the head of a stretch, and what becomes of it; none at a stop.
    fn take(&mut self, stretch: &[u8], image: &mut [u8]) -> Option<(usize, Fate)>;
    /// Takes one section of the carousel.
    fn step(&mut self, section: &[u8], image: &mut [u8]) -> Fate;
}

impl Receiver for nebosvar::Record {
    fn start() -> Self {
        nebosvar::Record::new()
    }

    fn run(&mut self, stretch: &[u8], image: &mut [u8]) -> Passage {
        let ran = nebosvar::Record::run(self, stretch, image, BUDGET);
        (ran.taken, ran.passed)
    }

    fn take(&mut self, stretch: &[u8], image: &mut [u8]) -> Option<(usize, Fate)> {
        match nebosvar::Record::take(self, stretch, image, 1) {
            nebosvar::Taken::Section { length, fate } => Some((length, Fate::ours(fate))),
            nebosvar::Taken::Stopped(_) => None,
        }
    }

    fn step(&mut self, section: &[u8], image: &mut [u8]) -> Fate {
        Fate::ours(nebosvar::Record::step(self, section, image))
    }
}

impl Receiver for baseline::Record {
    fn start() -> Self {
        baseline::Record::empty()
    }

    fn run(&mut self, stretch: &[u8], image: &mut [u8]) -> Passage {
        let ran = baseline::Record::run(self, stretch, image, BUDGET);
        (ran.taken, ran.passed)
    }

    fn take(&mut self, stretch: &[u8], image: &mut [u8]) -> Option<(usize, Fate)> {
        match baseline::Record::take(self, stretch, image, 1) {
            baseline::Taken::Section { length, fate } => Some((length, Fate::theirs(fate))),
            baseline::Taken::Stopped(_) => None,
        }
    }

    fn step(&mut self, section: &[u8], image: &mut [u8]) -> Fate {
        Fate::theirs(baseline::Record::step(self, section, image).into())
    }
}

/// What a receiver was lent, what it answered and how long it took.
pub struct Lent<R> {
    pub record: R,
    pub image: Vec<u8>,
    /// Of each stretch, in the last round.
    pub answers: Vec<Passage>,
    /// Of each round.
    times: Vec<Duration>,
}

impl<R: Receiver> Lent<R> {
    pub fn new() -> Lent<R> {
        Lent {
            record: R::start(),
            image: vec![0; ROOM],
            answers: vec![],
            times: vec![],
        }
    }

    /// An empty record, and what comes before that which is measured.
    fn begin(&mut self, mix: &Mix) {
        self.record = R::start();
        self.record.run(&mix.before.bytes, &mut self.image);
    }

    /// What becomes of each section of the mix: walked over one by one, not measured.
    pub fn fates(&mut self, mix: &Mix) -> Vec<Fate> {
        self.begin(mix);
        let mut fates = vec![];
        for stretch in &mix.stretches {
            let mut rest = &stretch.bytes[..];
            while let Some((length, fate)) = self.record.take(rest, &mut self.image) {
                fates.push(fate);
                rest = &rest[length..];
            }
        }
        fates
    }

    /// Runs once over all stretches and measures it.
    pub fn round(&mut self, mix: &Mix) {
        self.begin(mix);
        self.answers.clear();
        self.answers.reserve(mix.stretches.len());
        let begin = Instant::now();
        for stretch in &mix.stretches {
            let bytes = black_box(&stretch.bytes);
            let answer = self.record.run(bytes, &mut self.image);
            self.answers.push(answer);
        }
        self.times.push(begin.elapsed());
    }

    /// Of the last round.
    pub fn taken_and_passed(&self) -> Passage {
        let add = |sum: Passage, answer: &Passage| (sum.0 + answer.0, sum.1 + answer.1);
        self.answers.iter().fold((0, 0), add)
    }

    /// Of all rounds.
    pub fn seconds(&self) -> Seconds {
        Seconds::of(&self.times)
    }
}

/// How long the rounds took.
#[derive(Clone, Copy, PartialEq, Debug)]
pub struct Seconds {
    pub best: f64,
    pub median: f64,
}

impl Seconds {
    /// Of an odd number of rounds.
    pub fn of(times: &[Duration]) -> Seconds {
        let mut sorted = times.to_vec();
        sorted.sort_unstable();
        Seconds {
            best: sorted[0].as_secs_f64(),
            median: sorted[sorted.len() / 2].as_secs_f64(),
        }
    }
}

#[cfg(test)]
mod tests {
    use super::*;

    #[test]
    fn the_best_is_the_least_and_the_median_in_the_middle() {
        let times = [5, 1, 9, 2, 8].map(Duration::from_secs);
        let (best, median) = (1.0, 5.0);
        assert_eq!(Seconds::of(&times), Seconds { best, median });
    }
}
