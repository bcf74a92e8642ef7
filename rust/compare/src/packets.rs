//! Transport packets: the archive's calls beside the independent ones, over streams at every bound ([`bounds`]) and by chance
//! ([`streams`]), whole and spoilt: packet by packet and in stretches ([`walking`]), the answer, all bytes of the buffer and all of the
//! state after each call ([`both`]). And sections of every length into packets and out of them ([`writing`]). There 02, §2, decides.

mod both;
pub mod bounds;
pub mod counts;
pub mod streams;
mod walking;
mod writing;

use std::fmt::{self, Display};

use crate::difference::{caught, hex};
use crate::fence::Edge;
use crate::random::Random;
use counts::Counts;

/// What both are lent one after another; not each need have a packet's length, or be of this PID.
pub struct Stream {
    pub pid: u16,
    pub packets: Vec<Vec<u8>>,
}

impl Display for Stream {
    fn fmt(&self, f: &mut fmt::Formatter<'_>) -> fmt::Result {
        write!(f, "PID {}", self.pid)?;
        self.packets
            .iter()
            .try_for_each(|packet| write!(f, "\n{}", hex(packet)))
    }
}

/// Compares all streams at the bounds and so many by chance, and the writers over every length.
pub fn compare(seed: u64, by_chance: u64) -> Result<Counts, String> {
    let mut counts = Counts::default();
    let all = bounds::all().chain(streams::all(seed, by_chance));
    for (number, stream) in all.enumerate() {
        let number = number as u64;
        let edge = Edge::of(number);
        let random = &mut Random::of(seed, number);
        counts.lent(edge);
        caught(|| walking::compare(&stream, edge, random, &mut counts)).map_err(|difference| {
            format!("compare: a difference; seed {seed}, stream {number}, {difference}\n{stream}")
        })?;
    }
    for length in writing::LENGTHS {
        let edge = Edge::of(length as u64);
        let random = &mut Random::of(seed, length as u64);
        caught(|| writing::compare(length, edge, random, &mut counts)).map_err(|difference| {
            format!("compare: a difference; seed {seed}, a section of {length} bytes, {difference}")
        })?;
    }
    Ok(counts)
}

#[cfg(test)]
mod tests {
    use super::*;

    #[test]
    fn every_stream_is_the_same_and_every_answer_comes() {
        let counts = compare(1, 300).unwrap();
        assert_eq!(counts.rare(10), Vec::<String>::new());
    }

    #[test]
    fn a_stream_is_told_with_all_of_it() {
        let stream = Stream {
            pid: 7,
            packets: vec![vec![0x47, 1], vec![]],
        };
        assert_eq!(stream.to_string(), "PID 7\n4701\n");
    }
}
