//! What was answered how often.

use crate::columns::write_columns;
use std::fmt::{self, Display};

use crate::fence::Edge;

/// The calls that can refuse.
#[derive(Clone, Copy, PartialEq, Eq, Debug)]
pub enum Call {
    Read,
    Record,
    Walk,
    Write,
}

/// Their names, in the order of [`Call`].
const CALLS: [&str; 4] = ["read", "record", "walk", "write"];
/// Each refusal, and which of the calls can give it.
const REFUSALS: [(u8, [bool; CALLS.len()]); 9] = [
    (19, [false, true, true, false]),
    (30, [true, true, true, false]),
    (31, [true; 4]),
    (32, [true; 4]),
    (33, [true; 4]),
    (34, [true, true, true, false]),
    (35, [true; 4]),
    (36, [false, false, false, true]),
    (37, [false, false, false, true]),
];

/// How often each answer came. Both gave it: it is counted after they were found to agree.
#[derive(Clone, Default)]
pub struct Counts {
    /// Lists that were read, and how many were accepted: each of these is written again.
    pub lists: u64,
    pub accepted: u64,
    /// Drafts that were written, into how many buffers, and how often with success: each of these is read again.
    pub drafts: u64,
    pub buffers: u64,
    pub written: u64,
    /// Records that were found by their place.
    pub found: u64,
    /// Cases of which all that is lent ended at a fence, and began at one.
    pub fenced: [u64; 2],
    refusals: [[u64; CALLS.len()]; REFUSALS.len()],
    /// Refusals that are none of a drift list.
    others: u64,
}

impl Counts {
    /// A case is lent at this edge, if at any.
    pub fn lent(&mut self, edge: Option<Edge>) {
        if let Some(edge) = edge {
            self.fenced[edge as usize] += 1;
        }
    }

    /// An answer of a call.
    pub fn answer<T>(&mut self, call: Call, answer: &Result<T, u8>) {
        let Err(number) = answer else {
            return;
        };
        match REFUSALS.iter().position(|(refusal, _)| refusal == number) {
            Some(place) => self.refusals[place][call as usize] += 1,
            None => self.others += 1,
        }
    }

    /// The answers that came fewer times than this, and those that came and can not.
    pub fn rare(&self, least: u64) -> Vec<String> {
        let mut rare: Vec<String> = vec![];
        for ((number, can), counts) in REFUSALS.iter().zip(&self.refusals) {
            for ((name, can), &count) in CALLS.iter().zip(can).zip(counts) {
                if *can && count < least || !*can && count > 0 {
                    rare.push(format!("{number} by {name}: {count}"));
                }
            }
        }
        for (what, count) in [
            ("accepted lists", self.accepted),
            ("written lists", self.written),
            ("records found", self.found),
            ("cases that end at a fence", self.fenced[0]),
            ("cases that begin at a fence", self.fenced[1]),
        ] {
            if count < least {
                rare.push(format!("{what}: {count}"));
            }
        }
        if self.others > 0 {
            rare.push(format!("other refusals: {}", self.others));
        }
        rare
    }
}

impl Display for Counts {
    /// A line for each refusal, a column for each call; then what was accepted.
    fn fmt(&self, f: &mut fmt::Formatter<'_>) -> fmt::Result {
        let rows = REFUSALS.iter().zip(&self.refusals);
        write_columns(
            f,
            &CALLS,
            rows.map(|((number, _), counts)| (number, &counts[..])),
        )?;
        let (accepted, found, written) = (self.accepted, self.found, self.written);
        write!(
            f,
            "accepted lists {accepted}, records found {found}, written lists {written}"
        )
    }
}

#[cfg(test)]
mod tests {
    use super::*;

    #[test]
    fn what_is_rare_and_what_can_not_come_is_told() {
        let mut counts = Counts::default();
        let possible = REFUSALS.iter().flat_map(|(_, can)| can).filter(|can| **can);
        assert_eq!(counts.rare(1).len(), possible.count() + 5);
        counts.answer::<()>(Call::Walk, &Err(19));
        counts.answer(Call::Write, &Ok(1));
        assert!(!counts.rare(1).contains(&"19 by walk: 0".to_string()));
        counts.answer::<()>(Call::Write, &Err(34));
        counts.answer::<()>(Call::Read, &Err(20));
        let rare = counts.rare(1);
        assert!(rare.contains(&"34 by write: 1".to_string()));
        assert!(rare.contains(&"other refusals: 1".to_string()));
        assert!(rare.contains(&"30 by read: 0".to_string()));
    }
}
