//! Drift lists: the archive's reader and writer beside the independent ones, over lists and numbers at every bound
//! ([`bounds`]) and by chance ([`chance`]), right and wrong. What the makers mean a list to be decides nothing.

pub mod bounds;
pub mod chance;
pub mod counts;
mod reading;
mod writing;

use std::fmt::{self, Display};

use crate::difference::{caught, hex, Same};
use crate::fence::Edge;
use crate::random::Random;
use counts::Counts;
use make::drift::Fields;

/// The bytes of issue and count, and of a record.
pub const HEADER: usize = 4;
pub const RECORD: usize = 12;
/// The numbers of a record that is to be written.
pub const NUMBERS: usize = 5;

/// What both are lent.
pub enum Case {
    /// Any bytes, to be read.
    Read(Vec<u8>),
    /// Any numbers, to be written.
    Write(Draft),
}

/// Numbers to be written, into buffers of each of these sizes.
pub struct Draft {
    pub issue: u32,
    pub count: u32,
    pub numbers: Vec<i32>,
    pub rooms: Vec<usize>,
}

impl Display for Case {
    fn fmt(&self, f: &mut fmt::Formatter<'_>) -> fmt::Result {
        match self {
            Case::Read(list) => write!(f, "list: {}", hex(list)),
            Case::Write(draft) => {
                let (issue, count, numbers) = (draft.issue, draft.count, &draft.numbers);
                write!(f, "issue {issue}, count {count}, numbers {numbers:?}")
            }
        }
    }
}

/// Compares all cases at the bounds, and so many by chance.
pub fn compare(seed: u64, by_chance: u64) -> Result<Counts, String> {
    let mut counts = Counts::default();
    for (number, case) in bounds::all()
        .chain(chance::all(seed, by_chance))
        .enumerate()
    {
        let number = number as u64;
        let edge = Edge::of(number);
        let random = &mut Random::of(seed, number);
        counts.lent(edge);
        compared(&case, edge, random, &mut counts).map_err(|difference| {
            format!("compare: a difference; seed {seed}, drift list {number}, {difference}\n{case}")
        })?;
    }
    Ok(counts)
}

/// One case.
fn compared(case: &Case, edge: Option<Edge>, random: &mut Random, counts: &mut Counts) -> Same {
    caught(|| match case {
        Case::Read(list) => reading::compare(list, edge, random, counts),
        Case::Write(draft) => writing::compare(draft, edge, random, counts),
    })
}

/// The size of a list of so many records.
pub fn size_of(records: usize) -> usize {
    HEADER + RECORD * records
}

/// The numbers of records as the writer takes them; their spare bits are left out.
pub fn numbers_of(records: &[Fields]) -> Vec<i32> {
    let numbers = |record: &Fields| {
        let (buoy, state, minute) = (record.buoy, record.state, record.minute);
        let (longitude, latitude) = (record.longitude, record.latitude);
        [
            buoy as i32,
            state as i32,
            longitude,
            latitude,
            minute as i32,
        ]
    };
    records.iter().flat_map(numbers).collect()
}

#[cfg(test)]
mod tests {
    use super::*;

    #[test]
    fn every_case_is_the_same_and_every_answer_comes() {
        let counts = compare(1, 500).unwrap();
        assert_eq!(counts.rare(100), Vec::<String>::new());
    }

    #[test]
    fn a_case_is_told_with_all_of_it() {
        assert_eq!(Case::Read(vec![0, 1, 0xA2]).to_string(), "list: 0001a2");
        let draft = Draft {
            issue: 1,
            count: 2,
            numbers: vec![3, -4],
            rooms: vec![],
        };
        let told = "issue 1, count 2, numbers [3, -4]";
        assert_eq!(Case::Write(draft).to_string(), told);
    }
}
