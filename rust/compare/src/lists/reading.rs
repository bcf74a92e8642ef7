//! A list, read in every way: whole, by place, walked, and one record after another; and written again.

use baseline::drift as theirs;
use nebosvar::drift::{record_at, walk_at, write, DriftList, Fix, Row, State};
use nebosvar::Refusal;

use super::counts::{Call, Counts};
use super::{HEADER, RECORD};
use crate::difference::{same, same_bytes, Same};
use crate::fence::{Edge, Lender};
use crate::random::Random;

/// "No such place", and the length's refusal.
const NO_PLACE: u8 = 19;
const LENGTH: u8 = 30;
/// Of a list with more records than this, not every place is asked for: each judges the whole list.
const FEW: usize = 64;

/// Issue and records, or the refusal.
type Read = Result<(u16, Vec<Fix>), u8>;

/// Compares all that can be asked of these bytes.
pub fn compare(bytes: &[u8], edge: Option<Edge>, random: &mut Random, counts: &mut Counts) -> Same {
    let mut lender = Lender::new(edge, bytes.len());
    let lent = lender.lend(bytes);
    let read = whole(lent, counts)?;
    for k in places(bytes) {
        by_place(lent, k, &read, counts)?;
    }
    first_refusal(lent, &read)?;
    match read {
        Ok((issue, fixes)) => again(lent, issue, &fixes, random),
        Err(_) => Ok(()),
    }
}

/// The list as a whole.
fn whole(bytes: &[u8], counts: &mut Counts) -> Same<Read> {
    let read = DriftList::read(bytes);
    let ours = read.map(|list| (list.issue(), list.iter().collect()));
    let ours: Read = ours.map_err(Refusal::number);
    let theirs: Read =
        theirs::read(bytes).map(|(issue, fixes)| (issue, fixes.into_iter().map(fix).collect()));
    same("read", &ours, &theirs)?;
    counts.lists += 1;
    counts.accepted += u64::from(ours.is_ok());
    counts.answer(Call::Read, &ours);
    if let (Ok(list), Ok((_, fixes))) = (read, &theirs) {
        let told = (list.len(), list.is_empty(), list.iter().len());
        same(
            "length",
            &told,
            &(fixes.len(), fixes.is_empty(), fixes.len()),
        )?;
        same_bytes("bytes", list.as_bytes(), bytes)?;
        let mut reversed: Vec<_> = list.iter().rev().collect();
        reversed.reverse();
        same("records from the last", &reversed, fixes)?;
    }
    Ok(ours)
}

/// Every place up to one past the count, and far past it; of a long list some. A count that lies may be past the
/// bytes.
fn places(bytes: &[u8]) -> Vec<usize> {
    let told = match bytes {
        [_, _, high, low, ..] => usize::from(u16::from_be_bytes([*high, *low])),
        _ => 0,
    };
    let there = bytes.len() / RECORD;
    let mut places: Vec<_> = if there <= FEW {
        (0..=told.min(there) + 1).collect()
    } else {
        vec![0, 1, there / 2, there - 1]
    };
    places.extend([told.saturating_sub(1), told, told + 1, 65_536, usize::MAX]);
    places
}

/// One record, by both calls.
fn by_place(bytes: &[u8], k: usize, read: &Read, counts: &mut Counts) -> Same {
    let ours = record_at(bytes, k).map_err(Refusal::number);
    let theirs = theirs::record_at(bytes, k).map(fix);
    same(&format!("record {k}"), &ours, &theirs)?;
    counts.answer(Call::Record, &ours);
    counts.found += u64::from(ours.is_ok());
    let walked = walk_at(bytes, k).map_err(Refusal::number);
    same(&format!("walk {k}"), &walked, &walk_rule(bytes, k, read))?;
    counts.answer(Call::Walk, &walked);
    match read {
        // Of an accepted list the walk answers as the other.
        Ok(_) => same(&format!("walk {k}, accepted"), &walked, &theirs),
        Err(_) => Ok(()),
    }
}

/// What the walk must answer: 30; then 19; then what the independent reader says of the record alone, behind one that
/// has the buoy before it and is good. Where that buoy is 0 every buoy but 0 is above it, as at a list's first record.
fn walk_rule(bytes: &[u8], k: usize, read: &Read) -> Result<Fix, u8> {
    if read == &Err(LENGTH) {
        return Err(LENGTH);
    }
    let (records, _) = bytes[HEADER..].as_chunks::<RECORD>();
    let record = records.get(k).ok_or(NO_PLACE)?;
    let mut alone = vec![0, 0, 0, 1];
    if let Some(&[b0, b1, b2, ..]) = k.checked_sub(1).map(|before| &records[before]) {
        let buoy = [b0, b1, b2 & 0xF0];
        if buoy != [0; 3] {
            alone = [&[0, 0, 0, 2], &buoy[..], &[0; 9]].concat();
        }
    }
    alone.extend(record);
    let (_, fixes) = theirs::read(&alone)?;
    Ok(fix(fixes[fixes.len() - 1]))
}

/// Walked from 0 on, the first refusal is the list's own, or 19 after the last record of an accepted list.
fn first_refusal(bytes: &[u8], read: &Read) -> Same {
    let mut walked = vec![];
    let refusal = loop {
        match walk_at(bytes, walked.len()) {
            Ok(fix) => walked.push(fix),
            Err(refusal) => break refusal.number(),
        }
    };
    let wanted = match read {
        Ok((_, fixes)) => {
            same("records of a walk", &walked, fixes)?;
            NO_PLACE
        }
        Err(number) => *number,
    };
    same("first refusal of a walk", &refusal, &wanted)
}

/// What was read is written again, and is the same bytes.
fn again(bytes: &[u8], issue: u16, fixes: &[Fix], random: &mut Random) -> Same {
    let rows: Vec<_> = fixes.iter().copied().map(Row::from).collect();
    let before = random.bytes(bytes.len() + 3);
    let mut out = before.clone();
    let size = write(issue.into(), rows.len() as u32, &rows, &mut out).map_err(Refusal::number);
    same("size, written again", &size, &Ok(bytes.len()))?;
    same_bytes("written again", &out[..bytes.len()], bytes)?;
    let rest = bytes.len()..;
    same_bytes("past the list", &out[rest.clone()], &before[rest])
}

/// Their record in our type.
pub fn fix(theirs: theirs::Fix) -> Fix {
    Fix {
        buoy: theirs.buoy,
        state: match theirs.state {
            theirs::State::None => State::None,
            theirs::State::Fix => State::Fix,
            theirs::State::LastKnown => State::LastKnown,
        },
        longitude: theirs.longitude,
        latitude: theirs.latitude,
        minute: theirs.minute,
    }
}

#[cfg(test)]
mod tests {
    use super::*;
    use make::drift::{list, Fields};

    const USUAL: Fields = Fields {
        buoy: 7,
        state: 1,
        longitude: 1,
        latitude: -1,
        minute: 1,
        spare: 0,
    };

    #[test]
    fn the_rule_of_the_walk_looks_at_the_record_and_the_buoy_before() {
        let records = [
            USUAL,
            Fields { buoy: 7, ..USUAL },
            Fields { buoy: 0, ..USUAL },
            Fields { buoy: 5, ..USUAL },
            Fields { spare: 1, ..USUAL },
            Fields { buoy: 8, ..USUAL },
        ];
        let bytes = list(1, 6, &records);
        let walked = |k| walk_rule(&bytes, k, &Err(33)).map(|fix| fix.buoy);
        let all: Vec<_> = (0..7).map(walked).collect();
        let wanted = [Ok(7), Err(33), Err(33), Ok(5), Err(34), Ok(8), Err(19)];
        assert_eq!(all, wanted);
        assert_eq!(walk_rule(&bytes, 0, &Err(30)), Err(30));
    }

    #[test]
    fn places_go_past_the_count() {
        let bytes = list(1, 2, &[USUAL; 2]);
        assert!((0..=3).all(|k| places(&bytes).contains(&k)));
        assert!(places(&[]).contains(&0));
        let lying = list(1, 65_535, &[USUAL]);
        assert!([0, 1, 2, 65_534, 65_535, 65_536]
            .iter()
            .all(|k| places(&lying).contains(k)));
    }
}
