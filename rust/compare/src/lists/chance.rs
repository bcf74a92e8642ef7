//! Lists and numbers by chance.

use super::{numbers_of, size_of, Case, Draft, RECORD};
use crate::random::Random;
use make::drift::{good, list, Fields};

/// So many of them. A case depends on the seed and its number alone.
pub fn all(seed: u64, cases: u64) -> impl Iterator<Item = Case> {
    (0..cases).map(move |number| any(&mut Random::of(!seed, number)))
}

fn any(random: &mut Random) -> Case {
    match random.below(20) {
        0..=4 => Case::Read(good_list(random)),
        5..=9 => Case::Read(turned(random)),
        10 => Case::Read(any_bits(random)),
        11..=13 => Case::Read(moved(random)),
        14..=18 => Case::Write(spoilt(random)),
        _ => Case::Write(any_numbers(random)),
    }
}

fn records(random: &mut Random) -> Vec<Fields> {
    let count = random.pick(&[0, 1, 2, 3, 5, 9, 17, 40]);
    good(count, random.number())
}

/// A list of these records, of any issue.
fn of(random: &mut Random, records: &[Fields]) -> Vec<u8> {
    list(random.number() as u16, records.len() as u16, records)
}

fn good_list(random: &mut Random) -> Vec<u8> {
    let records = records(random);
    of(random, &records)
}

/// A good list with some bits turned; rarely those of the count.
fn turned(random: &mut Random) -> Vec<u8> {
    let mut bytes = good_list(random);
    for _ in 0..random.within(1..=3) {
        let from = if random.one_in(10) { 0 } else { 4 };
        if from < bytes.len() {
            let at = random.within(from..=bytes.len() - 1);
            bytes[at] ^= 1 << random.below(8);
        }
    }
    bytes
}

/// Any bits under a right count, or any bytes at all.
fn any_bits(random: &mut Random) -> Vec<u8> {
    let count = random.below(9);
    let mut bytes = random.bytes(size_of(count));
    if !random.one_in(4) {
        bytes[2..4].copy_from_slice(&[0, count as u8]);
    }
    let most = bytes.len();
    if random.one_in(8) {
        bytes.truncate(random.within(0..=most));
    }
    bytes
}

/// A good list with a record twice, at another place, or left out, the count mostly told right; or with bytes less or more.
fn moved(random: &mut Random) -> Vec<u8> {
    let mut records = records(random);
    let (one, other) = (
        random.below(records.len() + 1),
        random.below(records.len() + 1),
    );
    match (random.below(4), records.len()) {
        (0, n) if one < n => records.insert(other, records[one]),
        (1, n) if one < n && other < n => records.swap(one, other),
        (2, n) if one < n => {
            records.remove(one);
        }
        _ => {}
    }
    let mut bytes = of(random, &records);
    match random.below(8) {
        0 => bytes[3] = bytes[3].wrapping_add(random.pick(&[1, 255])),
        1 => bytes.truncate(bytes.len() - random.below(4)),
        2 => bytes.extend(vec![0; random.within(1..=RECORD)]),
        _ => {}
    }
    bytes
}

/// Buffers about the size of a list of so many records.
fn rooms(random: &mut Random, count: usize) -> Vec<usize> {
    let size = size_of(count);
    vec![random.below(size), size, size + random.below(100)]
}

/// The numbers of good records, some of them replaced; count, issue and length mostly right.
fn spoilt(random: &mut Random) -> Draft {
    let records = records(random);
    let mut numbers = numbers_of(&records);
    for _ in 0..random.pick(&[0, 0, 1, 1, 2, 3]) {
        if !numbers.is_empty() {
            let at = random.below(numbers.len());
            numbers[at] = any_number(random);
        }
    }
    let mut count = records.len() as u32;
    if random.one_in(20) {
        count = random.pick(&[count + 1, count.wrapping_sub(1), count + 65_536]);
    }
    if random.one_in(20) {
        numbers.truncate(random.below(numbers.len() + 1));
    }
    let wide = random.number() as u32;
    Draft {
        issue: if random.one_in(30) {
            wide
        } else {
            wide % 65_536
        },
        count,
        numbers,
        rooms: rooms(random, records.len()),
    }
}

/// A number of any size: it may fit any field, or none.
fn any_number(random: &mut Random) -> i32 {
    let number = (random.number() as u32 >> random.below(32)) as i32;
    match random.below(3) {
        0 => number.wrapping_neg(),
        1 => random.pick(&[0, 1, 2, 3, -1, 10_080, 54_000_001, -108_000_000]),
        _ => number,
    }
}

/// Any numbers for any count of records.
fn any_numbers(random: &mut Random) -> Draft {
    let count = random.below(4);
    Draft {
        issue: random.below(65_536) as u32,
        count: count as u32,
        numbers: (0..5 * count).map(|_| any_number(random)).collect(),
        rooms: rooms(random, count),
    }
}

#[cfg(test)]
mod tests {
    use super::*;

    #[test]
    fn a_case_is_made_again_from_its_seed() {
        let told = |case: Case| case.to_string();
        let one: Vec<_> = all(3, 50).map(told).collect();
        let again: Vec<_> = all(3, 50).map(told).collect();
        assert_eq!(one, again);
    }
}
