//! Lists and numbers at every bound: each field at both ends of its range and of its bits, and one past them, with every
//! other; every two faults, in one record and in two; every length about the right one, counts that lie, and buffers of
//! every size.

use super::{numbers_of, size_of, Case, Draft, NUMBERS};
use make::drift::{good, list, Fields};

/// A good record.
const USUAL: Fields = Fields {
    buoy: 7,
    state: 1,
    longitude: 1,
    latitude: -1,
    minute: 1,
    spare: 0,
};

/// All of them.
pub fn all() -> impl Iterator<Item = Case> {
    let read = one_record()
        .chain(after_another())
        .chain(two_faults())
        .chain(lengths())
        .chain(turned_bits())
        .chain(long())
        .map(Case::Read);
    let write = numbers()
        .chain(faulty_numbers())
        .chain(wide_numbers())
        .chain(counts())
        .chain(every_room())
        .chain(long_numbers())
        .map(Case::Write);
    read.chain(write)
}

/// A number whose digits choose, so that counting it up goes through all choices together.
struct Digits(usize);

impl Digits {
    fn pick<T: Copy>(&mut self, from: &[T]) -> T {
        from[self.below(from.len())]
    }

    fn below(&mut self, bound: usize) -> usize {
        let digit = self.0 % bound;
        self.0 /= bound;
        digit
    }
}

// ---- to be read

const BUOYS: [u32; 5] = [0, 1, 2, 0xF_FFFE, 0xF_FFFF];
const STATES: [u32; 4] = [0, 1, 2, 3];
const LONGITUDES: [i32; 12] = [
    -134_217_728,
    -134_217_727,
    -108_000_001,
    -108_000_000,
    -107_999_999,
    -1,
    0,
    1,
    107_999_999,
    108_000_000,
    108_000_001,
    134_217_727,
];
const LATITUDES: [i32; 11] = [
    -67_108_864,
    -54_000_001,
    -54_000_000,
    -53_999_999,
    -1,
    0,
    1,
    53_999_999,
    54_000_000,
    54_000_001,
    67_108_863,
];
const MINUTES: [u32; 6] = [0, 1, 10_079, 10_080, 10_081, 16_383];
const SPARES: [u32; 4] = [0, 1, 16, 31];
const ISSUES: [u16; 5] = [0, 1, 0x00FF, 0x0100, 0xFFFF];

/// Each field at its bounds, together with every other.
fn one_record() -> impl Iterator<Item = Vec<u8>> {
    let all = BUOYS.len()
        * STATES.len()
        * LONGITUDES.len()
        * LATITUDES.len()
        * MINUTES.len()
        * SPARES.len();
    (0..all).map(|number| {
        let mut digits = Digits(number);
        let record = Fields {
            buoy: digits.pick(&BUOYS),
            state: digits.pick(&STATES),
            longitude: digits.pick(&LONGITUDES),
            latitude: digits.pick(&LATITUDES),
            minute: digits.pick(&MINUTES),
            spare: digits.pick(&SPARES),
        };
        list(ISSUES[number / 7 % ISSUES.len()], 1, &[record])
    })
}

/// Every two buoys at their bounds one after another, with each state, and a record behind them.
fn after_another() -> impl Iterator<Item = Vec<u8>> {
    const BEFORE: [u32; 8] = [0, 1, 2, 0x7_FFFF, 0x8_0000, 0xF_FFFD, 0xF_FFFE, 0xF_FFFF];
    const PLACES: [(i32, i32); 5] = [(0, 0), (0, 1), (1, 0), (0, -1), (-1, 0)];
    let all = BEFORE.len() * BEFORE.len() * STATES.len() * PLACES.len() * 2 * 2;
    (0..all).map(|number| {
        let mut digits = Digits(number);
        let buoy = digits.pick(&BEFORE);
        let first = Fields { buoy, ..USUAL };
        let buoy = digits.pick(&BEFORE);
        let state = digits.pick(&STATES);
        let (longitude, latitude) = digits.pick(&PLACES);
        let second = Fields {
            buoy,
            state,
            longitude,
            latitude,
            minute: digits.pick(&[0, 10_080]),
            spare: digits.pick(&[0, 1]),
        };
        let last = Fields {
            buoy: 0xF_FFFF,
            ..USUAL
        };
        list(1, 3, &[first, second, last])
    })
}

/// How many faults [`spoil`] knows; the first is none.
const FAULTS: usize = 14;

/// Puts a fault into a record behind one with this buoy.
fn spoil(record: &mut Fields, fault: usize, before: u32) {
    match fault {
        1 => record.longitude = -108_000_000,
        2 => record.longitude = 108_000_001,
        3 => record.latitude = -54_000_001,
        4 => record.latitude = 54_000_001,
        5 => record.minute = 10_080,
        6 => record.buoy = 0,
        7 => record.buoy = before,
        8 => record.buoy = before.saturating_sub(1),
        9 => record.spare = 1,
        10 => record.state = 3,
        11 => record.state = 0,
        12 => (record.state, record.longitude, record.latitude) = (1, 0, 0),
        13 => (record.state, record.longitude, record.latitude) = (2, 0, 0),
        _ => {}
    }
}

/// Four records with a fault at one place and a fault at another, or both at one.
fn spoilt(digits: &mut Digits) -> Vec<Fields> {
    let record = |place: u32| Fields {
        buoy: 10 * place + 10,
        ..USUAL
    };
    let mut records: Vec<_> = (0..4).map(record).collect();
    for _ in 0..2 {
        let place = digits.below(4);
        let before = place
            .checked_sub(1)
            .map_or(0, |before| records[before].buoy);
        spoil(&mut records[place], digits.below(FAULTS), before);
    }
    records
}

const TWO_FAULTS: usize = 4 * FAULTS * 4 * FAULTS;

fn two_faults() -> impl Iterator<Item = Vec<u8>> {
    (0..TWO_FAULTS).map(|number| list(1, 4, &spoilt(&mut Digits(number))))
}

/// Every length up to one record and more past the right one, under the right count and others.
fn lengths() -> impl Iterator<Item = Vec<u8>> {
    (0..=5).flat_map(|count: usize| {
        let told = [count, count + 1, count.saturating_sub(1), 0, 256 * count];
        let told = told.into_iter().chain([256, 21_845, 65_535]);
        told.flat_map(move |told| {
            let mut long = list(1, told as u16, &good(count, 5));
            long.extend([0; 13]);
            (0..=long.len()).map(move |length| long[..length].to_vec())
        })
    })
}

/// Each bit of a list, alone.
fn turned_bits() -> impl Iterator<Item = Vec<u8>> {
    (0..4).flat_map(|seed| {
        let bytes = list(0x1234, 5, &good(5, seed));
        (0..8 * bytes.len()).map(move |bit| {
            let mut turned = bytes.clone();
            turned[bit / 8] ^= 0x80 >> (bit % 8);
            turned
        })
    })
}

/// Lists of many records, the longest among them: right, and wrong at the last record.
fn long() -> impl Iterator<Item = Vec<u8>> {
    [255, 256, 5_461, 65_535].into_iter().flat_map(|count| {
        (0..FAULTS).step_by(3).map(move |fault| {
            let mut records = good(count, 9);
            let before = records[count - 2].buoy;
            spoil(&mut records[count - 1], fault, before);
            list(1, count as u16, &records)
        })
    })
}

// ---- to be written

/// Around the size of a list of so many records: buffers that are too short, just enough, and more.
fn around(records: usize) -> [usize; 4] {
    let size = size_of(records);
    [0, size - 1, size, size + 17]
}

fn draft(records: usize, numbers: Vec<i32>, room: usize) -> Draft {
    Draft {
        issue: 1,
        count: records as u32,
        numbers,
        rooms: vec![room],
    }
}

const GIVEN_BUOYS: [i32; 7] = [i32::MIN, -1, 0, 1, 1_048_575, 1_048_576, i32::MAX];
const GIVEN_STATES: [i32; 9] = [i32::MIN, -1, 0, 1, 2, 3, 4, 256, i32::MAX];
const GIVEN_LONGITUDES: [i32; 13] = [
    i32::MIN,
    -134_217_729,
    -134_217_728,
    -108_000_000,
    -107_999_999,
    -1,
    0,
    1,
    108_000_000,
    108_000_001,
    134_217_727,
    134_217_728,
    i32::MAX,
];
const GIVEN_LATITUDES: [i32; 13] = [
    i32::MIN,
    -67_108_865,
    -67_108_864,
    -54_000_001,
    -54_000_000,
    -1,
    0,
    1,
    54_000_000,
    54_000_001,
    67_108_863,
    67_108_864,
    i32::MAX,
];
const GIVEN_MINUTES: [i32; 9] = [
    i32::MIN,
    -1,
    0,
    10_079,
    10_080,
    16_383,
    16_384,
    65_536,
    i32::MAX,
];

/// The numbers of one record at their bounds, each together with every other.
fn numbers() -> impl Iterator<Item = Draft> {
    let all = GIVEN_BUOYS.len()
        * GIVEN_STATES.len()
        * GIVEN_LONGITUDES.len()
        * GIVEN_LATITUDES.len()
        * GIVEN_MINUTES.len();
    (0..all).map(|number| {
        let mut digits = Digits(number);
        let numbers = vec![
            digits.pick(&GIVEN_BUOYS),
            digits.pick(&GIVEN_STATES),
            digits.pick(&GIVEN_LONGITUDES),
            digits.pick(&GIVEN_LATITUDES),
            digits.pick(&GIVEN_MINUTES),
        ];
        draft(1, numbers, around(1)[number / 5 % 4])
    })
}

/// Every two faults, into each buffer.
fn faulty_numbers() -> impl Iterator<Item = Draft> {
    (0..TWO_FAULTS).map(|number| {
        let numbers = numbers_of(&spoilt(&mut Digits(number)));
        let rooms = around(4).to_vec();
        Draft {
            rooms,
            ..draft(4, numbers, 0)
        }
    })
}

/// A number that its field can not tell, at each place, with two faults elsewhere.
fn wide_numbers() -> impl Iterator<Item = Draft> {
    const WIDE: [(usize, i32); 16] = [
        (0, -1),
        (0, 1 << 20),
        (0, i32::MIN),
        (1, -1),
        (1, 4),
        (1, i32::MAX),
        (2, -134_217_729),
        (2, 134_217_728),
        (2, i32::MIN),
        (3, -67_108_865),
        (3, 67_108_864),
        (3, i32::MAX),
        (4, -1),
        (4, 1 << 14),
        (4, 1 << 16),
        (4, i32::MIN),
    ];
    (0..TWO_FAULTS * WIDE.len() * 4).map(|number| {
        let mut digits = Digits(number);
        let (field, value) = digits.pick(&WIDE);
        let place = digits.below(4);
        let mut numbers = numbers_of(&spoilt(&mut digits));
        numbers[NUMBERS * place + field] = value;
        draft(4, numbers, around(4)[number / 5 % 4])
    })
}

/// Counts and issues that are not right, and numbers that are no whole number of records.
fn counts() -> impl Iterator<Item = Draft> {
    const COUNTS: [u32; 10] = [
        0,
        1,
        2,
        3,
        4,
        65_535,
        65_536,
        65_539,
        858_993_460, // five times this is 4 in 32 bits
        u32::MAX,
    ];
    const GIVEN_ISSUES: [u32; 4] = [0, 65_535, 65_536, u32::MAX];
    (0..22 * COUNTS.len() * GIVEN_ISSUES.len() * 4 * 2).map(|number| {
        let mut digits = Digits(number);
        let length = digits.below(22);
        let count = digits.pick(&COUNTS);
        let issue = digits.pick(&GIVEN_ISSUES);
        let room = digits.pick(&around(length / NUMBERS));
        let mut numbers = numbers_of(&good(5, 3));
        if digits.below(2) == 1 {
            numbers[0] = 0; // also a fault
        }
        numbers.truncate(length);
        Draft {
            issue,
            count,
            ..draft(0, numbers, room)
        }
    })
}

/// Good records and faulty ones into buffers of every size, up to three bytes more than they need, and larger ones.
fn every_room() -> impl Iterator<Item = Draft> {
    (0..=5).flat_map(|count| {
        (0..FAULTS).map(move |fault| {
            let mut records = good(count, fault as u64);
            let before = records.iter().rev().nth(1).map_or(0, |record| record.buoy);
            if let Some(last) = records.last_mut() {
                spoil(last, fault, before);
            }
            let size = size_of(count);
            let rooms = (0..=size + 3).chain([size + 12, 300, 65_536]).collect();
            Draft {
                issue: 0xABCD,
                rooms,
                ..draft(count, numbers_of(&records), 0)
            }
        })
    })
}

/// Many records: the most, and one more.
fn long_numbers() -> impl Iterator<Item = Draft> {
    let longest = [255, 256, 5_461, 65_535].into_iter().map(|count| Draft {
        rooms: around(count).to_vec(),
        ..draft(count, numbers_of(&good(count, 8)), 0)
    });
    let more = (1..=65_536).flat_map(|buoy| [buoy, 0, 0, 0, 0]).collect();
    longest.chain([draft(65_536, more, size_of(65_536))])
}

#[cfg(test)]
mod tests {
    use super::*;

    #[test]
    fn each_fault_is_one_and_the_first_is_none() {
        for fault in 0..FAULTS {
            let mut records = [USUAL, Fields { buoy: 8, ..USUAL }];
            spoil(&mut records[1], fault, 7);
            let read = baseline::drift::read(&list(1, 2, &records));
            assert_eq!(read.is_ok(), fault == 0, "{fault}");
        }
    }

    #[test]
    fn digits_go_through_all_choices_together() {
        let mut met = std::collections::HashSet::new();
        for number in 0..6 {
            let mut digits = Digits(number);
            met.insert((digits.pick(&['a', 'b']), digits.below(3)));
        }
        assert_eq!(met.len(), 6);
    }
}
