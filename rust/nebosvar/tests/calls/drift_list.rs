//! The drift list: read, walked and written.

use make::drift::{good, list, Fields};
use nebosvar::drift::{record_at, walk_at, write, write_numbers, DriftList, Fix, Row, State};
use nebosvar::Refusal;

/// Worked out by hand from the widths, 20, 2, 28, 27, 14 and 5:
///
/// ```text
/// buoy 703,710, state 2, longitude -1, latitude 1, minute 10,079
/// 10101011 11001101 1110|10|11 11111111 11111111 11111111
/// 11|000000 00000000 00000000 00001|100 11101011 111|00000
///
/// buoy 703,711, state 1, longitude 108,000,000 (0x66FF300), latitude -54,000,000 (2^27 - 54,000,000 = 0x4C80680), minute 0
/// 10101011 11001101 1111|01|01 10011011 11111100 11000000
/// 00|100110 01000000 00110100 00000|000 00000000 000|00000
/// ```
const BY_HAND: [u8; 28] = [
    0x01, 0x02, 0x00, 0x02, 0xAB, 0xCD, 0xEB, 0xFF, 0xFF, 0xFF, 0xC0, 0x00, 0x00, 0x0C, 0xEB, 0xE0,
    0xAB, 0xCD, 0xF5, 0x9B, 0xFC, 0xC0, 0x26, 0x40, 0x34, 0x00, 0x00, 0x00,
];

const FIXES: [Fix; 2] = [
    Fix {
        buoy: 703_710,
        state: State::LastKnown,
        longitude: -1,
        latitude: 1,
        minute: 10_079,
    },
    Fix {
        buoy: 703_711,
        state: State::Fix,
        longitude: 108_000_000,
        latitude: -54_000_000,
        minute: 0,
    },
];

/// A good record, and another behind it.
const USUAL: Fields = Fields {
    buoy: 7,
    state: 1,
    longitude: 1,
    latitude: -1,
    minute: 1,
    spare: 0,
};
const NEXT: Fields = Fields { buoy: 8, ..USUAL };

/// The numbers of records as the writer takes them.
fn rows(records: &[Fields]) -> Vec<Row> {
    let row = |record: &Fields| Row {
        buoy: record.buoy as i32,
        state: record.state as i32,
        longitude: record.longitude,
        latitude: record.latitude,
        minute: record.minute as i32,
    };
    records.iter().map(row).collect()
}

/// Whatever place is asked for, the list is refused; and nothing is written of it where its spare bits are zero.
fn refused(records: &[Fields], refusal: Refusal) {
    let bytes = list(1, records.len() as u16, records);
    assert_eq!(DriftList::read(&bytes), Err(refusal), "{records:?}");
    for k in [0, 1, records.len(), usize::MAX] {
        assert_eq!(record_at(&bytes, k), Err(refusal), "{records:?}");
    }
    let walked = (0..).map(|k| walk_at(&bytes, k)).find(|fix| fix.is_err());
    assert_eq!(walked, Some(Err(refusal)), "{records:?}");
    if records.iter().all(|record| record.spare == 0) {
        not_written(records.len() as u32, &rows(records), refusal);
    }
}

fn not_written(count: u32, rows: &[Row], refusal: Refusal) {
    for room in [0, 4 + 12 * rows.len(), 4 + 12 * rows.len() + 9] {
        let mut out = vec![0xA5; room];
        assert_eq!(write(1, count, rows, &mut out), Err(refusal), "{rows:?}");
        assert_eq!(out, vec![0xA5; room]);
    }
}

#[test]
fn records_worked_out_by_hand() {
    let read = DriftList::read(&BY_HAND).unwrap();
    assert_eq!((read.issue(), read.len(), read.is_empty()), (258, 2, false));
    assert_eq!(read.as_bytes(), BY_HAND);
    for (k, fix) in FIXES.into_iter().enumerate() {
        assert_eq!(read.get(k), Ok(fix));
        assert_eq!(record_at(&BY_HAND, k), Ok(fix));
        assert_eq!(walk_at(&BY_HAND, k), Ok(fix));
    }
    for k in [2, 3, 65_535, 65_536, usize::MAX] {
        assert_eq!(read.get(k), Err(Refusal::NO_PLACE));
        assert_eq!(record_at(&BY_HAND, k), Err(Refusal::NO_PLACE));
        assert_eq!(walk_at(&BY_HAND, k), Err(Refusal::NO_PLACE));
    }
    let mut out = [0xEE; 30];
    assert_eq!(write(258, 2, &FIXES.map(Row::from), &mut out), Ok(28));
    assert_eq!(out[..28], BY_HAND);
    assert_eq!(out[28..], [0xEE; 2]);
}

#[test]
fn rows_are_their_numbers() {
    let row = Row {
        buoy: 703_710,
        state: 2,
        longitude: -1,
        latitude: 1,
        minute: 10_079,
    };
    assert_eq!(Row::from(FIXES[0]), row);
    let numbers = [
        703_710,
        2,
        -1,
        1,
        10_079,
        703_711,
        1,
        108_000_000,
        -54_000_000,
        0,
    ];
    let (mut by_rows, mut by_numbers) = ([0; 28], [0; 28]);
    assert_eq!(write(1, 2, &FIXES.map(Row::from), &mut by_rows), Ok(28));
    assert_eq!(write_numbers(1, 2, &numbers, &mut by_numbers), Ok(28));
    assert_eq!(by_rows, by_numbers);
    // Not even when its number goes round in 32 bits is a buoy taken.
    let far = Fix {
        buoy: u32::MAX,
        ..FIXES[0]
    };
    not_written(1, &[far.into()], Refusal::LIST_WIDTH);
}

#[test]
fn records_one_after_another() {
    let read = DriftList::read(&BY_HAND).unwrap();
    assert_eq!(read.iter().collect::<Vec<_>>(), FIXES);
    assert_eq!(read.into_iter().collect::<Vec<_>>(), FIXES);
    let mut reversed: Vec<_> = read.iter().rev().collect();
    reversed.reverse();
    assert_eq!(reversed, FIXES);
    let mut fixes = (&read).into_iter();
    assert_eq!(fixes.len(), 2);
    assert_eq!(fixes.clone().nth(1), Some(FIXES[1]));
    assert_eq!(fixes.next_back(), Some(FIXES[1]));
    assert_eq!((fixes.len(), fixes.next()), (1, Some(FIXES[0])));
    assert_eq!((fixes.len(), fixes.next(), fixes.next()), (0, None, None));
    assert_eq!(read.iter().nth(2), None);
}

#[test]
fn an_empty_list() {
    let bytes = [0xAB, 0xCD, 0, 0];
    let read = DriftList::read(&bytes).unwrap();
    assert_eq!((read.issue(), read.len()), (0xABCD, 0));
    assert!(read.is_empty());
    assert_eq!(read.iter().next(), None);
    assert_eq!(read.get(0), Err(Refusal::NO_PLACE));
    let mut out = [1; 4];
    assert_eq!(write(0xABCD, 0, &[], &mut out), Ok(4));
    assert_eq!(out, bytes);
}

#[test]
fn length_30() {
    let long = [&BY_HAND[..], &[0; 13]].concat();
    for length in (0..long.len()).filter(|&length| length != 28) {
        let bytes = &long[..length];
        assert_eq!(DriftList::read(bytes), Err(Refusal::LIST_LENGTH));
        for k in [0, 2, usize::MAX] {
            assert_eq!(record_at(bytes, k), Err(Refusal::LIST_LENGTH));
            assert_eq!(walk_at(bytes, k), Err(Refusal::LIST_LENGTH));
        }
    }
    for count in [0, 1, 3, 0x0102, 65_535] {
        let bytes = list(1, count, &[USUAL, NEXT]);
        assert_eq!(DriftList::read(&bytes), Err(Refusal::LIST_LENGTH));
    }
}

#[test]
fn each_field_at_its_bounds_31_to_35() {
    let taken = |record: Fields| {
        let bytes = list(1, 1, &[record]);
        let read = DriftList::read(&bytes).unwrap();
        let row = [Row::from(read.get(0).unwrap())];
        let mut out = [0; 16];
        assert_eq!(write(1, 1, &row, &mut out), Ok(16), "{record:?}");
        assert_eq!(out[..], bytes);
    };
    for longitude in [-107_999_999, 0, 108_000_000] {
        taken(Fields { longitude, ..USUAL });
    }
    for latitude in [-54_000_000, 0, 54_000_000] {
        taken(Fields { latitude, ..USUAL });
    }
    for minute in [0, 10_079] {
        taken(Fields { minute, ..USUAL });
    }
    for buoy in [1, 0xF_FFFF] {
        taken(Fields { buoy, ..USUAL });
    }
    for longitude in [-134_217_728, -108_000_000, 108_000_001, 134_217_727] {
        refused(&[Fields { longitude, ..USUAL }], Refusal::LIST_COORDINATE);
    }
    for latitude in [-67_108_864, -54_000_001, 54_000_001, 67_108_863] {
        refused(&[Fields { latitude, ..USUAL }], Refusal::LIST_COORDINATE);
    }
    for minute in [10_080, 16_383] {
        refused(&[Fields { minute, ..USUAL }], Refusal::LIST_MINUTE);
    }
    for buoy in [0, 6, 7] {
        refused(&[USUAL, Fields { buoy, ..USUAL }], Refusal::LIST_BUOY);
    }
    refused(&[Fields { buoy: 0, ..USUAL }], Refusal::LIST_BUOY);
    for spare in [1, 16, 31] {
        refused(&[Fields { spare, ..USUAL }], Refusal::LIST_SPARE);
    }
    // State, longitude, latitude.
    for (state, longitude, latitude) in [
        (0, 1, 0),
        (0, 0, -1),
        (1, 0, 0),
        (2, 0, 0),
        (3, 0, 0),
        (3, 1, 1),
    ] {
        let record = Fields {
            state,
            longitude,
            latitude,
            ..USUAL
        };
        refused(&[record], Refusal::LIST_STATE);
    }
}

#[test]
fn the_lowest_at_the_first_faulty_record() {
    let all = Fields {
        buoy: 0,
        state: 3,
        longitude: 0,
        latitude: 54_000_001,
        minute: 10_080,
        spare: 1,
    };
    let mut record = all;
    refused(&[record], Refusal::LIST_COORDINATE);
    record.latitude = 0;
    refused(&[record], Refusal::LIST_MINUTE);
    record.minute = 0;
    refused(&[record], Refusal::LIST_BUOY);
    record.buoy = 9;
    refused(&[record], Refusal::LIST_SPARE);
    record.spare = 0;
    refused(&[record], Refusal::LIST_STATE);
    // A later record may have a lower one.
    refused(&[USUAL, record, all], Refusal::LIST_STATE);
    refused(&[USUAL, all, record], Refusal::LIST_COORDINATE);
}

#[test]
fn a_walk_judges_one_record() {
    let spare = Fields { spare: 1, ..NEXT };
    let last = Fields { buoy: 8, ..USUAL };
    let bytes = list(1, 3, &[USUAL, spare, last]);
    assert_eq!(walk_at(&bytes, 0).map(|fix| fix.buoy), Ok(7));
    assert_eq!(walk_at(&bytes, 1), Err(Refusal::LIST_SPARE));
    // It is held to the buoy before it, though that record is refused.
    assert_eq!(walk_at(&bytes, 2), Err(Refusal::LIST_BUOY));
    assert_eq!(walk_at(&bytes, 3), Err(Refusal::NO_PLACE));
    let bytes = list(1, 2, &[spare, Fields { buoy: 9, ..USUAL }]);
    assert_eq!(walk_at(&bytes, 1).map(|fix| fix.buoy), Ok(9));
}

#[test]
fn width_36_before_all_others() {
    for (field, low, high) in [
        (0, 0, 0xF_FFFF),
        (1, 0, 3),
        (2, -134_217_728, 134_217_727),
        (3, -67_108_864, 67_108_863),
        (4, 0, 16_383),
    ] {
        let answer = |number| {
            let mut numbers = [7, 1, 1, -1, 1];
            numbers[field] = number;
            write_numbers(1, 1, &numbers, &mut [0; 16]).err()
        };
        for number in [low, high] {
            assert_ne!(answer(number), Some(Refusal::LIST_WIDTH));
        }
        for number in [low - 1, high + 1, i32::MIN, i32::MAX] {
            assert_eq!(answer(number), Some(Refusal::LIST_WIDTH), "{field}");
        }
    }
    // The count, and the issue.
    let faulty = rows(&[Fields { buoy: 0, ..USUAL }, NEXT]);
    not_written(2, &faulty, Refusal::LIST_BUOY);
    for count in [0, 1, 3, 65_538, u32::MAX] {
        not_written(count, &faulty, Refusal::LIST_WIDTH);
    }
    for issue in [65_536, u32::MAX] {
        let answer = write(issue, 2, &faulty, &mut [0; 28]);
        assert_eq!(answer, Err(Refusal::LIST_WIDTH));
    }
    // In the last number, behind the fault.
    let mut wide = faulty;
    wide[1].minute = -1;
    not_written(2, &wide, Refusal::LIST_WIDTH);
    // No whole number of records.
    for length in (0..12).filter(|length| *length != 5) {
        let answer = write_numbers(1, 1, &[0; 12][..length], &mut []);
        assert_eq!(answer, Err(Refusal::LIST_WIDTH));
    }
}

#[test]
fn room_37_last() {
    let rows = FIXES.map(Row::from);
    for room in 0..28 {
        let mut out = vec![0xA5; room];
        assert_eq!(write(258, 2, &rows, &mut out), Err(Refusal::LIST_ROOM));
        assert_eq!(out, vec![0xA5; room]);
    }
    let mut empty = [0; 3];
    assert_eq!(write(1, 0, &[], &mut empty), Err(Refusal::LIST_ROOM));
}

#[test]
fn the_longest_lists_go_both_ways() {
    for n in [5_461, 65_535] {
        let records = good(n, 1);
        let bytes = list(9, n as u16, &records);
        let read = DriftList::read(&bytes).unwrap();
        let rows: Vec<_> = read.iter().map(Row::from).collect();
        assert_eq!(rows, self::rows(&records));
        let mut out = vec![0; bytes.len()];
        assert_eq!(write(9, n as u32, &rows, &mut out), Ok(bytes.len()));
        assert_eq!(out, bytes);
        assert_eq!(record_at(&bytes, n - 1), read.get(n - 1));
    }
    let more = rows(&good(65_535, 1)).repeat(2);
    let answer = write(9, 65_536, &more[..65_536], &mut vec![0; 4 + 12 * 65_536]);
    assert_eq!(answer, Err(Refusal::LIST_WIDTH));
}
