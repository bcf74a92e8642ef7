//! Refusals 30 to 35, each alone, at its bounds and in their order, and 19. Where spare bits have no part
//! in it the writer is asked too.

use crate::made::*;
use baseline::drift::{read, record_at};

#[test]
fn every_length_but_the_right_one_is_30() {
    let long = [list_of(&good(2, 7)), vec![0; 14]].concat();
    for length in 0..long.len() {
        let read = reading(&long[..length]);
        if length == 28 {
            assert!(read.is_ok());
        } else {
            assert_eq!(read, Err(30), "{length}");
        }
    }
}

#[test]
fn every_count_but_the_right_one_is_30() {
    let records = good(3, 1);
    for count in 0..=u16::MAX {
        let read = read(&list(1, count, &records));
        assert_eq!(read.err(), (count != 3).then_some(30), "{count}");
    }
}

#[test]
fn the_length_is_judged_before_any_record() {
    for fault in 31..=35 {
        let mut bytes = list_of(&[spoilt(&[fault])]);
        assert_eq!(reading(&bytes), Err(fault));
        bytes.push(0);
        assert_eq!(reading(&bytes), Err(30));
        assert_eq!(reading(&list(1, 2, &[spoilt(&[fault])])), Err(30));
    }
}

#[test]
fn bounds_of_the_longitude() {
    let at = |longitude| refusal(Fields { longitude, ..USUAL });
    for longitude in [-107_999_999, -1, 0, 1, 107_999_999, 108_000_000] {
        assert_eq!(at(longitude), 0, "{longitude}");
    }
    for longitude in [-134_217_728, -108_000_001, -108_000_000] {
        assert_eq!(at(longitude), 31, "{longitude}");
    }
    for longitude in [108_000_001, 134_217_727] {
        assert_eq!(at(longitude), 31, "{longitude}");
    }
}

#[test]
fn bounds_of_the_latitude() {
    let at = |latitude| refusal(Fields { latitude, ..USUAL });
    for latitude in [-54_000_000, -1, 0, 1, 54_000_000] {
        assert_eq!(at(latitude), 0, "{latitude}");
    }
    for latitude in [-67_108_864, -54_000_001, 54_000_001, 67_108_863] {
        assert_eq!(at(latitude), 31, "{latitude}");
    }
}

#[test]
fn bounds_of_the_minute() {
    let at = |minute| refusal(Fields { minute, ..USUAL });
    for minute in [0, 1, 10_079] {
        assert_eq!(at(minute), 0, "{minute}");
    }
    for minute in [10_080, 10_081, 16_383] {
        assert_eq!(at(minute), 32, "{minute}");
    }
}

#[test]
fn the_first_buoy_is_not_zero() {
    let at = |buoy| refusal(Fields { buoy, ..USUAL });
    assert_eq!(at(0), 33);
    for buoy in [1, 2, 0x7_FFFF, 0x8_0000, 0xF_FFFF] {
        assert_eq!(at(buoy), 0, "{buoy}");
    }
}

#[test]
fn buoys_rise_strictly() {
    let with = |buoy| Fields { buoy, ..USUAL };
    let after = |before, buoy| {
        let records = [with(before), with(buoy)];
        let refusal = refusal_of(&records);
        let written = writing_all(&numbers_of(&records));
        assert_eq!(written.err().unwrap_or(0), refusal);
        refusal
    };
    for before in [1, 2, 0x7_FFFF, 0x8_0000, 0xF_FFFE] {
        assert_eq!(after(before, 0), 33);
        assert_eq!(after(before, before - 1), 33);
        assert_eq!(after(before, before), 33);
        assert_eq!(after(before, before + 1), 0);
        assert_eq!(after(before, 0xF_FFFF), 0);
    }
    assert_eq!(after(0xF_FFFF, 0xF_FFFF), 33);
    // above the first, but not above the one before
    assert_eq!(refusal_of(&[with(1), with(9), with(5)]), 33);
}

#[test]
fn spare_bits_are_zero() {
    for spare in 0..32 {
        let refusal = refusal_of(&[Fields { spare, ..USUAL }]);
        assert_eq!(refusal, if spare == 0 { 0 } else { 34 });
    }
}

#[test]
fn states_and_coordinates() {
    let at = |state, longitude, latitude| {
        refusal(Fields {
            state,
            longitude,
            latitude,
            ..USUAL
        })
    };
    // state, refusal where both coordinates are zero, and where they are not
    for (state, zero, other) in [(0, 0, 35), (1, 35, 0), (2, 35, 0), (3, 35, 35)] {
        assert_eq!(at(state, 0, 0), zero);
        for (longitude, latitude) in [(0, 1), (0, -1), (1, 0), (-1, 0), (1, 1), (1, -1)] {
            assert_eq!(at(state, longitude, latitude), other, "{state}");
        }
        // the uppermost bits alone are a coordinate too, though not a good one
        assert_eq!(at(state, -134_217_728, 0), 31);
        assert_eq!(at(state, 0, -67_108_864), 31);
    }
}

#[test]
fn at_a_record_the_lowest_refusal() {
    for set in subsets(&[31, 32, 33, 34, 35]) {
        let lowest = set.first().copied().unwrap_or(0);
        assert_eq!(refusal_of(&[spoilt(&set)]), lowest, "{set:?}");
        assert_eq!(refusal_of(&[FIRST, spoilt(&set)]), lowest, "{set:?}");
    }
    for set in subsets(&[31, 32, 33, 35]) {
        let lowest = set.first().copied().unwrap_or(0);
        assert_eq!(refusal(spoilt(&set)), lowest, "{set:?}");
    }
}

#[test]
fn the_first_faulty_record_before_the_lowest_refusal() {
    let records = good(6, 2);
    for first in 31..=35 {
        for second in 31..=35 {
            let mut spoilt = records.clone();
            spoil(&mut spoilt[2], first);
            spoil(&mut spoilt[4], second);
            assert_eq!(refusal_of(&spoilt), first);
            if ![first, second].contains(&34) {
                assert_eq!(writing_all(&numbers_of(&spoilt)), Err(first));
            }
        }
    }
}

#[test]
fn a_record_by_its_place() {
    let records = good(40, 3);
    let mut bytes = list_of(&records);
    let (_, fixes) = read(&bytes).unwrap();
    for (place, fix) in fixes.iter().enumerate() {
        assert_eq!(record_at(&bytes, place), Ok(*fix));
    }
    for place in [40, 41, 65_535, 65_536, usize::MAX] {
        assert_eq!(record_at(&bytes, place), Err(19));
    }
    // a fault in the last record is the list's, for every place
    *bytes.last_mut().unwrap() |= 1;
    for place in [0, 39, 40, usize::MAX] {
        assert_eq!(record_at(&bytes, place), Err(34));
    }
    bytes.pop();
    for place in [0, 39, 40, usize::MAX] {
        assert_eq!(record_at(&bytes, place), Err(30));
    }
}
