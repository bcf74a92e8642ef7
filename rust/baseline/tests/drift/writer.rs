//! Refusals 36 and 37 of the writer, and that they are the first and the last.

use crate::made::*;

#[test]
fn a_value_outside_its_field_is_36() {
    let ends = [
        (0, 0, 0xF_FFFF),
        (1, 0, 3),
        (2, -134_217_728, 134_217_727),
        (3, -67_108_864, 67_108_863),
        (4, 0, 16_383),
    ];
    for (field, low, high) in ends {
        let at = |number| {
            let mut numbers = numbers_of(&[USUAL]);
            numbers[field] = number;
            writing_all(&numbers).err()
        };
        for number in [low, high] {
            assert_ne!(at(number), Some(36), "field {field}: {number}");
        }
        for number in [low - 1, high + 1, i32::MIN, i32::MAX] {
            assert_eq!(at(number), Some(36), "field {field}: {number}");
        }
    }
}

#[test]
fn an_issue_too_wide_is_36() {
    assert_eq!(writing(65_535, 0, &[], 4), Ok(vec![0xFF, 0xFF, 0, 0]));
    assert_eq!(writing(65_536, 0, &[], 4), Err(36));
    assert_eq!(writing(u32::MAX, 0, &[], 4), Err(36));
}

#[test]
fn a_count_that_is_not_the_number_of_records_is_36() {
    let numbers = numbers_of(&good(3, 4));
    assert!(writing(1, 3, &numbers, 100).is_ok());
    for count in [0, 1, 2, 4, 65_535, 65_536, 65_539, u32::MAX] {
        assert_eq!(writing(1, count, &numbers, 100), Err(36), "{count}");
    }
    for length in (0..15).chain(16..20) {
        let cut: Vec<i32> = numbers.iter().cycle().take(length).copied().collect();
        assert_eq!(writing(1, 3, &cut, 100), Err(36), "{length}");
    }
    // five times this is 4 in 32 bits
    assert_eq!(writing(1, 858_993_460, &numbers[..4], 100), Err(36));
}

#[test]
fn more_records_than_a_count_can_tell_are_36() {
    let mut numbers: Vec<i32> = (1..=65_536).flat_map(|buoy| [buoy, 0, 0, 0, 0]).collect();
    assert_eq!(writing(1, 65_536, &numbers, 4 + 12 * 65_536), Err(36));
    numbers.truncate(5 * 65_535);
    let list = writing(1, 65_535, &numbers, 4 + 12 * 65_536).unwrap();
    assert_eq!(list.len(), 4 + 12 * 65_535);
    assert_eq!(reading(&list), Ok((1, numbers)));
}

#[test]
fn refusal_36_is_before_all_others() {
    for fault in [31, 32, 33, 35] {
        let mut numbers = numbers_of(&[spoilt(&[fault]), FIRST, USUAL]);
        assert_eq!(writing(1, 3, &numbers, 40), Err(fault));
        for (issue, count) in [(65_536, 3), (1, 2), (1, 4)] {
            assert_eq!(writing(issue, count, &numbers, 40), Err(36));
            assert_eq!(writing(issue, count, &numbers, 0), Err(36));
        }
        // in the last number of the last record, behind the fault
        *numbers.last_mut().unwrap() = -1;
        assert_eq!(writing(1, 3, &numbers, 40), Err(36));
        assert_eq!(writing(1, 3, &numbers, 0), Err(36));
    }
}

#[test]
fn a_short_buffer_is_37_and_the_last_refusal() {
    for count in [0, 1, 2, 9] {
        let records = good(count, 5);
        let numbers = numbers_of(&records);
        let size = 4 + 12 * count;
        for buffer in 0..size {
            assert_eq!(writing(1, count as u32, &numbers, buffer), Err(37));
        }
        for buffer in [size, size + 1, size + 11, size + 12, size + 100] {
            let written = writing(1, count as u32, &numbers, buffer);
            assert_eq!(written, Ok(list(1, count as u16, &records)));
        }
    }
    for fault in [31, 32, 33, 35] {
        let numbers = numbers_of(&[FIRST, spoilt(&[fault])]);
        for buffer in [0, 3, 4, 16, 27, 28] {
            assert_eq!(writing(1, 2, &numbers, buffer), Err(fault));
        }
    }
}
