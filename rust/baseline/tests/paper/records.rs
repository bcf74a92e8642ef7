//! The record's rule, broken in each way it names.

use crate::made::*;
use baseline::{Missing, Record, Stop, Taken, ALL_WORDS, WORDS};

fn held() -> Record {
    announced(&Announcement::new(7, 400, &[(5, 1_000, 2), (6, 800, 9)]))
}

/// Every call on this record answers 1, or stops with "state".
fn is_broken(record: &Record) {
    assert!(!record.is_ruled(), "{record:?}");
    let section = Announcement::new(7, 400, &[(5, 1_000, 2)]).bytes();
    assert_eq!(refused(record, &section, &[0; 9]), 1);
    assert_eq!(record.handout_number(&[0; 9], 5), 1);
    assert!(record.handout(&[0; 9], 5).is_empty());
    assert_eq!(record.missing(5), Missing::Refused(1));
    for stretch in [&section[..], &[], &[0xFF], &[0x3B]] {
        for budget in [0, 1] {
            let (mut after, mut image) = (*record, [0; 9]);
            let taken = after.take(stretch, &mut image, budget);
            assert_eq!(taken, Taken::Stopped(Stop::State));
            let passage = after.run(stretch, &mut image, budget);
            assert_eq!((passage.taken, passage.passed), (0, 0));
            assert_eq!(passage.stop, Stop::State);
            assert_eq!((after, image), (*record, [0; 9]));
        }
    }
}

fn breaks(change: impl Fn(&mut Record)) {
    let mut record = held();
    change(&mut record);
    is_broken(&record);
}

fn keeps(change: impl Fn(&mut Record)) {
    let mut record = held();
    change(&mut record);
    assert!(record.is_ruled(), "{record:?}");
}

#[test]
fn the_empty_record_is_ruled_and_all_zero() {
    let record = Record::empty();
    assert!(record.is_ruled());
    assert_eq!(
        (record.download, record.block_size, record.count),
        (0, 0, 0)
    );
    assert_eq!(record.marks, [0; ALL_WORDS]);
}

#[test]
fn with_none_all_is_zero() {
    let changes: [fn(&mut Record); 9] = [
        |record| record.download = 1,
        |record| record.block_size = 1,
        |record| record.modules[0].number = 1,
        |record| record.modules[0].size = 1,
        |record| record.modules[31].version = 1,
        |record| record.modules[31].start = 1,
        |record| record.marks[0] = 1,
        |record| record.marks[512] = 1 << 31,
        |record| record.marks[1_023] = 1,
    ];
    for change in changes {
        let mut record = Record::empty();
        change(&mut record);
        is_broken(&record);
    }
}

#[test]
fn at_most_32_modules() {
    let most: Vec<_> = (1..=32).map(|i| (i, 1, 0)).collect();
    let mut record = announced(&Announcement::new(7, 4, &most));
    for count in [31, 33, 34, 64, 255, 256, 288, 65_535] {
        record.count = count;
        is_broken(&record);
    }
    record.count = 32;
    assert!(record.is_ruled());
}

#[test]
fn limits_of_ten_hold() {
    breaks(|record| record.block_size = 0);
    breaks(|record| record.block_size = 4_067);
    keeps(|record| record.block_size = 1);
    keeps(|record| (record.block_size, record.modules[1].size) = (1, 1_024));
    breaks(|record| (record.block_size, record.modules[1].size) = (1, 1_025));
    keeps(|record| (record.block_size, record.modules[1].size) = (3, 3_072));
    breaks(|record| (record.block_size, record.modules[1].size) = (3, 3_073));
    keeps(|record| record.block_size = 4_066);
    breaks(|record| record.modules[1].size = 0);
    keeps(|record| record.modules[1].size = 262_144 - 1_000);
    breaks(|record| record.modules[1].size = 262_144 - 999);
    breaks(|record| record.modules[1].size = 262_145);
    breaks(|record| record.modules[1].size = u32::MAX);
    breaks(|record| record.modules[1].size = u32::MAX - 999);
    breaks(|record| record.modules[0].size = 0);
    keeps(|record| record.download = 0);
    keeps(|record| record.modules[0].version = 255);
}

#[test]
fn limits_of_eleven_hold() {
    breaks(|record| record.modules[1].number = 5);
    keeps(|record| record.modules[1].number = 0);
    keeps(|record| record.modules[0].number = 0xFFFF);
}

#[test]
fn starts_are_running_sums() {
    breaks(|record| record.modules[0].start = 1);
    breaks(|record| record.modules[1].start = 0);
    breaks(|record| record.modules[1].start = 999);
    breaks(|record| record.modules[1].start = 1_001);
    breaks(|record| record.modules[0].size = 999);
}

#[test]
fn unused_entries_are_zero() {
    breaks(|record| record.count = 1);
    breaks(|record| record.count = 3);
    for place in [2, 17, 31] {
        breaks(|record| record.modules[place].number = 1);
        breaks(|record| record.modules[place].size = 1);
        breaks(|record| record.modules[place].version = 1);
        breaks(|record| record.modules[place].start = 1);
        breaks(|record| record.marks[WORDS * place] = 1);
        breaks(|record| record.marks[WORDS * place + WORDS - 1] = 1 << 31);
    }
    // A last entry that looks unused, but for the count.
    breaks(|record| record.modules[1].size = 0);
}

#[test]
fn marks_past_a_last_block_are_zero() {
    // Three blocks and two.
    keeps(|record| record.marks[0] = 0b111);
    keeps(|record| record.marks[WORDS] = 0b11);
    for mark in 3..1_024 {
        breaks(|record| record.marks[mark / 32] = 1 << (mark % 32));
    }
    for mark in 2..1_024 {
        breaks(|record| record.marks[WORDS + mark / 32] = 1 << (mark % 32));
    }
    for blocks in [1, 31, 32, 33, 64, 255, 256, 257, 511, 768, 1_023, 1_024] {
        let record = announced(&Announcement::new(
            7,
            2,
            &[(1, 1, 0), (2, 2 * blocks - 1, 0)],
        ));
        for mark in 0..1_024 {
            let mut marked = record;
            marked.marks[WORDS + mark / 32] = 1 << (mark % 32);
            assert_eq!(marked.is_ruled(), mark < blocks as usize);
        }
    }
}
