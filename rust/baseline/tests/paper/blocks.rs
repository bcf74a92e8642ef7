//! Refusals 12 to 17 and 20, "stored", "repeated", the hand-out and the missing report.

use crate::made::*;
use baseline::{Answer, Missing, Record};

/// Module 5: 1,000 bytes, version 2; module 6: 800 bytes, version 9.
fn held() -> Record {
    announced(&Announcement::new(7, 400, &[(5, 1_000, 2), (6, 800, 9)]))
}

const TOGETHER: usize = 1_800;

#[test]
fn twelve_no_announcement_or_another_download() {
    for download in [0, 7] {
        let block = Block::new(download, 5, 2, 0, &[1; 400]).bytes();
        assert_eq!(refused(&Record::empty(), &block, &[]), 12);
    }
    let image = vec![0; TOGETHER];
    assert_eq!(
        refused(&held(), &Block::new(8, 5, 2, 0, &[1; 400]).bytes(), &image),
        12
    );
    // 12 before 13.
    assert_eq!(
        refused(&held(), &Block::new(8, 1, 2, 0, &[1; 400]).bytes(), &image),
        12
    );
}

#[test]
fn thirteen_fourteen_fifteen_sixteen_in_order() {
    let short = vec![0; TOGETHER - 1];
    let exact = vec![0; TOGETHER];
    let block = |module, version, number| Block::new(7, module, version, number, &[1; 399]).bytes();
    assert_eq!(refused(&held(), &block(0, 3, 9), &short), 13);
    assert_eq!(refused(&held(), &block(5, 3, 9), &short), 14);
    assert_eq!(refused(&held(), &block(5, 2, 9), &short), 15);
    assert_eq!(refused(&held(), &block(5, 2, 9), &exact), 16);
    assert_eq!(refused(&held(), &block(5, 2, 0), &exact), 16);
    // Number 0 is in unused entries only.
    assert_eq!(refused(&held(), &block(0, 0, 0), &exact), 13);
}

#[test]
fn fifteen_image_of_no_bytes_one_short_exact_longer() {
    let block = Block::new(7, 5, 2, 0, &[1; 400]).bytes();
    assert_eq!(refused(&held(), &block, &[]), 15);
    // The block itself would fit.
    assert_eq!(refused(&held(), &block, &[0; 400]), 15);
    assert_eq!(refused(&held(), &block, &[0; TOGETHER - 1]), 15);
    for length in [TOGETHER, TOGETHER + 1, 262_144, 262_145] {
        let (mut record, mut image) = (held(), vec![0; length]);
        assert_eq!(record.step(&block, &mut image), Answer::Stored);
    }
}

#[test]
fn sixteen_block_number_and_length() {
    let image = vec![0; TOGETHER];
    let block = |module, version, number, length: usize| {
        let data = vec![1; length];
        let mut bytes = image.clone();
        let mut record = held();
        match record.step(
            &Block::new(7, module, version, number, &data).bytes(),
            &mut bytes,
        ) {
            Answer::Refused(refusal) => self::number(refusal),
            Answer::Stored => 0,
            answer => panic!("{answer:?}"),
        }
    };
    for (number, right) in [(0, 400), (1, 400), (2, 200)] {
        for length in [0, 1, right - 1, right, right + 1, 400, 800, 4_066] {
            let answer = if length == right { 0 } else { 16 };
            assert_eq!(block(5, 2, number, length), answer);
        }
    }
    for length in [0, 200, 400] {
        assert_eq!(block(5, 2, 3, length), 16);
        assert_eq!(block(5, 2, 256, length), 16);
        assert_eq!(block(5, 2, 1_024, length), 16);
        assert_eq!(block(5, 2, 65_535, length), 16);
        // Module 6 divides evenly: no last block of 0 bytes.
        assert_eq!(block(6, 9, 2, length), 16);
    }
    assert_eq!(block(6, 9, 1, 400), 0);
}

#[test]
fn stored_goes_to_its_place_and_sets_its_mark_alone() {
    let (mut record, mut image) = (held(), vec![0xAA; TOGETHER + 5]);
    let mut marks = record.marks;
    let mut expected = image.clone();
    for (module, version, number, begin, length, mark) in [
        (6u16, 9, 1u16, 1_400, 400, 1_025),
        (5, 2, 2, 800, 200, 2),
        (5, 2, 0, 0, 400, 0),
        (6, 9, 0, 1_000, 400, 1_024),
        (5, 2, 1, 400, 400, 1),
    ] {
        let data = vec![(mark % 200) as u8 + 1; length];
        let block = Block::new(7, module, version, number, &data).bytes();
        assert_eq!(record.step(&block, &mut image), Answer::Stored);
        marks[mark / 32] |= 1 << (mark % 32);
        expected[begin..begin + length].copy_from_slice(&data);
        assert_eq!(record.marks, marks);
        assert_eq!(image, expected);
        assert!(record.is_ruled());
        assert_eq!(record.step(&block, &mut image), Answer::Repeated);
        assert_eq!((record.marks, &image), (marks, &expected));
    }
    assert_eq!(record.modules, held().modules);
}

#[test]
fn adaptation_bytes_are_not_stored() {
    let (mut record, mut image) = (held(), vec![0; TOGETHER]);
    let mut block = Block::new(7, 5, 2, 0, &[1; 400]);
    block.adaptation = vec![0xEE; 7];
    assert_eq!(record.step(&block.bytes(), &mut image), Answer::Stored);
    assert_eq!(image[..400], [1; 400]);
    assert_eq!(image[400..], [0; 1_400]);
}

#[test]
fn seventeen_does_not_overwrite() {
    let (mut record, mut image) = (held(), vec![0; TOGETHER]);
    let mut block = Block::new(7, 5, 2, 2, &[1; 200]);
    assert_eq!(record.step(&block.bytes(), &mut image), Answer::Stored);
    block.data[199] = 2;
    assert_eq!(refused(&record, &block.bytes(), &image), 17);
    // Wrong length is 16 before 17.
    block.data.pop();
    assert_eq!(refused(&record, &block.bytes(), &image), 16);
    // 17 is judged by the bytes now in the image.
    image[800] = 9;
    block.data = vec![1; 200];
    assert_eq!(refused(&record, &block.bytes(), &image), 17);
    block.data[0] = 9;
    assert_eq!(record.step(&block.bytes(), &mut image), Answer::Repeated);
}

#[test]
fn two_copies_of_a_block_complete_nothing() {
    let (mut record, mut image) = (held(), vec![0; TOGETHER]);
    let block = Block::new(7, 6, 9, 0, &[1; 400]).bytes();
    assert_eq!(record.step(&block, &mut image), Answer::Stored);
    assert_eq!(record.step(&block, &mut image), Answer::Repeated);
    assert_eq!(record.handout_number(&image, 6), 20);
    assert_eq!(
        record.missing(6),
        Missing::Lacking {
            count: 1,
            lowest: 1
        }
    );
}

#[test]
fn hand_out() {
    let (mut record, mut image) = (held(), vec![0; TOGETHER]);
    for number in [1, 0] {
        assert_eq!(record.handout_number(&image, 6), 20);
        assert!(record.handout(&image, 6).is_empty());
        let block = Block::new(7, 6, 9, number, &[number as u8 + 3; 400]).bytes();
        assert_eq!(record.step(&block, &mut image), Answer::Stored);
    }
    assert_eq!(record.handout_number(&image, 6), 0);
    assert_eq!(record.handout(&image, 6), [[3; 400], [4; 400]].concat());
    assert_eq!(record.missing(6), Missing::Whole);
    // 13, then 15 (over all sizes together), then 20.
    let short = &image[..TOGETHER - 1];
    assert_eq!(record.handout_number(short, 4), 13);
    assert_eq!(record.handout_number(short, 6), 15);
    assert_eq!(record.handout_number(short, 5), 15);
    assert_eq!(record.handout_number(&[], 6), 15);
    assert_eq!(record.handout_number(&image, 5), 20);
    for (bytes, number) in [(short, 4), (short, 6), (&image[..], 5), (&image[..], 0)] {
        assert!(record.handout(bytes, number).is_empty());
    }
    // A longer image gives the same part.
    image.push(1);
    assert_eq!(record.handout(&image, 6).len(), 800);
}

#[test]
fn hand_out_and_missing_on_empty_and_broken_records() {
    let mut record = Record::empty();
    assert_eq!(record.handout_number(&[], 0), 13);
    assert_eq!(record.missing(0), Missing::Refused(13));
    record.marks[1_023] = 1 << 31;
    assert_eq!(record.handout_number(&[], 0), 1);
    assert!(record.handout(&[1, 2], 0).is_empty());
    assert_eq!(record.missing(0), Missing::Refused(1));
    assert_eq!(held().missing(0), Missing::Refused(13));
}

#[test]
fn missing_counts_and_finds_the_lowest_over_all_words() {
    let mut record = announced(&Announcement::new(
        7,
        1,
        &[(1, 3, 0), (2, 1_024, 0), (3, 64, 0)],
    ));
    let mut image = vec![0; 1_091];
    assert_eq!(
        record.missing(2),
        Missing::Lacking {
            count: 1_024,
            lowest: 0
        }
    );
    for block in 0..1_024u16 {
        let bytes = Block::new(7, 2, 0, block, &[block as u8]).bytes();
        assert_eq!(record.step(&bytes, &mut image), Answer::Stored);
        let expected = match 1_023 - usize::from(block) {
            0 => Missing::Whole,
            count => Missing::Lacking {
                count,
                lowest: usize::from(block) + 1,
            },
        };
        assert_eq!(record.missing(2), expected);
    }
    assert_eq!(
        record.missing(1),
        Missing::Lacking {
            count: 3,
            lowest: 0
        }
    );
    let stored: Vec<u8> = (0..1_024).map(|block| block as u8).collect();
    assert_eq!(record.handout(&image, 2), stored);
    for block in (0..64u16).rev() {
        let count = usize::from(block) + 1;
        assert_eq!(record.missing(3), Missing::Lacking { count, lowest: 0 });
        let bytes = Block::new(7, 3, 0, block, &[1]).bytes();
        assert_eq!(record.step(&bytes, &mut image), Answer::Stored);
    }
    assert_eq!(record.missing(3), Missing::Whole);
}

#[test]
fn a_block_number_past_1023_never_aliases() {
    let record = announced(&Announcement::new(7, 1, &[(1, 1_024, 0), (2, 1_024, 0)]));
    let image = vec![0; 2_048];
    for number in [1_024, 1_025, 1_279, 1_280, 2_047, 2_048, 0xFC00, 0xFFFF] {
        let block = Block::new(7, 1, 0, number, &[1]).bytes();
        assert_eq!(refused(&record, &block, &image), 16, "{number}");
    }
}
