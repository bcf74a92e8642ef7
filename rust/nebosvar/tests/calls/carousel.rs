//! The carousel record: steps, hand-outs and missing reports.

use crate::{block_7, block_9, drift, heard, DOWNLOAD};
use make::{announcement, block};
use nebosvar::{Kind, Missing, Module, Record, Refusal};
use nebosvar::{LARGEST_BLOCK, MARK_WORDS, MODULE_WORDS, MOST_BLOCKS, MOST_BYTES, MOST_MODULES};

#[test]
fn the_first_record_is_all_zero() {
    let zero = Record {
        download: 0,
        block_size: 0,
        count: 0,
        modules: [Module::default(); MOST_MODULES],
        marks: [0; MARK_WORDS],
    };
    assert_eq!(Record::new(), zero);
    assert_eq!(Record::default(), zero);
}

#[test]
fn an_announcement_makes_the_record() {
    let mut modules = [Module::default(); MOST_MODULES];
    modules[0] = Module {
        number: 7,
        size: 1000,
        version: 1,
        start: 0,
    };
    modules[1] = Module {
        number: 9,
        size: 6,
        version: 2,
        start: 1000,
    };
    let expected = Record {
        download: DOWNLOAD,
        block_size: 400,
        count: 2,
        modules,
        marks: [0; MARK_WORDS],
    };

    let mut record = Record::new();
    assert_eq!(record.step(&drift(), &mut []), Ok(Kind::New));
    assert_eq!(record, expected);

    // Another one, without the module that has a mark: no image byte changes.
    let sections = [announcement(1, 400, &[(7, 1000, 1)]), drift(), block_9()];
    let (mut record, mut image) = heard(&sections, 1006);
    let before = image.clone();
    let next = announcement(DOWNLOAD, 400, &[(7, 1000, 1)]);
    assert_eq!(record.step(&next, &mut image), Ok(Kind::New));
    assert_eq!((record.count, record.marks), (1, [0; MARK_WORDS]));
    assert_eq!(image, before);
}

#[test]
fn a_module_as_before_keeps_its_marks() {
    let sections = [drift(), block_7(0, 400, 1), block_7(2, 200, 3), block_9()];
    let (before, image) = heard(&sections, 1007);
    assert_eq!((before.marks[0], before.marks[MODULE_WORDS]), (0b101, 1));
    // What is announced, the marks of the first modules, and the hand-out of module 9.
    let whole: Result<&[u8], _> = Ok(b"buoy 3");
    let (incomplete, gone) = (Err(Refusal::INCOMPLETE), Err(Refusal::NO_MODULE));
    let short = Err(Refusal::SHORT_IMAGE);
    let cases: [(u32, u16, &[_], [u32; 3], _); 11] = [
        // 7 is newer: 9 is kept. 9 is newer: 7 is kept.
        (0, 400, &[(7, 1000, 2), (9, 6, 2)], [0, 1, 0], whole),
        (
            0,
            400,
            &[(7, 1000, 1), (9, 6, 3)],
            [0b101, 0, 0],
            incomplete,
        ),
        // One more, with room for it, and one too many.
        (
            0,
            400,
            &[(7, 1000, 1), (9, 6, 2), (1, 1, 0)],
            [0b101, 1, 0],
            whole,
        ),
        (
            0,
            400,
            &[(7, 1000, 1), (9, 6, 2), (1, 2, 0)],
            [0b101, 1, 0],
            short,
        ),
        // At another place: two of 400 and 600 instead of 7. Swapped: both begin elsewhere.
        (
            0,
            400,
            &[(1, 400, 0), (2, 600, 0), (9, 6, 2)],
            [0, 0, 1],
            whole,
        ),
        (0, 400, &[(9, 6, 2), (7, 1000, 1)], [0, 0, 0], incomplete),
        // Another size of 7, and then of 9.
        (0, 400, &[(7, 999, 1), (9, 6, 2)], [0, 0, 0], incomplete),
        (
            0,
            400,
            &[(7, 1000, 1), (9, 5, 2)],
            [0b101, 0, 0],
            incomplete,
        ),
        // 9 is dropped.
        (0, 400, &[(7, 1000, 1)], [0b101, 0, 0], gone),
        // Another download, another block size.
        (1, 400, &[(7, 1000, 1), (9, 6, 2)], [0, 0, 0], incomplete),
        (0, 401, &[(7, 1000, 1), (9, 6, 2)], [0, 0, 0], incomplete),
    ];
    for (download, size, modules, marks, wanted) in cases {
        let next = announcement(DOWNLOAD + download, size, modules);
        let (mut record, mut bytes) = (before, image.clone());
        assert_eq!(record.step(&next, &mut bytes), Ok(Kind::New));
        let mut expected = [0; MARK_WORDS];
        for (place, word) in marks.into_iter().enumerate() {
            expected[place * MODULE_WORDS] = word;
        }
        assert_eq!(record.marks, expected, "{modules:?}");
        assert_eq!(record.handout(&bytes, 9), wanted, "{modules:?}");
        assert_eq!(bytes, image);
    }
}

#[test]
fn one_that_was_dropped_begins_empty() {
    let without = announcement(DOWNLOAD, 400, &[(7, 1000, 1)]);
    let sections = [drift(), block_9(), block_7(1, 400, 5), without, drift()];
    let (record, image) = heard(&sections, 1006);
    assert_eq!(record.handout(&image, 9), Err(Refusal::INCOMPLETE));
    // The other was there all the time.
    let two = Some(Missing {
        count: 2,
        lowest: 0,
    });
    assert_eq!(record.missing(7), Ok(two));
}

#[test]
fn the_same_announcement_changes_nothing() {
    let (before, mut image) = heard(&[drift(), block_9()], 1006);
    let mut record = before;
    assert_eq!(record.step(&drift(), &mut image), Ok(Kind::Same));
    assert_eq!(record, before);
}

#[test]
fn what_makes_an_announcement_another() {
    for other in [
        announcement(DOWNLOAD + 1, 400, &[(7, 1000, 1), (9, 6, 2)]),
        announcement(DOWNLOAD, 401, &[(7, 1000, 1), (9, 6, 2)]),
        announcement(DOWNLOAD, 400, &[(9, 6, 2), (7, 1000, 1)]),
        announcement(DOWNLOAD, 400, &[(8, 1000, 1), (9, 6, 2)]),
        announcement(DOWNLOAD, 400, &[(7, 1001, 1), (9, 6, 2)]),
        announcement(DOWNLOAD, 400, &[(7, 1000, 2), (9, 6, 2)]),
        announcement(DOWNLOAD, 400, &[(7, 1000, 1)]),
    ] {
        let (mut record, mut image) = heard(&[drift()], 0);
        assert_eq!(record.step(&other, &mut image), Ok(Kind::New));
    }
}

#[test]
fn a_block_goes_to_its_place_and_is_marked() {
    let (before, mut image) = heard(&[drift()], 1010);
    let mut record = before;
    let mut expected = before;
    let mut bytes = vec![0xEE; 1010];

    // Block 2 of module 7: from byte 0 + 2 × 400, mark 2.
    assert_eq!(
        record.step(&block_7(2, 200, 3), &mut image),
        Ok(Kind::Stored)
    );
    expected.marks[0] = 0b100;
    bytes[800..1000].fill(3);
    assert_eq!((record, &image), (expected, &bytes));

    // Block 0 of module 9, at place 1: from byte 1,000, mark 1,024, the first of word 32.
    assert_eq!(record.step(&block_9(), &mut image), Ok(Kind::Stored));
    expected.marks[32] = 1;
    bytes[1000..1006].copy_from_slice(b"buoy 3");
    assert_eq!((record, &image), (expected, &bytes));

    // Again: nothing changes.
    assert_eq!(record.step(&block_9(), &mut image), Ok(Kind::Repeated));
    assert_eq!((record, &image), (expected, &bytes));
}

#[test]
fn adaptation_bytes_are_no_data() {
    let mut section = block(DOWNLOAD, 9, 2, 0, b"buoy 3");
    section.truncate(section.len() - 4);
    section.splice(20..20, [0xA1, 0xA2]); // before the message's content
    section[2] += 2; // L
    section[17] = 2; // adaptation length
    section[19] += 2; // message length
    let section = make::closed(section);
    let (mut record, mut image) = heard(&[drift()], 1006);
    assert_eq!(record.step(&section, &mut image), Ok(Kind::Stored));
    assert_eq!(record.handout(&image, 9), Ok(&b"buoy 3"[..]));
}

#[test]
fn the_image_may_be_exact_or_longer() {
    for room in [1006, 1007, 65_536, MOST_BYTES] {
        let (record, image) = heard(&[drift(), block_9()], room);
        assert_eq!(record.handout(&image, 9), Ok(&b"buoy 3"[..]));
    }
}

#[test]
fn a_module_is_handed_out_when_every_block_has_come() {
    let blocks = [block_7(2, 200, 3), block_7(0, 400, 1), block_7(1, 400, 2)];
    let (mut record, mut image) = heard(&[drift()], 1006);
    for block in &blocks {
        assert_eq!(record.handout(&image, 7), Err(Refusal::INCOMPLETE));
        record.step(block, &mut image).unwrap();
    }
    let expected = [[1; 400].to_vec(), vec![2; 400], vec![3; 200]].concat();
    assert_eq!(record.handout(&image, 7), Ok(&expected[..]));
    assert_eq!(record.handout(&image, 9), Err(Refusal::INCOMPLETE));
}

#[test]
fn two_copies_of_a_block_complete_nothing() {
    let pair = announcement(DOWNLOAD, 400, &[(7, 800, 1)]);
    let (record, image) = heard(&[pair, block_7(0, 400, 1), block_7(0, 400, 1)], 800);
    assert_eq!(record.handout(&image, 7), Err(Refusal::INCOMPLETE));
    assert_eq!(
        record.missing(7),
        Ok(Some(Missing {
            count: 1,
            lowest: 1
        }))
    );
}

#[test]
fn refusals_of_the_hand_out() {
    let (record, image) = heard(&[drift(), block_9()], 1006);
    assert_eq!(record.handout(&image, 8), Err(Refusal::NO_MODULE));
    assert_eq!(record.handout(&image[..1005], 9), Err(Refusal::SHORT_IMAGE));
    assert_eq!(record.handout(&[], 9), Err(Refusal::SHORT_IMAGE));
    assert_eq!(record.handout(&image, 7), Err(Refusal::INCOMPLETE));
    // The lowest number: 13 before 15, 15 before 20.
    assert_eq!(record.handout(&[], 8), Err(Refusal::NO_MODULE));
    assert_eq!(record.handout(&[], 7), Err(Refusal::SHORT_IMAGE));
    // 1 before all.
    let mut broken = record;
    broken.count = 33;
    assert_eq!(broken.handout(&[], 8), Err(Refusal::BAD_RECORD));
    assert_eq!(Record::new().handout(&[], 0), Err(Refusal::NO_MODULE));
    // Each is of the record or the image, and has no place in a section.
    for (record, room, number) in [
        (&broken, 0, 8),
        (&record, 0, 8),
        (&record, 0, 7),
        (&record, 1006, 7),
    ] {
        let refusal = record.handout(&image[..room], number).unwrap_err();
        assert_eq!(refusal.place(), None);
    }
}

#[test]
fn missing_blocks() {
    let lack = |count, lowest| Ok(Some(Missing { count, lowest }));
    let (mut record, mut image) = heard(&[drift()], 1006);
    assert_eq!(record.missing(7), lack(3, 0));
    assert_eq!(record.missing(9), lack(1, 0));
    // The paper's sounding: blocks 0 and 2 of three.
    record.step(&block_7(0, 400, 1), &mut image).unwrap();
    assert_eq!(record.missing(7), lack(2, 1));
    record.step(&block_7(2, 200, 3), &mut image).unwrap();
    assert_eq!(record.missing(7), lack(1, 1));
    record.step(&block_7(1, 400, 2), &mut image).unwrap();
    assert_eq!(record.missing(7), Ok(None));
    assert_eq!(record.missing(9), lack(1, 0));

    assert_eq!(record.missing(8), Err(Refusal::NO_MODULE));
    record.marks[1_023] = 1;
    assert_eq!(record.missing(7), Err(Refusal::BAD_RECORD));
    assert_eq!(record.missing(8), Err(Refusal::BAD_RECORD));
}

#[test]
fn the_paper_s_largest() {
    // Size 65,536 in blocks of 4,066: 17 blocks, the last of 480 bytes.
    let large = announcement(1, 4066, &[(7, 65_536, 0)]);
    let (mut record, mut image) = heard(&[large], 65_536);
    assert_eq!(record.missing(7).unwrap().unwrap().count, 17);
    // A 4,066-byte block without adaptation has L = 4,093.
    let full = block(1, 7, 0, 3, &[5; 4066]);
    assert_eq!(full.len(), 3 + 4093);
    assert_eq!(record.step(&full, &mut image), Ok(Kind::Stored));
    let last = block(1, 7, 0, 16, &[6; 480]);
    assert_eq!(record.step(&last, &mut image), Ok(Kind::Stored));
    assert_eq!(record.marks[0], 1 << 3 | 1 << 16);
    assert!(image[3 * 4066..4 * 4066].iter().all(|byte| *byte == 5));
    assert!(image[16 * 4066..].iter().all(|byte| *byte == 6));

    // Size 262,144: 65 blocks, the last of 1,920 bytes, in an image that is just enough.
    let larger = announcement(1, 4066, &[(7, 262_144, 0)]);
    let (mut record, mut image) = heard(&[larger], MOST_BYTES);
    assert_eq!(record.missing(7).unwrap().unwrap().count, 65);
    let last = block(1, 7, 0, 64, &[6; 1920]);
    assert_eq!(record.step(&last, &mut image), Ok(Kind::Stored));
    assert_eq!(record.marks[..3], [0, 0, 1]);
    assert!(image[64 * 4066..].iter().all(|byte| *byte == 6));
}

#[test]
fn the_limits() {
    assert_eq!((MOST_MODULES, MOST_BLOCKS), (32, 1_024));
    assert_eq!((LARGEST_BLOCK, MOST_BYTES), (4_066, 262_144));
    assert_eq!((MODULE_WORDS, MARK_WORDS), (32, 1_024));
}

#[test]
fn every_block_of_the_finest_module() {
    // Size 1,024 in blocks of 1: every block's number, under its section number mod 256.
    let fine = announcement(1, 1, &[(7, 1_024, 0)]);
    let (mut record, mut image) = heard(&[fine], 1_024);
    let byte = |number: u16| (number ^ number >> 8) as u8;
    for number in (0..1_024).rev() {
        let lack = Missing {
            count: usize::from(number) + 1,
            lowest: 0,
        };
        assert_eq!(record.missing(7), Ok(Some(lack)));
        let section = block(1, 7, 0, number, &[byte(number)]);
        assert_eq!(section[6], number as u8);
        assert_eq!(record.step(&section, &mut image), Ok(Kind::Stored));
        assert_eq!(record.step(&section, &mut image), Ok(Kind::Repeated));
    }
    let past = block(1, 7, 0, 1_024, &[byte(1_024)]);
    assert_eq!(record.step(&past, &mut image), Err(Refusal::BAD_BLOCK));
    let expected: Vec<u8> = (0..1_024).map(byte).collect();
    assert_eq!(record.handout(&image, 7), Ok(&expected[..]));
}

#[test]
fn blocks_that_share_a_section_number() {
    let fine = announcement(1, 1, &[(7, 1_024, 0)]);
    let (mut record, mut image) = heard(&[fine], 1_024);
    for (number, word) in [(0, 0), (256, 8), (512, 16), (768, 24)] {
        let section = block(1, 7, 0, number, &[9]);
        assert_eq!(section[6], 0);
        assert_eq!(record.step(&section, &mut image), Ok(Kind::Stored));
        assert_eq!(record.marks[word], 1);
        assert_eq!(image[usize::from(number)], 9);
    }
    assert_eq!(record.missing(7).unwrap().unwrap().count, 1_020);
}

#[test]
fn thirty_two_modules() {
    let modules: Vec<(u16, u32, u8)> = (0..32).map(|i| (100 + i, 8_192, i as u8)).collect();
    let (mut record, mut image) = heard(&[announcement(1, 8, &modules)], MOST_BYTES);
    assert_eq!(record.modules[31].start, 31 * 8_192);
    // Block 1,023 of the module at place 31: the last 8 bytes, mark 1,024 × 31 + 1,023, the last of word 1,023.
    let section = block(1, 131, 31, 1_023, &[8; 8]);
    assert_eq!(record.step(&section, &mut image), Ok(Kind::Stored));
    assert_eq!(record.marks[1_023], 1 << 31);
    assert!(record.marks[..1_023].iter().all(|word| *word == 0));
    assert!(image[MOST_BYTES - 8..].iter().all(|byte| *byte == 8));
    assert_eq!(record.missing(131).unwrap().unwrap().count, 1_023);
}
