//! Refusals by number; each leaves the record and the image as they were.

use crate::{block_7, block_9, drift, heard, DOWNLOAD};
use make::{announcement, block, closed, message, section, table, with};
use nebosvar::{Kind, Record, Refusal, MARK_WORDS, MODULE_WORDS, MOST_MODULES};

/// The step refuses, and changes nothing.
fn refused(record: &Record, section: &[u8], image: &[u8], refusal: Refusal) {
    let (mut after, mut bytes) = (*record, image.to_vec());
    assert_eq!(after.step(section, &mut bytes), Err(refusal));
    assert_eq!(after, *record);
    assert_eq!(bytes, image);
}

/// Whatever the record, it refuses.
fn refused_always(section: &[u8], refusal: Refusal) {
    let (record, image) = heard(&[drift(), block_9()], 1006);
    refused(&record, section, &image, refusal);
    refused(&record, section, &[], refusal);
    refused(&Record::new(), section, &[], refusal);
}

const PLACE: usize = 2026;

/// One of every number; those that have a place, at this one.
const ALL: [Refusal; 34] = [
    Refusal::BAD_RECORD,
    Refusal::bad_size(PLACE),
    Refusal::bad_table(PLACE),
    Refusal::bad_header(PLACE),
    Refusal::bad_crc(PLACE),
    Refusal::not_current(PLACE),
    Refusal::MALFORMED,
    Refusal::BAD_MESSAGE,
    Refusal::BAD_BLOCK_HEADER,
    Refusal::BEYOND_LIMITS,
    Refusal::MODULE_TWICE,
    Refusal::NOT_ANNOUNCED,
    Refusal::NO_MODULE,
    Refusal::OTHER_VERSION,
    Refusal::SHORT_IMAGE,
    Refusal::BAD_BLOCK,
    Refusal::BYTES_DIFFER,
    Refusal::NO_APPLICATION_DESCRIPTOR,
    Refusal::NO_PLACE,
    Refusal::INCOMPLETE,
    Refusal::SHORT_BUFFER,
    Refusal::OUT_OF_RANGE,
    Refusal::LIST_LENGTH,
    Refusal::LIST_COORDINATE,
    Refusal::LIST_MINUTE,
    Refusal::LIST_BUOY,
    Refusal::LIST_SPARE,
    Refusal::LIST_STATE,
    Refusal::LIST_WIDTH,
    Refusal::LIST_ROOM,
    Refusal::PACKET_LENGTH,
    Refusal::PACKET_SYNC,
    Refusal::PACKET_PID,
    Refusal::PACKET_FIELD,
];

#[test]
fn numbers_and_words() {
    let numbers = (1..=21).chain([25]).chain(30..=37).chain(40..);
    for (refusal, number) in ALL.iter().zip(numbers) {
        assert_eq!(refusal.number(), number);
        let (place, at) = match number {
            2..=6 => (Some(PLACE), " at byte 2026"),
            _ => (None, ""),
        };
        assert_eq!(refusal.place(), place);
        let words = refusal.to_string();
        assert!(words.starts_with(&format!("refusal {number}{at}: ")));
    }
    assert_eq!(
        Refusal::bad_crc(12).to_string(),
        "refusal 5 at byte 12: CRC"
    );
    let error: Box<dyn std::error::Error> = Refusal::OTHER_VERSION.into();
    assert_eq!(error.to_string(), "refusal 14: version differs");
    assert_eq!(Refusal::LIST_SPARE.to_string(), "refusal 34: spare");
}

#[test]
fn broken_records_1() {
    let (good, image) = heard(&[drift(), block_9()], 1006);
    let breaks: [fn(&mut Record); 18] = [
        |r| r.count = MOST_MODULES as u16 + 1,
        |r| r.count = 1, // the second module is past the last
        |r| r.count = 0, // with none, all is zero
        |r| r.block_size = 0,
        |r| r.block_size = 4067,
        |r| r.modules[0].size = 0,
        |r| r.modules[0].start = 1,
        |r| r.modules[1].start = 999,
        |r| r.modules[1].number = 7,
        |r| r.modules[2].version = 1,
        |r| r.marks[0] = 0b1000,                 // block 3 of three
        |r| r.marks[MODULE_WORDS] = 0b10,        // block 1 of one
        |r| r.marks[MODULE_WORDS - 1] = 1 << 31, // block 1,023 of three
        |r| r.marks[8] = 1,                      // block 256 of three
        |r| r.marks[2 * MODULE_WORDS] = 1,       // a block of none
        |r| r.marks[MARK_WORDS - 1] = 1 << 31,   // block 1,023 at place 31
        |r| r.modules[MOST_MODULES - 1].number = 1,
        |r| r.modules[16].size = 1,
    ];
    for change in breaks {
        let mut broken = good;
        change(&mut broken);
        for section in [drift(), block_9(), vec![]] {
            refused(&broken, &section, &image, Refusal::BAD_RECORD);
            refused(&broken, &section, &[], Refusal::BAD_RECORD);
        }
    }
    let mut broken = Record::new();
    broken.download = 1;
    refused(&broken, &drift(), &[], Refusal::BAD_RECORD);
}

#[test]
fn size_2() {
    let good = block_9();
    // At the length that was lent: the soundings of 02, §9, and every other.
    refused_always(&[], Refusal::bad_size(0));
    refused_always(&good[..2], Refusal::bad_size(2));
    for length in 0..good.len() {
        refused_always(&good[..length], Refusal::bad_size(length));
    }
    let longer = [&good[..], &[0]].concat();
    refused_always(&longer, Refusal::bad_size(good.len() + 1));
}

#[test]
fn table_3() {
    refused_always(&with(&block_9(), 0, 0x3D), Refusal::bad_table(0));
    refused_always(&table(&[], &[]), Refusal::bad_table(0));
    refused_always(&[0x3A, 0, 0], Refusal::bad_table(0)); // and L = 0
}

#[test]
fn header_4() {
    let good = block_9();
    let (at_1, at_6) = (Refusal::bad_header(1), Refusal::bad_header(6));
    refused_always(&[0x3B, 0xB0, 0], at_1); // L = 0
    let short = closed(vec![0x3B, 0xB0, 8, 0, 0, 0xC1, 0]);
    refused_always(&short, at_1);
    let long = section(0x3C, 9, 0, &[0; 4085]); // L = 4,094
    refused_always(&long, at_1);
    let no_syntax = with(&good, 1, good[1] & 0x7F);
    refused_always(&no_syntax, at_1);
    // Section number 3 over last 2, and 1 over 0: at 6, but only where nothing else of 4 is wrong.
    refused_always(&with(&with(&good, 7, 2), 6, 3), at_6);
    refused_always(&with(&good, 6, 1), at_6);
    let longest = section(0x3C, 9, 0, &[0; 4084]); // L = 4,093
    let least = section(0x3C, 9, 0, &[]); // L = 9
    for only in [longest, least] {
        refused_always(&with(&only, 6, 1), at_6);
    }
    for beside in [long, no_syntax] {
        refused_always(&with(&beside, 6, 1), at_1);
    }
    // L = 8: byte 7 is the CRC's first, 0 here, and below the section number.
    let above = vec![0x3B, 0xB0, 8, 0, 0, 0xC1, 1, 0, 0, 0, 0];
    refused_always(&above, at_1);
}

#[test]
fn crc_5() {
    let good = block_9();
    for bit in [0, 7] {
        for at in 3..good.len() {
            let mut bad = good.clone();
            bad[at] ^= 1 << bit;
            // Byte 6, the section number, would be above last. Wherever the bit is, 5 is at the CRC.
            let refusal = if at == 6 {
                Refusal::bad_header(6)
            } else {
                Refusal::bad_crc(good.len() - 4)
            };
            refused_always(&bad, refusal);
        }
    }
    // L = 13.
    let mut bad = section(0x3C, 9, 0, &[0; 4]);
    bad[15] ^= 1;
    refused_always(&bad, Refusal::bad_crc(12));
}

#[test]
fn not_current_6() {
    refused_always(&with(&block_9(), 5, 0xC0), Refusal::not_current(5));
    refused_always(&with(&drift(), 5, 0xC0), Refusal::not_current(5));
}

#[test]
fn malformed_7_and_messages_8() {
    let (good, announced) = (block_9(), drift());
    // A body under 12 bytes is 7.
    refused_always(&section(0x3C, 9, 0, &[]), Refusal::MALFORMED);
    refused_always(&section(0x3B, 9, 0, &[0; 11]), Refusal::MALFORMED);
    // Then 8.
    refused_always(&section(0x3B, 9, 0, &[0; 12]), Refusal::BAD_MESSAGE);
    refused_always(&with(&good, 8, 0x12), Refusal::BAD_MESSAGE);
    refused_always(&with(&good, 9, 0x02), Refusal::BAD_MESSAGE);
    refused_always(&with(&good, 11, 0x02), Refusal::BAD_MESSAGE);
    refused_always(&with(&announced, 11, 0x03), Refusal::BAD_MESSAGE);
    // Then the other cases of 7: message length, adaptation length, what is too short, what is left over.
    refused_always(&with(&good, 19, good[19] + 1), Refusal::MALFORMED);
    refused_always(&with(&good, 19, good[19] - 1), Refusal::MALFORMED);
    refused_always(&with(&good, 17, 13), Refusal::MALFORMED);
    let few = message(0x1003, DOWNLOAD, &[], &[0, 9, 2, 0xFF, 0]);
    refused_always(&section(0x3C, 9, 0, &few), Refusal::MALFORMED);
    let end = announced.len() - 4;
    refused_always(&with(&announced, end - 1, 1), Refusal::MALFORMED);
    refused_always(&with(&announced, 37, 1), Refusal::MALFORMED); // compatibility length
    refused_always(&with(&announced, 39, 1), Refusal::MALFORMED); // module count
    refused_always(&with(&announced, 39, 3), Refusal::MALFORMED);
}

#[test]
fn block_header_9() {
    let good = block_9();
    refused_always(&with(&good, 4, 8), Refusal::BAD_BLOCK_HEADER);
    let later = with(&with(&good, 7, 255), 6, 1);
    refused_always(&later, Refusal::BAD_BLOCK_HEADER); // section number 1, block 0
    for version in (0..32).filter(|&version| version != 2) {
        let stale = with(&good, 5, byte_5(version));
        refused_always(&stale, Refusal::BAD_BLOCK_HEADER);
    }
}

/// Byte 5 of a current section of this version.
fn byte_5(version: u8) -> u8 {
    0xC1 | version << 1
}

/// What becomes of a block of a module of this version, under a section header of that one.
fn under(version: u8, header: u8) -> Result<Kind, Refusal> {
    let (mut record, mut image) = heard(&[announcement(1, 4, &[(7, 4, version)])], 4);
    let section = with(&block(1, 7, version, 0, b"buoy"), 5, byte_5(header));
    record.step(&section, &mut image)
}

#[test]
fn the_section_version_is_the_modules_mod_32() {
    // The soundings of 02, §6; then every version under every header.
    assert_eq!(under(32, 0), Ok(Kind::Stored));
    assert_eq!(under(33, 0), Err(Refusal::BAD_BLOCK_HEADER));
    assert_eq!(under(0, 31), Err(Refusal::BAD_BLOCK_HEADER));
    assert_eq!(under(255, 31), Ok(Kind::Stored));
    for version in 0..=255 {
        let stored = (0..32).filter(|&header| under(version, header) == Ok(Kind::Stored));
        assert_eq!(stored.collect::<Vec<_>>(), [version % 32]);
    }
}

#[test]
fn an_announcements_section_version_is_not_looked_at() {
    for version in 0..32 {
        heard(&[with(&drift(), 5, byte_5(version)), block_9()], 1006);
    }
}

#[test]
fn limits_10_and_twice_11() {
    let many: Vec<(u16, u32, u8)> = (0..33).map(|number| (number, 1, 0)).collect();
    let each = |size| (0..32).map(|number| (number, size, 0)).collect::<Vec<_>>();
    for beyond in [
        announcement(1, 0, &[(7, 6, 0)]),
        announcement(1, 4067, &[(7, 6, 0)]),
        announcement(1, 400, &[]),
        announcement(1, 400, &many),
        announcement(1, 400, &[(7, 6, 0), (8, 0, 0)]),
        announcement(1, 1, &[(7, 1_025, 0)]),
        announcement(1, 4066, &[(7, 262_145, 0)]),
        announcement(1, 400, &[(7, 262_144, 0), (8, 1, 0)]),
        announcement(1, 400, &[each(8_192), vec![(32, 1, 0)]].concat()),
        announcement(1, 400, &[&each(8_192)[1..], &[(32, 8_193, 0)]].concat()),
        announcement(1, 4066, &[(7, u32::MAX, 0), (8, 1, 0)]),
        announcement(1, 0, &[(7, 6, 0), (7, 6, 0)]),
    ] {
        refused_always(&beyond, Refusal::BEYOND_LIMITS);
    }
    let twice = announcement(1, 400, &[(7, 6, 0), (8, 6, 0), (7, 5, 1)]);
    refused_always(&twice, Refusal::MODULE_TWICE);
    // The paper's soundings that are taken.
    heard(&[announcement(1, 1, &[(7, 1_024, 0)])], 0);
    heard(&[announcement(1, 400, &[(7, 262_143, 0), (8, 1, 0)])], 0);
    heard(&[announcement(1, 4066, &[(7, 262_144, 0)])], 0);
    heard(&[announcement(1, 8, &each(8_192))], 0);
    heard(&[announcement(1, 400, &many[..32])], 0);
}

#[test]
fn blocks_that_do_not_match_12_to_17() {
    let sections = [drift(), block_9(), block_7(0, 400, 1)];
    let (record, image) = heard(&sections, 1006);
    let refused = |section: Vec<u8>, refusal| refused(&record, &section, &image, refusal);

    refused(block(1, 9, 2, 0, b"buoy 3"), Refusal::NOT_ANNOUNCED);
    refused(block(DOWNLOAD, 8, 2, 0, b"buoy 3"), Refusal::NO_MODULE);
    refused(block(DOWNLOAD, 9, 1, 0, b"buoy 3"), Refusal::OTHER_VERSION);
    refused(block_7(1, 399, 2), Refusal::BAD_BLOCK);
    refused(block_7(1, 401, 2), Refusal::BAD_BLOCK);
    refused(block_7(1, 0, 2), Refusal::BAD_BLOCK);
    refused(block_7(2, 400, 2), Refusal::BAD_BLOCK);
    refused(block_7(3, 400, 2), Refusal::BAD_BLOCK);
    refused(block_7(300, 400, 2), Refusal::BAD_BLOCK); // section number 44
    refused(block_7(256, 400, 1), Refusal::BAD_BLOCK); // section number 0
    refused(block(DOWNLOAD, 9, 2, 0, b"buoy 4"), Refusal::BYTES_DIFFER);
    refused(block_7(0, 400, 2), Refusal::BYTES_DIFFER);
}

#[test]
fn no_announcement_12() {
    refused(&Record::new(), &block_9(), &[], Refusal::NOT_ANNOUNCED);
    let of_zero = block(0, 0, 0, 0, b"");
    refused(&Record::new(), &of_zero, &[1; 9], Refusal::NOT_ANNOUNCED);
}

#[test]
fn short_image_15() {
    let (record, image) = heard(&[drift()], 1006);
    let short = &image[..1005];
    refused(&record, &block_9(), short, Refusal::SHORT_IMAGE);
    refused(&record, &block_7(0, 400, 1), short, Refusal::SHORT_IMAGE);
    refused(&record, &block_9(), &[], Refusal::SHORT_IMAGE);
    // The lowest number: 14 before 15, 15 before 16.
    let old = block(DOWNLOAD, 9, 1, 0, b"buoy 3");
    refused(&record, &old, short, Refusal::OTHER_VERSION);
    refused(&record, &block_7(3, 400, 1), short, Refusal::SHORT_IMAGE);
}

#[test]
fn the_programs_image_is_short_of_a_larger_announcement() {
    for (size, fate) in [
        (65_536, Ok(Kind::Stored)),
        (65_537, Err(Refusal::SHORT_IMAGE)),
    ] {
        let (mut record, mut image) = heard(&[announcement(1, 4000, &[(7, size, 0)])], 65_536);
        assert_eq!(
            record.step(&block(1, 7, 0, 0, &[5; 4000]), &mut image),
            fate
        );
        let none = if size == 65_536 {
            Refusal::INCOMPLETE
        } else {
            Refusal::SHORT_IMAGE
        };
        assert_eq!(record.handout(&image, 7), Err(none));
        assert_eq!(record.handout(&image, 8), Err(Refusal::NO_MODULE));
    }
}

#[test]
fn a_size_that_divides_evenly_has_no_empty_block() {
    let (record, image) = heard(&[announcement(DOWNLOAD, 400, &[(7, 800, 1)])], 800);
    refused(&record, &block_7(2, 0, 1), &image, Refusal::BAD_BLOCK);
    refused(&record, &block_7(2, 400, 1), &image, Refusal::BAD_BLOCK);
}
