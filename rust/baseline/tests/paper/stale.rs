//! Stale relays (02, §6): a data section whose version is not its module version mod 32 is 9.

use crate::made::*;
use baseline::{Answer, Missing, Record};

/// Module 5: 1,000 bytes, version 2; module 6: 800 bytes, version 41, which is 9 mod 32.
fn held() -> Record {
    announced(&Announcement::new(7, 400, &[(5, 1_000, 2), (6, 800, 41)]))
}

const TOGETHER: usize = 1_800;

/// The only block of a module that is announced and sent in this version.
fn only(version: u8) -> (Record, Block) {
    let record = announced(&Announcement::new(7, 4, &[(1, 4, version)]));
    (record, Block::new(7, 1, version, 0, &[1, 2, 3, 4]))
}

/// What the only block of a module answers under this section version: 0 for "stored".
fn answer(version: u8, section_version: u8) -> u8 {
    let (record, block) = only(version);
    let section = under(&block, section_version);
    let (mut after, mut image) = (record, [0; 4]);
    if after.step(&section, &mut image) == Answer::Stored {
        assert_eq!(image, [1, 2, 3, 4]);
        return 0;
    }
    refused(&record, &section, &[0; 4])
}

/// Under its own section version the block is refused with this number; under any other with 9.
fn nine_before(number: u8, record: &Record, block: &Block, image: &[u8]) {
    assert_eq!(refused(record, &block.bytes(), image), number);
    nine_under_all_others(record, block, image);
}

fn nine_under_all_others(record: &Record, block: &Block, image: &[u8]) {
    for other in (0..32).filter(|&other| other != block.version % 32) {
        assert_eq!(refused(record, &under(block, other), image), 9, "{other}");
    }
}

#[test]
fn the_module_version_mod_32() {
    for (version, section_version) in [(0, 0), (31, 31), (32, 0), (33, 1), (255, 31)] {
        assert_eq!(answer(version, section_version), 0);
    }
    for (version, section_version) in [(33, 0), (0, 31), (32, 31), (255, 30), (16, 0), (0, 16)] {
        assert_eq!(answer(version, section_version), 9);
    }
}

#[test]
fn every_module_version_under_every_section_version() {
    for version in 0..=255 {
        for section_version in 0..32 {
            // Without a remainder: eight module versions look alike in a section header.
            let alike = (0..8).any(|times| section_version + 32 * times == version);
            let expected = if alike { 0 } else { 9 };
            let found = answer(version, section_version);
            assert_eq!(found, expected, "{version} under {section_version}");
        }
    }
}

#[test]
fn an_old_header_on_a_new_block_is_nine_whatever_is_announced() {
    let new = Block::new(7, 1, 34, 0, &[1, 2, 3, 4]);
    // Old header and old announcement agree, and still it is no 14.
    for announced in [33, 34, 1, 2] {
        let (record, _) = only(announced);
        assert_eq!(refused(&record, &under(&new, 1), &[0; 4]), 9);
    }
    // An old block under its own header is 14, also where both versions look alike in the header.
    for old in [33, 2, 66] {
        let (record, _) = only(34);
        let block = Block::new(7, 1, old, 0, &[1, 2, 3, 4]);
        nine_before(14, &record, &block, &[0; 4]);
    }
}

#[test]
fn nine_before_twelve_to_sixteen() {
    let image = vec![0xAA; TOGETHER];
    let block = |download, module, version, number, length: usize| {
        Block::new(download, module, version, number, &vec![1; length])
    };
    let good = block(7, 6, 41, 1, 400);
    // No announcement; another download.
    nine_before(12, &Record::empty(), &good, &image);
    nine_before(12, &held(), &block(8, 6, 41, 1, 400), &image);
    nine_before(13, &held(), &block(7, 4, 41, 1, 400), &image);
    nine_before(14, &held(), &block(7, 6, 9, 1, 400), &image);
    nine_before(15, &held(), &good, &image[1..]);
    nine_before(15, &held(), &good, &[]);
    // A wrong length; a number past the last; one whose section number is not itself.
    nine_before(16, &held(), &block(7, 6, 41, 1, 399), &image);
    nine_before(16, &held(), &block(7, 6, 41, 2, 400), &image);
    nine_before(16, &held(), &block(7, 6, 41, 300, 400), &image);
}

#[test]
fn nine_before_seventeen_stored_and_repeated() {
    let (mut record, mut image) = (held(), vec![0xAA; TOGETHER]);
    let mut block = Block::new(7, 6, 41, 1, &[1; 400]);
    nine_under_all_others(&record, &block, &image);
    assert_eq!(record.step(&block.bytes(), &mut image), Answer::Stored);
    nine_under_all_others(&record, &block, &image);
    assert_eq!(record.step(&block.bytes(), &mut image), Answer::Repeated);
    block.data[0] = 2;
    nine_before(17, &record, &block, &image);
}

#[test]
fn one_to_six_before_nine() {
    let (record, block) = only(33);
    let section = under(&block, 0);
    let number = |section: &[u8]| refused(&record, section, &[0; 4]);
    assert_eq!(number(&section), 9);
    let mut broken = record;
    broken.modules[0].start = 1;
    assert_eq!(refused(&broken, &section, &[0; 4]), 1);
    assert_eq!(number(&section[..section.len() - 1]), 2);
    assert_eq!(number(&make::with(&section, 0, 0x3D)), 3);
    assert_eq!(number(&make::with(&section, 6, 1)), 4);
    let mut sum = section.clone();
    *sum.last_mut().unwrap() ^= 1;
    assert_eq!(number(&sum), 5);
    assert_eq!(number(&make::with(&section, 5, 0xC0)), 6);
}

#[test]
fn seven_and_eight_before_nine() {
    let (record, block) = only(33);
    // The section version is 0 here, and stale.
    let number = |body: Vec<u8>| {
        let section = Section::new(0x3C, block.module, 0, body).bytes();
        refused(&record, &section, &[0; 4])
    };
    let body = block.section().body;
    assert_eq!(number(body.clone()), 9);
    for (at, answer) in [(0, 8), (1, 8), (2, 8), (3, 8), (9, 7), (10, 7), (11, 7)] {
        let mut body = body.clone();
        body[at] ^= 0x10;
        assert_eq!(number(body), answer, "{at}");
    }
    for length in 0..12 {
        assert_eq!(number(body[..length].to_vec()), 7);
    }
    // From three bytes on the stale version is there, but not all of the fixed fields.
    for length in 0..6 {
        let content = &block.content()[..length];
        assert_eq!(number(message(0x1003, 7, &[], content)), 7);
    }
}

#[test]
fn nine_for_each_fault_of_the_header_and_for_all_together() {
    let (record, block) = only(33);
    for faults in 1..8 {
        let mut sheet = block.section();
        sheet.extension ^= faults & 1;
        sheet.number ^= (faults >> 1 & 1) as u8;
        sheet.version ^= (faults >> 2 & 1) as u8;
        sheet.last = 1;
        assert_eq!(refused(&record, &sheet.bytes(), &[0; 4]), 9, "{faults}");
    }
}

#[test]
fn the_version_is_read_behind_the_adaptation_bytes() {
    for length in 0..12 {
        let (mut record, mut block) = only(33);
        block.adaptation = vec![40; length];
        nine_under_all_others(&record, &block, &[0; 4]);
        let section = block.bytes();
        assert_eq!(record.step(&section, &mut [0; 4]), Answer::Stored);
    }
}

#[test]
fn a_stale_block_completes_nothing() {
    let (mut record, mut image) = (held(), vec![0; TOGETHER]);
    let first = Block::new(7, 6, 41, 0, &[1; 400]);
    let last = Block::new(7, 6, 41, 1, &[2; 400]);
    assert_eq!(record.step(&first.bytes(), &mut image), Answer::Stored);
    for _ in 0..2 {
        let stale = record.step(&under(&last, 8), &mut image);
        assert_eq!(stale, plain(9));
        let (count, lowest) = (1, 1);
        assert_eq!(record.missing(6), Missing::Lacking { count, lowest });
        assert_eq!(record.handout_number(&image, 6), 20);
    }
    assert_eq!(record.step(&last.bytes(), &mut image), Answer::Stored);
    assert_eq!(record.handout(&image, 6), [[1; 400], [2; 400]].concat());
}

#[test]
fn an_announcement_under_every_section_version() {
    for module_version in [0, 1, 31, 32, 33, 255] {
        let (record, block) = only(module_version);
        let (mut stored, mut image) = (record, [0; 4]);
        assert_eq!(stored.step(&block.bytes(), &mut image), Answer::Stored);
        let mut sheet = Announcement::new(7, 4, &[(1, 4, module_version)]).section();
        for version in 0..32 {
            sheet.version = version;
            let mut fresh = Record::empty();
            assert_eq!(fresh.step(&sheet.bytes(), &mut image), Answer::New);
            assert_eq!(fresh, record);
            let mut after = stored;
            assert_eq!(after.step(&sheet.bytes(), &mut image), Answer::Same);
            assert_eq!((after, image), (stored, [1, 2, 3, 4]));
        }
    }
}
