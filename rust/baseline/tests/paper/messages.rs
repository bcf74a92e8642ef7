//! Refusals 7 to 11.

use crate::made::*;
use baseline::{Answer, Record, ALL_WORDS};

fn step(section: &[u8]) -> u8 {
    match Record::empty().step(section, &mut []) {
        Answer::New => 0,
        Answer::Refused(refusal) => number(refusal),
        answer => panic!("{answer:?}"),
    }
}

fn dii(block_size: u16, modules: &[Announced]) -> u8 {
    step(&Announcement::new(7, block_size, modules).bytes())
}

#[test]
fn a_body_under_twelve_is_seven_before_eight() {
    for table in [0x3B, 0x3C] {
        for length in 0..12 {
            let body = vec![0xAA; length];
            assert_eq!(step(&Section::new(table, 0, 0, body).bytes()), 7);
        }
        // From 12 on, 8 before every other 7: the message length is wrong here as well.
        assert_eq!(step(&Section::new(table, 0, 0, vec![0xAA; 12]).bytes()), 8);
    }
}

#[test]
fn eight_first_bytes_and_message_number() {
    let good = Announcement::new(7, 400, &[(1, 1_000, 0)]).section();
    for (at, value) in [(0, 0x10), (1, 0x02), (2, 0x11), (3, 0x03), (3, 0x06)] {
        let mut sheet = Announcement::new(7, 400, &[(1, 1_000, 0)]).section();
        sheet.body[at] = value;
        assert_eq!(step(&sheet.bytes()), 8);
        sheet.body[10] ^= 1; // and a message length that is 7
        assert_eq!(step(&sheet.bytes()), 8);
    }
    assert_eq!(step(&good.bytes()), 0);
    // The other table's message number.
    let mut sheet = Block::new(7, 1, 0, 0, &[0]).section();
    sheet.body[3] = 2;
    assert_eq!(step(&sheet.bytes()), 8);
    sheet.body[3] = 3;
    assert_eq!(step(&sheet.bytes()), 12);
}

#[test]
fn seven_message_length_counts_up_to_the_crc() {
    for change in [-1i16, 1] {
        for mut sheet in [
            Announcement::new(7, 400, &[(1, 1_000, 0)]).section(),
            Block::new(7, 1, 0, 0, &[1, 2]).section(),
        ] {
            let length = i16::from_be_bytes([sheet.body[10], sheet.body[11]]) + change;
            sheet.body[10..12].copy_from_slice(&length.to_be_bytes());
            assert_eq!(step(&sheet.bytes()), 7);
        }
    }
}

#[test]
fn seven_adaptation_past_the_message() {
    // All of the message is adaptation: then the fields are missing. One more: it does not fit. Both 7.
    for adaptation in [8, 9, 255] {
        let mut body = message(0x1003, 7, &[], &[0; 8]);
        body[9] = adaptation;
        assert_eq!(step(&Section::new(0x3C, 0, 0, body).bytes()), 7);
    }
    // Two adaptation bytes leave exactly the six fixed ones.
    let mut body = message(0x1003, 7, &[], &[0; 8]);
    body[9] = 2;
    assert_eq!(step(&Section::new(0x3C, 0, 0, body.clone()).bytes()), 12);
    body[9] = 3;
    assert_eq!(step(&Section::new(0x3C, 0, 0, body).bytes()), 7);
}

#[test]
fn adaptation_bytes_are_passed_over() {
    let mut dii = Announcement::new(7, 400, &[(1, 1_000, 0)]);
    dii.adaptation = vec![0xEE; 255];
    assert_eq!(step(&dii.bytes()), 0);
    dii.adaptation = vec![0xEE];
    assert_eq!(step(&dii.bytes()), 0);
}

#[test]
fn seven_announcement_cut_at_every_length_or_with_bytes_left() {
    let mut dii = Announcement::new(7, 400, &[(1, 1_000, 0), (2, 5, 1)]);
    dii.compatibility = vec![1, 2, 3];
    dii.info = vec![4, 5];
    dii.private = vec![6];
    let content = dii.content();
    assert_eq!(step(&announcement_of(&content)), 0);
    for length in 0..content.len() {
        assert_eq!(step(&announcement_of(&content[..length])), 7, "{length}");
    }
    assert_eq!(step(&announcement_of(&[&content[..], &[0]].concat())), 7);
}

#[test]
fn seven_before_ten_and_ten_before_eleven() {
    // blockSize 0 and a byte left over.
    let bad = Announcement::new(7, 0, &[(1, 1, 0), (1, 1, 0)]);
    let content = bad.content();
    assert_eq!(step(&announcement_of(&[&content[..], &[0]].concat())), 7);
    assert_eq!(step(&announcement_of(&content)), 10);
    assert_eq!(dii(1, &[(1, 1, 0), (1, 1, 0)]), 11);
    // A count that runs past the end is 7, also far past 32.
    let mut content = Announcement::new(7, 4, &[(1, 1, 0); 36]).content();
    content[18..20].copy_from_slice(&37u16.to_be_bytes());
    assert_eq!(step(&announcement_of(&content)), 7);
    content[18..20].copy_from_slice(&0xFFFFu16.to_be_bytes());
    assert_eq!(step(&announcement_of(&content)), 7);
    content[18..20].copy_from_slice(&36u16.to_be_bytes());
    assert_eq!(step(&announcement_of(&content)), 10);
    // A faulty module past the 32nd is still 7.
    let place = content.len() - 2 - 1;
    content[place] = 3;
    assert_eq!(step(&announcement_of(&content)), 7);
}

#[test]
fn ten_block_size() {
    assert_eq!(dii(0, &[(1, 1, 0)]), 10);
    assert_eq!(dii(1, &[(1, 1, 0)]), 0);
    assert_eq!(dii(4_066, &[(1, 1, 0)]), 0);
    assert_eq!(dii(4_067, &[(1, 1, 0)]), 10);
    assert_eq!(dii(0xFFFF, &[(1, 1, 0)]), 10);
}

#[test]
fn ten_count_of_modules() {
    let modules = |count: u16| (0..count).map(|i| (i, 1, 0)).collect::<Vec<_>>();
    assert_eq!(dii(1, &modules(0)), 10);
    assert_eq!(dii(1, &modules(1)), 0);
    assert_eq!(dii(1, &modules(32)), 0);
    assert_eq!(dii(1, &modules(33)), 10);
    // As many as one section can frame.
    let most = Announcement::new(7, 1, &modules(506)).bytes();
    assert_eq!(most.len(), 3 + 43 + 8 * 506);
    assert_eq!(step(&most), 10);
    // 33 with a number twice are 10, never 11.
    assert_eq!(dii(1, &[(1, 1, 0); 33]), 10);
    assert_eq!(dii(1, &[(1, 1, 0); 32]), 11);
    // No module, and all else as in the empty record, is no "same".
    assert_eq!(step(&Announcement::new::<Announced>(0, 0, &[]).bytes()), 10);
}

#[test]
fn ten_sizes() {
    assert_eq!(dii(400, &[(1, 0, 0)]), 10);
    assert_eq!(dii(400, &[(1, 1, 0), (2, 0, 0)]), 10);
    assert_eq!(dii(4, &[(1, 4_096, 0)]), 0);
    assert_eq!(dii(4, &[(1, 4_097, 0)]), 10);
    assert_eq!(dii(4_066, &[(1, 262_144, 0)]), 0);
    assert_eq!(dii(4_066, &[(1, 262_145, 0)]), 10);
    assert_eq!(dii(4_066, &[(1, u32::MAX, 0)]), 10);
    assert_eq!(dii(4_066, &[(1, u32::MAX, 0), (2, 2, 0)]), 10);
}

#[test]
fn ten_sizes_together() {
    let mut modules: Vec<_> = (0..32).map(|i| (i, 8_192, 0)).collect();
    assert_eq!(dii(8, &modules), 0);
    modules[3].1 += 1;
    assert_eq!(dii(9, &modules), 10);
    modules[25].1 -= 1;
    assert_eq!(dii(9, &modules), 0);
}

#[test]
fn eleven_number_twice() {
    for (first, second) in [(0, 1), (0, 31), (15, 16), (30, 31)] {
        let mut modules: Vec<_> = (0..32).map(|i| (i * 3, 1, 0)).collect();
        assert_eq!(dii(4, &modules), 0);
        modules[second].0 = modules[first].0;
        modules[second].2 = 9;
        assert_eq!(dii(4, &modules), 11);
    }
}

#[test]
fn same_and_new() {
    let base = Announcement::new(7, 400, &[(1, 1_000, 0), (2, 800, 3)]);
    let mut record = announced(&base);
    let block = Block::new(7, 2, 3, 0, &[9; 400]);
    let mut image = vec![0; 1_800];
    assert_eq!(record.step(&block.bytes(), &mut image), Answer::Stored);
    let held = record;

    // What does not matter for "same".
    let mut alike = base.clone();
    alike.compatibility = vec![1; 4];
    alike.info = vec![2; 3];
    alike.private = vec![3; 2];
    alike.adaptation = vec![4];
    alike.identifier = 0;
    let mut sheet = alike.section();
    (sheet.version, sheet.number, sheet.last) = (9, 1, 2);
    assert_eq!(record.step(&sheet.bytes(), &mut image), Answer::Same);
    assert_eq!(record, held);

    // What does.
    let others = [
        Announcement::new(8, 400, &[(1, 1_000, 0), (2, 800, 3)]),
        Announcement::new(7, 401, &[(1, 1_000, 0), (2, 800, 3)]),
        Announcement::new(7, 400, &[(3, 1_000, 0), (2, 800, 3)]),
        Announcement::new(7, 400, &[(1, 1_001, 0), (2, 800, 3)]),
        Announcement::new(7, 400, &[(1, 1_000, 0), (2, 800, 4)]),
        Announcement::new(7, 400, &[(2, 800, 3), (1, 1_000, 0)]),
        Announcement::new(7, 400, &[(1, 1_000, 0)]),
        Announcement::new(7, 400, &[(1, 1_000, 0), (2, 800, 3), (3, 1, 0)]),
    ];
    for other in others {
        let (mut record, mut bytes) = (held, image.clone());
        assert_eq!(record.step(&other.bytes(), &mut bytes), Answer::New);
        // What of the marks is kept is told in `keeping`.
        record.marks = [0; ALL_WORDS];
        assert_eq!(record, announced(&other));
        assert_eq!(bytes, image);
    }
}

#[test]
fn a_new_record_is_as_the_paper_lays_it_out() {
    let record = announced(&Announcement::new(
        9,
        400,
        &[(30, 1_000, 1), (10, 800, 2), (20, 1, 3)],
    ));
    assert_eq!(
        (record.download, record.block_size, record.count),
        (9, 400, 3)
    );
    let starts: Vec<_> = record.modules.iter().map(|module| module.start).collect();
    assert_eq!(starts[..4], [0, 1_000, 1_800, 0]);
    assert_eq!(record.modules[1].number, 10);
    assert_eq!(record.modules[1].version, 2);
    assert!(record.modules[3..].iter().all(|module| module.size == 0));
    assert_eq!(record.marks, [0; ALL_WORDS]);
}

#[test]
fn nine_before_twelve_and_before_any_look_at_the_record() {
    let good = Block::new(7, 0x0102, 0, 0x0203, &[1]);
    let mut sheet = good.section();
    assert_eq!(step(&sheet.bytes()), 12);
    sheet.extension = 0x0103;
    assert_eq!(step(&sheet.bytes()), 9);
    sheet.extension = 0x0202;
    assert_eq!(step(&sheet.bytes()), 9);
    let mut sheet = good.section();
    (sheet.number, sheet.last) = (2, 255);
    assert_eq!(step(&sheet.bytes()), 9);
    (sheet.number, sheet.last) = (4, 255);
    assert_eq!(step(&sheet.bytes()), 9);
    (sheet.number, sheet.last) = (3, 255);
    assert_eq!(step(&sheet.bytes()), 12);
    // 7 and 8 before 9.
    sheet.extension = 0;
    sheet.body[11] ^= 1;
    assert_eq!(step(&sheet.bytes()), 7);
    sheet.body[1] = 0;
    assert_eq!(step(&sheet.bytes()), 8);
    // The section's version is the module's mod 32 (02, §6, more of it in `stale`).
    for version in 1..32 {
        assert_eq!(step(&under(&good, version)), 9);
    }
    assert_eq!(step(&under(&good, 0)), 12);
}

#[test]
fn a_block_with_under_six_bytes_is_seven() {
    let content = Block::new(7, 0, 0, 0, &[]).content();
    for length in 0..=6 {
        let body = message(0x1003, 7, &[], &content[..length]);
        let answer = step(&Section::new(0x3C, 0, 0, body).bytes());
        assert_eq!(answer, if length < 6 { 7 } else { 12 });
    }
}
