//! Refusals 1 to 6, and the CRC.

use crate::made::*;
use baseline::{crc, read, Answer, Record};

fn dii() -> Announcement {
    Announcement::new(7, 400, &[(1, 1_000, 0)])
}

fn step(section: &[u8]) -> u8 {
    match Record::empty().step(section, &mut []) {
        Answer::New => 0,
        Answer::Refused(refusal) => number(refusal),
        answer => panic!("{answer:?}"),
    }
}

fn table(section: &[u8]) -> u8 {
    read(section).err().map_or(0, number)
}

#[test]
fn crc_of_the_known_vector() {
    assert_eq!(crc(b"123456789"), 0x0376_E6E7);
    assert_eq!(crc(&[]), 0xFFFF_FFFF);
}

#[test]
fn crc_agrees_with_the_bitwise_one_at_every_length() {
    let bytes: Vec<u8> = (0..200u32).map(|i| (i * i * 7 + i * 3 + 5) as u8).collect();
    for begin in 0..9 {
        for end in begin..bytes.len() {
            assert_eq!(crc(&bytes[begin..end]), slow_crc(&bytes[begin..end]));
        }
    }
}

#[test]
fn the_makers_make_the_vectors_of_sources() {
    let empty = [
        0x74, 0xF0, 0x0D, 0x00, 0x01, 0xC1, 0x00, 0x00, 0xF0, 0x00, 0xF0, 0x00, 0xA5, 0xEC, 0x58,
        0xBA,
    ];
    assert_eq!(ait(&[], &[]), empty);
    let dii = Announcement::new(1, 4, &[(1, 6, 0)]).bytes();
    assert_eq!(dii.len(), 3 + 0x33);
    assert_eq!(dii[dii.len() - 4..], [0x13, 0x99, 0x19, 0x34]);
    let mut block = Block::new(1, 1, 0, 0, b"ABCD").section();
    block.last = 1;
    assert_eq!(block.bytes()[30..], [0xAC, 0x72, 0x9B, 0x2F]);
}

#[test]
fn one_comes_before_all() {
    let mut record = Record::empty();
    record.download = 1;
    for section in [&[][..], &[0xFF; 3], &dii().bytes(), &ait(&[], &[])] {
        assert_eq!(refused(&record, section, &[1, 2, 3]), 1);
    }
}

#[test]
fn two_under_three_bytes_or_not_three_and_l() {
    for length in 0..3 {
        assert_eq!(step(&[0x3B; 3][..length]), 2);
        assert_eq!(table(&[0x74; 3][..length]), 2);
    }
    for (whole, call) in [
        (dii().bytes(), step as fn(&[u8]) -> u8),
        (ait(&[], &[]), table as fn(&[u8]) -> u8),
    ] {
        assert_eq!(call(&whole), 0);
        assert_eq!(call(&whole[..whole.len() - 1]), 2);
        let longer = [&whole[..], &[0]].concat();
        assert_eq!(call(&longer), 2);
    }
    // 2 before 3.
    assert_eq!(step(&[0x00, 0x80, 1]), 2);
    assert_eq!(table(&[0x00, 0x80, 1]), 2);
}

#[test]
fn three_is_every_other_table() {
    for number in 0..=255 {
        let mut section = dii().bytes();
        section[0] = number;
        let section = mended(section);
        let carousel = step(&section);
        match number {
            0x3B => assert_eq!(carousel, 0),
            0x3C => assert_eq!(carousel, 8),
            _ => assert_eq!(carousel, 3),
        }
        let mut section = ait(&[], &[]);
        section[0] = number;
        assert_eq!(table(&mended(section)), if number == 0x74 { 0 } else { 3 });
    }
    // 3 before 4.
    assert_eq!(step(&[0x74, 0, 0]), 3);
    assert_eq!(table(&[0x3B, 0, 0]), 3);
}

#[test]
fn four_l_under_nine() {
    for length in 0..9u8 {
        let mut section = vec![0x3B, 0xB0, length];
        section.extend(vec![0; usize::from(length)]);
        assert_eq!(step(&section), 4);
        section[0] = 0x74;
        assert_eq!(table(&section), 4);
    }
    // L = 9 to 12 in an AIT passes 4 and is 7; L = 9 in a message too.
    for body in 0..4 {
        assert_eq!(table(&ait_of(vec![0; body])), 7);
        assert_eq!(step(&Section::new(0x3B, 0, 0, vec![0; body]).bytes()), 7);
    }
}

#[test]
fn four_l_over_its_most() {
    let tables = |length: usize| table(&ait_of(vec![0; length - 9]));
    assert_eq!(tables(1_021), 7);
    assert_eq!(tables(1_022), 4);
    assert_eq!(tables(4_095), 4);
    let messages = |length: usize| step(&Section::new(0x3B, 0, 0, vec![0; length - 9]).bytes());
    assert_eq!(messages(4_093), 8);
    assert_eq!(messages(4_094), 4);
    assert_eq!(messages(4_095), 4);
}

#[test]
fn four_syntax_indicator_and_section_numbers() {
    for flags in 0..16 {
        let mut sheet = dii().section();
        sheet.flags = flags << 4;
        assert_eq!(step(&sheet.bytes()), if flags & 8 == 0 { 4 } else { 0 });
    }
    for (number, last, answer) in [
        (0, 0, 0),
        (3, 3, 0),
        (255, 255, 0),
        (0, 255, 0),
        (1, 0, 4),
        (255, 254, 4),
    ] {
        let mut sheet = dii().section();
        (sheet.number, sheet.last) = (number, last);
        assert_eq!(step(&sheet.bytes()), answer);
        let mut sheet = Section::new(0x74, 1, number, ait_body(&[], &[]));
        sheet.last = last;
        assert_eq!(table(&sheet.bytes()), answer);
    }
}

#[test]
fn four_before_five_before_six_before_seven() {
    let mut sheet = Section::new(0x3B, 0, 1, vec![]);
    (sheet.last, sheet.current) = (0, 0);
    let mut section = sheet.bytes();
    assert_eq!(step(&section), 4);
    section[6] = 0;
    assert_eq!(step(&section), 5);
    let section = mended(section);
    assert_eq!(step(&section), 6);
    sheet.current = 1;
    sheet.number = 0;
    assert_eq!(step(&sheet.bytes()), 7);
}

#[test]
fn five_for_every_single_bit() {
    for (whole, call) in [
        (dii().bytes(), step as fn(&[u8]) -> u8),
        (ait(&[], &[]), table as fn(&[u8]) -> u8),
    ] {
        for bit in 8 * 3..8 * whole.len() {
            let mut section = whole.clone();
            section[bit / 8] ^= 0x80 >> (bit % 8);
            let expected = if section[6] > section[7] { 4 } else { 5 };
            assert_eq!(call(&section), expected);
        }
    }
}

#[test]
fn six_and_unread_bits() {
    for byte in 0..=255 {
        let mut section = dii().bytes();
        section[5] = byte;
        let answer = if byte & 1 == 0 { 6 } else { 0 };
        assert_eq!(step(&mended(section)), answer);
        let mut section = ait(&[], &[]);
        section[5] = byte;
        let section = mended(section);
        assert_eq!(table(&section), answer);
        if answer == 0 {
            assert_eq!(read(&section).unwrap().version, byte >> 1 & 31);
        }
    }
}

#[test]
fn a_blocks_version_is_read_between_unread_bits_and_six() {
    let section = Block::new(7, 1, 0x4B, 0, &[1]).bytes();
    for byte in 0..=255 {
        let answer = match byte & 0x3F {
            // 0x4B mod 32 is 0b01011, and current.
            0b01_0111 => 12,
            other if other & 1 == 0 => 6,
            _ => 9,
        };
        assert_eq!(step(&make::with(&section, 5, byte)), answer, "{byte:#x}");
    }
}

#[test]
fn header_of_an_announcement_meets_no_check_but_four() {
    let mut sheet = dii().section();
    for extension in [0, 1, 2, 0xFFFF] {
        sheet.extension = extension;
        for (version, number) in [(0, 0), (31, 9), (5, 200)] {
            (sheet.version, sheet.number, sheet.last) = (version, number, 200);
            assert_eq!(step(&sheet.bytes()), 0);
        }
    }
}
