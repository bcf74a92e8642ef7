//! Bigger charts (02, §8): 32 modules, 1,024 blocks of a module and 262,144 bytes together, each limit from both
//! sides; and the image of 65,536 bytes that the program keeps.

use crate::made::*;
use crate::model;
use crate::places::program;
use crate::random::Dice;
use crate::walks::{print, PROGRAM};
use baseline::{Answer, Missing, Record, ALL_WORDS, BLOCKS, MODULES, MOST_TOGETHER, WORDS};

/// Blocks at the ends of the section numbers, and the section numbers that they share.
const SHARING: [(u16, u8); 8] = [
    (0, 0),
    (255, 255),
    (256, 0),
    (511, 255),
    (512, 0),
    (767, 255),
    (768, 0),
    (1_023, 255),
];

/// Modules of these sizes, numbered from 1, version 0.
fn of_sizes(block_size: u16, sizes: &[u32]) -> Announcement {
    let numbered = (1..).zip(sizes);
    let modules: Vec<Announced> = numbered.map(|(number, &size)| (number, size, 0)).collect();
    Announcement::new(7, block_size, &modules)
}

/// The record of such an announcement, whether it is in the limits or not.
fn lent(block_size: u16, sizes: &[u32]) -> Record {
    let mut record = Record::empty();
    (record.download, record.block_size) = (7, block_size);
    record.count = sizes.len() as u16;
    let (mut number, mut start) = (0, 0u32);
    for (module, &size) in record.modules.iter_mut().zip(sizes) {
        number += 1;
        (module.number, module.size, module.start) = (number, size, start);
        start = start.wrapping_add(size);
    }
    record
}

/// What an announcement of these sizes answers, 0 for "new"; the record's rule must say the same.
fn announce(block_size: u16, sizes: &[u32]) -> u8 {
    let section = of_sizes(block_size, sizes).bytes();
    let lent = lent(block_size, sizes);
    let mut record = Record::empty();
    if record.step(&section, &mut []) == Answer::New {
        assert_eq!(record, lent);
        assert!(lent.is_ruled() && model::is_ruled(&lent));
        return 0;
    }
    assert!(!lent.is_ruled() && !model::is_ruled(&lent));
    assert_eq!(refused(&lent, &section, &[]), 1);
    refused(&Record::empty(), &section, &[])
}

fn lacking(count: usize, lowest: usize) -> Missing {
    Missing::Lacking { count, lowest }
}

#[test]
fn the_numbers_of_the_request() {
    assert_eq!((MODULES, BLOCKS, MOST_TOGETHER), (32, 1_024, 262_144));
    assert_eq!((WORDS, ALL_WORDS), (32, 1_024));
    let record = Record::empty();
    assert_eq!((record.modules.len(), record.marks.len()), (32, 1_024));
}

#[test]
fn modules_32_and_33() {
    // Among them what were the limits before.
    for count in [1, 16, 17, 31, 32] {
        assert_eq!(announce(1, &vec![1; count]), 0, "{count}");
    }
    for count in [0, 33, 34, 64, 256 + 32] {
        assert_eq!(announce(1, &vec![1; count]), 10, "{count}");
    }
}

#[test]
fn count_33_breaks_the_rule() {
    let mut record = lent(1, &[1; 32]);
    assert!(record.is_ruled());
    record.count = 33;
    assert!(!record.is_ruled());
    assert_eq!(refused(&record, &of_sizes(1, &[1; 32]).bytes(), &[]), 1);
    assert_eq!(record.missing(1), Missing::Refused(1));
    assert_eq!(record.handout_number(&[0; 32], 1), 1);
}

#[test]
fn blocks_1024_and_1025_of_a_module() {
    for block_size in [1u16, 2, 64, 255, 256] {
        let size = u32::from(block_size);
        let full = 1_024 * size;
        assert_eq!(announce(block_size, &[full]), 0, "{size}");
        assert_eq!(announce(block_size, &[full + 1]), 10, "{size}");
        for least in [1_023 * size + 1, full] {
            let record = announced(&of_sizes(block_size, &[least]));
            assert_eq!(record.missing(1), lacking(1_024, 0), "{size}");
        }
        // Not only the first module is held to it.
        if full < 131_072 {
            assert_eq!(announce(block_size, &[1, full]), 0, "{size}");
            assert_eq!(announce(block_size, &[1, full + 1]), 10, "{size}");
        }
    }
}

#[test]
fn with_large_blocks_the_limit_together_comes_first() {
    for block_size in [257, 400, 4_066] {
        assert_eq!(announce(block_size, &[262_144]), 0);
        assert_eq!(announce(block_size, &[262_145]), 10);
        let full = 1_024 * u32::from(block_size);
        assert_eq!(announce(block_size, &[full]), 10);
        assert_eq!(announce(block_size, &[full + 1]), 10);
    }
    // 64 blocks of 4,066 and one of 1,920.
    let mut record = announced(&of_sizes(4_066, &[262_144]));
    assert_eq!(record.missing(1), lacking(65, 0));
    let mut image = vec![0; 262_144];
    for (number, length, answer) in [
        (64, 1_921, plain(16)),
        (64, 1_920, Answer::Stored),
        (65, 1_920, plain(16)),
    ] {
        let block = Block::new(7, 1, 0, number, &vec![5; length]).bytes();
        assert_eq!(record.step(&block, &mut image), answer);
    }
    assert_eq!(image[260_223..260_225], [0, 5]);
    assert_eq!(image[262_143], 5);
}

#[test]
fn bytes_262144_and_262145_together() {
    for (most, over) in [
        (vec![262_144], vec![262_145]),
        (vec![131_072, 131_072], vec![131_072, 131_073]),
        (vec![262_143, 1], vec![262_144, 1]),
        (vec![1, 262_143], vec![2, 262_143]),
    ] {
        assert_eq!(announce(400, &most), 0, "{most:?}");
        assert_eq!(announce(400, &over), 10, "{over:?}");
    }
    let most = [8_192; 32];
    assert_eq!(announce(8, &most), 0);
    for place in 0..32 {
        let mut sizes = most;
        sizes[place] += 1;
        assert_eq!(announce(9, &sizes), 10, "{place}");
        sizes[31 - place] -= 1;
        assert_eq!(announce(9, &sizes), 0, "{place}");
    }
}

#[test]
fn sums_past_32_bits_are_ten() {
    // In 32 bits the first four are 0 together, and the last two 1 and 32.
    for sizes in [
        &[1 << 31; 2][..],
        &[1 << 30; 4],
        &[1 << 28; 16],
        &[1 << 27; 32],
        &[u32::MAX, 2],
        &[(1 << 27) + 1; 32],
    ] {
        assert_eq!(announce(4_066, sizes), 10, "{sizes:?}");
    }
    // The largest sum that is formed: every size in its limit, all together far over it.
    assert_eq!(announce(4_066, &[262_144; 32]), 10);
}

#[test]
fn blocks_that_share_a_section_number_have_their_own_places_and_marks() {
    // Module 2, at place 1, begins at byte 1; its last block has one byte.
    let mut record = announced(&of_sizes(2, &[1, 2_047, 9]));
    let mut image = vec![0xAA; 2_057];
    let (mut marks, mut expected) = (record.marks, image.clone());
    for ((number, section_number), fill) in SHARING.into_iter().zip(1..) {
        let begin = 1 + 2 * usize::from(number);
        let length = if number == 1_023 { 1 } else { 2 };
        let block = Block::new(7, 2, 0, number, &vec![fill; length]);
        assert_eq!(block.section().number, section_number);
        assert_eq!(record.step(&block.bytes(), &mut image), Answer::Stored);
        expected[begin..begin + length].fill(fill);
        let mark = 1_024 + usize::from(number);
        marks[mark / 32] |= 1 << (mark % 32);
        assert_eq!((record.marks, &image), (marks, &expected), "{number}");
        assert_eq!(record.step(&block.bytes(), &mut image), Answer::Repeated);
    }
    assert_eq!(record.missing(2), lacking(1_024 - 8, 1));
}

#[test]
fn a_block_under_the_section_number_of_another_is_nine() {
    let (record, image) = (announced(&of_sizes(1, &[1_024])), [0; 1_024]);
    for (number, section_number) in SHARING {
        let mut sheet = Block::new(7, 1, 0, number, &[1]).section();
        sheet.last = 255;
        for other in (0..=255).filter(|&other| other != section_number) {
            sheet.number = other;
            assert_eq!(refused(&record, &sheet.bytes(), &image), 9, "{number}");
        }
    }
}

#[test]
fn block_1023_is_stored_and_block_1024_is_16() {
    let (mut record, mut image) = (announced(&of_sizes(1, &[1_024, 1])), [0; 1_025]);
    // 1,024 would lie in the next module.
    for (number, section_number) in [(1_024, 0), (1_025, 1), (1_279, 255), (2_047, 255)] {
        for length in 0..3 {
            let block = Block::new(7, 1, 0, number, &vec![1; length]);
            assert_eq!(block.section().number, section_number);
            assert_eq!(refused(&record, &block.bytes(), &image), 16, "{number}");
        }
    }
    let block = Block::new(7, 1, 0, 1_023, &[1]);
    assert_eq!(block.section().number, 255);
    assert_eq!(record.step(&block.bytes(), &mut image), Answer::Stored);
    assert_eq!(image[1_022..], [0, 1, 0]);
    // One block fewer, and it is 16 too.
    let fewer = announced(&of_sizes(1, &[1_023, 1]));
    assert_eq!(refused(&fewer, &block.bytes(), &[0; 1_025]), 16);
}

/// 32 modules, the last of 1,024 blocks, and an image for them.
fn with_a_last_word() -> (Record, Vec<u8>) {
    let mut sizes = [1; 32];
    sizes[31] = 1_024;
    (announced(&of_sizes(1, &sizes)), vec![0; 31 + 1_024])
}

/// A block of its last module.
fn in_the_last_module(number: u16) -> Vec<u8> {
    Block::new(7, 32, 0, number, &[number as u8 ^ 0x5A]).bytes()
}

#[test]
fn the_last_mark_is_set_by_a_step_alone() {
    let (mut record, mut image) = with_a_last_word();
    let last = in_the_last_module(1_023);
    assert_eq!(record.step(&last, &mut image), Answer::Stored);
    let mut marks = [0; 1_024];
    marks[1_023] = 1 << 31;
    assert_eq!(record.marks, marks);
    assert_eq!(record.missing(32), lacking(1_023, 0));
    assert_eq!(record.step(&last, &mut image), Answer::Repeated);
}

#[test]
fn the_last_mark_is_missing_before_and_handed_out_after() {
    let (mut record, mut image) = with_a_last_word();
    for number in 0..1_023 {
        let block = in_the_last_module(number);
        assert_eq!(record.step(&block, &mut image), Answer::Stored);
    }
    assert_eq!(record.marks[1_023], u32::MAX >> 1);
    assert_eq!(record.missing(32), lacking(1, 1_023));
    assert_eq!(record.handout_number(&image, 32), 20);
    let last = in_the_last_module(1_023);
    assert_eq!(record.step(&last, &mut image), Answer::Stored);
    assert_eq!(record.marks[1_023], u32::MAX);
    assert_eq!(record.missing(32), Missing::Whole);
    let whole: Vec<u8> = (0..1_024).map(|number| number as u8 ^ 0x5A).collect();
    assert_eq!(record.handout(&image, 32), whole);
}

#[test]
fn the_last_mark_breaks_the_rule_with_one_block_fewer() {
    let (mut record, mut image) = with_a_last_word();
    let last = in_the_last_module(1_023);
    assert_eq!(record.step(&last, &mut image), Answer::Stored);
    assert!(record.is_ruled());
    record.modules[31].size = 1_023;
    assert!(!record.is_ruled());
    assert_eq!(refused(&record, &last, &image), 1);
    assert_eq!(record.missing(32), Missing::Refused(1));
    assert_eq!(record.handout_number(&image, 32), 1);
    record.marks[1_023] = 1 << 30;
    assert!(record.is_ruled());
}

#[test]
fn the_largest_module_in_the_most_blocks() {
    // 1,024 blocks of 256 bytes, out of order: 389 is odd, so that each comes once.
    let (mut record, mut image) = (announced(&of_sizes(256, &[262_144])), vec![0; 262_144]);
    let chart: Vec<u8> = (0..262_144u32)
        .map(|at| (at / 256 * 7 + at) as u8)
        .collect();
    for turn in 0..1_024 {
        assert_eq!(record.handout_number(&image, 1), 20);
        let number = turn * 389 % 1_024;
        let data = &chart[256 * number..][..256];
        let block = Block::new(7, 1, 0, number as u16, data).bytes();
        assert_eq!(record.step(&block, &mut image), Answer::Stored);
    }
    assert_eq!(record.missing(1), Missing::Whole);
    assert_eq!(record.handout(&image, 1), chart);
    assert_eq!(record.handout_number(&image[1..], 1), 15);
}

#[test]
fn steps_on_the_largest_record_agree_with_the_model() {
    let mut dice = Dice(0x0B16_6E4C_4A47_5008);
    let mut record = announced(&of_sizes(1, &[1_024; 32]));
    let mut image = vec![0; 32 * 1_024];
    let mut seen = [0; 4];
    for _ in 0..1_200 {
        let module = dice.pick(&[1, 2, 16, 17, 31, 32, 33]);
        let (edge, _) = dice.pick(&SHARING);
        let number = edge + dice.pick(&[0, 0, 1]) + dice.pick(&[0, 0, 31]);
        let data = [dice.pick(&[1, 1, 1, 2])];
        let section = Block::new(7, module, 0, number, &data).bytes();
        let expected = model::step(&record, &section, &image);
        let answer = record.step(&section, &mut image);
        assert!((answer, record, image.clone()) == expected, "{section:?}");
        seen[match answer {
            Answer::Stored => 0,
            Answer::Repeated => 1,
            answer if answer == plain(16) => 2,
            _ => 3,
        }] += 1;
    }
    assert!(seen.iter().all(|&count| count > 50), "{seen:?}");
}

#[test]
fn bytes_65537_in_an_image_of_65536_are_new_and_then_15() {
    let (mut record, mut image) = (Record::empty(), vec![0xAA; PROGRAM]);
    let section = of_sizes(4_066, &[65_537]).bytes();
    assert_eq!(record.step(&section, &mut image), Answer::New);
    assert_eq!(record.step(&section, &mut image), Answer::Same);
    assert_eq!(record.missing(1), lacking(17, 0));
    for (number, length) in [(0, 4_066), (16, 481), (0, 1), (17, 1), (1_024, 0)] {
        let block = Block::new(7, 1, 0, number, &vec![1; length]).bytes();
        assert_eq!(refused(&record, &block, &image), 15, "{number}");
    }
    assert_eq!(record.handout_number(&image, 1), 15);
    assert_eq!(record.handout_number(&image, 2), 13);
    // With one byte more it goes on.
    image.push(0xAA);
    let block = Block::new(7, 1, 0, 16, &[1; 481]).bytes();
    assert_eq!(record.step(&block, &mut image), Answer::Stored);
    assert_eq!(record.handout_number(&image, 1), 20);
    record.count = 33;
    assert_eq!(record.handout_number(&image[1..], 1), 1);
}

#[test]
fn the_program_keeps_its_image() {
    let block = |module, version, length: usize| {
        Block::new(7, module, version, 0, &vec![1; length]).bytes()
    };
    let stretch = [
        of_sizes(4_066, &[65_537]).bytes(),
        block(1, 0, 4_066),
        block(1, 0, 1),
        block(2, 0, 4_066),
        block(1, 1, 4_066),
        of_sizes(4_066, &[65_536]).bytes(),
        block(1, 0, 4_066),
        of_sizes(4_066, &[65_536, 1]).bytes(),
        block(2, 0, 1),
        of_sizes(4_066, &[262_144]).bytes(),
        block(1, 0, 4_066),
        of_sizes(4_066, &[262_145]).bytes(),
        of_sizes(4_066, &[262_144]).bytes(),
    ]
    .concat();
    let expected = "index,answer,kind,place\n\
        0,0,new,\n1,15,none,\n2,15,none,\n3,13,none,\n4,14,none,\n\
        5,0,new,\n6,0,stored,\n\
        7,0,new,\n8,15,none,\n\
        9,0,new,\n10,15,none,\n11,10,none,\n12,0,same,\n\
        stop,end\n";
    assert_eq!(program(&stretch), expected);
    assert_eq!(print(&stretch), expected);
}
