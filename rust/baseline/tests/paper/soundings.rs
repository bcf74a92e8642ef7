//! The paper's soundings, in its order, moved by 02, §8.

use crate::made::*;
use baseline::table::{code_class, number_class, CodeClass, NumberClass};
use baseline::{read, Answer, Missing, Record, Refusal};

fn dii(block_size: u16, modules: &[Announced]) -> Answer {
    Record::empty().step(&Announcement::new(7, block_size, modules).bytes(), &mut [])
}

/// A record and image with one module 1, version 0.
fn one(size: u32, block_size: u16) -> (Record, Vec<u8>) {
    let record = announced(&Announcement::new(7, block_size, &[(1, size, 0)]));
    (record, vec![0; size as usize])
}

fn block(held: &mut (Record, Vec<u8>), number: u16, length: usize) -> Answer {
    let bytes = Block::new(7, 1, 0, number, &vec![5; length]).bytes();
    held.0.step(&bytes, &mut held.1)
}

#[test]
fn size_1000_block_size_400() {
    let mut held = one(1_000, 400);
    for (number, length) in [(0, 400), (1, 400), (2, 200)] {
        assert_eq!(block(&mut held, number, length), Answer::Stored);
    }
    assert_eq!(held.0.missing(1), Missing::Whole);
    assert_eq!(held.0.handout(&held.1, 1).len(), 1_000);
}

#[test]
fn size_800_has_two_blocks_and_block_2_gives_16() {
    let mut held = one(800, 400);
    assert_eq!(
        held.0.missing(1),
        Missing::Lacking {
            count: 2,
            lowest: 0
        }
    );
    assert_eq!(block(&mut held, 2, 0), plain(16));
    assert_eq!(block(&mut held, 2, 400), plain(16));
}

#[test]
fn size_65536_block_size_4066() {
    let mut held = one(65_536, 4_066);
    assert_eq!(
        held.0.missing(1),
        Missing::Lacking {
            count: 17,
            lowest: 0
        }
    );
    assert_eq!(block(&mut held, 16, 481), plain(16));
    assert_eq!(block(&mut held, 16, 480), Answer::Stored);
    assert_eq!(block(&mut held, 17, 480), plain(16));
}

#[test]
fn block_size_1() {
    assert_eq!(dii(1, &[(1, 1_024, 0)]), Answer::New);
    assert_eq!(dii(1, &[(1, 1_025, 0)]), plain(10));
}

#[test]
fn sizes_together() {
    assert_eq!(dii(400, &[(1, 262_143, 0), (2, 1, 0)]), Answer::New);
    assert_eq!(dii(400, &[(1, 262_144, 0), (2, 1, 0)]), plain(10));
}

#[test]
fn a_4066_byte_block_has_l_4093() {
    let mut held = one(65_536, 4_066);
    let bytes = Block::new(7, 1, 0, 0, &[5; 4_066]).bytes();
    assert_eq!(bytes.len(), 3 + 4_093);
    assert_eq!(block(&mut held, 0, 4_066), Answer::Stored);
}

#[test]
fn blocks_0_and_2_of_three() {
    let mut held = one(1_000, 400);
    assert_eq!(block(&mut held, 0, 400), Answer::Stored);
    assert_eq!(block(&mut held, 2, 200), Answer::Stored);
    assert_eq!(
        held.0.missing(1),
        Missing::Lacking {
            count: 1,
            lowest: 1
        }
    );
}

#[test]
fn an_empty_ait_has_l_13() {
    let section = ait(&[], &[]);
    assert_eq!(section.len(), 3 + 13);
    let table = read(&section).unwrap();
    assert_eq!((table.common, table.applications), (0, 0));
}

#[test]
fn seventy_two_least_applications_give_l_1021() {
    let least = application(1, 2, 1, &[described(&[])]);
    assert_eq!(least.len(), 14);
    let section = ait(&[], &vec![least.clone(); 72]);
    assert_eq!(section.len(), 3 + 1_021);
    assert_eq!(read(&section).unwrap().applications, 72);
    assert_eq!(read(&ait(&[], &vec![least; 73])), Err(Refusal::at(4, 1)));
}

#[test]
fn classes() {
    assert_eq!(number_class(0x3FFF), NumberClass::Unsigned);
    assert_eq!(number_class(0x4000), NumberClass::Signed);
    assert_eq!(code_class(5), CodeClass::Reserved);
}

#[test]
fn block_300_with_section_number_44() {
    let mut held = one(1_000, 400);
    let mut sheet = Block::new(7, 1, 0, 300, &[5; 400]).section();
    assert_eq!(sheet.number, 44);
    assert_eq!(held.0.step(&sheet.bytes(), &mut held.1), plain(16));
    (sheet.number, sheet.last) = (45, 45);
    assert_eq!(held.0.step(&sheet.bytes(), &mut held.1), plain(9));
}
