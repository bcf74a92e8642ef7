//! "Say where it broke" (02, §9): refusals 2 to 6 have a place, all other answers have none, and every caller
//! passes it through.

use std::io::Write;
use std::process::{Command, Stdio};

use crate::made::*;
use crate::model::{broken, Rule, APPLICATION, CAROUSEL};
use crate::random::{self, Dice};
use crate::walks::{print, PROGRAM};
use baseline::{read, read_all, Answer, Fate, Record, Refusal, Stop, Taken};

/// A call that checks a section, the table it is asked about, and its rule.
struct Way {
    table: u8,
    rule: Rule<'static>,
    call: fn(&[u8]) -> Option<Refusal>,
}

const WAYS: [Way; 4] = [
    Way {
        table: 0x74,
        rule: APPLICATION,
        call: |section| read(section).err(),
    },
    Way {
        table: 0x74,
        rule: APPLICATION,
        call: |section| read_all(section).err(),
    },
    Way {
        table: 0x3B,
        rule: CAROUSEL,
        call: step,
    },
    Way {
        table: 0x3C,
        rule: CAROUSEL,
        call: step,
    },
];

/// The refusal of a step, on a record that holds modules; it must be left as it was.
fn step(section: &[u8]) -> Option<Refusal> {
    let (record, image) = held();
    let (mut after, mut bytes) = (record, image.clone());
    match after.step(section, &mut bytes) {
        Answer::Refused(refusal) => {
            assert_eq!((after, bytes), (record, image));
            Some(refusal)
        }
        _ => None,
    }
}

/// Module 1: 9 bytes, version 0; module 2: 8 bytes, version 33.
fn held() -> (Record, Vec<u8>) {
    let announcement = Announcement::new(7, 4, &[(1, 9, 0), (2, 8, 33)]);
    (announced(&announcement), vec![0xAA; 17])
}

fn at(number: u8, place: usize) -> Option<Refusal> {
    let place = Some(place);
    Some(Refusal { number, place })
}

/// A section of this L, right but for its body: zeros, and the CRC where there is room.
fn of_length(table: u8, length: usize) -> Vec<u8> {
    let mut section = vec![table, 0xB0 | (length >> 8) as u8, length as u8];
    section.resize(3 + length, 0);
    if let Some(byte) = section.get_mut(5) {
        *byte = 0xC1;
    }
    mended(section)
}

/// The section with these section numbers, as far as it has them, its CRC as it was.
fn misnumbered(mut section: Vec<u8>, number: u8, last: u8) -> Vec<u8> {
    for (byte, value) in section.iter_mut().skip(6).zip([number, last]) {
        *byte = value;
    }
    section
}

/// The same, its CRC right again; under an L of 9 it may stand over them.
fn numbered(section: Vec<u8>, number: u8, last: u8) -> Vec<u8> {
    mended(misnumbered(section, number, last))
}

fn without_syntax(section: &[u8]) -> Vec<u8> {
    make::with(section, 1, section[1] & 0x7F)
}

/// Whether a way finds nothing of 2 to 6; what it finds else has no place.
fn is_framed(found: Option<Refusal>) -> bool {
    found.is_none_or(|refusal| number(refusal) > 6)
}

#[test]
fn the_soundings() {
    for Way { table, call, .. } in WAYS {
        assert_eq!(call(&[table, 0xB0]), at(2, 2));
        assert_eq!(call(&[]), at(2, 0));
        assert_eq!(call(&of_length(table, 8)), at(4, 1));
        let whole = of_length(table, 13);
        assert!(is_framed(call(&whole)));
        let wrong = numbered(whole.clone(), 3, 2);
        assert_eq!(call(&wrong), at(4, 6));
        assert_eq!(call(&without_syntax(&wrong)), at(4, 1));
        let mut bad = whole.clone();
        bad[15] ^= 1;
        assert_eq!(call(&bad), at(5, 12));
        assert_eq!(call(&make::with(&whole, 5, 0xC0)), at(6, 5));
    }
}

#[test]
fn two_is_at_the_lent_length() {
    for Way { table, rule, call } in WAYS {
        for length in [13, rule.1] {
            let whole = of_length(table, length);
            for lent in (0..40).chain([whole.len() - 2, whole.len() - 1]) {
                if lent < whole.len() {
                    assert_eq!(call(&whole[..lent]), at(2, lent));
                }
            }
            for more in [1, 2, 5_000, 70_000] {
                let longer = [&whole[..], &vec![0; more]].concat();
                assert_eq!(call(&longer), at(2, whole.len() + more));
            }
        }
        // Whatever else is wrong; 0xFF tells an L of 4,095.
        for byte in [0x00, 0x7F, 0xFF] {
            for lent in [0, 1, 2, 4, 11, 12, 4_097, 4_099] {
                assert_eq!(call(&vec![byte; lent]), at(2, lent));
            }
        }
    }
}

#[test]
fn three_is_at_zero_whatever_else_is_wrong() {
    for Way { rule, call, .. } in WAYS {
        for table in (0..=255).filter(|table| !rule.0.contains(table)) {
            assert_eq!(call(&of_length(table, 13)), at(3, 0));
            assert_eq!(call(&of_length(table, 0)), at(3, 0));
            let wrong = [table, 0x00, 9, 0, 0, 0, 3, 2, 1, 2, 3, 4];
            assert_eq!(call(&wrong), at(3, 0));
        }
        assert_eq!(call(&[0xFF; 4_098]), at(3, 0));
    }
}

#[test]
fn four_is_at_one_for_every_length_out_of_its_limits() {
    for Way { table, rule, call } in WAYS {
        for length in (0..9).chain([rule.1 + 1, rule.1 + 2, 4_094, 4_095]) {
            let right = of_length(table, length);
            let mended = numbered(right.clone(), 3, 2);
            let wrong = misnumbered(right.clone(), 255, 0);
            for section in [right, mended, wrong] {
                assert_eq!(call(&section), at(4, 1), "{length}");
                assert_eq!(call(&without_syntax(&section)), at(4, 1), "{length}");
            }
        }
    }
}

#[test]
fn four_is_at_six_where_only_the_numbers_are_wrong() {
    for Way { table, rule, call } in WAYS {
        for length in [9, 10, 13, rule.1 - 1, rule.1] {
            let right = of_length(table, length);
            assert!(is_framed(call(&right)), "{length}");
            assert_eq!(call(&without_syntax(&right)), at(4, 1));
            for (number, last) in [(1, 0), (3, 2), (255, 0), (255, 254), (128, 127)] {
                let mut wrong = numbered(right.clone(), number, last);
                assert_eq!(call(&wrong), at(4, 6), "{length}");
                assert_eq!(call(&without_syntax(&wrong)), at(4, 1), "{length}");
                // 5 and 6 come after, and leave the place.
                wrong[5] = 0xC0;
                assert_eq!(call(&wrong), at(4, 6), "{length}");
                assert_eq!(call(&mended(wrong)), at(4, 6), "{length}");
            }
        }
    }
}

#[test]
fn four_by_every_bit_before_l() {
    for Way { table, call, .. } in WAYS {
        for flags in 0..16 {
            for (number, last) in [(0, 0), (2, 3), (3, 2)] {
                let mut section = of_length(table, 13);
                section[1] = flags << 4;
                let found = call(&numbered(section, number, last));
                match (flags >= 8, number <= last) {
                    (true, true) => assert!(is_framed(found)),
                    (true, false) => assert_eq!(found, at(4, 6)),
                    (false, _) => assert_eq!(found, at(4, 1)),
                }
            }
        }
    }
}

#[test]
fn every_pair_of_section_numbers() {
    for Way { table, call, .. } in WAYS {
        let mut section = of_length(table, 9);
        for pair in 1..=0xFFFFu16 {
            // The CRC is that of 0 and 0, so 5 shows where 4 does not.
            section[6..8].copy_from_slice(&pair.to_be_bytes());
            let found = call(&section);
            let wrong = section[6] > section[7];
            assert_eq!(found, if wrong { at(4, 6) } else { at(5, 8) }, "{pair:#x}");
        }
    }
}

#[test]
fn five_is_at_the_first_crc_byte_wherever_the_fault_is() {
    for Way { table, rule, call } in WAYS {
        for length in [9, 10, 13, rule.1 - 1, rule.1] {
            let right = of_length(table, length);
            let size = right.len();
            for spoiled in [3, 4, 5, 8, size - 4, size - 3, size - 2, size - 1] {
                let mut section = right.clone();
                section[spoiled] ^= 0x40;
                assert_eq!(call(&section), at(5, length - 1), "{spoiled}");
                // 6 comes after.
                section[5] &= 0xFE;
                assert_eq!(call(&section), at(5, length - 1), "{spoiled}");
            }
        }
    }
}

#[test]
fn six_is_at_five() {
    for Way { table, rule, call } in WAYS {
        for length in [9, 10, 13, rule.1] {
            let right = of_length(table, length);
            let bytes = if length < 20 { 0..=255 } else { 0xC0..=0xC3 };
            for byte in bytes {
                let found = call(&make::with(&right, 5, byte));
                if byte % 2 == 0 {
                    assert_eq!(found, at(6, 5), "{byte:#x}");
                } else {
                    assert!(is_framed(found), "{byte:#x}");
                }
            }
        }
    }
}

#[test]
fn no_other_refusal_has_a_place() {
    let (mut record, mut image) = held();
    let first = Block::new(7, 1, 0, 0, &[1; 4]);
    assert_eq!(record.step(&first.bytes(), &mut image), Answer::Stored);
    let block = |module, version, number| Block::new(7, module, version, number, &[2; 4]).bytes();
    let sections = [
        (7, Section::new(0x3B, 0, 0, vec![]).bytes()),
        (8, Section::new(0x3C, 0, 0, vec![0; 12]).bytes()),
        (9, under(&first, 1)),
        (10, Announcement::new(7, 0, &[(1, 1, 0)]).bytes()),
        (11, Announcement::new(7, 4, &[(1, 1, 0); 2]).bytes()),
        (12, Block::new(8, 1, 0, 0, &[1; 4]).bytes()),
        (13, block(3, 0, 0)),
        (14, block(1, 1, 0)),
        (16, block(1, 0, 2)),
        (17, block(1, 0, 0)),
    ];
    for (number, section) in sections {
        assert_eq!(record.step(&section, &mut image), plain(number));
        let (length, fate) = (section.len(), Fate::Refused(Refusal::plain(number)));
        let taken = record.take(&section, &mut image, 1);
        assert_eq!(taken, Taken::Section { length, fate });
    }
    assert_eq!(record.step(&first.bytes(), &mut image[1..]), plain(15));
    record.count = 33;
    // Also where 2 to 6 would apply.
    for section in [&first.bytes()[..], &[], &[0x3B, 0xB0], &[0; 3]] {
        assert_eq!(record.step(section, &mut image), plain(1));
    }
    let undescribed = ait(&[], &[application(1, 2, 1, &[])]);
    for (number, section) in [(7, ait_of(vec![])), (18, undescribed)] {
        assert_eq!(read(&section), Err(Refusal::plain(number)));
        assert_eq!(read_all(&section), Err(Refusal::plain(number)));
    }
}

/// Header fields at and past their limits, a right or wrong CRC, and at times not 3 + L bytes.
fn odd(dice: &mut Dice) -> Vec<u8> {
    let length = match dice.below(16) {
        0 => dice.pick(&[1_020, 1_021, 1_022, 4_092, 4_093, 4_094, 4_095]),
        1..=4 => dice.pick(&[0, 3, 4, 5, 7, 8]),
        _ => 9 + dice.below(9),
    };
    let table = dice.pick(&[0x74, 0x74, 0x74, 0x3B, 0x3C, 0x3B, 0x3D]);
    let mut section = of_length(table, length);
    for byte in section.iter_mut().skip(3) {
        *byte = dice.next() as u8;
    }
    section[1] = section[1] & 0x0F | dice.pick(&[0x70, 0x80, 0xB0, 0xF0]);
    let (number, last) = dice.pick(&[(0, 0), (3, 3), (3, 2), (1, 0), (0, 255)]);
    section = numbered(section, number, last);
    match dice.below(12) {
        0 => section.truncate(dice.below(section.len())),
        1 => section.extend(dice.bytes(3)),
        2..=3 => *section.last_mut().unwrap() ^= 1 << dice.below(8),
        _ => {}
    }
    section
}

/// Odd sections, and damaged ones that were good.
fn any(dice: &mut Dice) -> Vec<u8> {
    if dice.one_in(2) {
        return odd(dice);
    }
    let made = random::section(dice);
    if made.is_empty() {
        made
    } else {
        random::spoil(dice, made)
    }
}

#[test]
fn damaged_sections_break_where_the_second_formula_says() {
    let mut dice = Dice(0x09B0_0C4E_0F17_7E5D);
    let mut seen = [[0usize; 8]; 4];
    for _ in 0..6_000 {
        let section = any(&mut dice);
        for (Way { rule, call, .. }, seen) in WAYS.iter().zip(&mut seen) {
            let found = call(&section);
            let expected = broken(&section, *rule);
            let framed = found.filter(|refusal| refusal.number <= 6);
            assert_eq!(framed, expected, "{section:?}");
            let kind = match found.map(|refusal| (refusal.number, refusal.place)) {
                Some((2, Some(place))) if place == section.len() => 2,
                Some((number @ 3..=6, Some(place))) if place < section.len() => {
                    usize::from(number) + usize::from((number, place) == (4, 6)) * 3
                }
                Some((1 | 7..=20, None)) => 0,
                None => 1,
                other => panic!("{other:?} {section:?}"),
            };
            seen[kind] += 1;
        }
    }
    // Accepted (1) is rare after damage; 7 here stands for 4 at 6.
    for (way, seen) in seen.iter().enumerate() {
        let rare = (0..8).filter(|&kind| seen[kind] < 20);
        assert!(rare.eq([0; 0]), "{way}: {seen:?}");
    }
}

/// Makes right what a place names, and nothing before or behind it but the CRC.
fn cured(section: &[u8], table: u8, refusal: Refusal) -> Vec<u8> {
    let mut cured = section.to_vec();
    let place = refusal.place.unwrap();
    match (refusal.number, place) {
        (2, lent) => {
            assert_eq!(lent, section.len());
            cured.resize(lent.max(3), 0);
            let told = u16::from_be_bytes([cured[1] & 0x0F, cured[2]]);
            cured.resize(3 + usize::from(told), 0);
            return cured;
        }
        (3, _) => cured[place] = table,
        (4, 6) => cured[place] = cured[place + 1],
        (5, _) => {
            let sum = make::crc(&section[..place]).to_be_bytes();
            cured[place..].copy_from_slice(&sum);
            return cured;
        }
        (6, _) => cured[place] |= 1,
        _ => panic!("{refusal:?}"),
    }
    mended(cured)
}

#[test]
fn what_a_place_names_is_what_is_wrong() {
    let mut dice = Dice(0x0F17_7E5D_09B0_0C4E);
    let mut cures = [0usize; 8];
    for _ in 0..3_000 {
        let section = any(&mut dice);
        for Way { table, call, .. } in WAYS {
            let Some(refusal) = call(&section).filter(|refusal| refusal.number <= 6) else {
                continue;
            };
            cures[usize::from(refusal.number)] += 1;
            if refusal == Refusal::at(4, 1) {
                // No section numbers help.
                let helped = numbered(section.clone(), 0, 255);
                assert_eq!(call(&helped), Some(refusal), "{section:?}");
                continue;
            }
            let after = call(&cured(&section, table, refusal)).map_or(0, number);
            let better = after == 0 || after > refusal.number;
            assert!(better, "{refusal:?} then {after}: {section:?}");
        }
    }
    assert!(cures[2..=6].iter().all(|&count| count > 50), "{cures:?}");
}

#[test]
fn take_passes_the_place_through() {
    let mut dice = Dice(0x5EC7_1095_0B40_8E12);
    let mut seen = [0usize; 21];
    for _ in 0..4_000 {
        let section = any(&mut dice);
        // Another one behind it: the place is counted in the section, and the lent length is its own.
        let stretch = [&section[..], &of_length(0x74, 13)].concat();
        let (mut record, mut image) = held();
        let Taken::Section { length, fate } = record.take(&stretch, &mut image, 9) else {
            continue;
        };
        let taken = &stretch[..length];
        let expected = if taken[0] == 0x74 {
            read(taken).err()
        } else {
            step(taken)
        };
        match (fate, expected) {
            (Fate::Refused(refusal), Some(expected)) => {
                assert_eq!(refusal, expected);
                seen[usize::from(number(refusal))] += 1;
            }
            (fate, expected) => assert!(expected.is_none(), "{fate:?} {expected:?}"),
        }
    }
    assert_eq!(seen[2], 0);
    assert!(seen[3..=7].iter().all(|&count| count > 20), "{seen:?}");
}

/// What the program itself prints for this input.
pub fn program(stretch: &[u8]) -> String {
    let mut child = Command::new(env!("CARGO_BIN_EXE_nebosvar_baseline"))
        .stdin(Stdio::piped())
        .stdout(Stdio::piped())
        .spawn()
        .unwrap();
    let mut input = child.stdin.take().unwrap();
    input.write_all(stretch).unwrap();
    drop(input);
    let output = child.wait_with_output().unwrap();
    assert!(output.status.success());
    String::from_utf8(output.stdout).unwrap()
}

/// One section for each place of a rule, in order: 4 at 1 by L, by its most, by the syntax indicator; 4 at 6; 5
/// at 12 and at its most; 6.
fn each_place(table: u8, most: usize) -> Vec<u8> {
    let whole = of_length(table, 13);
    let wrong = numbered(whole.clone(), 3, 2);
    let mut bad = [whole.clone(), of_length(table, most)];
    bad.iter_mut().for_each(|section| section[8] ^= 1);
    [
        of_length(table, 8),
        of_length(table, most + 1),
        without_syntax(&wrong),
        wrong,
        bad.concat(),
        make::with(&whole, 5, 0xC0),
    ]
    .concat()
}

#[test]
fn the_program_prints_the_fourth_column() {
    let stretch = [
        ait(&[], &[]),
        each_place(0x74, 1_021),
        Announcement::new(7, 4, &[(1, 4, 0)]).bytes(),
        of_length(0x42, 13),
        each_place(0x3C, 4_093),
        Block::new(7, 1, 0, 0, &[1; 4]).bytes(),
        Block::new(7, 1, 1, 0, &[1; 4]).bytes(),
        vec![0x74, 0xB0],
    ]
    .concat();
    let expected = "index,answer,kind,place\n\
        0,0,table,\n\
        1,4,none,1\n2,4,none,1\n3,4,none,1\n4,4,none,6\n5,5,none,12\n6,5,none,1020\n7,6,none,5\n\
        8,0,new,\n\
        9,3,none,0\n\
        10,4,none,1\n11,4,none,1\n12,4,none,1\n13,4,none,6\n14,5,none,12\n15,5,none,4092\n16,6,none,5\n\
        17,0,stored,\n\
        18,14,none,\n\
        stop,short\n";
    assert_eq!(program(&stretch), expected);
    assert_eq!(print(&stretch), expected);
    assert_eq!(program(&[]), "index,answer,kind,place\nstop,end\n");
}

#[test]
fn the_program_prints_what_take_answers() {
    let mut dice = Dice(0x0C01_0A4E_7E57_0001);
    let mut text = String::new();
    for _ in 0..30 {
        let mut stretch = vec![];
        for _ in 0..40 {
            let section = any(&mut dice);
            let whole = Record::empty().take(&section, &mut [], 1);
            if !matches!(whole, Taken::Stopped(Stop::Short | Stop::Stuffing)) {
                stretch.extend(section);
            }
        }
        stretch.truncate(PROGRAM);
        let printed = program(&stretch);
        assert_eq!(printed, print(&stretch));
        text += &printed;
    }
    for end in ["3,none,0\n", "4,none,1\n", "4,none,6\n", "6,none,5\n"] {
        assert!(text.contains(end), "{end:?}");
    }
    for line in text.lines().filter(|line| !line.starts_with("stop,")) {
        assert_eq!(line.matches(',').count(), 3, "{line}");
    }
}
