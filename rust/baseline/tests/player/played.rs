//! Rotations played into the receiver: "new", then "stored" each, and every module is complete and equal to shore's.

use crate::made::*;
use baseline::player::{Listed, Playlist};
use baseline::{Answer, Missing, Record, Stop};

/// What fills a receiver's image before anything is heard.
const UNHEARD: u8 = 0xEE;

/// Announcements of all kinds, at the limits too.
fn announcements() -> Vec<(u16, Vec<Listed>)> {
    let mut all: Vec<(u16, Vec<Listed>)> = vec![
        (400, of_sizes(&[1_000])),
        (400, of_sizes(&[800])),
        (4, of_sizes(&[6, 4, 8, 1])),
        (1, of_sizes(&[255, 256, 257, 300])),
        (1, of_sizes(&[1_024; 32])),
        (8, of_sizes(&[8_192; 32])),
        (4_066, of_sizes(&[262_144])),
        (4_065, of_sizes(&[8_192; 32])),
        (256, of_sizes(&[262_144])),
    ];
    let versions = [0, 1, 31, 32, 33, 63, 64, 128, 254, 255];
    let modules = versions.map(|version| listed((0xFF00 | u16::from(version), 7, version)));
    all.push((3, modules.to_vec()));
    all
}

/// Every module is complete in the record, and its bytes are shore's; the image past them is as it was.
fn is_whole(record: &Record, heard: &[u8], playlist: &Playlist<'_>, shore: &[u8]) {
    let mut begin = 0;
    for module in playlist.modules {
        let end = begin + module.size as usize;
        assert_eq!(record.missing(module.number), Missing::Whole);
        assert_eq!(record.handout_number(heard, module.number), 0);
        let part = record.handout(heard, module.number);
        assert!(part == &shore[begin..end], "module {}", module.number);
        begin = end;
    }
    assert!(heard[begin..].iter().all(|&byte| byte == UNHEARD));
}

#[test]
fn a_rotation_is_new_and_then_stored() {
    for (block_size, modules) in announcements() {
        let playlist = playlist(block_size, &modules);
        let shore = image_of(&playlist);
        for more in [0, 5] {
            let mut record = Record::empty();
            let mut heard = vec![UNHEARD; shore.len() + more];
            for (place, section) in rotation(&playlist, &shore).iter().enumerate() {
                let wanted = [Answer::New, Answer::Stored][place.min(1)];
                assert_eq!(record.step(section, &mut heard), wanted, "{place}");
            }
            is_whole(&record, &heard, &playlist, &shore);
        }
    }
}

#[test]
fn a_rotation_is_one_stretch_to_the_run() {
    for (block_size, modules) in announcements() {
        let playlist = playlist(block_size, &modules);
        let shore = image_of(&playlist);
        let sections = rotation(&playlist, &shore);
        let stretch = sections.concat();
        let (mut record, mut heard) = (Record::empty(), vec![UNHEARD; shore.len()]);
        let passage = record.run(&stretch, &mut heard, usize::MAX);
        let told = (passage.taken, passage.passed, passage.stop);
        assert_eq!(told, (sections.len(), stretch.len(), Stop::End));
        is_whole(&record, &heard, &playlist, &shore);
    }
}

#[test]
fn after_the_announcement_any_order_with_every_block() {
    for (block_size, modules) in announcements() {
        let playlist = playlist(block_size, &modules);
        let shore = image_of(&playlist);
        let sections = rotation(&playlist, &shore);
        let (mut record, mut heard) = (Record::empty(), vec![UNHEARD; shore.len()]);
        assert_eq!(record.step(&sections[0], &mut heard), Answer::New);
        // Backwards, each block twice, and the announcement in between.
        for (place, section) in sections.iter().enumerate().skip(1).rev() {
            assert_eq!(record.step(section, &mut heard), Answer::Stored, "{place}");
            assert_eq!(record.step(section, &mut heard), Answer::Repeated);
            if place % 100 == 1 {
                assert_eq!(record.step(&sections[0], &mut heard), Answer::Same);
            }
        }
        is_whole(&record, &heard, &playlist, &shore);
        for section in &sections[1..] {
            assert_eq!(record.step(section, &mut heard), Answer::Repeated);
        }
        is_whole(&record, &heard, &playlist, &shore);
    }
}

#[test]
fn without_one_block_its_module_is_not_complete() {
    let modules = of_sizes(&[10, 5]);
    let playlist = playlist(4, &modules);
    let shore = image_of(&playlist);
    let sections = rotation(&playlist, &shore);
    for left_out in 1..sections.len() {
        let (mut record, mut heard) = (Record::empty(), vec![UNHEARD; shore.len()]);
        for (place, section) in sections.iter().enumerate() {
            if place != left_out {
                record.step(section, &mut heard);
            }
        }
        let (number, lowest) = [(1, 0), (1, 1), (1, 2), (2, 0), (2, 1)][left_out - 1];
        let lacking = Missing::Lacking { count: 1, lowest };
        assert_eq!(record.missing(number), lacking);
        assert_eq!(record.missing(3 - number), Missing::Whole);
    }
}
