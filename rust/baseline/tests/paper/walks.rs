//! The run, one place at a time and as a whole, and the paper's printed example.

use crate::made::*;
use baseline::{Fate, Passage, Record, Refusal, Stop, Taken};
use std::fmt::Write;

/// The program's own limit, for its input, its image and its budget.
pub const PROGRAM: usize = 65_536;

/// What the program prints, by the request's words; `places` asks the program itself.
pub fn print(stretch: &[u8]) -> String {
    let mut record = Record::empty();
    let mut image = vec![0; PROGRAM];
    let (mut at, mut index, mut budget) = (0, 0, PROGRAM);
    let mut text = String::from("index,answer,kind,place\n");
    loop {
        match record.take(&stretch[at..], &mut image, budget) {
            Taken::Stopped(stop) => {
                let word = match stop {
                    Stop::End => "end",
                    Stop::Stuffing => "stuffing",
                    Stop::Short => "short",
                    Stop::Budget => "budget",
                    Stop::State => "state",
                };
                writeln!(text, "stop,{word}").unwrap();
                return text;
            }
            Taken::Section { length, fate } => {
                let line = match fate {
                    Fate::Table => "0,table,".to_string(),
                    Fate::New => "0,new,".to_string(),
                    Fate::Same => "0,same,".to_string(),
                    Fate::Stored => "0,stored,".to_string(),
                    Fate::Repeated => "0,repeated,".to_string(),
                    Fate::Refused(Refusal { number, place }) => match place {
                        Some(place) => format!("{number},none,{place}"),
                        None => format!("{number},none,"),
                    },
                };
                writeln!(text, "{index},{line}").unwrap();
                (at, index, budget) = (at + length, index + 1, budget - 1);
            }
        }
    }
}

#[test]
fn the_printed_example() {
    let stretch = [
        Announcement::new(7, 400, &[(1, 1_000, 3)]).bytes(),
        Block::new(7, 1, 3, 0, &[5; 400]).bytes(),
        Block::new(7, 1, 3, 0, &[5; 400]).bytes(),
        Block::new(7, 1, 4, 0, &[5; 400]).bytes(),
    ]
    .concat();
    let expected = "index,answer,kind,place\n\
                    0,0,new,\n\
                    1,0,stored,\n\
                    2,0,repeated,\n\
                    3,14,none,\n\
                    stop,end\n";
    assert_eq!(print(&stretch), expected);
}

#[test]
fn a_stale_relay() {
    let block = Block::new(7, 1, 33, 0, &[5; 400]);
    let stretch = [
        Announcement::new(7, 400, &[(1, 400, 33)]).bytes(),
        under(&block, 0),
        under(&block, 1),
        under(&block, 0),
        under(&block, 1),
        Block::new(7, 1, 32, 0, &[5; 400]).bytes(),
    ]
    .concat();
    let expected = "index,answer,kind,place\n\
                    0,0,new,\n\
                    1,9,none,\n\
                    2,0,stored,\n\
                    3,9,none,\n\
                    4,0,repeated,\n\
                    5,14,none,\n\
                    stop,end\n";
    assert_eq!(print(&stretch), expected);
}

#[test]
fn every_kind_and_a_stuffed_end() {
    let stretch = [
        ait(&[], &[]),
        ait(&[], &[application(1, 2, 1, &[])]),
        Announcement::new(7, 400, &[(1, 1_000, 3)]).bytes(),
        Announcement::new(7, 400, &[(1, 1_000, 3)]).bytes(),
        vec![0x42, 0x00, 0x01, 0x99],
        vec![0x3C, 0x00, 0x00],
        vec![0xFF; 9],
        ait(&[], &[]),
    ]
    .concat();
    let expected = "index,answer,kind,place\n\
                    0,0,table,\n\
                    1,18,none,\n\
                    2,0,new,\n\
                    3,0,same,\n\
                    4,3,none,0\n\
                    5,4,none,1\n\
                    stop,stuffing\n";
    assert_eq!(print(&stretch), expected);
}

fn stop(stretch: &[u8], budget: usize) -> Option<Stop> {
    match Record::empty().take(stretch, &mut [], budget) {
        Taken::Stopped(stop) => Some(stop),
        Taken::Section { .. } => None,
    }
}

#[test]
fn stops_in_their_order() {
    for budget in [0, 1] {
        assert_eq!(stop(&[], budget), Some(Stop::End));
        assert_eq!(stop(&[0xFF], budget), Some(Stop::Stuffing));
        assert_eq!(
            stop(&[0xFF, 0xFF, 0xFF, 0xFF], budget),
            Some(Stop::Stuffing)
        );
        assert_eq!(stop(&[0x3B], budget), Some(Stop::Short));
        assert_eq!(stop(&[0x3B, 0xB0], budget), Some(Stop::Short));
        assert_eq!(stop(&[0x3B, 0xB0, 1], budget), Some(Stop::Short));
        assert_eq!(stop(&[0x3B, 0xBF, 0xFF], budget), Some(Stop::Short));
    }
    assert_eq!(stop(&[0x3B, 0xB0, 0], 0), Some(Stop::Budget));
    assert_eq!(stop(&[0x3B, 0xB0, 0], 1), None);
    let empty = ait(&[], &[]);
    assert_eq!(stop(&empty[..15], 0), Some(Stop::Short));
    assert_eq!(stop(&empty, 0), Some(Stop::Budget));
}

#[test]
fn sections_of_l_4094_and_4095_are_taken_and_refused() {
    for length in [4_094u16, 4_095] {
        let mut section = vec![0x3C, 0xB0 | (length >> 8) as u8, length as u8];
        section.extend(vec![0; usize::from(length)]);
        let taken = Record::empty().take(&section, &mut [], 1);
        let length = usize::from(length) + 3;
        let fate = Fate::Refused(Refusal::at(4, 1));
        assert_eq!(taken, Taken::Section { length, fate });
        section.pop();
        assert_eq!(stop(&section, 1), Some(Stop::Short));
    }
}

#[test]
fn the_run_answers_taken_passed_and_stop() {
    let stretch = [
        Announcement::new(7, 400, &[(1, 600, 3)]).bytes(),
        Block::new(7, 1, 3, 0, &[5; 400]).bytes(),
        ait(&[], &[]),
        Block::new(7, 1, 3, 1, &[6; 200]).bytes(),
    ]
    .concat();
    let mut record = Record::empty();
    let mut image = vec![0; 600];
    let passage = Passage {
        taken: 4,
        passed: stretch.len(),
        stop: Stop::End,
    };
    assert_eq!(record.run(&stretch, &mut image, usize::MAX), passage);
    assert_eq!(
        record.handout(&image, 1),
        [vec![5; 400], vec![6; 200]].concat()
    );
    let nothing = Passage {
        taken: 0,
        passed: 0,
        stop: Stop::Budget,
    };
    assert_eq!(record.run(&stretch, &mut image, 0), nothing);
    let all_but_one = record.run(&stretch[..stretch.len() - 1], &mut image, 9);
    assert_eq!((all_but_one.taken, all_but_one.stop), (3, Stop::Short));
}
