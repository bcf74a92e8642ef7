//! Laws over random input, from a small generator with a fixed seed.

use crate::made::*;
use crate::model;
use baseline::{read, read_all, Answer, Fate, Missing, Passage, Record, Stop, Taken};
use baseline::{ALL_WORDS, MODULES};

pub struct Dice(pub u64);

impl Dice {
    pub fn next(&mut self) -> u64 {
        self.0 ^= self.0 << 13;
        self.0 ^= self.0 >> 7;
        self.0 ^= self.0 << 17;
        self.0.wrapping_mul(0x2545_F491_4F6C_DD1D) >> 16
    }

    pub fn below(&mut self, limit: usize) -> usize {
        (self.next() % limit as u64) as usize
    }

    pub fn one_in(&mut self, chances: usize) -> bool {
        self.below(chances) == 0
    }

    pub fn pick<T: Copy>(&mut self, from: &[T]) -> T {
        from[self.below(from.len())]
    }

    pub fn bytes(&mut self, most: usize) -> Vec<u8> {
        (0..self.below(most + 1))
            .map(|_| self.next() as u8)
            .collect()
    }
}

/// The announcement that most random blocks are of. Version 33 does not fit into a section header.
fn usual() -> Announcement {
    Announcement::new(7, 4, &[(1, 9, 0), (2, 8, 33)])
}

fn dii(dice: &mut Dice) -> Vec<u8> {
    let modules: Vec<_> = (0..dice.pick(&[0, 1, 2, 2, 2, 3, 32, 33]))
        .map(|i| {
            let number = if dice.one_in(20) { 1 } else { i + 1 };
            let size = dice.pick(&[1, 8, 9, 12, 262_144, 0]);
            (number, size, dice.pick(&[0, 0, 33]))
        })
        .collect();
    let mut dii = Announcement::new(
        dice.pick(&[7, 7, 8]),
        dice.pick(&[4, 4, 4_066, 0]),
        &modules,
    );
    if dice.one_in(4) {
        dii = usual();
    }
    dii.info = dice.bytes(2);
    dii.compatibility = dice.bytes(2);
    dii.private = dice.bytes(2);
    dii.adaptation = dice.bytes(2);
    dii.bytes()
}

fn ddb(dice: &mut Dice) -> Vec<u8> {
    let data = vec![dice.pick(&[1, 1, 1, 2]); dice.pick(&[4, 4, 4, 4, 1, 1, 0, 5])];
    let block = dice.pick(&[0, 1, 2, 0, 1, 2, 3, 256, 1_024]);
    // 0 and 32, 1 and 33 look alike in a section header.
    let (module, version) = dice.pick(&[(1, 0), (1, 0), (2, 33), (2, 33), (3, 0)]);
    let version = if dice.one_in(5) {
        dice.pick(&[0, 1, 32, 33, 255])
    } else {
        version
    };
    let download = dice.pick(&[7, 7, 7, 7, 8]);
    let mut ddb = Block::new(download, module, version, block, &data);
    ddb.adaptation = dice.bytes(1);
    let mut sheet = ddb.section();
    if dice.one_in(20) {
        sheet.extension ^= 1;
    }
    if dice.one_in(20) {
        (sheet.number, sheet.last) = (1, 9);
    }
    if dice.one_in(8) {
        // Any section version but the right one.
        sheet.version ^= 1 + dice.below(31) as u8;
    }
    sheet.bytes()
}

/// The module version of a block that no refusal up to 8 meets; it stands behind the adaptation bytes.
fn module_version(section: &[u8]) -> u8 {
    section[22 + usize::from(section[17])]
}

/// Whether a block refused with 9 would meet no 9 under another section version.
fn is_stale_alone(record: &Record, section: &[u8]) -> bool {
    let right = 0xC1 | (module_version(section) % 32) << 1;
    model::step(record, &make::with(section, 5, right), &[]).0 != plain(9)
}

/// Well-formed descriptors, mostly.
fn descriptors(dice: &mut Dice) -> Vec<Vec<u8>> {
    (0..dice.below(3))
        .map(|_| {
            let (tag, content): (u8, &[u8]) = dice.pick(&[
                (0x00, &[0, 0, 0, 1][..]),
                (0x00, &[5, 1, 2, 3, 4, 5, 0xFF, 9]),
                (0x01, b"eng\x02ab"),
                (0x02, &[0, 1, 1, 0, 7]),
                (0x02, &[0, 1, 2, 0x80, 1, 2, 3, 4, 5, 6, 7]),
                (0x02, b"\x00\x03\x01\x01a\x01\x01b\x00\x00"),
                (0x02, &[0, 4, 9]),
                (0x05, &[1, 2, 3, 4, 5, 6, 7]),
                (0x15, b"path"),
                (0x99, b"raw"),
            ]);
            descriptor(tag, content)
        })
        .collect()
}

fn table(dice: &mut Dice) -> Vec<u8> {
    let common = descriptors(dice);
    let applications: Vec<_> = (0..dice.below(4))
        .map(|_| {
            let mut own = descriptors(dice);
            own.retain(|descriptor| descriptor[0] != 0);
            if !dice.one_in(15) {
                own.insert(dice.below(own.len() + 1), described(&[1, 2]));
            }
            application(
                dice.next() as u32,
                dice.next() as u16,
                dice.next() as u8,
                &own,
            )
        })
        .collect();
    ait(&common, &applications)
}

/// Changes a byte or two, and mostly makes the CRC right again.
pub fn spoil(dice: &mut Dice, mut section: Vec<u8>) -> Vec<u8> {
    for _ in 0..=dice.below(2) {
        let at = dice.below(section.len());
        section[at] = match dice.below(4) {
            0 => section[at].wrapping_add(1),
            1 => section[at].wrapping_sub(1),
            2 => section[at] ^ 1 << dice.below(8),
            _ => dice.next() as u8,
        };
    }
    if dice.one_in(8) {
        section.truncate(dice.below(section.len() + 1));
        return section;
    }
    if dice.one_in(8) {
        return section;
    }
    mended(section)
}

pub fn section(dice: &mut Dice) -> Vec<u8> {
    let made = match dice.below(10) {
        0..=1 => dii(dice),
        2..=7 => ddb(dice),
        _ => table(dice),
    };
    if dice.one_in(3) {
        spoil(dice, made)
    } else {
        made
    }
}

#[test]
fn the_step_agrees_with_the_model() {
    let mut dice = Dice(0x1234_5678_9ABC_DEF1);
    let mut seen = [0usize; 32];
    // Stale blocks of versions below 32, and of 32 and more.
    let mut stale = [0usize; 2];
    for _ in 0..400 {
        let mut record = Record::empty();
        let length = dice.pick(&[0, 16, 17, 17, 17, 40]);
        let mut image = vec![0xAA; length];
        // Not always an announcement first: blocks are to meet the empty record too.
        let mut section = if dice.one_in(8) {
            ddb(&mut dice)
        } else {
            usual().bytes()
        };
        for _ in 0..60 {
            let expected = model::step(&record, &section, &image);
            let answer = record.step(&section, &mut image);
            assert_eq!((answer, record, image.clone()), expected, "{section:?}");
            assert!(record.is_ruled() && model::is_ruled(&record));
            seen[match answer {
                Answer::New => 21,
                Answer::Same => 22,
                Answer::Stored => 23,
                Answer::Repeated => 24,
                Answer::Refused(refusal) => usize::from(number(refusal)),
            }] += 1;
            if answer == plain(9) && is_stale_alone(&record, &section) {
                stale[usize::from(module_version(&section) >= 32)] += 1;
            }
            section = self::section(&mut dice);
        }
    }
    for number in (2..=17).chain(21..=24) {
        assert!(seen[number] > 0, "{number} never seen: {seen:?}");
    }
    assert!(stale[0] > 300 && stale[1] > 300, "{stale:?}");
}

#[test]
fn the_rule_agrees_with_the_model() {
    let mut dice = Dice(0x0DDB_A11C_0FFE_E123);
    let (mut kept, mut broken) = (0, 0);
    for _ in 0..4_000 {
        let sizes = dice.pick(&[&[9, 8][..], &[1], &[4_096, 4, 1, 600], &[128; MODULES]]);
        let modules: Vec<_> = (1..).zip(sizes).map(|(i, &size)| (i, size, 0)).collect();
        let mut record = announced(&Announcement::new(7, 4, &modules));
        if dice.one_in(5) {
            record = Record::empty();
        }
        for _ in 0..=dice.below(2) {
            let place = dice.below(MODULES);
            let small = dice.below(6) as u32;
            match dice.below(9) {
                0 => record.download = small,
                1 => record.block_size = small as u16,
                2 => record.count = dice.pick(&[0, 1, 2, 3, 31, 32, 33, 0x0101]),
                3 => record.modules[place].number = small as u16,
                4 => record.modules[place].size = dice.pick(&[0, 1, 8, 9, 262_144, u32::MAX]),
                5 => record.modules[place].version = small as u8,
                6 => record.modules[place].start = dice.pick(&[0, 9, 1]),
                7 => record.marks[dice.below(ALL_WORDS)] ^= 1 << dice.below(32),
                _ => record.marks[0] ^= 1 << dice.below(4),
            }
        }
        let expected = model::is_ruled(&record);
        assert_eq!(record.is_ruled(), expected, "{record:?}");
        *if expected { &mut kept } else { &mut broken } += 1;
        if !expected {
            assert_eq!(record.missing(1), Missing::Refused(1));
        }
    }
    assert!(kept > 300 && broken > 300, "{kept} {broken}");
}

#[test]
fn hand_out_and_missing_agree_with_the_marks() {
    let mut dice = Dice(0xFEED_5EED_0BAD_F00D);
    for _ in 0..2_000 {
        let size = 1 + dice.below(1_024) as u32;
        let block_size = dice.pick(&[1, 1, 3, 4, 7, 100, 1_024]);
        let mut record = announced(&Announcement::new(
            7,
            block_size,
            &[(9, 5, 0), (4, size, 0)],
        ));
        let blocks = (size as usize).div_ceil(usize::from(block_size));
        let full = dice.one_in(3);
        for block in 0..blocks {
            if full || !dice.one_in(20) {
                let (word, bit) = model::mark(1, block);
                record.marks[word] |= bit;
            }
        }
        let clear: Vec<_> = (0..blocks)
            .filter(|&block| !model::is_marked(&record, 1, block))
            .collect();
        let image: Vec<u8> = (0..5 + size).map(|at| at as u8).collect();
        if let Some(&lowest) = clear.first() {
            let count = clear.len();
            assert_eq!(record.missing(4), Missing::Lacking { count, lowest });
            assert_eq!(record.handout_number(&image, 4), 20);
            assert!(record.handout(&image, 4).is_empty());
        } else {
            assert_eq!(record.missing(4), Missing::Whole);
            assert_eq!(record.handout_number(&image, 4), 0);
            assert_eq!(record.handout(&image, 4), &image[5..]);
        }
    }
}

#[test]
fn both_readings_of_a_table_agree() {
    let mut dice = Dice(0x7AB1_E7AB_1E7A_B1E7);
    let mut seen = [0usize; 32];
    for _ in 0..20_000 {
        let mut bytes = table(&mut dice);
        if !dice.one_in(4) {
            bytes = spoil(&mut dice, bytes);
        }
        match (read(&bytes), read_all(&bytes)) {
            (Ok(table), Ok(tree)) => {
                assert_eq!(table.common, tree.common.len());
                assert_eq!(table.applications, tree.applications.len());
                assert_eq!(
                    (table.test, table.application),
                    (tree.test, tree.application)
                );
                seen[0] += 1;
            }
            (Err(one), Err(other)) => {
                assert_eq!(one, other, "{bytes:?}");
                seen[usize::from(number(one))] += 1;
            }
            (one, other) => panic!("{one:?} {other:?} {bytes:?}"),
        }
    }
    for number in [0, 2, 3, 4, 5, 6, 7, 18] {
        assert!(seen[number] > 0, "{number} never seen: {seen:?}");
    }
}

/// The run, by `take` alone.
fn repeated(record: &mut Record, stretch: &[u8], image: &mut [u8], budget: usize) -> Passage {
    let (mut taken, mut passed) = (0, 0);
    loop {
        match record.take(&stretch[passed..], image, budget - taken) {
            Taken::Stopped(stop) => {
                return Passage {
                    taken,
                    passed,
                    stop,
                }
            }
            Taken::Section { length, fate } => {
                if stretch[passed] == 0x74 {
                    assert_eq!(
                        fate == Fate::Table,
                        read(&stretch[passed..passed + length]).is_ok()
                    );
                }
                taken += 1;
                passed += length;
            }
        }
    }
}

#[test]
fn the_run_is_take_repeated_and_splits() {
    let mut dice = Dice(0x0005_EA5A_17C0_FFEE);
    let mut stops = vec![];
    for _ in 0..300 {
        let mut stretch = usual().bytes();
        for _ in 0..dice.below(25) {
            stretch.extend(section(&mut dice));
        }
        if dice.one_in(3) {
            stretch.extend([0xFF; 5]);
        }
        let image = vec![0; dice.pick(&[0, 16, 17, 30])];
        let (n, m) = (dice.below(12), dice.below(25));

        let (mut whole, mut whole_image) = (Record::empty(), image.clone());
        let passage = whole.run(&stretch, &mut whole_image, n + m);
        stops.push(passage.stop);

        let (mut slow, mut slow_image) = (Record::empty(), image.clone());
        assert_eq!(
            repeated(&mut slow, &stretch, &mut slow_image, n + m),
            passage
        );
        assert_eq!((slow, &slow_image), (whole, &whole_image));

        let (mut split, mut split_image) = (Record::empty(), image);
        let first = split.run(&stretch, &mut split_image, n);
        let second = split.run(&stretch[first.passed..], &mut split_image, m);
        assert_eq!((split, split_image), (whole, whole_image));
        assert_eq!(first.taken + second.taken, passage.taken);
        assert_eq!(first.passed + second.passed, passage.passed);
        assert_eq!(second.stop, passage.stop);
    }
    for stop in [Stop::End, Stop::Stuffing, Stop::Short, Stop::Budget] {
        assert!(stops.contains(&stop), "{stop:?} never seen");
    }
}
