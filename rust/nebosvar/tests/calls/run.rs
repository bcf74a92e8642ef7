//! Sections one after another: `take` and `run`.

use crate::{block_7, block_9, drift, heard, DOWNLOAD};
use make::{closed, section, table, with};
use nebosvar::{Kind, Passage, Record, Refusal, Stop, Taken};

/// What a budget leaves, by `take`.
fn takes(
    record: &mut Record,
    stretch: &[u8],
    image: &mut [u8],
    budget: usize,
) -> (Vec<Result<Kind, Refusal>>, Passage) {
    let (mut fates, mut passed) = (vec![], 0);
    loop {
        match record.take(&stretch[passed..], image, budget - fates.len()) {
            Taken::Section { length, fate } => {
                passed += length;
                fates.push(fate);
            }
            Taken::Stopped(stop) => {
                let taken = fates.len();
                let passage = Passage {
                    taken,
                    passed,
                    stop,
                };
                return (fates, passage);
            }
        }
    }
}

/// An announcement, a table, blocks, a damaged one, one of another version, a repeat.
fn mixed() -> Vec<Vec<u8>> {
    let mut damaged = block_7(1, 400, 2);
    damaged[30] ^= 0x10;
    let old = make::block(DOWNLOAD, 9, 1, 0, b"gull 4");
    vec![
        drift(),
        table(&[], &[]),
        block_9(),
        damaged,
        old,
        block_9(),
        block_7(2, 200, 3),
    ]
}

const FATES: [Result<Kind, Refusal>; 7] = [
    Ok(Kind::New),
    Ok(Kind::Table),
    Ok(Kind::Stored),
    Err(Refusal::bad_crc(426)), // of its 430 bytes
    Err(Refusal::OTHER_VERSION),
    Ok(Kind::Repeated),
    Ok(Kind::Stored),
];

#[test]
fn the_paper_s_example() {
    let old = make::block(DOWNLOAD, 7, 0, 0, &[1; 400]);
    let stretch = [drift(), block_7(0, 400, 1), block_7(0, 400, 1), old].concat();
    let (mut record, mut image) = (Record::new(), vec![0; 65_536]);
    let (fates, passage) = takes(&mut record, &stretch, &mut image, 65_536);
    assert_eq!(
        fates,
        [
            Ok(Kind::New),
            Ok(Kind::Stored),
            Ok(Kind::Repeated),
            Err(Refusal::OTHER_VERSION)
        ]
    );
    assert_eq!((passage.taken, passage.passed), (4, stretch.len()));
    assert_eq!(passage.stop, Stop::End);
}

#[test]
fn take_and_run_agree_and_budgets_add_up() {
    let stretch = mixed().concat();
    // What all of it leaves.
    let (left, held) = heard(&[drift(), block_9(), block_7(2, 200, 3)], 1006);
    for n in 0..=8 {
        for m in 0..=8 {
            let (mut record, mut image) = (Record::new(), vec![0xEE; 1006]);
            let (fates, taken) = takes(&mut record, &stretch, &mut image, n);
            assert_eq!(fates, FATES[..n.min(7)]);
            let lengths = mixed().iter().map(Vec::len).take(n).sum();
            let stop = if n < 7 { Stop::Budget } else { Stop::End };
            let expected = Passage {
                taken: n.min(7),
                passed: lengths,
                stop,
            };
            assert_eq!(taken, expected);

            let (mut run, mut filled) = (Record::new(), vec![0xEE; 1006]);
            assert_eq!(run.run(&stretch, &mut filled, n), expected);
            assert_eq!((run, &filled), (record, &image));

            let rest = run.run(&stretch[expected.passed..], &mut filled, m);
            let (mut whole, mut all) = (Record::new(), vec![0xEE; 1006]);
            let both = whole.run(&stretch, &mut all, n + m);
            assert_eq!((run, &filled), (whole, &all));
            assert_eq!(both.taken, expected.taken + rest.taken);
            assert_eq!(both.passed, expected.passed + rest.passed);
            assert_eq!(both.stop, rest.stop);
            if n + m >= 7 {
                assert_eq!((whole, &all), (left, &held));
            }
        }
    }
}

#[test]
fn stops_in_their_order() {
    let (good, image) = heard(&[drift(), block_9()], 1006);
    let mut broken = good;
    broken.marks[nebosvar::MODULE_WORDS] = 2; // block 1 of one
    let whole = block_9();
    let short = &whole[..whole.len() - 1];
    for (stretch, budget, stop) in [
        (&[][..], 0, Stop::End),
        (&[], 1, Stop::End),
        (&[0xFF], 0, Stop::Stuffing),
        (&[0xFF, 0xFF, 0xFF], 1, Stop::Stuffing),
        (&[0x3C], 0, Stop::Short),
        (&[0x3C, 0xB0], 1, Stop::Short),
        (&[0x3C, 0xB0, 1], 1, Stop::Short),
        (short, 0, Stop::Short),
        (short, 1, Stop::Short),
        (&whole, 0, Stop::Budget),
    ] {
        let expected = Passage {
            taken: 0,
            passed: 0,
            stop,
        };
        for room in [0, 1006] {
            let (mut record, mut bytes) = (good, image[..room].to_vec());
            let taken = record.take(stretch, &mut bytes, budget);
            assert_eq!(taken, Taken::Stopped(stop));
            assert_eq!(record.run(stretch, &mut bytes, budget), expected);
            assert_eq!((record, &bytes[..]), (good, &image[..room]));

            let state = Passage {
                stop: Stop::State,
                ..expected
            };
            let mut record = broken;
            let taken = record.take(stretch, &mut bytes, budget);
            assert_eq!(taken, Taken::Stopped(Stop::State));
            assert_eq!(record.run(stretch, &mut bytes, budget), state);
            assert_eq!((record, &bytes[..]), (broken, &image[..room]));
        }
    }
}

#[test]
fn a_run_stops_where_sections_end() {
    let mut stretch = [drift(), block_9()].concat();
    let passed = stretch.len();
    for (tail, stop) in [
        (&[][..], Stop::End),
        (&[0xFF, 0x3C][..], Stop::Stuffing),
        (&[0x3C, 0xB0][..], Stop::Short),
    ] {
        stretch.truncate(passed);
        stretch.extend(tail);
        let (mut record, mut image) = (Record::new(), vec![0; 1006]);
        let passage = record.run(&stretch, &mut image, usize::MAX);
        let expected = Passage {
            taken: 2,
            passed,
            stop,
        };
        assert_eq!(passage, expected);
        assert_eq!(record.handout(&image, 9), Ok(&b"buoy 3"[..]));
    }
}

#[test]
fn tables_go_by_their_own_rules() {
    let head = |stretch: &[u8]| Record::new().take(stretch, &mut [], 1);
    let taken = |length, fate| Taken::Section { length, fate };
    // An empty one has L = 13.
    assert_eq!(head(&table(&[], &[])), taken(16, Ok(Kind::Table)));
    // L = 1,022 is over the table's limit, and not over the carousel's.
    let long = section(0x74, 0, 0, &[0; 1013]);
    assert_eq!(head(&long), taken(1025, Err(Refusal::bad_header(1))));
    let long = section(0x3C, 0, 0, &[0; 1013]);
    assert_eq!(head(&long), taken(1025, Err(Refusal::BAD_MESSAGE)));
    // An application without a 0x00 descriptor.
    let bare = table(&[], &make::application(0, 1, 1, &[]));
    let refusal = Refusal::NO_APPLICATION_DESCRIPTOR;
    assert_eq!(head(&bare), taken(25, Err(refusal)));
    // Neither a table nor of the carousel.
    assert_eq!(head(&[0x00, 0, 0]), taken(3, Err(Refusal::bad_table(0))));
}

#[test]
fn a_place_is_counted_from_the_section_and_not_the_stretch() {
    let mut damaged = make::section(0x74, 0, 0, &[0; 4]); // L = 13
    damaged[15] ^= 1;
    let good = block_9();
    let numbers = with(&with(&good, 7, 2), 6, 3);
    // Refusal 2 can not come: less than a section is no section to a run.
    let sections = [
        (
            closed(vec![0x3B, 0xB0, 8, 0, 0, 0xC1, 0]),
            Refusal::bad_header(1),
        ),
        (numbers.clone(), Refusal::bad_header(6)),
        (with(&numbers, 1, good[1] & 0x7F), Refusal::bad_header(1)),
        (damaged, Refusal::bad_crc(12)),
        (with(&good, 5, 0xC4), Refusal::not_current(5)),
        (with(&good, 0, 0x3D), Refusal::bad_table(0)),
        (with(&good, 8, 0), Refusal::BAD_MESSAGE),
    ];
    let stretch: Vec<u8> = sections
        .iter()
        .flat_map(|(bytes, _)| bytes.clone())
        .collect();
    let (fates, passage) = takes(&mut Record::new(), &stretch, &mut [], 100);
    assert_eq!(fates, sections.map(|(_, refusal)| Err(refusal)));
    assert_eq!((passage.passed, passage.stop), (stretch.len(), Stop::End));
}
