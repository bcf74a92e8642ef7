//! The shore player: sections by their bytes, refusals, and a rotation that is heard.

use nebosvar::player::{Listed, Playlist, LARGEST_SECTION};
use nebosvar::{Kind, Record, Refusal, Stop, MOST_BYTES, MOST_MODULES};

const IDENTIFIER: u32 = 0x8000_0002;

/// Module 1, "ABCDEF", version 0, of download 1 in blocks of 4: the announcement and both blocks, written out by hand.
const BY_HAND: [&[u8]; 3] = [
    &[
        0x3B, 0xB0, 0x33, 0x00, 0x02, 0xC1, 0x00, 0x00, 0x11, 0x03, 0x10, 0x02, 0x80, 0x00, 0x00,
        0x02, 0xFF, 0x00, 0x00, 0x1E, 0x00, 0x00, 0x00, 0x01, 0x00, 0x04, 0x00, 0x00, 0x00, 0x00,
        0x00, 0x00, 0x00, 0x00, 0x00, 0x00, 0x00, 0x00, 0x00, 0x01, 0x00, 0x01, 0x00, 0x00, 0x00,
        0x06, 0x00, 0x00, 0x00, 0x00, 0x13, 0x99, 0x19, 0x34,
    ],
    &[
        0x3C, 0xB0, 0x1F, 0x00, 0x01, 0xC1, 0x00, 0x01, 0x11, 0x03, 0x10, 0x03, 0x00, 0x00, 0x00,
        0x01, 0xFF, 0x00, 0x00, 0x0A, 0x00, 0x01, 0x00, 0xFF, 0x00, 0x00, 0x41, 0x42, 0x43, 0x44,
        0xAC, 0x72, 0x9B, 0x2F,
    ],
    &[
        0x3C, 0xB0, 0x1D, 0x00, 0x01, 0xC1, 0x01, 0x01, 0x11, 0x03, 0x10, 0x03, 0x00, 0x00, 0x00,
        0x01, 0xFF, 0x00, 0x00, 0x08, 0x00, 0x01, 0x00, 0xFF, 0x00, 0x01, 0x45, 0x46, 0x92, 0x0C,
        0x2E, 0x31,
    ],
];

fn listed(number: u16, size: u32, version: u8) -> Listed {
    Listed {
        number,
        size,
        version,
    }
}

fn small() -> Playlist {
    Playlist::new(1, 4, &[listed(1, 6, 0)])
}

/// Into a buffer of this size: the section or the refusal, having seen that nothing else changed.
fn written(
    playlist: &Playlist,
    image: &[u8],
    place: usize,
    room: usize,
) -> Result<Vec<u8>, Refusal> {
    let mut out = vec![0xA5; room];
    let answer = playlist.write_section(image, IDENTIFIER, place, &mut out);
    let size = answer.unwrap_or(0);
    assert!(out[size..].iter().all(|&byte| byte == 0xA5));
    answer.map(|size| out[..size].to_vec())
}

/// Refused by both calls, at the first place and far past the last, into any buffer.
fn refused(playlist: &Playlist, refusal: Refusal) {
    assert_eq!(playlist.section_count(), Err(refusal));
    for place in [0, 1, usize::MAX] {
        for room in [0, LARGEST_SECTION] {
            assert_eq!(written(playlist, &[], place, room), Err(refusal));
        }
    }
}

#[test]
fn sections_by_hand() {
    let playlist = small();
    assert_eq!(playlist.section_count(), Ok(3));
    for (place, section) in BY_HAND.into_iter().enumerate() {
        let length = section.len();
        for room in [length, length + 1, LARGEST_SECTION] {
            let answer = written(&playlist, b"ABCDEF", place, room);
            assert_eq!(answer.as_deref(), Ok(section));
        }
        for room in [0, 1, length - 1] {
            let answer = written(&playlist, b"ABCDEF", place, room);
            assert_eq!(answer, Err(Refusal::SHORT_BUFFER));
        }
        let longer = written(&playlist, b"ABCDEFG", place, LARGEST_SECTION);
        assert_eq!(longer.as_deref(), Ok(section));
    }
}

#[test]
fn limits_10() {
    for block_size in [0, 4_067, u16::MAX] {
        refused(
            &Playlist::new(1, block_size, &[listed(1, 1, 0)]),
            Refusal::BEYOND_LIMITS,
        );
    }
    for sizes in [&[0][..], &[1_025], &[3, u32::MAX], &[]] {
        let modules: Vec<_> = (0..).zip(sizes).map(|(n, &z)| listed(n, z, 0)).collect();
        refused(&Playlist::new(1, 1, &modules), Refusal::BEYOND_LIMITS);
    }
    let most = MOST_BYTES as u32;
    let more = [listed(1, most, 0), listed(2, 1, 0)];
    refused(&Playlist::new(1, 400, &more), Refusal::BEYOND_LIMITS);
    assert_eq!(Playlist::new(1, 400, &more[..1]).section_count(), Ok(657));
    for count in [33, 34, 255, 256, 65_535, 65_536, 65_537] {
        let modules = vec![listed(1, 1, 0); count];
        let playlist = Playlist::new(1, 1, &modules);
        assert!(usize::from(playlist.count) > MOST_MODULES);
        refused(&playlist, Refusal::BEYOND_LIMITS);
    }
}

#[test]
fn a_number_twice_11() {
    let modules = [listed(7, 1, 0), listed(8, 1, 0), listed(7, 2, 1)];
    refused(&Playlist::new(1, 1, &modules), Refusal::MODULE_TWICE);
    assert_eq!(Playlist::new(1, 1, &modules[..2]).section_count(), Ok(3));
}

#[test]
fn a_short_image_15_before_19_and_21() {
    for place in [0, 1, 2, 3, usize::MAX] {
        for room in [0, LARGEST_SECTION] {
            let answer = written(&small(), b"ABCDE", place, room);
            assert_eq!(answer, Err(Refusal::SHORT_IMAGE), "{place}");
        }
    }
}

#[test]
fn no_place_19_before_21() {
    for place in [3, 4, 1 << 32, usize::MAX] {
        for room in [0, LARGEST_SECTION] {
            let answer = written(&small(), b"ABCDEF", place, room);
            assert_eq!(answer, Err(Refusal::NO_PLACE), "{place}");
        }
    }
}

#[test]
fn unused_entries_are_not_looked_at() {
    let mut playlist = small();
    playlist.modules[1..].fill(listed(1, u32::MAX, 9));
    assert_eq!(playlist.section_count(), Ok(3));
    for (place, section) in BY_HAND.into_iter().enumerate() {
        let answer = written(&playlist, b"ABCDEF", place, section.len());
        assert_eq!(answer.as_deref(), Ok(section));
    }
}

#[test]
fn the_largest_section() {
    let playlist = Playlist::new(1, 4_066, &[listed(1, 4_066, 255)]);
    let image = vec![0x5A; 4_066];
    let section = written(&playlist, &image, 1, LARGEST_SECTION).unwrap();
    assert_eq!((section.len(), LARGEST_SECTION), (4_096, 4_096));
    assert_eq!(section[..8], [0x3C, 0xBF, 0xFD, 0, 1, 0xFF, 0, 0]);
    let answer = written(&playlist, &image, 1, LARGEST_SECTION - 1);
    assert_eq!(answer, Err(Refusal::SHORT_BUFFER));
}

#[test]
fn section_numbers_go_round_and_the_last_is_255_at_most() {
    for (blocks, last) in [(255, 254), (256, 255), (300, 255), (1_024, 255)] {
        let playlist = Playlist::new(1, 1, &[listed(1, blocks, 33)]);
        let image = vec![0; blocks as usize];
        for block in 0..blocks as usize {
            let section = written(&playlist, &image, 1 + block, 31).unwrap();
            assert_eq!(section[5..8], [0xC3, block as u8, last]);
        }
    }
}

#[test]
fn a_rotation_is_new_and_then_stored() {
    let modules = [listed(1, 1_000, 0), listed(300, 800, 32), listed(2, 1, 255)];
    let playlist = Playlist::new(7, 400, &modules);
    let shore: Vec<u8> = (0..1_801).map(|k: u32| (k * 7 / 3) as u8).collect();
    let places = 0..playlist.section_count().unwrap();
    let section = |place| written(&playlist, &shore, place, LARGEST_SECTION).unwrap();
    let sections: Vec<_> = places.map(section).collect();

    let (mut record, mut heard) = (Record::new(), vec![0xEE; 1_803]);
    for (place, section) in sections.iter().enumerate() {
        let kind = [Kind::New, Kind::Stored][place.min(1)];
        assert_eq!(record.step(section, &mut heard), Ok(kind));
    }
    assert_eq!(record.step(&sections[0], &mut heard), Ok(Kind::Same));
    assert_eq!(record.step(&sections[6], &mut heard), Ok(Kind::Repeated));
    assert_eq!(record.handout(&heard, 1), Ok(&shore[..1_000]));
    assert_eq!(record.handout(&heard, 300), Ok(&shore[1_000..1_800]));
    assert_eq!(record.handout(&heard, 2), Ok(&shore[1_800..]));
    assert_eq!(heard[1_801..], [0xEE; 2]);

    let (mut record, mut heard) = (Record::new(), vec![0; 1_801]);
    let passage = record.run(&sections.concat(), &mut heard, usize::MAX);
    assert_eq!((passage.taken, passage.stop), (7, Stop::End));
    assert_eq!(heard, shore);
}
