//! The request's words once more, over the crate `make`: every section of a rotation, gathered in a list.

use crate::made::*;
use baseline::player::Playlist;
use make::{Announcement, Block};

/// All sections of a rotation within the limits.
fn sections(playlist: &Playlist<'_>, image: &[u8], identifier: u32) -> Vec<Vec<u8>> {
    let listed = playlist.modules.iter();
    let modules: Vec<_> = listed.map(|m| (m.number, m.size, m.version)).collect();
    let size = usize::from(playlist.block_size);
    let mut announcement = Announcement::new(playlist.download, playlist.block_size, &modules);
    announcement.identifier = identifier;
    let mut sections = vec![announcement.bytes()];
    let mut rest = image;
    for (number, length, version) in modules {
        let (bytes, behind) = rest.split_at(length as usize);
        rest = behind;
        let last = bytes.chunks(size).count() - 1;
        for (block, data) in bytes.chunks(size).enumerate() {
            let made = Block::new(playlist.download, number, version, block as u16, data);
            let mut section = made.section();
            section.last = last.min(255) as u8;
            sections.push(section.bytes());
        }
    }
    sections
}

/// Every place is the section that the words tell, in a buffer of its length and of one more; in one less it is 21.
fn is_as_told(playlist: &Playlist<'_>, image: &[u8]) {
    let wanted = sections(playlist, image, IDENTIFIER);
    assert_eq!(playlist.section_count(), Ok(wanted.len()));
    for (place, section) in wanted.iter().enumerate() {
        let length = section.len();
        for buffer in [length, length + 1] {
            let written = writing(playlist, image, place, buffer);
            assert_eq!(written.as_ref(), Ok(section), "{place}");
        }
        assert_eq!(writing(playlist, image, place, length - 1), Err(21));
    }
    for place in [wanted.len(), wanted.len() + 1, usize::MAX] {
        assert_eq!(writing(playlist, image, place, MOST), Err(19));
    }
}

#[test]
fn small_ones_whole() {
    for block_size in 1..=9 {
        for first in 1..=20 {
            for second in [1, 2, 7, 18] {
                let modules = [(7, first, 33), (0xFFFE, second, 9), (0, 1, 255)].map(listed);
                let playlist = playlist(block_size, &modules);
                is_as_told(&playlist, &image_of(&playlist));
            }
        }
    }
}

#[test]
fn large_ones_whole() {
    for (block_size, sizes) in [
        (1, &[1_024, 300, 257, 256, 255, 1][..]),
        (2, &[2_047, 2_048, 2]),
        (4_066, &[262_144]),
        (4_066, &[4_066, 4_067, 8_132, 8_131]),
        (256, &[262_144]),
        (255, &[261_120, 1_024]),
        (8, &[8_192; 32]),
    ] {
        let modules = of_sizes(sizes);
        let playlist = playlist(block_size, &modules);
        is_as_told(&playlist, &image_of(&playlist));
        let longer = [image_of(&playlist), vec![0x77; 9]].concat();
        is_as_told(&playlist, &longer);
    }
}

#[test]
fn every_identifier_and_download_by_its_bits() {
    let modules = [listed((1, 1, 1))];
    for bit in 0..32 {
        for number in [1 << bit, !(1 << bit), u32::MAX >> bit] {
            let playlist = Playlist {
                download: number.rotate_left(5),
                block_size: 1,
                modules: &modules,
            };
            let wanted = sections(&playlist, b"b", number);
            for (place, wanted) in wanted.iter().enumerate() {
                let mut out = vec![0; wanted.len()];
                let length = playlist.write_section(b"b", number, place, &mut out);
                assert_eq!((length, &out), (Ok(wanted.len()), wanted));
            }
        }
    }
}
