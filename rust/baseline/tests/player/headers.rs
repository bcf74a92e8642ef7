//! The fields of a section header, by where they stand in the bytes.

use crate::made::*;

const VERSION: usize = 5;
/// Byte 5 of version 0: both reserved bits and current_next.
const VERSION_0: u8 = 0xC1;
const NUMBER: usize = 6;
const LAST: usize = 7;

#[test]
fn a_block_has_its_number_mod_256_and_the_last_block_or_255() {
    for blocks in [1, 2, 255, 256, 257, 300, 511, 512, 513, 1_023, 1_024] {
        let modules = of_sizes(&[3, blocks]);
        let playlist = playlist(1, &modules);
        assert_eq!(playlist.section_count(), Ok(1 + 3 + blocks as usize));
        for block in 0..blocks {
            let section = section(&playlist, 4 + block as usize);
            assert_eq!(u32::from(section[NUMBER]), block % 256, "{block}");
            assert_eq!(u32::from(section[LAST]), (blocks - 1).min(255), "{block}");
            let told = u16::from_be_bytes([section[24], section[25]]);
            assert_eq!(u32::from(told), block);
        }
    }
}

#[test]
fn a_section_version_is_the_modules_mod_32_and_the_announcements_is_0() {
    for version in 0..=255 {
        let modules = [listed((9, 2, version))];
        let playlist = playlist(1, &modules);
        assert_eq!(section(&playlist, 0)[VERSION], VERSION_0);
        let block = section(&playlist, 2);
        assert_eq!(block[VERSION], VERSION_0 + 2 * (version % 32), "{version}");
        assert_eq!(block[22], version);
    }
    for (version, byte) in [(0, 0xC1), (31, 0xFF), (32, 0xC1), (33, 0xC3), (255, 0xFF)] {
        let modules = [listed((9, 2, version))];
        assert_eq!(section(&playlist(1, &modules), 1)[VERSION], byte);
    }
}

#[test]
fn a_section_has_the_length_that_it_tells() {
    for size in [1, 2, 3, 224, 225, 226, 227, 228, 229, 230, 4_065, 4_066] {
        let modules = of_sizes(&[size]);
        let playlist = playlist(4_066, &modules);
        let block = section(&playlist, 1);
        assert_eq!(block.len(), 30 + size as usize);
        let told = u16::from_be_bytes([block[1], block[2]]);
        assert_eq!(told, 0xB000 | (27 + size as u16));
        let message = u16::from_be_bytes([block[18], block[19]]);
        assert_eq!(message, 6 + size as u16);
    }
    for count in 1..=32 {
        let modules = of_sizes(&vec![1; count]);
        let announcement = section(&playlist(1, &modules), 0);
        assert_eq!(announcement.len(), 46 + 8 * count);
        let told = u16::from_be_bytes([announcement[1], announcement[2]]);
        assert_eq!(told, 0xB000 | (43 + 8 * count as u16));
    }
}

#[test]
fn every_module_number_is_an_extension() {
    for number in [0, 1, 0x00FF, 0x0100, 0x1234, 0x8000, 0xFFFF] {
        let modules = [listed((number, 1, 0))];
        let section = section(&playlist(1, &modules), 1);
        assert_eq!(section[3..5], number.to_be_bytes());
        assert_eq!(section[20..22], number.to_be_bytes());
    }
}
