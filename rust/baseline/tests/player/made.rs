//! What is played in these tests, and a call that sees what must hold of every one.

use baseline::player::{Listed, Playlist};

/// What fills a buffer before it is written to.
const FILLING: u8 = 0xA5;
/// A buffer that no section is too long for.
pub const MOST: usize = 4_096;
pub const DOWNLOAD: u32 = 0x0102_0304;
pub const IDENTIFIER: u32 = 0x8765_4321;

/// A module to be played: number, size, version.
pub fn listed((number, size, version): (u16, u32, u8)) -> Listed {
    Listed {
        number,
        size,
        version,
    }
}

/// Modules of these sizes, numbered from 1, version 0.
pub fn of_sizes(sizes: &[u32]) -> Vec<Listed> {
    let numbered = (1..).zip(sizes);
    let module = |(number, &size)| listed((number, size, 0));
    numbered.map(module).collect()
}

/// An announcement with the usual downloadId.
pub fn playlist(block_size: u16, modules: &[Listed]) -> Playlist<'_> {
    Playlist {
        download: DOWNLOAD,
        block_size,
        modules,
    }
}

/// Bytes of which neighbours differ, also a row of 256 or of a block's size apart.
pub fn image(length: usize) -> Vec<u8> {
    let byte = |k: usize| (k ^ k >> 8).wrapping_mul(167) as u8;
    (0..length).map(byte).collect()
}

/// An image that is just long enough.
pub fn image_of(playlist: &Playlist<'_>) -> Vec<u8> {
    image(playlist.modules.iter().map(|m| m.size as usize).sum())
}

/// Writes into a buffer of this size, sees that nothing changed on a refusal and nothing past the section
/// otherwise, and gives the section or the refusal.
pub fn writing(
    playlist: &Playlist<'_>,
    image: &[u8],
    place: usize,
    buffer: usize,
) -> Result<Vec<u8>, u8> {
    let mut out = vec![FILLING; buffer];
    let written = playlist.write_section(image, IDENTIFIER, place, &mut out);
    let size = written.unwrap_or(0);
    assert!(out[size..].iter().all(|&byte| byte == FILLING));
    written.map(|size| out[..size].to_vec())
}

/// Writes the section at a place, out of the least image and into the largest buffer.
pub fn section(playlist: &Playlist<'_>, place: usize) -> Vec<u8> {
    writing(playlist, &image_of(playlist), place, MOST).unwrap()
}

/// The refusal of an announcement by both calls, 0 for none.
pub fn refusal(block_size: u16, modules: &[Listed]) -> u8 {
    let playlist = playlist(block_size, modules);
    let image = vec![0; 270_000];
    let refusal = writing(&playlist, &image, 0, MOST).err().unwrap_or(0);
    assert_eq!(playlist.section_count().err().unwrap_or(0), refusal);
    refusal
}

/// All sections of a rotation.
pub fn rotation(playlist: &Playlist<'_>, image: &[u8]) -> Vec<Vec<u8>> {
    let places = 0..playlist.section_count().unwrap();
    let section = |place| writing(playlist, image, place, MOST).unwrap();
    places.map(section).collect()
}
