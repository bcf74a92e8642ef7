//! Damage to the bytes of a section that was made right. Most of it mends the CRC afterwards, since whatever
//! leaves it wrong is refusal 5 and shows nothing of what lies deeper.

use crate::random::Random;
use make::{mend, BEFORE_LENGTH, CRC, MOST_TOLD};

/// The first bytes of a section hold the headers and most lengths of a message.
const HEADERS: usize = 48;
/// Table numbers beside and among the known ones.
const TABLES: [u8; 8] = [0x3B, 0x3C, 0x74, 0x3A, 0x3D, 0x73, 0x75, 0x00];

/// Damages a section once or, so that the order of refusals is seen, twice.
pub fn damage(random: &mut Random, section: &mut Vec<u8>) {
    for _ in 0..random.pick(&[1, 1, 1, 2]) {
        damage_once(random, section);
    }
}

fn damage_once(random: &mut Random, section: &mut Vec<u8>) {
    let place = place(random, section.len());
    match random.below(16) {
        0 => {
            // The CRC is left as it was.
            section[place] ^= 1 << random.below(8);
            return;
        }
        1 => {
            // L alone, so that it takes in the next section, or leaves a rest of this one.
            tell_length(section, random.within(0..=40));
            return;
        }
        2 | 3 => section[place] ^= 1 << random.below(8),
        4..=7 => section[place] = section[place].wrapping_add(random.pick(&[1, 255])),
        8 => section[place] = random.pick(&[0, 1, 0x7F, 0x80, 0xFF]),
        9 => cut(random, section),
        10 => lengthen(random, section),
        11 => clear_syntax(random, section),
        12 => clear_current(section),
        13 => wrong_numbers(section),
        14 => section[0] = random.pick(&TABLES),
        _ => spoil_message(random, section),
    }
    mend(section);
}

/// A place in a section after L: among the first bytes, or anywhere.
fn place(random: &mut Random, length: usize) -> usize {
    let end = random.pick(&[length, length.min(HEADERS)]);
    if end <= BEFORE_LENGTH {
        return 0;
    }
    random.within(BEFORE_LENGTH..=end - 1)
}

/// Tells another L, without other bytes.
fn tell_length(section: &mut [u8], length: usize) {
    if let [_, high, low, ..] = section {
        *high = *high & 0xF0 | (length >> 8) as u8;
        *low = length as u8;
    }
}

/// Tells the L that the bytes have.
fn tell_own_length(section: &mut [u8]) {
    tell_length(section, section.len() - BEFORE_LENGTH);
}

/// Takes away bytes before the CRC. L is told right again: some inner length is not.
fn cut(random: &mut Random, section: &mut Vec<u8>) {
    let body = section.len().saturating_sub(BEFORE_LENGTH + CRC);
    let most = random.pick(&[1, 2, 8, body]);
    let less = random.within(0..=most.min(body));
    section.truncate(section.len() - less);
    tell_own_length(section);
}

/// Puts bytes before the CRC, L told right again.
fn lengthen(random: &mut Random, section: &mut Vec<u8>) {
    let room = (BEFORE_LENGTH + MOST_TOLD).saturating_sub(section.len());
    let more = random.pick(&[1, 1, 2, 7]).min(room);
    section.extend(random.bytes(more));
    tell_own_length(section);
}

/// Now and then the section numbers are wrong too: then they are not the place of refusal 4 (02, §9).
fn clear_syntax(random: &mut Random, section: &mut [u8]) {
    section[1] &= 0x7F;
    if random.one_in(4) {
        wrong_numbers(section);
    }
}

/// A section number above the last.
fn wrong_numbers(section: &mut [u8]) {
    put(section, 6, 1, 7, 0);
}

fn clear_current(section: &mut [u8]) {
    if let Some(byte) = section.get_mut(5) {
        *byte &= 0xFE;
    }
}

/// Puts two bytes, if both places are there: section and last section number.
fn put(section: &mut [u8], first: usize, one: u8, second: usize, other: u8) {
    if section.len() > first.max(second) {
        section[first] = one;
        section[second] = other;
    }
}

/// Spoils a byte of the message header: its first two bytes, number, adaptation length or message length.
fn spoil_message(random: &mut Random, section: &mut [u8]) {
    let place = random.pick(&[8, 9, 10, 11, 17, 18, 19]);
    if let Some(byte) = section.get_mut(place) {
        *byte = byte.wrapping_add(random.pick(&[1, 255, 16]));
    }
}

/// A section of one of the known tables with a right header and CRC around any body.
pub fn any_body(random: &mut Random) -> Vec<u8> {
    let length = random.pick(&[0, 1, 4, 11, 12, 13, 18, 40]);
    let mut bytes = headed(random, length + 9);
    if let Some(start) = bytes.get_mut(8..12) {
        // Otherwise nearly all would be refusal 8.
        let number = if random.one_in(2) { 0x02 } else { 0x03 };
        start.copy_from_slice(&[0x11, 0x03, 0x10, number]);
    }
    mend(&mut bytes);
    bytes
}

/// A section with an L at the limits of refusal 4, from 0 on; now and then its section numbers are wrong too.
pub fn edge_of_length(random: &mut Random) -> Vec<u8> {
    let small = random.within(0..=13);
    let large = random.pick(&[1_020, 1_021, 1_022, 1_023, 4_092, 4_093, 4_094, 4_095]);
    let length = if random.one_in(4) { large } else { small };
    let mut bytes = headed(random, length);
    if random.one_in(4) {
        wrong_numbers(&mut bytes);
    }
    mend(&mut bytes);
    bytes
}

/// Any bytes of this L, with a header that refusals 3, 4 and 6 mostly do not meet.
fn headed(random: &mut Random, length: usize) -> Vec<u8> {
    let mut bytes = random.bytes(BEFORE_LENGTH + length);
    bytes[0] = random.pick(&[0x3B, 0x3C, 0x74]);
    bytes[1] = 0xB0;
    tell_own_length(&mut bytes);
    put(&mut bytes, 6, 0, 7, 0);
    if let Some(byte) = bytes.get_mut(5) {
        *byte |= 1;
    }
    bytes
}

#[cfg(test)]
mod tests {
    use super::*;
    use make::{crc, Section};

    fn told(section: &[u8]) -> usize {
        usize::from(section[1] & 0x0F) << 8 | usize::from(section[2])
    }

    #[test]
    fn any_section_can_be_damaged() {
        for length in 0..40 {
            for stretch in 0..200 {
                let random = &mut Random::of(1, stretch);
                let mut section = headed(random, length);
                damage(random, &mut section);
                assert!(section.len() >= BEFORE_LENGTH);
            }
        }
    }

    #[test]
    fn mended_sections_keep_their_length_and_leave_zero() {
        for stretch in 0..500 {
            let random = &mut Random::of(1, stretch);
            let mut section = Section::new(0x3B, 0, 0, vec![1; 60]).bytes();
            cut(random, &mut section);
            lengthen(random, &mut section);
            mend(&mut section);
            assert_eq!(section.len(), BEFORE_LENGTH + told(&section));
            assert_eq!(crc(&section), 0);
        }
    }

    #[test]
    fn edges_have_the_length_that_they_tell() {
        for stretch in 0..200 {
            let section = edge_of_length(&mut Random::of(1, stretch));
            assert_eq!(section.len(), BEFORE_LENGTH + told(&section));
        }
    }
}
