//! Application sections by chance, with descriptors of every kind.

use crate::random::Random;
use make::{descriptor, table_body, Section, APPLICATIONS, AROUND_BODY};

/// Tags with known contents, and some without.
const TAGS: [u8; 10] = [0x00, 0x01, 0x02, 0x02, 0x02, 0x05, 0x15, 0x03, 0x16, 0xFF];
/// Few labels, so that they are found among an application's own transports, the common ones, and not at all.
const LABELS: [u8; 5] = [0, 1, 2, 3, 255];
/// 1 and 3 have a known selector.
const PROTOCOLS: [u16; 9] = [1, 1, 1, 3, 3, 3, 0, 2, 0x0103];
/// The ends of every class of application numbers.
const NUMBERS: [u16; 8] = [0, 0x3FFF, 0x4000, 0x7FFF, 0x8000, 0xFFFD, 0xFFFE, 0xFFFF];
/// The tag of a descriptor that takes up room, kept raw.
const RAW: u8 = 0x5F;
/// The most bytes of a descriptor: tag, length, contents.
const MOST_DESCRIPTOR: usize = 257;
/// The bytes of an application without descriptors, and of the two lengths in a body.
const LEAST_APPLICATION: usize = 9;
const TWO_LENGTHS: usize = 4;

/// Bytes after an 8-bit length.
fn text(random: &mut Random, most: usize) -> Vec<u8> {
    let length = random.within(0..=most);
    let mut bytes = vec![length as u8];
    bytes.extend(random.bytes(length));
    bytes
}

/// None or more of an item.
fn repeated(
    random: &mut Random,
    most: usize,
    mut item: impl FnMut(&mut Random) -> Vec<u8>,
) -> Vec<u8> {
    (0..random.within(0..=most))
        .flat_map(|_| item(random))
        .collect()
}

/// 0x00: profiles, flags and priority, labels.
fn description(random: &mut Random) -> Vec<u8> {
    let profiles = repeated(random, 2, |random| random.bytes(5));
    let mut bytes = vec![profiles.len() as u8];
    bytes.extend(profiles);
    bytes.extend(random.bytes(2));
    bytes.extend(repeated(random, 3, |random| vec![random.pick(&LABELS)]));
    bytes
}

/// 0x01: a language and a name.
fn name(random: &mut Random) -> Vec<u8> {
    let mut bytes = random.bytes(3);
    bytes.extend(text(random, 6));
    bytes
}

/// 0x02: protocol, label, selector.
fn transport(random: &mut Random) -> Vec<u8> {
    let protocol = random.pick(&PROTOCOLS);
    let mut bytes = protocol.to_be_bytes().to_vec();
    bytes.push(random.pick(&LABELS));
    bytes.extend(match protocol {
        1 => carousel(random),
        3 => repeated(random, 2, base),
        _ => repeated(random, 9, |random| vec![random.byte()]),
    });
    bytes
}

/// Protocol 1: the remote flag and, where it is set, three numbers more.
fn carousel(random: &mut Random) -> Vec<u8> {
    let flags = random.byte();
    let mut bytes = vec![flags];
    bytes.extend(random.bytes(if flags & 0x80 == 0 { 1 } else { 7 }));
    bytes
}

/// Protocol 3: a base and its extensions.
fn base(random: &mut Random) -> Vec<u8> {
    let mut bytes = text(random, 6);
    let count = random.within(0..=2);
    bytes.push(count as u8);
    for _ in 0..count {
        bytes.extend(text(random, 4));
    }
    bytes
}

/// Well-formed contents for a tag.
fn contents(random: &mut Random, tag: u8) -> Vec<u8> {
    match tag {
        0x00 => description(random),
        0x01 => repeated(random, 2, name),
        0x02 => transport(random),
        0x05 => repeated(random, 2, |random| random.bytes(7)),
        _ => repeated(random, 9, |random| vec![random.byte()]),
    }
}

/// Contents that may not fit any more: one byte less, one more, or another first byte (often a length).
fn spoil(random: &mut Random, contents: &mut Vec<u8>) {
    match random.below(3) {
        0 => drop(contents.pop()),
        1 => contents.push(random.byte()),
        _ => {
            if let Some(first) = contents.first_mut() {
                *first = first.wrapping_add(random.pick(&[1, 5, 255]));
            }
        }
    }
}

/// A descriptor with this tag. `faults`: it may be malformed.
fn tagged(random: &mut Random, tag: u8, faults: bool) -> Vec<u8> {
    let mut contents = contents(random, tag);
    if faults && random.one_in(12) {
        spoil(random, &mut contents);
    }
    descriptor(tag, &contents)
}

fn any_descriptor(random: &mut Random, faults: bool) -> Vec<u8> {
    let tag = random.pick(&TAGS);
    tagged(random, tag, faults)
}

/// An application with exactly one 0x00 among its descriptors. `faults`: it may have none or two.
pub fn application(random: &mut Random, faults: bool) -> Vec<u8> {
    let mut descriptors: Vec<Vec<u8>> = (0..random.within(0..=3))
        .map(|_| any_descriptor(random, faults))
        .filter(|descriptor| descriptor[0] != 0x00)
        .collect();
    let described = if faults && random.one_in(4) {
        random.pick(&[0, 2])
    } else {
        1
    };
    for _ in 0..described {
        let place = random.within(0..=descriptors.len());
        descriptors.insert(place, tagged(random, 0x00, faults));
    }
    headed(random, &descriptors.concat())
}

/// An application with these descriptors.
fn headed(random: &mut Random, descriptors: &[u8]) -> Vec<u8> {
    let organisation = random.bytes(4).try_into().unwrap();
    let number = random.pick(&NUMBERS);
    let other = random.number() as u16;
    let number = random.pick(&[number, other]);
    let code = random.pick(&[0, 1, 2, 3, 4, 5, 6, 7, 255]);
    make::application(u32::from_be_bytes(organisation), number, code, descriptors)
}

/// The section of these common descriptors and applications.
pub fn section(random: &mut Random, common: &[Vec<u8>], applications: &[Vec<u8>]) -> Section {
    // The reserved bits are not checked, so they may be anything.
    let mut body = table_body(&common.concat(), &applications.concat());
    body[0] = body[0] & 0x0F | random.pick(&[0xF0, 0x00, 0x50]);
    let mut section = Section::new(APPLICATIONS, random.number() as u16, random.byte(), body);
    section.last = section.number.max(random.byte());
    let byte = random.byte();
    (section.reserved, section.version) = (byte & 0xC0, byte >> 1 & 31);
    section.flags = random.pick(&[0xF0, 0xB0, 0x80]);
    section
}

/// A table of few applications. `faults`: it may be malformed, or refusal 18.
pub fn small(random: &mut Random, faults: bool) -> Section {
    let common: Vec<_> = (0..random.within(0..=2))
        .map(|_| any_descriptor(random, faults))
        .collect();
    let applications: Vec<_> = (0..random.within(0..=3))
        .map(|_| application(random, faults))
        .collect();
    section(random, &common, &applications)
}

/// A table with exactly this L, filled with applications and then with raw common descriptors.
pub fn full(random: &mut Random, length: usize) -> Section {
    let mut left = length - AROUND_BODY - TWO_LENGTHS;
    let mut applications = vec![];
    loop {
        let application = application(random, false);
        // Two bytes are the least descriptor: one byte alone could not be filled.
        if application.len() + 2 > left {
            break;
        }
        left -= application.len();
        applications.push(application);
    }
    section(random, &filling(left), &applications)
}

/// Raw descriptors of so many bytes together, none or at least 2.
fn filling(mut left: usize) -> Vec<Vec<u8>> {
    let mut descriptors = vec![];
    while left > 0 {
        let mut length = left.min(MOST_DESCRIPTOR);
        if left - length == 1 {
            length -= 1;
        }
        descriptors.push(descriptor(RAW, &vec![0x20; length - 2]));
        left -= length;
    }
    descriptors
}

/// As many applications of the least length as this one: 72 of them give the largest L.
pub fn crowded(random: &mut Random, count: usize) -> Section {
    let least = descriptor(0x00, &[0, 0xFF, 1]);
    let applications: Vec<_> = (0..count).map(|_| headed(random, &least)).collect();
    debug_assert_eq!(applications.concat().len(), count * (LEAST_APPLICATION + 5));
    section(random, &[], &applications)
}

/// Any table: mostly small ones, some empty, some at the largest L and one past it.
pub fn any(random: &mut Random, faults: bool) -> Section {
    match random.below(200) {
        0 => full(random, 1_021),
        1 => full(random, 1_022),
        2 => crowded(random, 72),
        3..=12 => section(random, &[], &[]),
        _ => small(random, faults),
    }
}

#[cfg(test)]
mod tests {
    use super::*;
    use make::BEFORE_LENGTH;

    #[test]
    fn tables_without_faults_are_accepted() {
        for stretch in 0..500 {
            let table = small(&mut Random::of(1, stretch), false).bytes();
            assert_eq!(baseline::read(&table).err(), None);
        }
    }

    #[test]
    fn every_kind_of_fault_is_met() {
        let refused = |stretch| {
            let table = small(&mut Random::of(1, stretch), true).bytes();
            baseline::read(&table).err().map(|refusal| refusal.number)
        };
        let all: Vec<_> = (0..500).map(refused).collect();
        assert!(all.contains(&Some(7)) && all.contains(&Some(18)) && all.contains(&None));
    }

    #[test]
    fn a_full_table_has_the_length_asked_for() {
        for stretch in 0..50 {
            let table = full(&mut Random::of(1, stretch), 1_021).bytes();
            assert_eq!(table.len(), BEFORE_LENGTH + 1_021);
            assert_eq!(baseline::read(&table).err(), None);
        }
    }

    #[test]
    fn the_soundings_of_length() {
        let mut random = Random::of(1, 1);
        // "An empty AIT has L = 13", "72 applications of the least length .. give L = 1,021".
        assert_eq!(section(&mut random, &[], &[]).bytes().len(), 3 + 13);
        let table = crowded(&mut random, 72).bytes();
        assert_eq!(table.len(), 3 + 1_021);
        assert_eq!(baseline::read(&table).map(|read| read.applications), Ok(72));
    }
}
