//! Makers of sections for these tests, over the crate `make`, and what is seen of a record.

use baseline::{Answer, Record, Refusal};
pub use make::{crc as slow_crc, described, descriptor, mended, message, with_length};
pub use make::{Announcement, Block, Section};

/// A module to be announced: number, size, version.
pub type Announced = (u16, u32, u8);

/// The section of a block under this section version, whether it is the block's own mod 32 or not.
pub fn under(block: &Block, version: u8) -> Vec<u8> {
    let mut sheet = block.section();
    sheet.version = version;
    sheet.bytes()
}

/// An announcement with this content.
pub fn announcement_of(content: &[u8]) -> Vec<u8> {
    make::section(0x3B, 2, 0, &message(0x1002, 0x8000_0002, &[], content))
}

pub fn application(organisation: u32, number: u16, code: u8, descriptors: &[Vec<u8>]) -> Vec<u8> {
    make::application(organisation, number, code, &descriptors.concat())
}

pub fn ait_body(common: &[Vec<u8>], applications: &[Vec<u8>]) -> Vec<u8> {
    make::table_body(&common.concat(), &applications.concat())
}

pub fn ait_of(body: Vec<u8>) -> Vec<u8> {
    let mut section = Section::new(0x74, 1, 0, body);
    section.flags = 0xF0;
    section.bytes()
}

pub fn ait(common: &[Vec<u8>], applications: &[Vec<u8>]) -> Vec<u8> {
    ait_of(ait_body(common, applications))
}

/// An application section with only these common descriptors.
pub fn common(descriptors: &[Vec<u8>]) -> Vec<u8> {
    ait(descriptors, &[])
}

/// The answer of a step that is refused without a place.
pub fn plain(number: u8) -> Answer {
    Answer::Refused(Refusal::plain(number))
}

/// The number of a refusal, having seen that it has a place where it must, and nowhere else (02, §9).
pub fn number(refusal: Refusal) -> u8 {
    let placed = matches!(refusal.number, 2..=6);
    assert_eq!(refusal.place.is_some(), placed, "{refusal:?}");
    refusal.number
}

/// A step that must be refused: gives the number, having seen that nothing changed.
pub fn refused(record: &Record, section: &[u8], image: &[u8]) -> u8 {
    let (mut after, mut bytes) = (*record, image.to_vec());
    match after.step(section, &mut bytes) {
        Answer::Refused(refusal) => {
            assert_eq!(after, *record);
            assert_eq!(bytes, image);
            number(refusal)
        }
        answer => panic!("{answer:?}"),
    }
}

/// The record after an announcement that is "new".
pub fn announced(announcement: &Announcement) -> Record {
    let mut record = Record::empty();
    assert_eq!(record.step(&announcement.bytes(), &mut []), Answer::New);
    assert!(record.is_ruled());
    record
}
