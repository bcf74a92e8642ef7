//! The application section and its parts.

use crate::{section, APPLICATIONS};

/// Four reserved bits and a 12-bit length before these bytes.
pub fn with_length(bytes: &[u8]) -> Vec<u8> {
    let mut all = (0xF000 | bytes.len() as u16).to_be_bytes().to_vec();
    all.extend(bytes);
    all
}

pub fn descriptor(tag: u8, contents: &[u8]) -> Vec<u8> {
    let mut all = vec![tag, contents.len() as u8];
    all.extend(contents);
    all
}

/// The least application descriptor: no profiles, bound, visible, priority 1, these labels.
pub fn described(labels: &[u8]) -> Vec<u8> {
    descriptor(0x00, &[&[0, 0xFF, 1], labels].concat())
}

/// An application and its descriptors.
pub fn application(organisation: u32, number: u16, code: u8, descriptors: &[u8]) -> Vec<u8> {
    let mut all = organisation.to_be_bytes().to_vec();
    all.extend(number.to_be_bytes());
    all.push(code);
    all.extend(with_length(descriptors));
    all
}

/// The body of an application section.
pub fn table_body(common: &[u8], applications: &[u8]) -> Vec<u8> {
    [with_length(common), with_length(applications)].concat()
}

/// The bytes of an application section: test flag 0, type 0x0010.
pub fn table(common: &[u8], applications: &[u8]) -> Vec<u8> {
    section(APPLICATIONS, 0x0010, 0, &table_body(common, applications))
}

#[cfg(test)]
mod tests {
    use super::*;

    #[test]
    fn a_table_field_by_field() {
        let one = application(0x0102_0304, 0x0506, 7, &described(&[8]));
        let wanted = [1, 2, 3, 4, 5, 6, 7, 0xF0, 6, 0, 4, 0, 0xFF, 1, 8];
        assert_eq!(one, wanted);
        let made = table(&descriptor(0x15, b"x"), &one);
        assert_eq!(made[..8], [0x74, 0xB0, 31, 0, 0x10, 0xC1, 0, 0]);
        assert_eq!(made[8..13], [0xF0, 3, 0x15, 1, b'x']);
        assert_eq!(made[13..15], [0xF0, 15]);
        assert_eq!(made[15..30], wanted);
    }
}
