//! Lists whose bytes were worked out on paper, without the crate `make`.

use crate::made::*;
use baseline::drift::{read, record_at, Fix, State};

/// Worked out by hand from the widths, 20, 2, 28, 27, 14 and 5:
///
/// ```text
/// buoy            74,565   0001_0010_0011_0100_0101
/// state                2   10
/// longitude -107,999,999   1001_1001_0000_0000_1101_0000_0001     2^28 - 107,999,999 = 0x9900D01
/// latitude   -54,000,000    100_1100_1000_0000_0110_1000_0000     2^27 -  54,000,000 = 0x4C80680
/// minute          10,079     10_0111_0101_1111                    0x275F
/// spare                0   0_0000
///
/// 00010010 00110100 0101|10|10 01100100 00000011 01000000
/// 01|100110 01000000 00110100 00000|100 11101011 111|00000
/// ```
const BY_HAND: [u8; 12] = [
    0x12, 0x34, 0x5A, 0x64, 0x03, 0x40, 0x66, 0x40, 0x34, 0x04, 0xEB, 0xE0,
];

const BY_HAND_NUMBERS: [i32; 5] = [74_565, 2, -107_999_999, -54_000_000, 10_079];

/// The same at the other ends of the ranges:
///
/// ```text
/// buoy         1,048,575   1111_1111_1111_1111_1111
/// state                1   01
/// longitude  108,000,000   0110_0110_1111_1111_0011_0000_0000     0x66FF300
/// latitude    54,000,000    011_0011_0111_1111_1001_1000_0000     0x337F980
/// minute               1     00_0000_0000_0001
/// spare                0   0_0000
///
/// 11111111 11111111 1111|01|01 10011011 11111100 11000000
/// 00|011001 10111111 11001100 00000|000 00000000 001|00000
/// ```
const BY_HAND_TOO: [u8; 12] = [
    0xFF, 0xFF, 0xF5, 0x9B, 0xFC, 0xC0, 0x19, 0xBF, 0xCC, 0x00, 0x00, 0x20,
];

const BY_HAND_TOO_NUMBERS: [i32; 5] = [1_048_575, 1, 108_000_000, 54_000_000, 1];

/// The list of the two records by hand, of issue 0x0102.
fn list_by_hand() -> Vec<u8> {
    [&[1, 2, 0, 2], &BY_HAND[..], &BY_HAND_TOO].concat()
}

#[test]
fn records_worked_out_by_hand() {
    let numbers = [BY_HAND_NUMBERS, BY_HAND_TOO_NUMBERS].concat();
    assert_eq!(reading(&list_by_hand()), Ok((0x0102, numbers.clone())));
    assert_eq!(writing(0x0102, 2, &numbers, 28), Ok(list_by_hand()));
    let fix = Fix {
        buoy: 74_565,
        state: State::LastKnown,
        longitude: -107_999_999,
        latitude: -54_000_000,
        minute: 10_079,
    };
    assert_eq!(record_at(&list_by_hand(), 0), Ok(fix));
}

#[test]
fn the_least_record() {
    // buoy 1, state 0, and nothing else
    let bytes = [0xFF, 0xFF, 0, 1, 0, 0, 0x10, 0, 0, 0, 0, 0, 0, 0, 0, 0];
    let fix = Fix {
        buoy: 1,
        state: State::None,
        longitude: 0,
        latitude: 0,
        minute: 0,
    };
    assert_eq!(read(&bytes), Ok((0xFFFF, vec![fix])));
    assert_eq!(writing(0xFFFF, 1, &[1, 0, 0, 0, 0], 16), Ok(bytes.to_vec()));
}

#[test]
fn an_empty_list() {
    assert_eq!(reading(&[0xAB, 0xCD, 0, 0]), Ok((0xABCD, vec![])));
    assert_eq!(record_at(&[0xAB, 0xCD, 0, 0], 0), Err(19));
    assert_eq!(writing(0xABCD, 0, &[], 4), Ok(vec![0xAB, 0xCD, 0, 0]));
}
