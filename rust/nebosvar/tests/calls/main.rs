//! Every call of the crate. What is expected is worked out from the paper by hand.

mod carousel;
mod drift_list;
mod player;
#[allow(dead_code)]
#[path = "../../examples/receive.rs"]
mod receive;
mod refusals;
mod run;
mod tables;
mod transport;

use make::{announcement, block};
use nebosvar::Record;

const DOWNLOAD: u32 = 0x0A0B_0C0D;

/// Modules 7 (1,000 bytes: blocks of 400, 400 and 200) and 9 (6 bytes: one block).
fn drift() -> Vec<u8> {
    announcement(DOWNLOAD, 400, &[(7, 1000, 1), (9, 6, 2)])
}

/// A block of module 7, all of its bytes alike.
fn block_7(number: u16, length: usize, byte: u8) -> Vec<u8> {
    block(DOWNLOAD, 7, 1, number, &vec![byte; length])
}

/// The one block of module 9.
fn block_9() -> Vec<u8> {
    block(DOWNLOAD, 9, 2, 0, b"buoy 3")
}

/// What these sections leave; none of them is refused.
fn heard(sections: &[Vec<u8>], room: usize) -> (Record, Vec<u8>) {
    let (mut record, mut image) = (Record::new(), vec![0xEE; room]);
    for section in sections {
        record.step(section, &mut image).unwrap();
    }
    (record, image)
}

#[test]
fn crc_of_the_catalogue() {
    // CRC-32/MPEG-2: its check value.
    assert_eq!(make::crc(b"123456789"), 0x0376_E6E7);
}

#[test]
fn the_example_says_what_came() {
    let sections = [drift(), block_7(0, 400, 1), block_9(), block_7(2, 200, 3)].concat();
    assert_eq!(
        receive::hear(&sections).unwrap(),
        [
            "module 7 of size 1000: 1 of its blocks missing",
            "module 9 of size 6: complete, 6 bytes"
        ]
    );
    assert!(receive::hear(&[]).unwrap().is_empty());
}
