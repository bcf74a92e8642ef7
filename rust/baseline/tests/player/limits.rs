//! Refusal 10 at each of its limits, from both sides, and 11.

use crate::made::*;

#[test]
fn the_block_size() {
    let one = of_sizes(&[1]);
    for block_size in [1, 2, 4_065, 4_066] {
        assert_eq!(refusal(block_size, &one), 0, "{block_size}");
    }
    for block_size in [0, 4_067, 4_068, 0x7FFF, 0x8000, u16::MAX] {
        assert_eq!(refusal(block_size, &one), 10, "{block_size}");
    }
}

#[test]
fn the_number_of_modules() {
    for count in 1..=32 {
        assert_eq!(refusal(1, &of_sizes(&vec![1; count])), 0, "{count}");
    }
    for count in [0, 33, 34, 64, 255, 256, 257, 288, 65_536, 65_537, 65_568] {
        assert_eq!(refusal(1, &of_modules(count)), 10, "{count}");
    }
}

/// So many modules of one byte; numbers go round.
fn of_modules(count: usize) -> Vec<baseline::player::Listed> {
    (0..count).map(|k| listed((k as u16, 1, 0))).collect()
}

#[test]
fn the_blocks_of_a_module() {
    for block_size in [1, 2, 3, 100, 255, 256] {
        let most = 1_024 * u32::from(block_size);
        for size in [1, most - 1, most] {
            assert_eq!(refusal(block_size, &of_sizes(&[size])), 0, "{size}");
        }
        for size in [0, most + 1, most + 2, u32::MAX] {
            assert_eq!(refusal(block_size, &of_sizes(&[size])), 10, "{size}");
            // in the middle of others, too
            assert_eq!(refusal(block_size, &of_sizes(&[1, size, 1])), 10, "{size}");
        }
    }
}

#[test]
fn the_bytes_of_all_modules_together() {
    for (block_size, sizes) in [
        (256, &[262_144][..]),
        (4_066, &[262_144]),
        (400, &[262_143, 1]),
        (400, &[1, 262_143]),
        (400, &[262_142, 1]),
        (4_066, &[8_192; 32]),
        (8, &[8_192; 32]),
    ] {
        assert_eq!(refusal(block_size, &of_sizes(sizes)), 0, "{sizes:?}");
    }
    let mut one_more = [8_192; 32];
    one_more[31] = 8_193;
    for (block_size, sizes) in [
        (257, &[262_145][..]),
        (4_066, &[262_145]),
        (400, &[262_144, 1]),
        (400, &[1, 262_144]),
        (4_066, &one_more),
        (4_066, &[262_144; 32]),
        // 2^32 together, and 2^32 + 1: in 32 bits they are 0 and 1
        (4_066, &[0x8000_0000; 2]),
        (4_066, &[0x8000_0000, 0x8000_0000, 1]),
        (4_066, &[u32::MAX, 2]),
    ] {
        assert_eq!(refusal(block_size, &of_sizes(sizes)), 10, "{sizes:?}");
    }
}

#[test]
fn a_module_number_twice() {
    for first in 0..32 {
        for second in 0..first {
            let mut modules = of_sizes(&[1; 32]);
            assert_eq!(refusal(1, &modules), 0);
            modules[first].number = modules[second].number;
            // other sizes and versions do not make another module of it
            (modules[first].size, modules[first].version) = (2, 9);
            assert_eq!(refusal(1, &modules), 11, "{first} and {second}");
        }
    }
    for numbers in [[0, 0], [u16::MAX, u16::MAX], [0x1234, 0x1234]] {
        let modules = numbers.map(|number| listed((number, 1, 0)));
        assert_eq!(refusal(1, &modules), 11);
    }
    for numbers in [[0x0034, 0x0134], [0x1200, 0x1300], [0, u16::MAX]] {
        let modules = numbers.map(|number| listed((number, 1, 0)));
        assert_eq!(refusal(1, &modules), 0);
    }
}
