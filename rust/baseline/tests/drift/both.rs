//! Reader and writer undo each other.

use crate::made::*;

#[test]
fn good_lists_go_both_ways() {
    for (seed, n) in [0, 1, 2, 3, 10, 1_000, 5_461, 65_535]
        .into_iter()
        .enumerate()
    {
        let records = good(n, seed as u64);
        let numbers = numbers_of(&records);
        let bytes = list_of(&records);
        assert_eq!(reading(&bytes), Ok((0x1234, numbers.clone())));
        let written = writing(0x1234, n as u32, &numbers, bytes.len() + 7);
        assert_eq!(written, Ok(bytes));
    }
}

#[test]
fn a_list_with_any_bit_turned_is_refused_or_written_again() {
    let bytes = list_of(&good(8, 6));
    let mut again = 0;
    for bit in 0..8 * bytes.len() {
        let mut turned = bytes.clone();
        turned[bit / 8] ^= 0x80 >> (bit % 8);
        if let Ok((issue, numbers)) = reading(&turned) {
            let count = numbers.len() as u32 / 5;
            let written = writing(issue.into(), count, &numbers, turned.len());
            assert_eq!(written, Ok(turned));
            again += 1;
        }
    }
    // the bits of the issue, and some of the records
    assert!(again > 16, "{again}");
}
