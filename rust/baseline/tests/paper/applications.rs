//! Refusals 7 and 18 of the application section. [`read`] and [`read_all`] must always agree.

use crate::made::{self, *};
use baseline::{read, read_all, Table};

/// The number both readings answer; 0 when accepted.
fn number(section: &[u8]) -> u8 {
    match (read(section), read_all(section)) {
        (Ok(table), Ok(tree)) => {
            assert_eq!(table.common, tree.common.len());
            assert_eq!(table.applications, tree.applications.len());
            0
        }
        (Err(one), Err(other)) => {
            assert_eq!(one, other);
            made::number(one)
        }
        (one, other) => panic!("{one:?} {other:?}"),
    }
}

/// The number of a descriptor with this content, which must be the same in the common and in an own loop.
fn content(tag: u8, content: &[u8]) -> u8 {
    let bytes = descriptor(tag, content);
    let common = number(&common(std::slice::from_ref(&bytes)));
    let own = number(&ait(&[], &[application(1, 2, 3, &[described(&[]), bytes])]));
    if tag == 0 && common == 0 {
        assert_eq!(own, 18); // twice
    } else {
        assert_eq!(own, common);
    }
    common
}

#[test]
fn header_and_counts() {
    let body = ait_body(
        &[descriptor(0x99, &[1]), descriptor(0x15, &[])],
        &[application(1, 2, 3, &[described(&[])])],
    );
    let mut sheet = Section::new(0x74, 0x8000 | 0x1234, 3, body);
    (sheet.version, sheet.last) = (21, 250);
    let table = Table {
        test: 1,
        application: 0x1234,
        version: 21,
        section: 3,
        last: 250,
        common: 2,
        applications: 1,
    };
    assert_eq!(read(&sheet.bytes()), Ok(table));
    sheet.extension = 0x7FFF;
    let table = read(&sheet.bytes()).unwrap();
    assert_eq!((table.test, table.application), (0, 0x7FFF));
}

#[test]
fn seven_loops_end_exactly() {
    let good = ait_body(
        &[descriptor(0x15, b"ab")],
        &[application(1, 2, 3, &[described(&[7])])],
    );
    assert_eq!(number(&ait_of(good.clone())), 0);
    // Bytes after the application loop, or none of it.
    assert_eq!(number(&ait_of([&good[..], &[0]].concat())), 7);
    for length in 0..good.len() {
        assert_eq!(number(&ait_of(good[..length].to_vec())), 7);
    }
    // Common length, loop length, application's length: one less, one more. Descriptor lengths likewise.
    for at in [1, 3, 7, 16, 18] {
        for change in [-1i8, 1] {
            let mut body = good.clone();
            body[at] = body[at].wrapping_add_signed(change);
            assert_eq!(number(&ait_of(body)), 7, "{at} {change}");
        }
    }
    // Reserved bits are not read.
    for at in [0, 6, 15] {
        let mut body = good.clone();
        body[at] &= 0x0F;
        assert_eq!(number(&ait_of(body)), 0);
    }
}

#[test]
fn seven_loop_of_one_byte_or_an_application_of_under_nine() {
    assert_eq!(
        number(&ait_of([with_length(&[0x15]), with_length(&[])].concat())),
        7
    );
    for length in 1..9 {
        let body = [with_length(&[]), with_length(&vec![0; length])].concat();
        assert_eq!(number(&ait_of(body)), 7);
    }
    // Nine bytes are an application without descriptors.
    let body = [with_length(&[]), with_length(&[0; 9])].concat();
    assert_eq!(number(&ait_of(body)), 18);
}

#[test]
fn application_descriptor() {
    assert_eq!(content(0x00, &[]), 7);
    assert_eq!(content(0x00, &[0]), 7);
    assert_eq!(content(0x00, &[0, 0]), 7);
    assert_eq!(content(0x00, &[0, 0, 0]), 0);
    assert_eq!(content(0x00, &[0, 0, 0, 1, 2, 3]), 0);
    for profiles in 0..=10 {
        let answer = if profiles % 5 == 0 { 0 } else { 7 };
        let mut bytes = vec![profiles];
        bytes.extend(vec![0; usize::from(profiles) + 2]);
        assert_eq!(content(0x00, &bytes), answer);
        bytes.pop();
        assert_eq!(content(0x00, &bytes), 7);
    }
    // The most: 250 bytes of profiles, with two labels.
    let mut bytes = vec![250];
    bytes.extend(vec![0; 254]);
    assert_eq!(content(0x00, &bytes), 0);
    bytes[0] = 255;
    assert_eq!(content(0x00, &bytes), 7);
}

#[test]
fn names() {
    assert_eq!(content(0x01, &[]), 0);
    assert_eq!(content(0x01, b"eng"), 7);
    assert_eq!(content(0x01, b"eng\x00"), 0);
    assert_eq!(content(0x01, b"eng\x01"), 7);
    assert_eq!(content(0x01, b"eng\x01A"), 0);
    assert_eq!(content(0x01, b"eng\x01AB"), 7);
    assert_eq!(content(0x01, b"eng\x01Aslk\x02BC"), 0);
    assert_eq!(content(0x01, b"eng\x01Aslk\x02B"), 7);
}

#[test]
fn transports() {
    for protocol in [0u16, 1, 2, 3, 4, 0x0101, 0x0300, 0xFFFF] {
        let [high, low] = protocol.to_be_bytes();
        assert_eq!(content(0x02, &[]), 7);
        assert_eq!(content(0x02, &[high]), 7);
        assert_eq!(content(0x02, &[high, low]), 7);
        // No selector: protocol 1 needs one.
        let answer = if protocol == 1 { 7 } else { 0 };
        assert_eq!(content(0x02, &[high, low, 9]), answer);
        // One byte: nowhere but raw.
        let answer = if matches!(protocol, 1 | 3) { 7 } else { 0 };
        assert_eq!(content(0x02, &[high, low, 9, 1]), answer);
    }
}

#[test]
fn protocol_one_has_two_or_eight_bytes_by_its_flag() {
    for flags in [0x00, 0x7F, 0x80, 0xFF] {
        let right = if flags & 0x80 == 0 { 2 } else { 8 };
        for length in 1..12 {
            let mut bytes = vec![0, 1, 9, flags];
            bytes.extend(vec![0xFF; length - 1]);
            let answer = if length == right { 0 } else { 7 };
            assert_eq!(content(0x02, &bytes), answer);
        }
    }
}

#[test]
fn protocol_three_bases_and_extensions() {
    let selector = |bytes: &[u8]| content(0x02, &[&[0, 3, 9], bytes].concat());
    assert_eq!(selector(&[]), 0);
    assert_eq!(selector(&[0]), 7);
    assert_eq!(selector(&[0, 0]), 0);
    assert_eq!(selector(&[1, b'a']), 7);
    assert_eq!(selector(&[1, b'a', 0]), 0);
    assert_eq!(selector(&[1, b'a', 1]), 7);
    assert_eq!(selector(&[1, b'a', 1, 0]), 0);
    assert_eq!(selector(&[1, b'a', 1, 1]), 7);
    assert_eq!(selector(&[1, b'a', 1, 1, b'b']), 0);
    assert_eq!(selector(&[1, b'a', 2, 1, b'b']), 7);
    assert_eq!(selector(&[1, b'a', 2, 1, b'b', 0]), 0);
    assert_eq!(selector(&[1, b'a', 2, 1, b'b', 0, 0]), 7);
    assert_eq!(selector(&[1, b'a', 2, 1, b'b', 0, 0, 0]), 0);
    assert_eq!(selector(&[&[0, 250][..], &[0; 250]].concat()), 0);
    assert_eq!(selector(&[&[0, 250][..], &[0; 249]].concat()), 7);
}

#[test]
fn authorisations_and_others() {
    for length in 0..30 {
        let answer = if length % 7 == 0 { 0 } else { 7 };
        assert_eq!(content(0x05, &vec![0xFF; length]), answer);
        assert_eq!(content(0x15, &vec![0xFF; length]), 0);
    }
    for tag in 0..=255u8 {
        if !matches!(tag, 0 | 1 | 2 | 5) {
            assert_eq!(content(tag, &[1, 2, 3, 4, 5]), 0);
            assert_eq!(content(tag, &[]), 0);
        }
    }
    assert_eq!(content(0x15, &[0; 255]), 0);
}

#[test]
fn eighteen_exactly_one_of_its_own() {
    let with = |count: usize| ait(&[], &[application(1, 2, 1, &vec![described(&[]); count])]);
    assert_eq!(number(&with(0)), 18);
    assert_eq!(number(&with(1)), 0);
    assert_eq!(number(&with(2)), 18);
    // A common one neither helps nor harms.
    let common = [described(&[])];
    assert_eq!(number(&ait(&common, &[application(1, 2, 1, &[])])), 18);
    assert_eq!(number(&ait(&common, &[application(1, 2, 1, &common)])), 0);
    assert_eq!(number(&ait(&common, &[])), 0);
    assert_eq!(number(&ait(&[described(&[]), described(&[])], &[])), 0);
    // Another application's does not help.
    let one = application(1, 2, 1, &[described(&[]), described(&[])]);
    let none = application(1, 2, 1, &[]);
    assert_eq!(number(&ait(&[], &[one, none])), 18);
}

#[test]
fn seven_in_a_later_application_before_eighteen_in_an_earlier() {
    let none = application(1, 2, 1, &[]);
    let bad = application(1, 2, 1, &[described(&[]), descriptor(0x05, &[1])]);
    assert_eq!(number(&ait(&[], &[none.clone(), bad])), 7);
    let cut = application(1, 2, 1, &[])[..8].to_vec();
    assert_eq!(number(&ait(&[], &[none, cut])), 7);
}

#[test]
fn what_no_number_speaks_of_is_taken() {
    let same = application(0, 0, 0, &[described(&[1, 1, 1])]);
    let wild = application(u32::MAX, 0xFFFF, 255, &[described(&[])]);
    assert_eq!(number(&ait(&[], &[same.clone(), same, wild])), 0);
}
