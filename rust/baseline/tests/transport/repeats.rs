//! Exact repeats are passed over; any other break of the counter drops what is in hand.

use crate::made::{adapted, empty, fed, heard, packet, section, start, PID};
use baseline::transport::{Answer, Transport};

/// A section in three packets, counters 14, 15 and 0.
fn three() -> (Vec<u8>, [Vec<u8>; 3]) {
    let whole = section(183 + 184 + 100, 7);
    let (first, rest) = whole.split_at(183);
    let packets = [
        packet(true, 14, &start(&[], first)),
        packet(false, 15, &rest[..184]),
        packet(false, 0, &rest[184..]),
    ];
    (whole, packets)
}

#[test]
fn exact_repeats_are_passed_over_each_time() {
    let (whole, packets) = three();
    for place in 0..3 {
        let (mut transport, mut out) = (Transport::new(PID), vec![]);
        for (k, packet) in packets.iter().enumerate() {
            assert_eq!(transport.feed(packet, &mut out), Answer::Taken);
            for _ in 0..if k == place { 3 } else { 0 } {
                let before = transport.clone();
                assert_eq!(transport.feed(packet, &mut out), Answer::Repeated);
                assert_eq!(transport, before);
            }
        }
        assert_eq!(out, whole);
    }
}

#[test]
fn a_repeat_behind_a_refused_packet_is_one_still() {
    let (whole, [first, second, third]) = three();
    let (mut transport, mut out) = (Transport::new(PID), vec![]);
    let mut other = first.clone();
    other[2] = 0;
    for (packet, answer) in [
        (&first, Answer::Taken),
        (&other, Answer::Refused(42)),
        (&first, Answer::Repeated),
        (&second, Answer::Taken),
        (&third, Answer::Taken),
    ] {
        assert_eq!(transport.feed(packet, &mut out), answer);
    }
    assert_eq!(out, whole);
}

#[test]
fn a_repeat_with_another_byte_is_a_break() {
    let (_, [first, second, third]) = three();
    for at in [1, 4, 100, 187] {
        let mut transport = Transport::new(PID);
        heard(&mut transport, &[first.clone(), second.clone()]);
        let mut other = second.clone();
        other[at] ^= 0x20; // at 1, the priority
        assert_eq!(fed(&mut transport, &other), (Answer::Broken, vec![]));
        assert_eq!(fed(&mut transport, &third), (Answer::Taken, vec![]));
    }
}

#[test]
fn a_repeat_behind_a_packet_without_payload_is_a_break() {
    let (_, [first, second, _]) = three();
    let mut transport = Transport::new(PID);
    heard(&mut transport, &[first, second.clone(), empty(15)]);
    assert_eq!(fed(&mut transport, &second), (Answer::Broken, vec![]));
}

#[test]
fn packets_without_payload_are_repeated_and_break_too() {
    let (whole, [first, second, third]) = three();
    let mut transport = Transport::new(PID);
    heard(&mut transport, &[first.clone(), empty(14)]);
    assert_eq!(fed(&mut transport, &empty(14)).0, Answer::Repeated);
    assert_eq!(heard(&mut transport, &[second.clone(), third]), whole);
    for counter in (0..16).filter(|&counter| counter != 15) {
        let mut transport = Transport::new(PID);
        heard(&mut transport, &[first.clone(), second.clone()]);
        assert_eq!(fed(&mut transport, &empty(counter)).0, Answer::Broken);
    }
}

#[test]
fn the_breaking_packets_own_unit_start_begins() {
    let (_, [first, second, _]) = three();
    let (one, other) = (section(9, 1), section(300, 2));
    let begins = [&one[..], &other[..100]].concat();
    for counter in 1..15 {
        let mut transport = Transport::new(PID);
        heard(&mut transport, &[first.clone(), second.clone()]);
        // What the pointer passes over is of a section that is dropped.
        let breaking = adapted(true, counter, &start(&[3; 50], &begins));
        let answer = fed(&mut transport, &breaking);
        assert_eq!(answer, (Answer::Broken, one.clone()));
        let next = [
            packet(false, counter + 1, &other[100..284]),
            adapted(false, (counter + 2) % 16, &other[284..]),
        ];
        assert_eq!(heard(&mut transport, &next), other);
    }
}

#[test]
fn the_first_packet_never_breaks() {
    for counter in 0..16 {
        let whole = section(9, 1);
        let first = packet(true, counter, &start(&[], &whole));
        assert_eq!(
            fed(&mut Transport::new(PID), &first),
            (Answer::Taken, whole)
        );
        let first = empty(counter);
        assert_eq!(
            fed(&mut Transport::new(PID), &first),
            (Answer::Taken, vec![])
        );
    }
}
