//! Where sections begin and end: pointers, several in a packet, headers that are split, adaptation fields.

use crate::made::{adapted, empty, fed, heard, packet, section, start, PID};
use crate::stream::Stream;
use baseline::transport::{Answer, Transport, LARGEST, PACKET, ROOM};

#[test]
fn a_section_in_one_packet() {
    let whole = section(20, 7);
    let packet = packet(true, 3, &start(&[], &whole));
    assert_eq!(packet[..8], [0x47, 0x41, 0x23, 0x13, 0, 7, 0xB0, 17]);
    let mut transport = Transport::new(PID);
    assert_eq!(fed(&mut transport, &packet), (Answer::Taken, whole));
}

#[test]
fn several_sections_in_one_packet_and_the_head_of_another() {
    let least: Vec<_> = (0..60).flat_map(|byte| section(3, byte)).collect();
    let last = section(10, 8);
    let first = packet(true, 0, &start(&[], &[&least[..], &last[..3]].concat()));
    let second = packet(false, 1, &last[3..]);
    let mut transport = Transport::new(PID);
    assert_eq!(fed(&mut transport, &first), (Answer::Taken, least));
    assert_eq!(fed(&mut transport, &second), (Answer::Taken, last));
}

#[test]
fn a_section_begins_and_ends_at_every_place_of_a_packet() {
    for pointer in 0..=182 {
        let (one, other) = (section(pointer + 4, 1), section(184, 2));
        let (head, end) = one.split_at(4);
        let (begins, rest) = other.split_at(183 - pointer);
        // The first has four bytes before a packet's end, the other the rest of the next one.
        let packets = [
            adapted(true, 0, &start(&[], head)),
            packet(true, 1, &start(end, begins)),
            packet(false, 2, rest),
        ];
        let wanted = [&one[..], &other].concat();
        assert_eq!(heard(&mut Transport::new(PID), &packets), wanted);
    }
}

#[test]
fn a_pointer_to_the_end_begins_nothing() {
    let one = section(4 + 183, 1);
    let packets = [
        adapted(true, 0, &start(&[], &one[..4])),
        packet(true, 1, &start(&one[4..], &[])),
    ];
    let mut transport = Transport::new(PID);
    assert_eq!(heard(&mut transport, &packets), one);
    // So what comes next belongs to none.
    let next = packet(false, 2, &section(9, 2));
    assert_eq!(fed(&mut transport, &next), (Answer::Taken, vec![]));
}

#[test]
fn a_header_split_at_both_places_and_at_once() {
    let whole = section(9, 5);
    for parts in [
        &[1, 8][..],
        &[2, 7],
        &[1, 1, 7],
        &[1, 1, 1, 6],
        &[3, 6],
        &[1; 9],
    ] {
        let mut rest = &whole[..];
        let mut packets = vec![];
        for (place, &length) in parts.iter().enumerate() {
            let (part, more) = rest.split_at(length);
            packets.push(match place {
                0 => adapted(true, 0, &start(&[], part)),
                _ => adapted(false, place as u8, part),
            });
            rest = more;
        }
        assert_eq!(heard(&mut Transport::new(PID), &packets), whole);
    }
}

#[test]
fn a_header_that_a_pointer_cuts_is_dropped() {
    let next = section(12, 6);
    for length in [1, 2] {
        let packets = [
            adapted(true, 0, &start(&[], &section(9, 5)[..length])),
            packet(true, 1, &start(&[], &next)),
        ];
        assert_eq!(heard(&mut Transport::new(PID), &packets), next);
    }
}

#[test]
fn a_section_that_needs_more_than_the_pointer_is_dropped_and_fewer_are_enough() {
    let (one, next) = (section(9, 5), section(12, 6));
    for length in 0..=7 {
        let ends = [&one[4..], &[0xEE; 2]].concat();
        let packets = [
            adapted(true, 0, &start(&[], &one[..4])),
            packet(true, 1, &start(&ends[..length], &next)),
        ];
        let whole = if length < 5 { &[][..] } else { &one };
        let wanted = [whole, &next].concat();
        assert_eq!(heard(&mut Transport::new(PID), &packets), wanted);
    }
}

#[test]
fn nothing_begins_without_a_unit_start_or_behind_stuffing() {
    let (one, other) = (section(9, 5), section(11, 6));
    let mut transport = Transport::new(PID);
    let behind = [&one[..], &[0xFF], &other].concat();
    let packets = [
        packet(false, 0, &one),
        packet(true, 1, &start(&[], &behind)),
        adapted(true, 2, &start(&[], &one[..2])),
        packet(false, 3, &[&one[2..], &other].concat()),
        packet(true, 4, &start(&[], &[])),
    ];
    let wanted = [&one[..], &one].concat();
    assert_eq!(heard(&mut transport, &packets), wanted);
}

#[test]
fn adaptation_fields_of_every_length() {
    for length in 0..=181 {
        let whole = section(400, 3);
        let (head, rest) = whole.split_at(182 - length);
        let first = adapted(true, 7, &start(&[], head));
        assert_eq!(usize::from(first[4]), length);
        let packets: Vec<_> = rest
            .chunks(183)
            .zip(8..)
            .map(|(part, counter)| adapted(false, counter, part))
            .collect();
        let mut transport = Transport::new(PID);
        assert_eq!(fed(&mut transport, &first), (Answer::Taken, vec![]));
        assert_eq!(heard(&mut transport, &packets), whole);
    }
}

#[test]
fn an_empty_payload_and_no_payload_add_nothing() {
    let whole = section(20, 3);
    let mut short = empty(2);
    short[4] = 7; // the rest of such a packet is ignored
    let packets = [
        adapted(true, 1, &start(&[], &whole[..2])),
        empty(1),
        adapted(false, 2, &[]),
        empty(2),
        short,
        packet(false, 3, &whole[2..]),
    ];
    assert_eq!(heard(&mut Transport::new(PID), &packets), whole);
}

#[test]
fn a_unit_start_without_payload_is_ignored() {
    let whole = section(20, 3);
    let mut start_without = empty(1);
    start_without[1] |= 0x40;
    let packets = [
        adapted(true, 1, &start(&[], &whole[..2])),
        start_without,
        packet(false, 2, &whole[2..]),
    ];
    assert_eq!(heard(&mut Transport::new(PID), &packets), whole);
}

/// A section of the largest length but for its last byte, in packets; then that byte and as many sections as there is room for.
#[test]
fn the_most_that_one_packet_hands_on() {
    let largest = section(LARGEST, 9);
    let (first, rest) = largest[..LARGEST - 1].split_at(183);
    let mut packets = vec![packet(true, 0, &start(&[], first))];
    for (part, counter) in rest.chunks(184).zip(1..) {
        packets.push(adapted_or_full(counter % 16, part));
    }
    let mut transport = Transport::new(PID);
    assert_eq!(heard(&mut transport, &packets), []);
    let least = [section(3, 1).repeat(59), section(5, 1)].concat();
    let last = packet(
        true,
        packets.len() as u8 % 16,
        &start(&largest[LARGEST - 1..], &least),
    );
    let (answer, out) = fed(&mut transport, &last);
    assert_eq!(answer, Answer::Taken);
    assert_eq!(out, [largest, least].concat());
    assert_eq!(out.len(), ROOM - 1); // the pointer takes one
}

fn adapted_or_full(counter: u8, payload: &[u8]) -> Vec<u8> {
    match payload.len() {
        184 => packet(false, counter, payload),
        _ => adapted(false, counter, payload),
    }
}

#[test]
fn lengths_of_every_kind_are_handed_on() {
    for length in [3, 4, 11, 12, 4_096, 4_097, 4_098] {
        let whole = section(length, 9);
        let mut parts = whole.chunks(183);
        let mut packets = vec![packet(true, 0, &start(&[], parts.next().unwrap()))];
        packets.extend(
            parts
                .zip(1..)
                .map(|(part, counter)| adapted(false, counter % 16, part)),
        );
        assert_eq!(heard(&mut Transport::new(PID), &packets), whole);
    }
}

#[test]
fn however_packets_are_grouped_the_same_comes_out() {
    let stream = Stream::of((0..400).map(|k| 3 + k * 53 % 700));
    let sections = stream.sections.iter().map(|(whole, _)| &whole[..]);
    let wanted = sections.collect::<Vec<_>>().concat();
    assert_eq!(heard(&mut Transport::new(PID), &stream.packets), wanted);
    for group in [1, 2, 3, 7, 50, 1_000] {
        let (mut transport, mut out) = (Transport::new(PID), vec![]);
        for stretch in stream.packets.concat().chunks(group * PACKET) {
            let gathered = transport.gather(stretch, &mut out, usize::MAX).unwrap();
            assert_eq!(gathered.passed, stretch.len());
            assert_eq!(gathered.taken * PACKET, stretch.len());
        }
        assert_eq!(out, wanted);
    }
}
