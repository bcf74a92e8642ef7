//! Refusals 40 to 43, the lowest first, and 21; each leaves all as it was.

use crate::made::{adapted, empty, packet, section, start, FIELD, PID};
use baseline::transport::{Answer, Gathered, Transport, PACKET, ROOM};

/// With four bytes of a section in hand.
fn begun() -> Transport {
    let mut transport = Transport::new(PID);
    let first = adapted(true, 4, &start(&[], &section(30, 7)[..4]));
    assert_eq!(transport.feed(&first, &mut vec![]), Answer::Taken);
    transport
}

/// It refuses the packet, and nothing changes.
fn refused(packet: &[u8], number: u8) {
    for first in [begun(), Transport::new(PID)] {
        let (mut after, mut out) = (first.clone(), vec![1, 2]);
        assert_eq!(after.feed(packet, &mut out), Answer::Refused(number));
        assert_eq!((after, out), (first, vec![1, 2]));
    }
}

fn good() -> Vec<u8> {
    packet(false, 5, &[7; 184])
}

fn with(at: usize, byte: u8) -> Vec<u8> {
    let mut packet = good();
    packet[at] = byte;
    packet
}

#[test]
fn other_lengths_40() {
    for length in [0, 1, 4, 187, 189, 204, 376] {
        let mut packet = good();
        packet.resize(length, 0);
        refused(&packet, 40);
        packet.iter_mut().for_each(|byte| *byte = 0xFF); // and all else is wrong
        refused(&packet, 40);
    }
}

#[test]
fn sync_41() {
    for byte in [0, 0x46, 0xC7, 0xFF] {
        refused(&with(0, byte), 41);
    }
    refused(&[0xFF; PACKET], 41);
}

#[test]
fn other_pid_42() {
    for bit in 0..13 {
        let mut packet = good();
        packet[2 - bit / 8] ^= 1 << (bit % 8);
        refused(&packet, 42);
        packet[3] = 0xFF;
        refused(&packet, 42);
    }
    for pid in [0x2000 | PID, 0xE000 | PID, u16::MAX] {
        let answer = Transport::new(pid).feed(&good(), &mut vec![]);
        assert_eq!(answer, Answer::Refused(42));
    }
    // The bits before the PID are none of it.
    let mut priority = good();
    priority[1] |= 0x20;
    assert_eq!(begun().feed(&priority, &mut vec![]), Answer::Taken);
}

#[test]
fn error_scrambling_and_control_43() {
    refused(&with(1, 0x81), 43);
    for control in [0x55, 0x95, 0xD5, 0x05, 0x45] {
        refused(&with(3, control), 43);
    }
}

#[test]
fn adaptation_field_past_the_packet_43() {
    for length in 184..=255 {
        let mut packet = empty(5);
        packet[4] = length;
        refused(&packet, 43);
        packet[3] |= 0x10;
        refused(&packet, 43);
    }
    for length in 0..=183 {
        let mut packet = empty(4);
        packet[4] = length;
        packet[3] = FIELD | 4;
        assert_eq!(begun().feed(&packet, &mut vec![]), Answer::Taken);
        packet[3] = 0x35;
        assert_eq!(begun().feed(&packet, &mut vec![]), Answer::Taken);
    }
}

#[test]
fn pointer_past_the_packet_43() {
    for length in 1..=183 {
        for pointer in [length - 1, length, 255] {
            let mut payload = vec![0; length];
            payload[0] = pointer as u8;
            let packet = adapted(true, 5, &payload);
            if pointer < length {
                assert_eq!(begun().feed(&packet, &mut vec![]), Answer::Taken);
            } else {
                refused(&packet, 43);
            }
        }
    }
    refused(&adapted(true, 5, &[]), 43); // the pointer itself
    refused(&packet(true, 5, &[184]), 43);
}

#[test]
fn a_refused_packet_does_not_stop_the_rest() {
    let whole = section(30, 7);
    let first = adapted(true, 4, &start(&[], &whole[..4]));
    let last = packet(false, 5, &whole[4..]);
    let wrong = [with(0, 0), with(2, 0), with(3, 0), with(1, 0x81)];
    let stream = [&first[..], &wrong.concat(), &last, &first[..9]].concat();
    let (mut transport, mut out) = (Transport::new(PID), vec![]);
    let wanted = Gathered {
        passed: stream.len(),
        size: 30,
        taken: 2,
        refused: [1, 1, 1, 2],
        ..Gathered::default()
    };
    assert_eq!(transport.gather(&stream, &mut out, ROOM + 30), Ok(wanted));
    assert_eq!(out, whole);
}

#[test]
fn short_room_21_and_stops_for_room() {
    let whole = section(100, 7);
    let stream: Vec<_> = (0..10)
        .flat_map(|counter| packet(true, counter, &start(&[], &whole)))
        .collect();
    let first = begun();
    let (mut transport, mut out) = (first.clone(), vec![]);
    for bytes in [&stream[..], &[]] {
        assert_eq!(transport.gather(bytes, &mut out, ROOM - 1), Err(21));
        assert_eq!((&transport, out.len()), (&first, 0));
    }
    for (room, packets) in [(0, 1), (99, 1), (100, 2), (199, 2), (200, 3), (5_000, 10)] {
        let (mut transport, mut out) = (Transport::new(PID), vec![9]);
        let gathered = transport.gather(&stream, &mut out, ROOM + room).unwrap();
        assert_eq!((gathered.taken, gathered.size), (packets, packets * 100));
        assert_eq!(gathered.passed, packets * PACKET);
        assert_eq!(out, [&[9][..], &whole.repeat(packets)].concat());
    }
}
