//! Sections out of transport packets and into them: by their bytes, refusals, and states.

use make::section;
use nebosvar::transport::{
    feed, gather, write_packets, Fed, Gathered, PacketKind, Transport, MOST_PACKETS, PACKET, ROOM,
    STATE,
};
use nebosvar::Refusal;

const PID: u16 = 0x123;

/// The packets of a section, the counters from this one on.
fn packets(section: &[u8], counter: u8) -> Vec<u8> {
    let mut out = vec![0xA5; MOST_PACKETS * PACKET];
    let count = write_packets(PID, counter, section, &mut out).unwrap();
    assert!(out[count * PACKET..].iter().all(|&byte| byte == 0xA5));
    out.truncate(count * PACKET);
    out
}

/// It refuses, and changes neither the state nor the bytes to write to.
fn refused(pid: u16, packet: &[u8], state: &[u8], room: usize, refusal: Refusal) {
    let (mut after, mut out) = (state.to_vec(), vec![0xA5; room]);
    assert_eq!(feed(pid, packet, &mut after, &mut out), Err(refusal));
    assert_eq!(after, state);
    assert!(out.iter().all(|&byte| byte == 0xA5));
}

/// A state with four bytes of a section of 203 in hand, behind a packet with counter 4.
fn begun() -> Vec<u8> {
    let mut packet = [0; PACKET];
    packet[..5].copy_from_slice(&[0x47, 0x41, 0x23, 0x34, 178]);
    packet[183..].copy_from_slice(&[0, 7, 0xB0, 200, 9]);
    let mut state = vec![0; STATE];
    let answer = feed(PID, &packet, &mut state, &mut [0; ROOM]);
    let kind = PacketKind::Taken;
    assert_eq!(answer, Ok(Fed { size: 0, kind }));
    assert_eq!(state[..PACKET], packet);
    assert_eq!(state[PACKET..PACKET + 6], [0, 4, 7, 0xB0, 200, 9]);
    assert!(state[PACKET + 6..].iter().all(|&byte| byte == 0));
    state
}

#[test]
fn a_section_through_its_packets() {
    for length in [12, 183, 184, 367, 368, 4_096] {
        let section = section(0x3C, 7, 0, &vec![0x5A; length - 12]);
        assert_eq!(section.len(), length);
        let packets = packets(&section, 14);
        assert_eq!(packets.len() / PACKET, (length + 1).div_ceil(184));
        let (mut transport, mut out) = (Transport::new(PID), vec![0xA5; ROOM]);
        let mut sizes = 0;
        for packet in packets.chunks(PACKET) {
            let fed = transport.feed(packet, &mut out).unwrap();
            assert_eq!(fed.kind, PacketKind::Taken);
            sizes += fed.size;
        }
        assert_eq!(sizes, length);
        assert_eq!(out[..length], section);
        assert!(out[length..].iter().all(|&byte| byte == 0xA5));
    }
}

#[test]
fn a_stretch_stops_for_room_and_goes_on() {
    let one = section(0x3C, 7, 0, &[1; 88]);
    let stream: Vec<_> = (0..10).flat_map(|counter| packets(&one, counter)).collect();
    let mut transport = Transport::new(PID);
    let mut out = vec![0xA5; ROOM + 250];
    let (mut rest, mut calls) = (&stream[..], vec![]);
    while !rest.is_empty() {
        let gathered = transport.gather(rest, &mut out).unwrap();
        assert_eq!(out[..gathered.size], one.repeat(gathered.taken));
        calls.push(gathered.taken);
        rest = &rest[gathered.passed..];
    }
    assert_eq!(calls, [3, 3, 3, 1]);
}

#[test]
fn what_becomes_of_packets_is_counted() {
    let whole = section(0x3C, 7, 0, &[1; 400]);
    let good = packets(&whole, 0);
    let (first, rest) = good.split_at(PACKET);
    let (second, third) = rest.split_at(PACKET);
    let with = |at: usize, byte: u8| {
        let mut packet = second.to_vec();
        packet[at] = byte;
        packet
    };
    let stream = [
        first,
        &with(0, 0x48),
        &with(2, 0x24),
        &with(1, 0x81),
        &with(3, 0x01),
        second,
        second,
        third,
        &with(3, 0x17),
        &first[..7],
    ]
    .concat();
    let wanted = Gathered {
        passed: 9 * PACKET + 7,
        size: whole.len(),
        taken: 4,
        repeated: 1,
        broken: 1,
        refused40: 1,
        refused41: 1,
        refused42: 1,
        refused43: 2,
    };
    let mut out = vec![0xA5; ROOM + whole.len()];
    let mut transport = Transport::new(PID);
    assert_eq!(transport.gather(&stream, &mut out), Ok(wanted));
    assert_eq!(out[..whole.len()], whole);
    assert!(out[whole.len()..].iter().all(|&byte| byte == 0xA5));
}

#[test]
fn refusals_40_to_43_the_lowest_first() {
    let state = begun();
    let good = packets(&section(0x3C, 7, 0, &[1; 400]), 5);
    let good = &good[PACKET..2 * PACKET];
    for length in [0, 1, 187] {
        refused(PID, &good[..length], &state, ROOM, Refusal::PACKET_LENGTH);
    }
    refused(PID, &[0; 189], &state, ROOM, Refusal::PACKET_LENGTH);
    for (at, byte, refusal) in [
        (0, 0x46, Refusal::PACKET_SYNC),
        (1, 0x02, Refusal::PACKET_PID),
        (2, 0x22, Refusal::PACKET_PID),
        (1, 0x81, Refusal::PACKET_FIELD),
        (3, 0x56, Refusal::PACKET_FIELD),
        (3, 0x96, Refusal::PACKET_FIELD),
        (3, 0x06, Refusal::PACKET_FIELD),
    ] {
        let mut packet = good.to_vec();
        packet[at] = byte;
        refused(PID, &packet, &state, ROOM, refusal);
        refused(PID, &packet, &[0; STATE], ROOM, refusal);
    }
    let mut field = good.to_vec();
    (field[3], field[4]) = (0x25, 184);
    refused(PID, &field, &state, ROOM, Refusal::PACKET_FIELD);
    let mut pointer = good.to_vec();
    (pointer[1], pointer[4]) = (0x41, 184);
    refused(PID, &pointer, &state, ROOM, Refusal::PACKET_FIELD);
    refused(0x2123, good, &[0; STATE], ROOM, Refusal::PACKET_PID);
}

#[test]
fn short_buffers_21_before_40() {
    let state = begun();
    for room in [0, 1, ROOM - 1] {
        refused(PID, &[], &state, room, Refusal::SHORT_BUFFER);
        let answer = gather(PID, &[], &mut state.clone(), &mut vec![0; room]);
        assert_eq!(answer, Err(Refusal::SHORT_BUFFER));
    }
    let nothing = Ok(Gathered::default());
    assert_eq!(
        gather(PID, &[], &mut state.clone(), &mut [0; ROOM]),
        nothing
    );
}

#[test]
fn states_that_packets_can_not_have_left_1_before_21() {
    let good = begun();
    let breaks: [fn(&mut Vec<u8>); 9] = [
        |s| s.truncate(STATE - 1),
        |s| s.clear(),
        |s| s[..PACKET].fill(0), // in hand before the first packet
        |s| s[0] = 0x46,
        |s| s[2] = 0x24,
        |s| s[3] = 0x04,
        |s| s[PACKET + 2] = 0xFF,
        |s| s[PACKET + 4] = 1, // four bytes are a whole section then
        |s| s[PACKET..PACKET + 2].copy_from_slice(&[0x10, 0x02]),
    ];
    for change in breaks {
        let mut state = good.clone();
        change(&mut state);
        for room in [0, ROOM] {
            refused(PID, &[], &state, room, Refusal::BAD_RECORD);
            let answer = gather(PID, &[], &mut state.clone(), &mut vec![0; room]);
            assert_eq!(answer, Err(Refusal::BAD_RECORD));
        }
    }
    refused(PID + 1, &[], &good, ROOM, Refusal::BAD_RECORD);
}

#[test]
fn the_writers_refusals() {
    let mut out = [0xA5; 2 * PACKET];
    let mut write = |pid, counter, section: &[u8], room| {
        let answer = write_packets(pid, counter, section, &mut out[..room]);
        assert_eq!(out, [0xA5; 2 * PACKET]);
        answer
    };
    let mut section = section(0x3C, 7, 0, &[1; 200]);
    let (pid, counter) = (0x2000, 16);
    assert_eq!(write(pid, counter, &[], 0), Err(Refusal::bad_size(0)));
    assert_eq!(
        write(pid, counter, &section[1..], 0),
        Err(Refusal::bad_size(211))
    );
    section[0] = 0xFF;
    assert_eq!(write(pid, counter, &section, 0), Err(Refusal::bad_table(0)));
    section[0] = 0x3C;
    let short = 2 * PACKET - 1;
    assert_eq!(
        write(pid, counter, &section, short),
        Err(Refusal::SHORT_BUFFER)
    );
    for (pid, counter) in [(0x2000, 0), (0, 16), (u16::MAX, u8::MAX)] {
        let answer = write(pid, counter, &section, 2 * PACKET);
        assert_eq!(answer, Err(Refusal::OUT_OF_RANGE));
    }
}
