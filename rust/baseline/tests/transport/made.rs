//! Packets and sections for the tests, put together field by field.

use baseline::transport::{Answer, Transport, PACKET};

pub const PID: u16 = 0x123;

/// Adaptation control, in its place.
pub const PAYLOAD: u8 = 0x10;
pub const FIELD: u8 = 0x20;
pub const BOTH: u8 = 0x30;

/// A section of so many bytes, of which all but its length are alike.
pub fn section(length: usize, byte: u8) -> Vec<u8> {
    let mut bytes = vec![byte; length];
    bytes[1..3].copy_from_slice(&(0xB000 | (length - 3) as u16).to_be_bytes());
    bytes
}

/// A section of so many bytes, which differ from place to place and from those of other seeds.
pub fn varied(length: usize, seed: usize) -> Vec<u8> {
    let mut bytes = section(length, (seed % 250) as u8);
    for (place, byte) in bytes.iter_mut().enumerate().skip(3) {
        *byte = (seed * 97 + place * place / 5 % 251) as u8;
    }
    bytes
}

/// A packet with this payload, which is filled up with 0xFF.
pub fn packet(start: bool, counter: u8, payload: &[u8]) -> Vec<u8> {
    let flags = if start { 0x41 } else { 0x01 };
    let mut bytes = vec![0x47, flags, 0x23, PAYLOAD | counter];
    bytes.extend(payload);
    assert!(bytes.len() <= PACKET);
    bytes.resize(PACKET, 0xFF);
    bytes
}

/// A packet with an adaptation field before its payload, as long as it must be for the payload to end the packet.
pub fn adapted(start: bool, counter: u8, payload: &[u8]) -> Vec<u8> {
    let flags = if start { 0x41 } else { 0x01 };
    let length = PACKET - 5 - payload.len();
    let mut bytes = vec![0x47, flags, 0x23, BOTH | counter, length as u8];
    bytes.extend(vec![0; length]);
    bytes.extend(payload);
    bytes
}

/// A unit start: a pointer, the end of one section, and what begins.
pub fn start(ends: &[u8], begins: &[u8]) -> Vec<u8> {
    [&[ends.len() as u8], ends, begins].concat()
}

/// A packet without payload.
pub fn empty(counter: u8) -> Vec<u8> {
    let mut bytes = adapted(false, counter, &[]);
    bytes[3] = FIELD | counter;
    bytes
}

/// What one packet hands on.
pub fn fed(transport: &mut Transport, packet: &[u8]) -> (Answer, Vec<u8>) {
    let mut out = vec![];
    let answer = transport.feed(packet, &mut out);
    (answer, out)
}

/// What packets hand on together; each is taken, and none breaks the counter.
pub fn heard(transport: &mut Transport, packets: &[Vec<u8>]) -> Vec<u8> {
    let mut out = vec![];
    for packet in packets {
        assert_eq!(transport.feed(packet, &mut out), Answer::Taken);
    }
    out
}
