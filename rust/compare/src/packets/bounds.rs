//! Streams at every bound: each pointer, each length of an adaptation field with and without payload, each place at which a header
//! can be split, each loss of 1 to 20, and the most that one packet can hand on.

use baseline::transport::{LARGEST, PACKET};

use super::streams::section;
use super::Stream;
use crate::random::Random;

const PID: u16 = 0x123;

/// All of them.
pub fn all() -> impl Iterator<Item = Stream> {
    let pointers = (0..=255).map(pointer);
    let fields = (0..=255).flat_map(|length| [field(length, 0x30), field(length, 0x20)]);
    let splits = (1..=5).map(split);
    let losses = (1..=20).flat_map(|count| (0..5).map(move |first| loss(count, first)));
    pointers
        .chain(fields)
        .chain(splits)
        .chain(losses)
        .chain((0..120).map(most))
}

fn stream(packets: Vec<Vec<u8>>) -> Stream {
    Stream { pid: PID, packets }
}

/// A packet with an adaptation field before its payload, unless that has all the room.
fn packet(start: bool, counter: u8, payload: &[u8]) -> Vec<u8> {
    let flags = if start { 0x41 } else { 0x01 };
    let field = (PACKET - 4).checked_sub(payload.len() + 1);
    let control = if field.is_some() { 0x30 } else { 0x10 };
    let mut bytes = vec![0x47, flags, 0x23, control | (counter % 16)];
    bytes.extend(field.map(|length| length as u8));
    bytes.resize(PACKET - payload.len(), 0);
    bytes.extend(payload);
    bytes
}

/// A section that has begun, then this pointer: past the payload it is 43.
fn pointer(pointer: usize) -> Stream {
    let random = &mut Random::of(1, pointer as u64);
    let (one, other) = (section(random, 3 + pointer), section(random, 280));
    let mut payload = [&[pointer as u8], &one[3..], &other].concat();
    payload.truncate(PACKET - 4);
    let rest = &other[183_usize.saturating_sub(pointer)..];
    let (third, fourth) = rest.split_at(rest.len() / 2);
    stream(vec![
        packet(true, 0, &[&[0], &one[..3]].concat()),
        packet(true, 1, &payload),
        packet(false, 2, third),
        packet(false, 3, fourth),
    ])
}

/// A field of this length and adaptation control, in a packet that goes on with a section and in one that begins others.
fn field(length: usize, control: u8) -> Stream {
    let random = &mut Random::of(2, length as u64);
    let one = section(random, 400);
    let counter = u8::from(control == 0x30);
    let mut middle = random.bytes(PACKET);
    middle[..5].copy_from_slice(&[0x47, 0x01, 0x23, control | counter, length as u8]);
    let mut start = middle.clone();
    start[1] |= 0x40;
    start[3] = control | (counter * 2);
    if let Some(at @ 5..PACKET) = Some(5 + length) {
        start[at] = 0;
    }
    stream(vec![
        packet(true, 0, &[&[0], &one[..100]].concat()),
        middle,
        start,
        packet(false, counter * 2 + 1, &one[100..200]),
    ])
}

/// A section of 20 bytes in parts of this length.
fn split(length: usize) -> Stream {
    let one = section(&mut Random::of(3, length as u64), 20);
    let mut parts = one.chunks(length).zip(0..);
    let first = parts
        .next()
        .map(|(part, _)| packet(true, 0, &[&[0], part].concat()));
    let rest = parts.map(|(part, counter)| packet(false, counter, part));
    stream(first.into_iter().chain(rest).collect())
}

/// Sections of 100 bytes, one in each packet and the half of another, of which so many packets are lost.
fn loss(count: usize, first: usize) -> Stream {
    let random = &mut Random::of(4, count as u64);
    let sections: Vec<_> = (0..30).map(|_| section(random, 100)).collect();
    let laid = |place: usize| {
        let (before, this) = (&sections[place], &sections[place + 1]);
        packet(
            true,
            place as u8,
            &[&[50], &before[50..], &this[..50]].concat(),
        )
    };
    let mut packets: Vec<_> = (0..29).map(laid).collect();
    packets.drain(first..first + count);
    stream(packets)
}

/// A section of the largest length but for its last byte; then that, and as many others as there is room for.
fn most(seed: u64) -> Stream {
    let random = &mut Random::of(5, seed);
    let largest = section(random, LARGEST);
    let (head, last) = largest.split_at(LARGEST - 1);
    let (first, rest) = head.split_at(183);
    let mut packets = vec![packet(true, 0, &[&[0], first].concat())];
    packets.extend(
        rest.chunks(184)
            .zip(1..)
            .map(|(part, counter)| packet(false, counter, part)),
    );
    let mut payload = [&[1], last].concat();
    payload.extend((0..59).flat_map(|_| section(random, 3)));
    payload.extend(section(random, 5));
    packets.push(packet(true, packets.len() as u8, &payload));
    stream(packets)
}

#[cfg(test)]
mod tests {
    use super::*;

    #[test]
    fn packets_are_whole() {
        for stream in all() {
            assert!(stream.packets.iter().all(|packet| packet.len() == PACKET));
        }
    }
}
