//! Streams by chance: sections laid into packets in every way that is allowed and some that are not, and then lost, repeated and
//! spoilt. What is meant by a packet decides nothing.

use baseline::transport::{LARGEST, PACKET};

use super::Stream;
use crate::random::Random;

const SYNC: u8 = 0x47;
const START: u8 = 0x40;
const FIELD: u8 = 0x20;
const PAYLOAD: u8 = 0x10;
/// The bytes of a packet behind its header.
const ROOM: usize = PACKET - 4;
/// The most packets of a stream, before some are repeated.
const MOST: usize = 90;

/// So many of them. A stream depends on the seed and its number alone.
pub fn all(seed: u64, cases: u64) -> impl Iterator<Item = Stream> {
    (0..cases).map(move |number| any(&mut Random::of(seed.rotate_left(16), number)))
}

fn any(random: &mut Random) -> Stream {
    let pid = match random.below(12) {
        0 => 0,
        1 => 0x1FFF,
        _ => random.below(0x2000) as u16,
    };
    let packets = laid(random, pid);
    let packets = spoilt(random, packets, pid);
    // No packet is of a PID that has more than 13 bits.
    let above = if random.one_in(60) { 0x2000 } else { 0 };
    Stream {
        pid: pid | above,
        packets,
    }
}

/// A section of so many bytes. It does not begin with stuffing, and the bits before its length are any.
pub fn section(random: &mut Random, length: usize) -> Vec<u8> {
    let mut bytes = random.bytes(length);
    bytes[0] = bytes[0].min(0xFE);
    bytes[1] = bytes[1] & 0xF0 | ((length - 3) >> 8) as u8;
    bytes[2] = (length - 3) as u8;
    bytes
}

/// How long the sections of a stream are.
#[derive(Clone, Copy)]
enum Lengths {
    Least,
    Small,
    Any,
    Largest,
}

impl Lengths {
    fn one(self, random: &mut Random) -> usize {
        match self {
            Lengths::Least => random.within(3..=6),
            Lengths::Small => random.within(3..=300),
            Lengths::Any => random.within(3..=LARGEST),
            Lengths::Largest => random.within(LARGEST - 2..=LARGEST),
        }
    }
}

/// What lays sections into packets.
struct Layer<'a> {
    random: &'a mut Random,
    pid: u16,
    counter: u8,
    lengths: Lengths,
    /// Of so many packets one has an adaptation field.
    fields: usize,
    /// What is left of the section that has begun.
    rest: Vec<u8>,
}

/// Packets of one PID, their counters in step.
fn laid(random: &mut Random, pid: u16) -> Vec<Vec<u8>> {
    let all = [
        Lengths::Least,
        Lengths::Small,
        Lengths::Small,
        Lengths::Any,
        Lengths::Largest,
    ];
    let count = random.within(1..=MOST);
    let mut layer = Layer {
        pid,
        counter: random.below(16) as u8,
        lengths: random.pick(&all),
        fields: random.pick(&[1, 2, 5, 100]),
        rest: vec![],
        random,
    };
    (0..count).map(|_| layer.packet()).collect()
}

impl Layer<'_> {
    fn packet(&mut self) -> Vec<u8> {
        if self.random.one_in(10) {
            return self.without_payload();
        }
        self.counter = (self.counter + 1) % 16;
        let field = self.random.one_in(self.fields).then(|| self.field());
        let room = field.map_or(ROOM, |length| ROOM - 1 - length);
        let (start, payload) = self.payload(room);
        let control = PAYLOAD | if field.is_some() { FIELD } else { 0 };
        let mut packet = self.header(start, control);
        if let Some(length) = field {
            packet.push(length as u8);
            packet.extend(self.random.bytes(length));
        }
        packet.extend(payload);
        packet
    }

    fn header(&mut self, start: bool, control: u8) -> Vec<u8> {
        let [high, low] = self.pid.to_be_bytes();
        let start = if start { START } else { 0 };
        vec![SYNC, high | start, low, control | self.counter]
    }

    /// The length of an adaptation field: often so long that a section's header has to be split.
    fn field(&mut self) -> usize {
        match self.random.below(3) {
            0 => self.random.within(ROOM - 5..=ROOM - 1),
            _ => self.random.below(ROOM),
        }
    }

    /// The counter stays; a unit start means nothing; a field may be short, and all behind it is ignored.
    fn without_payload(&mut self) -> Vec<u8> {
        let start = self.random.one_in(4);
        let mut packet = self.header(start, FIELD);
        packet.push(self.random.below(ROOM) as u8);
        packet.extend(self.random.bytes(ROOM - 1));
        packet
    }

    /// So many bytes, and whether a section begins in them.
    fn payload(&mut self, room: usize) -> (bool, Vec<u8>) {
        if self.random.one_in(40) {
            return (true, self.pointed_wrong(room));
        }
        // The end of the section that has begun, behind the pointer.
        let fits = self.rest.len() < room;
        if fits && !self.random.one_in(6) {
            return (true, self.begun(room));
        }
        let mut payload = self.taken(room);
        let stuffing = self.random.one_in(2);
        while payload.len() < room {
            payload.push(if stuffing { 0xFF } else { self.random.byte() });
        }
        (false, payload)
    }

    /// A pointer, the end of one section, and others back to back, perhaps with stuffing at the end.
    fn begun(&mut self, room: usize) -> Vec<u8> {
        let mut payload = vec![self.rest.len() as u8];
        payload.append(&mut self.rest);
        while payload.len() < room {
            if self.random.one_in(12) {
                payload.push(0xFF);
                let rest = room - payload.len();
                payload.extend(self.random.bytes(rest));
                break;
            }
            let length = self.lengths.one(self.random);
            self.rest = section(self.random, length);
            let part = self.taken(room - payload.len());
            payload.extend(part);
        }
        payload
    }

    /// As many bytes as there are of the section that has begun, but no more than these.
    fn taken(&mut self, most: usize) -> Vec<u8> {
        let rest = self.rest.split_off(self.rest.len().min(most));
        std::mem::replace(&mut self.rest, rest)
    }

    /// A pointer to any place, or past the packet; behind it goes on what had begun. There may be no room for it.
    fn pointed_wrong(&mut self, room: usize) -> Vec<u8> {
        let near = self.rest.len() as u8;
        let any = self.random.byte();
        let pointer = self.random.pick(&[
            any,
            near.wrapping_sub(1),
            near.wrapping_add(1),
            room as u8,
            (room as u8).wrapping_sub(1),
        ]);
        let mut payload = vec![pointer];
        payload.extend(self.taken(room.saturating_sub(1)));
        payload.resize(room, 7);
        payload
    }
}

/// The stream as it comes: packets are lost, repeated, spoilt, and others come between them.
fn spoilt(random: &mut Random, packets: Vec<Vec<u8>>, pid: u16) -> Vec<Vec<u8>> {
    let often = random.pick(&[3, 10, 30, 1_000]);
    let lengths = random.one_in(3);
    let (mut come, mut lost) = (vec![], 0);
    for packet in packets {
        if lost > 0 {
            lost -= 1;
            continue;
        }
        if !random.one_in(often) {
            come.push(packet);
            continue;
        }
        match random.below(7) {
            0 => lost = random.within(0..=19),
            1 => come.extend(vec![packet; random.within(2..=4)]),
            2 => come.extend([packet.clone(), nearly(random, packet)]),
            3 => come.extend([foreign(random, &packet), packet]),
            4 if lengths => come.push(resized(random, packet)),
            5 => come.push(noise(random, pid)),
            _ => come.push(wrong(random, packet)),
        }
    }
    come
}

/// The packet with another bit.
fn nearly(random: &mut Random, mut packet: Vec<u8>) -> Vec<u8> {
    let place = random.below(packet.len());
    packet[place] ^= 1 << random.below(8);
    packet
}

/// The packet under another PID.
fn foreign(random: &mut Random, packet: &[u8]) -> Vec<u8> {
    let mut other = packet.to_vec();
    let bit = random.below(13);
    other[2 - bit / 8] ^= 1 << (bit % 8);
    other
}

/// A packet of another length.
fn resized(random: &mut Random, mut packet: Vec<u8>) -> Vec<u8> {
    let any = random.below(400);
    let length = random.pick(&[0, 1, PACKET - 1, PACKET + 1, any]);
    packet.resize(length, 0x47);
    packet
}

/// Any bytes; most have the sync byte, and most of these the PID.
fn noise(random: &mut Random, pid: u16) -> Vec<u8> {
    let mut packet = random.bytes(PACKET);
    if !random.one_in(4) {
        packet[0] = SYNC;
    }
    if !random.one_in(4) {
        let [high, low] = pid.to_be_bytes();
        packet[1] = packet[1] & 0x60 | high;
        packet[2] = low;
    }
    packet
}

/// The packet with a field that is wrong: for 41 or 43, or for a break.
fn wrong(random: &mut Random, mut packet: Vec<u8>) -> Vec<u8> {
    match random.below(7) {
        0 => packet[0] ^= 1 << random.below(8),
        1 => packet[1] |= 0x80,
        2 => packet[3] |= random.pick(&[0x40, 0x80, 0xC0]),
        3 => packet[3] &= 0x0F,
        4 => {
            packet[3] |= FIELD;
            packet[4] = random.within(ROOM - 2..=255) as u8;
        }
        5 => packet[3] = packet[3] & 0xF0 | random.below(16) as u8,
        _ => packet[1] ^= START,
    }
    packet
}
