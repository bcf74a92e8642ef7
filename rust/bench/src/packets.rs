//! Transport packets: 64 MiB of them in stretches of about 64 KiB, and the sections that come out.

use std::hint::black_box;
use std::time::{Duration, Instant};

use compare::packets::streams::section;
use compare::random::Random;
use nebosvar::transport::{Transport, PACKET};

use crate::receiver::Seconds;
use crate::ROUNDS;

/// The bytes of all packets together, at least.
const TOGETHER: usize = 64 << 20;
/// The packets of a stretch.
const STRETCH: usize = 349;
/// The buffer that sections are handed on to: more than a stretch can carry.
const ROOM: usize = 128 << 10;
const PID: u16 = 0x123;
/// The bytes of a packet behind its header.
const PAYLOAD: usize = PACKET - 4;

/// What is measured: its name, the length of the sections, and of how many packets one is of the PID.
const STREAMS: [(&str, usize, usize); 3] = [
    ("of 4,096", 4_096, 1),
    ("of 94", 94, 1),
    ("one in eight", 4_096, 8),
];

/// Measures each stream and prints its line, or tells what differed.
pub fn measure() -> Result<(), String> {
    println!(
        "Transport packets: MiB of packets in a second, best and median of {ROUNDS} runs each, in turn, over the same stretches of {STRETCH} packets,\n\
         by one call each into a buffer of 128 KiB. All sections lie back to back, and all come out. One in eight: so many packets\n\
         are of the PID, with sections of 4,096 bytes, and the others are not."
    );
    println!(
        "{:<16}{:>10}{:>8}{:>12}{:>10}{:>16}{:>10}{:>8}",
        "sections", "packets", "MiB", "ours best", "median", "baseline best", "median", "times"
    );
    let mut streams = STREAMS.iter();
    streams.try_for_each(|(name, length, of)| line(name, &Stream::laid(TOGETHER, *length, *of)))
}

fn line(name: &str, stream: &Stream) -> Result<(), String> {
    let [ours, theirs] = raced(stream).map_err(|told| format!("{name}: {told}"))?;
    let mebibytes = stream.packets.len() as f64 / f64::from(1 << 20);
    println!(
        "{name:<16}{:>10}{mebibytes:>8.1}{:>12.1}{:>10.1}{:>16.1}{:>10.1}{:>8.2}",
        stream.packets.len() / PACKET,
        mebibytes / ours.best,
        mebibytes / ours.median,
        mebibytes / theirs.best,
        mebibytes / theirs.median,
        ours.best / theirs.best
    );
    Ok(())
}

/// Both in turn; each time all sections must have come out, and the first time they are looked at byte for byte.
fn raced(stream: &Stream) -> Result<[Seconds; 2], String> {
    let mut handed = vec![];
    for walk in [ours as Walk, theirs] {
        handed.clear();
        walk(&stream.packets, &mut |sections| {
            handed.extend_from_slice(sections)
        })?;
        if handed != stream.sections {
            return Err("other sections come out".to_string());
        }
    }
    let mut times = [vec![], vec![]];
    for _ in 0..ROUNDS {
        times[0].push(timed(stream, ours)?);
        times[1].push(timed(stream, theirs)?);
    }
    Ok(times.map(|times| Seconds::of(&times)))
}

/// One of both, over all stretches; it hands the sections of each on.
type Walk = fn(&[u8], &mut dyn FnMut(&[u8])) -> Result<(), String>;

fn timed(stream: &Stream, walk: Walk) -> Result<Duration, String> {
    let mut size = 0;
    let begin = Instant::now();
    walk(black_box(&stream.packets), &mut |sections| {
        size += black_box(sections).len();
    })?;
    let time = begin.elapsed();
    if size == stream.sections.len() {
        Ok(time)
    } else {
        Err("fewer bytes, or more, come out".to_string())
    }
}

fn ours(packets: &[u8], hand_on: &mut dyn FnMut(&[u8])) -> Result<(), String> {
    let (mut transport, mut out) = (Transport::new(PID), vec![0; ROOM]);
    for stretch in packets.chunks(STRETCH * PACKET) {
        match transport.gather(stretch, &mut out) {
            Ok(gathered) if gathered.passed == stretch.len() => hand_on(&out[..gathered.size]),
            other => return Err(format!("{other:?}")),
        }
    }
    Ok(())
}

fn theirs(packets: &[u8], hand_on: &mut dyn FnMut(&[u8])) -> Result<(), String> {
    let mut transport = baseline::transport::Transport::new(PID);
    let mut out = Vec::with_capacity(ROOM);
    for stretch in packets.chunks(STRETCH * PACKET) {
        out.clear();
        match transport.gather(stretch, &mut out, ROOM) {
            Ok(gathered) if gathered.passed == stretch.len() => hand_on(&out),
            other => return Err(format!("{other:?}")),
        }
    }
    Ok(())
}

/// Packets, and the whole sections that are in them.
#[derive(Default)]
struct Stream {
    packets: Vec<u8>,
    sections: Vec<u8>,
    /// What is left of the section that has begun.
    rest: Vec<u8>,
}

impl Stream {
    /// So many bytes of packets at least, of which one in so many is of the PID, with sections of this length.
    fn laid(together: usize, length: usize, of: usize) -> Stream {
        let mut random = Random::of(6, length as u64);
        let mut stream = Stream::default();
        for place in 0_usize.. {
            if stream.packets.len() >= together {
                break;
            }
            if place % of == 0 {
                stream.lay(&mut random, length, (place / of % 16) as u8);
            } else {
                let head = [0x47, 0x01, 0x23 ^ (place % of) as u8, 0x10];
                stream.packets.extend(head);
                stream.packets.extend(random.bytes(PAYLOAD));
            }
        }
        // The last section need not have come to its end.
        if !stream.rest.is_empty() {
            stream.sections.truncate(stream.sections.len() - length);
        }
        stream
    }

    /// One packet: what is left of a section, and others behind it if there is room.
    fn lay(&mut self, random: &mut Random, length: usize, counter: u8) {
        let begins = self.rest.len() + 1 < PAYLOAD;
        let flags = if begins { 0x41 } else { 0x01 };
        let end = self.packets.len() + PACKET;
        self.packets.extend([0x47, flags, 0x23, 0x10 | counter]);
        if begins {
            self.packets.push(self.rest.len() as u8);
        }
        self.go_on(end);
        while begins && self.packets.len() < end {
            self.rest = section(random, length);
            self.sections.extend(&self.rest);
            self.go_on(end);
        }
        self.packets.resize(end, 0xFF);
    }

    /// As much of the section that has begun as there is room for.
    fn go_on(&mut self, end: usize) {
        let room = end - self.packets.len();
        let part = self.rest.drain(..self.rest.len().min(room));
        self.packets.extend(part);
    }
}

#[cfg(test)]
mod tests {
    use super::*;

    #[test]
    fn all_sections_of_every_stream_come_out() {
        for (name, length, of) in STREAMS {
            let stream = Stream::laid(2_000 * PACKET, length, of);
            assert_eq!(stream.packets.len() % PACKET, 0);
            assert!(stream.sections.len() * of > 1_900 * PAYLOAD, "{name}");
            let mut handed = vec![];
            theirs(&stream.packets, &mut |sections| {
                handed.extend_from_slice(sections)
            })
            .unwrap();
            assert!(handed == stream.sections, "{name}");
            assert!(raced(&stream).is_ok(), "{name}");
        }
    }

    #[test]
    fn other_sections_are_told() {
        let mut stream = Stream::laid(2_000 * PACKET, 94, 1);
        stream.sections[100] ^= 1;
        assert!(raced(&stream).is_err());
    }
}
