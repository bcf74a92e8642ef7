//! What was answered how often, and which bounds were met.

use std::fmt::{self, Display};

use baseline::transport::{LARGEST, PACKET, ROOM};
use nebosvar::transport::{Gathered, PacketKind};

use crate::columns::write_columns;
use crate::fence::Edge;

/// The calls that can refuse.
#[derive(Clone, Copy, PartialEq, Eq, Debug)]
pub enum Call {
    Feed,
    Gather,
    Write,
}

/// Their names, in the order of [`Call`].
const CALLS: [&str; 3] = ["feed", "gather", "write"];
/// Each refusal, and which of the calls can give it. From 40 on those of `gather` are of the packets of a stretch.
const REFUSALS: [(u8, [bool; CALLS.len()]); 9] = [
    (1, [true, true, false]),
    (2, [false, false, true]),
    (3, [false, false, true]),
    (21, [true, true, true]),
    (25, [false, false, true]),
    (40, [true, true, false]),
    (41, [true, true, false]),
    (42, [true, true, false]),
    (43, [true, true, false]),
];
/// What else becomes of a packet, in the order of [`PacketKind`]; those that break the counter are taken too.
const KINDS: [&str; 3] = ["taken", "broken", "repeated"];

/// What is counted of single packets and of stretches.
#[derive(Clone, Copy, PartialEq, Eq, Debug)]
pub enum Limit {
    Several,
    AfterOne,
    AfterTwo,
    LongestHand,
    Largest,
    Least,
    OutOfMost,
    NoPayload,
    EmptyPayload,
    ToTheEnd,
    StopForRoom,
    NoStretch,
    ShorterRest,
    FirstBreaks,
}

/// Their words, in the order of [`Limit`].
const LIMITS: [&str; 14] = [
    "several sections in a packet",
    "headers split after one byte",
    "after two",
    "hands that lack one byte of 4,098",
    "sections of 4,098 bytes",
    "sections of 3 bytes",
    "packets that hand on 4,280 bytes",
    "packets without payload",
    "empty payloads",
    "pointers to the end",
    "stops for room",
    "empty stretches",
    "shorter rests",
    "breaks that begin a section",
];

/// How often each answer came. Both gave it: it is counted after they were found to agree.
#[derive(Clone)]
pub struct Counts {
    pub streams: u64,
    /// Packets that were fed one by one, stretches that were gathered, and buffers into which packets were written.
    pub packets: u64,
    pub stretches: u64,
    pub buffers: u64,
    /// Sections that single packets handed on.
    pub sections: u64,
    /// Streams of which all that is lent ended at a fence, and began at one.
    pub fenced: [u64; 2],
    refusals: [[u64; CALLS.len()]; REFUSALS.len()],
    kinds: [[u64; CALLS.len()]; KINDS.len()],
    /// Refusals that are none of these calls.
    others: u64,
    limits: [u64; LIMITS.len()],
    /// Of packets that were taken: by their pointer, and by the length of their adaptation field, with payload and without.
    pointers: [u64; PACKET],
    fields: [[u64; PACKET]; 2],
}

impl Default for Counts {
    fn default() -> Counts {
        Counts {
            streams: 0,
            packets: 0,
            stretches: 0,
            buffers: 0,
            sections: 0,
            fenced: [0; 2],
            refusals: [[0; CALLS.len()]; REFUSALS.len()],
            kinds: [[0; CALLS.len()]; KINDS.len()],
            others: 0,
            limits: [0; LIMITS.len()],
            pointers: [0; PACKET],
            fields: [[0; PACKET]; 2],
        }
    }
}

impl Counts {
    /// A stream is lent at this edge, if at any.
    pub fn lent(&mut self, edge: Option<Edge>) {
        self.streams += 1;
        if let Some(edge) = edge {
            self.fenced[edge as usize] += 1;
        }
    }

    /// A packet that was fed, the sections that it handed on, and the state after it.
    pub fn fed(
        &mut self,
        packet: &[u8],
        fed: &Result<(usize, PacketKind), u8>,
        sections: &[u8],
        state: &[u8],
    ) {
        self.packets += 1;
        match fed {
            Err(number) => self.refused(Call::Feed, *number, 1),
            Ok((_, kind)) => {
                self.kinds[*kind as usize][Call::Feed as usize] += 1;
                if *kind == PacketKind::Broken {
                    self.kinds[PacketKind::Taken as usize][Call::Feed as usize] += 1;
                }
                if *kind != PacketKind::Repeated {
                    self.taken(packet, *kind, sections, state);
                }
            }
        }
    }

    /// A packet that was taken, so that its fields are right.
    fn taken(&mut self, packet: &[u8], kind: PacketKind, sections: &[u8], state: &[u8]) {
        let lengths = lengths(sections);
        self.sections += lengths.len() as u64;
        let held = usize::from(u16::from_be_bytes([state[PACKET], state[PACKET + 1]]));
        let (field, payload) = (packet[3] & 0x20 != 0, packet[3] & 0x10 != 0);
        let begin = if field { 5 + usize::from(packet[4]) } else { 4 };
        if field {
            self.fields[usize::from(!payload)][begin - 5] += 1;
        }
        let start = payload && packet[1] & 0x40 != 0;
        if start {
            let pointer = usize::from(packet[begin]);
            self.pointers[pointer] += 1;
            self.met(Limit::ToTheEnd, begin + 1 + pointer == PACKET);
        }
        self.met(Limit::Several, lengths.len() > 1);
        self.met(Limit::AfterOne, start && held == 1);
        self.met(Limit::AfterTwo, start && held == 2);
        self.met(Limit::LongestHand, held == LARGEST - 1);
        self.met(Limit::Largest, lengths.contains(&LARGEST));
        self.met(Limit::Least, lengths.contains(&3));
        self.met(Limit::OutOfMost, sections.len() == ROOM - 1);
        self.met(Limit::NoPayload, !payload);
        self.met(Limit::EmptyPayload, payload && begin == PACKET);
        let begins = kind == PacketKind::Broken && (held > 0 || !lengths.is_empty());
        self.met(Limit::FirstBreaks, begins);
    }

    /// A stretch that was gathered.
    pub fn gathered(&mut self, packets: &[u8], answer: &Result<Gathered, u8>) {
        self.stretches += 1;
        let gathered = match answer {
            Ok(gathered) => gathered,
            Err(number) => return self.refused(Call::Gather, *number, 1),
        };
        let refused = [
            (40, gathered.refused40),
            (41, gathered.refused41),
            (42, gathered.refused42),
            (43, gathered.refused43),
        ];
        for (number, count) in refused {
            self.refused(Call::Gather, number, count as u64);
        }
        let counts = [gathered.taken, gathered.broken, gathered.repeated];
        for (kind, count) in self.kinds.iter_mut().zip(counts) {
            kind[Call::Gather as usize] += count as u64;
        }
        self.met(Limit::StopForRoom, gathered.passed < packets.len());
        self.met(Limit::NoStretch, packets.is_empty());
        self.met(Limit::ShorterRest, gathered.passed % PACKET != 0);
    }

    /// An answer of the writer.
    pub fn written(&mut self, answer: &Result<usize, u8>) {
        self.buffers += 1;
        if let Err(number) = answer {
            self.refused(Call::Write, *number, 1);
        }
    }

    fn refused(&mut self, call: Call, number: u8, count: u64) {
        match REFUSALS.iter().position(|(refusal, _)| *refusal == number) {
            Some(place) => self.refusals[place][call as usize] += count,
            None => self.others += count,
        }
    }

    fn met(&mut self, limit: Limit, met: bool) {
        self.limits[limit as usize] += u64::from(met);
    }

    /// The answers and bounds that came fewer times than this, and the answers that came and can not.
    pub fn rare(&self, least: u64) -> Vec<String> {
        let mut rare: Vec<String> = vec![];
        for ((number, can), counts) in REFUSALS.iter().zip(&self.refusals) {
            for ((name, can), &count) in CALLS.iter().zip(can).zip(counts) {
                if *can && count < least || !*can && count > 0 {
                    rare.push(format!("{number} by {name}: {count}"));
                }
            }
        }
        for (kind, counts) in KINDS.iter().zip(&self.kinds) {
            for (name, &count) in CALLS.iter().zip(&counts[..2]) {
                if count < least {
                    rare.push(format!("{kind} by {name}: {count}"));
                }
            }
        }
        for (what, &count) in LIMITS.iter().zip(&self.limits) {
            if count < least {
                rare.push(format!("{what}: {count}"));
            }
        }
        rare.extend(self.never());
        if self.others > 0 {
            rare.push(format!("other refusals: {}", self.others));
        }
        rare
    }

    /// The pointers and lengths of adaptation fields that never came in a packet that was taken.
    fn never(&self) -> Vec<String> {
        let [with, without] = &self.fields;
        let all = [
            ("pointer", &self.pointers),
            ("a field with payload of", with),
            ("a field without of", without),
        ];
        let mut never = vec![];
        for (what, counts) in all {
            // No pointer, and no field, goes past a packet.
            let lengths = counts[..PACKET - 4].iter().enumerate();
            let missing = lengths.filter(|(_, &count)| count == 0);
            never.extend(missing.map(|(length, _)| format!("{what} {length}: 0")));
        }
        never
    }
}

/// The lengths of sections that lie end to end.
fn lengths(mut sections: &[u8]) -> Vec<usize> {
    let mut lengths = vec![];
    while let [_, high, low, ..] = sections {
        let length = 3 + usize::from(high & 15) * 256 + usize::from(*low);
        lengths.push(length);
        sections = &sections[length..];
    }
    lengths
}

impl Display for Counts {
    /// A line for each refusal and each kind, a column for each call; then the bounds.
    fn fmt(&self, f: &mut fmt::Formatter<'_>) -> fmt::Result {
        let rows = REFUSALS.iter().zip(&self.refusals);
        write_columns(
            f,
            &CALLS,
            rows.map(|((number, _), counts)| (number, &counts[..])),
        )?;
        for (kind, [feed, gather, _]) in KINDS.iter().zip(&self.kinds) {
            writeln!(
                f,
                "packets {kind}: {feed} one by one, {gather} in stretches"
            )?;
        }
        let limits = LIMITS.iter().zip(&self.limits);
        let limits: Vec<_> = limits
            .map(|(what, count)| format!("{what} {count}"))
            .collect();
        write!(f, "packets at the bounds: {}", limits.join(", "))
    }
}

#[cfg(test)]
mod tests {
    use super::*;

    #[test]
    fn what_is_rare_and_what_can_not_come_is_told() {
        let mut counts = Counts::default();
        let possible = REFUSALS.iter().flat_map(|(_, can)| can).filter(|can| **can);
        let all = possible.count() + 2 * KINDS.len() + LIMITS.len() + 3 * (PACKET - 4);
        assert_eq!(counts.rare(1).len(), all);
        counts.written(&Err(1));
        counts.written(&Err(25));
        counts.written(&Err(24));
        let rare = counts.rare(1);
        assert!(rare.contains(&"1 by write: 1".to_string()));
        assert!(!rare.contains(&"25 by write: 0".to_string()));
        assert!(rare.contains(&"other refusals: 1".to_string()));
    }

    #[test]
    fn sections_end_to_end_are_told_apart() {
        assert_eq!(lengths(&[1, 0xF0, 1, 9, 2, 0, 0]), [4, 3]);
        assert_eq!(lengths(&[]), []);
    }
}
