//! Straight from transport packets (02, §2): the packets of one PID go in, the whole sections that they carry come out, end to
//! end. Refusals 40 to 43, the lowest first. And the writer of one section's packets.
//!
//! A section that has begun and is not whole is "in hand". It has begun at a unit start, and a break of the counter drops it.
//! Sections are not judged here, only cut by their lengths.

use crate::refusal;
use crate::section::{whole_length, BEFORE_LENGTH};

/// The bytes of a packet.
pub const PACKET: usize = 188;
/// The most bytes of a section, 3 + L for the largest L.
pub const LARGEST: usize = BEFORE_LENGTH + 0xFFF;
/// One packet never hands on more bytes than these: a section that lacked its last byte, and what may follow it.
pub const ROOM: usize = LARGEST - 1 + (PACKET - HEAD);
/// The bytes of a state, as [`Transport::to_bytes`] lays it out.
pub const STATE: usize = HELD + LARGEST - 1;
/// The most packets of one section.
pub const MOST_PACKETS: usize = packets_of(LARGEST);

const SYNC: u8 = 0x47;
/// The header's bytes, before adaptation field and payload.
const HEAD: usize = 4;
/// Where error, unit start, priority and the upper bits of the PID stand.
const FLAGS: usize = 1;
/// Where scrambling, adaptation control and counter stand.
const CONTROL: usize = 3;
/// Bits of byte 1.
const ERROR: u8 = 0x80;
const UNIT_START: u8 = 0x40;
const PID_HIGH: u8 = 0x1F;
/// Bits of byte 3.
const SCRAMBLED: u8 = 0xC0;
const ADAPTATION: u8 = 0x20;
const PAYLOAD: u8 = 0x10;
const COUNTER: u8 = 0x0F;
/// The largest PID.
const LARGEST_PID: u16 = 0x1FFF;
/// Where a section would begin, this byte says that none does.
const STUFFING: u8 = 0xFF;
/// Where the bytes in hand begin in a state: behind the last packet and their number.
const HELD: usize = PACKET + 2;

/// What became of a packet.
#[derive(Clone, Copy, PartialEq, Eq, Debug)]
pub enum Answer {
    /// It was taken.
    Taken,
    /// It was taken, and broke the counter: what was in hand is dropped.
    Broken,
    /// It is the last packet once more, and was passed over.
    Repeated,
    /// It was refused, with 40 to 43.
    Refused(u8),
}

/// What became of a stretch of packets.
#[derive(Clone, Copy, PartialEq, Eq, Debug, Default)]
pub struct Gathered {
    /// The bytes that were gone through.
    pub passed: usize,
    /// The bytes of whole sections that were handed on.
    pub size: usize,
    /// Packets that were taken, those that broke the counter among them.
    pub taken: usize,
    /// Those that were passed over as repeats.
    pub repeated: usize,
    /// Those that broke the counter.
    pub broken: usize,
    /// Those that were refused, with 40, 41, 42 and 43.
    pub refused: [usize; 4],
}

impl Gathered {
    fn count(&mut self, answer: Answer) {
        match answer {
            Answer::Taken => self.taken += 1,
            Answer::Broken => {
                self.taken += 1;
                self.broken += 1;
            }
            Answer::Repeated => self.repeated += 1,
            Answer::Refused(number) => self.refused[usize::from(number - refusal::PACKET)] += 1,
        }
    }
}

/// The packets of one PID, as they have come so far.
#[derive(Clone, PartialEq, Eq, Debug)]
pub struct Transport {
    pid: u16,
    /// The last packet that was not refused; zeros, which are no packet, before the first.
    last: [u8; PACKET],
    /// The section in hand: at least one byte less than it says it has.
    hand: Vec<u8>,
}

impl Transport {
    /// Nothing has come yet. No packet has a PID above 0x1FFF, so each is refused with 42 for such a one.
    #[must_use]
    pub fn new(pid: u16) -> Transport {
        Transport {
            pid,
            last: [0; PACKET],
            hand: Vec::with_capacity(LARGEST + PACKET),
        }
    }

    /// Takes one packet, and appends the sections that end in it to `out`.
    pub fn feed(&mut self, packet: &[u8], out: &mut Vec<u8>) -> Answer {
        let mut hand = Hand {
            bytes: &mut self.hand,
            begin: 0,
        };
        let (answer, taken) = pass(packet, self.pid, &self.last, &mut hand);
        let whole = hand.begin;
        if whole > 0 {
            out.extend_from_slice(&self.hand[..whole]);
            self.hand.drain(..whole);
        }
        if let Some(packet) = taken {
            self.last = *packet;
        }
        answer
    }

    /// Takes the packets of a stretch, a shorter rest as one packet, as long as at least [`ROOM`] of `room` bytes are left before
    /// it, and appends the sections that end in them to `out`. What is in hand lies behind them while this lasts, so that
    /// each byte is copied once; and the last packet is copied only when all is done.
    ///
    /// # Errors
    /// 21 for less room than [`ROOM`]; nothing is passed then.
    pub fn gather(
        &mut self,
        packets: &[u8],
        out: &mut Vec<u8>,
        room: usize,
    ) -> Result<Gathered, u8> {
        if room < ROOM {
            return Err(refusal::ROOM);
        }
        let first = out.len();
        let (mut gathered, mut last) = (Gathered::default(), &self.last);
        out.extend_from_slice(&self.hand);
        let mut hand = Hand {
            bytes: out,
            begin: first,
        };
        for packet in packets.chunks(PACKET) {
            if room - (hand.begin - first) < ROOM {
                break;
            }
            let (answer, taken) = pass(packet, self.pid, last, &mut hand);
            gathered.count(answer);
            gathered.passed += packet.len();
            last = taken.unwrap_or(last);
        }
        let begin = hand.begin;
        gathered.size = begin - first;
        self.last = *last;
        self.hand.clear();
        self.hand.extend_from_slice(&out[begin..]);
        out.truncate(begin);
        Ok(gathered)
    }

    /// Out of a state's bytes. What lies past the bytes in hand is not looked at.
    ///
    /// # Errors
    /// 1 for a state that packets of this PID can not have left.
    pub fn from_bytes(pid: u16, state: &[u8]) -> Result<Transport, u8> {
        let state = state.first_chunk::<STATE>().ok_or(refusal::RECORD)?;
        let (last, rest) = state.split_first_chunk().ok_or(refusal::RECORD)?;
        let (&held, rest) = rest.split_first_chunk().ok_or(refusal::RECORD)?;
        let held = usize::from(u16::from_be_bytes(held));
        let hand = rest.get(..held).ok_or(refusal::RECORD)?;
        let fits = if *last == [0; PACKET] {
            hand.is_empty()
        } else {
            opened(last, pid).is_ok() && is_head(hand)
        };
        if !fits {
            return Err(refusal::RECORD);
        }
        let mut transport = Transport::new(pid);
        transport.last = *last;
        transport.hand.extend_from_slice(hand);
        Ok(transport)
    }

    /// Into a state of at least [`STATE`] bytes: the last packet, how many bytes are in hand (16 bits), and these. What lies past them
    /// stays as it was.
    pub fn to_bytes(&self, state: &mut [u8]) {
        state[..PACKET].copy_from_slice(&self.last);
        state[PACKET..HELD].copy_from_slice(&(self.hand.len() as u16).to_be_bytes());
        state[HELD..HELD + self.hand.len()].copy_from_slice(&self.hand);
    }
}

/// Whether bytes can be in hand: a section has begun, and is not whole. So can none at all.
fn is_head(hand: &[u8]) -> bool {
    let whole = whole_length(hand).is_some_and(|length| hand.len() >= length);
    hand.first() != Some(&STUFFING) && !whole
}

/// The section in hand: the bytes from `begin` on. Those before it are whole sections.
struct Hand<'a> {
    bytes: &'a mut Vec<u8>,
    begin: usize,
}

impl Hand<'_> {
    /// Drops the section in hand, if there is one.
    fn drop(&mut self) {
        self.bytes.truncate(self.begin);
    }

    /// How many bytes the section in hand lacks, as far as can be told: those of its length while it isn't told.
    fn lacks(&self) -> usize {
        let held = &self.bytes[self.begin..];
        whole_length(held).unwrap_or(BEFORE_LENGTH) - held.len()
    }

    /// Adds to the section in hand, if there is one, up to its end. What comes after that belongs to none.
    fn go_on(&mut self, mut bytes: &[u8]) {
        while self.begin < self.bytes.len() && !bytes.is_empty() {
            let (more, rest) = bytes.split_at(self.lacks().min(bytes.len()));
            self.bytes.extend_from_slice(more);
            bytes = rest;
            if self.lacks() == 0 {
                self.begin = self.bytes.len();
            }
        }
    }

    /// Begins sections, back to back up to the end or stuffing; the last need not be whole.
    fn begin(&mut self, bytes: &[u8]) {
        let (mut whole, mut end) = (0, bytes.len());
        while let Some(&first) = bytes.get(whole) {
            if first == STUFFING {
                end = whole;
                break;
            }
            match whole_length(&bytes[whole..]) {
                Some(length) if length <= bytes.len() - whole => whole += length,
                _ => break,
            }
        }
        self.bytes.extend_from_slice(&bytes[..end]);
        self.begin += whole;
    }
}

/// What a packet carries.
enum Content<'a> {
    /// No payload.
    Nothing,
    /// Bytes of the section in hand.
    More(&'a [u8]),
    /// A unit start: bytes of the section in hand, and those where the next ones begin.
    Start(&'a [u8], &'a [u8]),
}

/// What a packet does to the section in hand; and the packet itself where it is taken.
#[inline]
fn pass<'a>(
    packet: &'a [u8],
    pid: u16,
    last: &[u8; PACKET],
    hand: &mut Hand<'_>,
) -> (Answer, Option<&'a [u8; PACKET]>) {
    let (packet, content) = match opened(packet, pid) {
        Ok(opened) => opened,
        Err(number) => return (Answer::Refused(number), None),
    };
    if packet == last {
        return (Answer::Repeated, None);
    }
    let broken = is_break(packet, last);
    if broken {
        hand.drop();
    }
    match content {
        Content::Nothing => {}
        Content::More(bytes) => hand.go_on(bytes),
        Content::Start(ends, begins) => {
            hand.go_on(ends);
            // A section that needs more than the pointer says has lost its end.
            hand.drop();
            hand.begin(begins);
        }
    }
    let answer = if broken {
        Answer::Broken
    } else {
        Answer::Taken
    };
    (answer, Some(packet))
}

/// Whether the counter is not the one that follows: one more with a payload, the same without. Nothing breaks at the first packet.
fn is_break(packet: &[u8; PACKET], last: &[u8; PACKET]) -> bool {
    let step = u8::from(packet[CONTROL] & PAYLOAD != 0);
    let next = (last[CONTROL] + step) & COUNTER;
    last[0] == SYNC && packet[CONTROL] & COUNTER != next
}

/// The packet, and what it carries: refusals 40 to 43.
#[inline]
fn opened(packet: &[u8], pid: u16) -> Result<(&[u8; PACKET], Content<'_>), u8> {
    let packet: &[u8; PACKET] = packet.try_into().map_err(|_| refusal::PACKET)?;
    if packet[0] != SYNC {
        return Err(refusal::SYNC);
    }
    if u16::from_be_bytes([packet[FLAGS] & PID_HIGH, packet[FLAGS + 1]]) != pid {
        return Err(refusal::PID);
    }
    let content = content(packet).ok_or(refusal::FIELD)?;
    Ok((packet, content))
}

/// What a packet carries; none where refusal 43 meets it.
fn content(packet: &[u8; PACKET]) -> Option<Content<'_>> {
    let control = packet[CONTROL];
    if packet[FLAGS] & ERROR != 0 || control & SCRAMBLED != 0 {
        return None;
    }
    let begin = match control & ADAPTATION {
        0 => HEAD,
        _ => HEAD + 1 + usize::from(packet[HEAD]),
    };
    let payload = packet.get(begin..)?;
    match (control & PAYLOAD != 0, packet[FLAGS] & UNIT_START != 0) {
        (true, false) => Some(Content::More(payload)),
        (true, true) => {
            let (&pointer, bytes) = payload.split_first()?;
            let (ends, begins) = bytes.split_at_checked(pointer.into())?;
            Some(Content::Start(ends, begins))
        }
        // Adaptation control 00 is reserved.
        (false, _) => (control & ADAPTATION != 0).then_some(Content::Nothing),
    }
}

/// Writes the packets of one section at the start of `out`, the counters from this one on, and answers how many they are. The last is
/// filled up with 0xFF. What `out` has past them stays as it was.
///
/// # Errors
/// 2 for a section that is not 3 + L bytes long; then 3 for one that begins with 0xFF; then 21 for a buffer shorter than the packets;
/// then 25 for a PID above 0x1FFF or a counter above 15. Nothing is written then.
pub fn write_packets(pid: u16, counter: u8, section: &[u8], out: &mut [u8]) -> Result<usize, u8> {
    if whole_length(section) != Some(section.len()) {
        return Err(refusal::SIZE);
    }
    if section[0] == STUFFING {
        return Err(refusal::TABLE);
    }
    let count = packets_of(section.len());
    let out = out.get_mut(..count * PACKET).ok_or(refusal::ROOM)?;
    if pid > LARGEST_PID || counter > COUNTER {
        return Err(refusal::RANGE);
    }
    let [high, low] = pid.to_be_bytes();
    let mut rest = section;
    for (place, packet) in out.as_chunks_mut::<PACKET>().0.iter_mut().enumerate() {
        let (flags, begin) = match place {
            0 => (UNIT_START | high, HEAD + 1),
            _ => (high, HEAD),
        };
        let counter = counter.wrapping_add(place as u8) & COUNTER;
        let (bytes, more) = rest.split_at(rest.len().min(PACKET - begin));
        let end = begin + bytes.len();
        // Byte 4 is the first packet's pointer; in the others it is payload.
        packet[..=HEAD].copy_from_slice(&[SYNC, flags, low, PAYLOAD | counter, 0]);
        packet[begin..end].copy_from_slice(bytes);
        packet[end..].fill(STUFFING);
        rest = more;
    }
    Ok(count)
}

/// How many packets a section of so many bytes needs, with the pointer before it.
const fn packets_of(length: usize) -> usize {
    (length + 1).div_ceil(PACKET - HEAD)
}

const _: () = assert!(ROOM == 4_281 && STATE == 4_287 && MOST_PACKETS == 23);
