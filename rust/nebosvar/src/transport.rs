//! Straight from transport packets: out of those of one PID come the whole sections that they carry, end to end, as
//! [`Record::run`](crate::Record::run) takes them. And one section into packets.
//!
//! [`Transport`] holds what has to be kept from call to call: the last packet, and the section that has begun and is not whole. An
//! exact repeat of the last packet is passed over; any other break of the counter drops the section that has begun. Sections are not
//! judged here. The archive's own calls, of any state, are [`feed`] and [`gather`]; [`write_packets`] makes packets.
//!
//! Refusals, of several the lowest: 1 for a state that packets can not have left, 21 for too short a buffer, 40 for a packet
//! that has not 188 bytes, 41 for its sync byte, 42 for another PID, 43 for a transport error, scrambling, adaptation control 00,
//! or a field that runs past the packet. A refused packet does not stop the rest.
//!
//! ```
//! use nebosvar::transport::{write_packets, Gathered, Transport, PACKET, ROOM};
//!
//! // Two sections of 3 + 197 and 3 + 5 bytes, in packets of PID 0x123: two and one.
//! let mut first = [7; 200];
//! first[1..3].copy_from_slice(&[0xB0, 197]);
//! let second = [8, 0xB0, 5, 1, 2, 3, 4, 5];
//! let mut packets = [0; 3 * PACKET];
//! assert_eq!(write_packets(0x123, 15, &first, &mut packets), Ok(2));
//! assert_eq!(write_packets(0x123, 1, &second, &mut packets[2 * PACKET..]), Ok(1));
//!
//! // And out of them, the first packet by itself.
//! let mut transport = Transport::new(0x123);
//! let mut out = [0; ROOM + 208];
//! assert_eq!(transport.feed(&packets[..PACKET], &mut out)?.size, 0);
//! let gathered = transport.gather(&packets[PACKET..], &mut out)?;
//! assert_eq!(gathered, Gathered { passed: 2 * PACKET, size: 208, taken: 2, ..Gathered::default() });
//! assert_eq!(out[..200], first);
//! assert_eq!(out[200..208], second);
//! # Ok::<(), nebosvar::Refusal>(())
//! ```

use crate::ffi;
use crate::proved::excluded;
use crate::Refusal;

/// The bytes of a packet.
pub const PACKET: usize = 188;

/// The bytes of a state: the last packet that was not refused (zeros before the first), how many bytes are in hand (16 bits, the
/// high byte first), and these, up to 4,097. What lies past them is neither looked at nor changed.
pub const STATE: usize = 4_287;

/// The least room for what one packet may hand on: a buffer of fewer bytes is refused with 21.
pub const ROOM: usize = 4_281;

/// The most packets of one section: a buffer of so many times [`PACKET`] is never too short for [`write_packets`].
pub const MOST_PACKETS: usize = 23;

/// What became of a packet that was not refused.
#[derive(Clone, Copy, PartialEq, Eq, Debug)]
pub enum PacketKind {
    /// It was taken.
    Taken,
    /// It was taken, though its counter is not the one that follows: the section in hand was dropped.
    Broken,
    /// It is the last packet, byte for byte, and was passed over: nothing changed.
    Repeated,
}

impl PacketKind {
    /// A packet's refusal and kind.
    pub(crate) fn check(refusal: u8, kind: u8) -> Result<PacketKind, Refusal> {
        Refusal::check(refusal, ffi::NOWHERE)?;
        match kind {
            1 => Ok(PacketKind::Taken),
            2 => Ok(PacketKind::Broken),
            3 => Ok(PacketKind::Repeated),
            _ => excluded(),
        }
    }
}

/// What one packet handed on.
#[derive(Clone, Copy, PartialEq, Eq, Debug)]
pub struct Fed {
    /// The bytes of whole sections, at the start of `out`.
    pub size: usize,
    /// What became of the packet.
    pub kind: PacketKind,
}

/// What a stretch of packets handed on.
#[derive(Clone, Copy, PartialEq, Eq, Debug, Default)]
pub struct Gathered {
    /// The bytes of the stretch that were gone through: a next call goes on there, once `out` has been emptied.
    pub passed: usize,
    /// The bytes of whole sections, at the start of `out`.
    pub size: usize,
    /// Packets that were taken, with or without payload, those that broke the counter among them.
    pub taken: usize,
    /// Those that were passed over as repeats.
    pub repeated: usize,
    /// Those that broke the counter.
    pub broken: usize,
    /// Those of another length than 188 bytes.
    pub refused40: usize,
    /// Those without the sync byte.
    pub refused41: usize,
    /// Those of another PID.
    pub refused42: usize,
    /// Those with an error, scrambled, or with a field that is wrong.
    pub refused43: usize,
}

/// The packets of one PID, as they have come so far.
///
/// ```
/// use nebosvar::transport::{PacketKind, Transport, ROOM};
/// use nebosvar::Refusal;
///
/// // A packet that begins a section of 3 + 200 bytes.
/// let mut packet = [0x55; 188];
/// packet[..8].copy_from_slice(&[0x47, 0x41, 0x23, 0x10, 0, 7, 0xB0, 200]);
///
/// let mut transport = Transport::new(0x123);
/// let mut out = [0; ROOM];
/// assert_eq!(transport.feed(&packet, &mut out)?.kind, PacketKind::Taken);
/// assert_eq!(transport.feed(&packet, &mut out)?.kind, PacketKind::Repeated);
/// packet[3] = 0x12; // 0x11 is lost
/// assert_eq!(transport.feed(&packet, &mut out)?.kind, PacketKind::Broken);
/// assert_eq!(transport.feed(&packet[1..], &mut out), Err(Refusal::PACKET_LENGTH));
/// assert_eq!(transport.feed(&packet, &mut out[1..]), Err(Refusal::SHORT_BUFFER));
/// # Ok::<(), Refusal>(())
/// ```
#[derive(Clone, PartialEq, Eq, Debug)]
pub struct Transport {
    pid: u16,
    state: [u8; STATE],
}

impl Transport {
    /// Nothing has come yet. A PID above 0x1FFF is that of no packet: each is refused with 42.
    pub const fn new(pid: u16) -> Transport {
        Transport {
            pid,
            state: [0; STATE],
        }
    }

    /// Takes one packet; the sections that end in it are at the start of `out`. It can refuse with 21, where `out` has fewer than
    /// [`ROOM`] bytes, and with 40 to 43. See [`feed`].
    pub fn feed(&mut self, packet: &[u8], out: &mut [u8]) -> Result<Fed, Refusal> {
        feed(self.pid, packet, &mut self.state, out)
    }

    /// Takes the packets of a stretch. It can refuse with 21. See [`gather`].
    pub fn gather(&mut self, packets: &[u8], out: &mut [u8]) -> Result<Gathered, Refusal> {
        gather(self.pid, packets, &mut self.state, out)
    }
}

/// Takes one packet of this PID, with any bytes as the state that is carried from call to call: at first zeros, [`STATE`] of them.
/// The sections that end in the packet are then at the start of `out`; what lies past them stays as it was.
///
/// It can refuse with 1, for a state that packets of this PID can not have left; then with 21, for an `out` of fewer than [`ROOM`]
/// bytes; then with 40, 41, 42 and 43. Neither the state nor `out` changes then.
///
/// ```
/// use nebosvar::transport::{feed, ROOM, STATE};
/// use nebosvar::Refusal;
///
/// let (mut state, mut out) = ([0; STATE], [0; ROOM]);
/// assert_eq!(feed(7, &[0; 188], &mut state, &mut out), Err(Refusal::PACKET_SYNC));
/// assert_eq!(feed(7, &[0x47; 188], &mut state, &mut out), Err(Refusal::PACKET_PID));
/// state[189] = 1; // a byte in hand before the first packet
/// assert_eq!(feed(7, &[0; 188], &mut state, &mut out), Err(Refusal::BAD_RECORD));
/// ```
pub fn feed(pid: u16, packet: &[u8], state: &mut [u8], out: &mut [u8]) -> Result<Fed, Refusal> {
    // SAFETY: the borrows lend as many bytes as their lengths say, and do not overlap; no precondition.
    let fed = unsafe {
        ffi::nebosvar_feed(
            pid,
            packet.as_ptr(),
            packet.len(),
            state.as_mut_ptr(),
            state.len(),
            out.as_mut_ptr(),
            out.len(),
        )
    };
    let kind = PacketKind::check(fed.refusal, fed.kind)?;
    Ok(Fed {
        size: fed.size,
        kind,
    })
}

/// Takes the packets of a stretch one by one, as [`feed`] does, as long as `out` has [`ROOM`] bytes left before each; so not all
/// need be passed, and [`Gathered::passed`] tells where to go on. A rest of fewer than 188 bytes is one packet, which is refused
/// with 40 and not kept. What lies past the sections in `out` stays as it was.
///
/// It can refuse with 1 and 21, as [`feed`], before the first packet; neither the state nor `out` changes then.
///
/// ```
/// use nebosvar::transport::{gather, Gathered, ROOM, STATE};
/// use nebosvar::Refusal;
///
/// let (mut state, mut out) = ([0; STATE], [0; ROOM]);
/// let wanted = Gathered { passed: 200, refused40: 1, refused41: 1, ..Gathered::default() };
/// assert_eq!(gather(7, &[0; 200], &mut state, &mut out), Ok(wanted));
/// assert_eq!(gather(7, &[], &mut state, &mut out[1..]), Err(Refusal::SHORT_BUFFER));
/// assert_eq!(gather(7, &[], &mut state[1..], &mut out), Err(Refusal::BAD_RECORD));
/// ```
pub fn gather(
    pid: u16,
    packets: &[u8],
    state: &mut [u8],
    out: &mut [u8],
) -> Result<Gathered, Refusal> {
    // SAFETY: the borrows lend as many bytes as their lengths say, and do not overlap; no precondition.
    let gathered = unsafe {
        ffi::nebosvar_gather(
            pid,
            packets.as_ptr(),
            packets.len(),
            state.as_mut_ptr(),
            state.len(),
            out.as_mut_ptr(),
            out.len(),
        )
    };
    Refusal::check(gathered.refusal, ffi::NOWHERE)?;
    Ok(Gathered {
        passed: gathered.passed,
        size: gathered.size,
        taken: gathered.taken,
        repeated: gathered.repeated,
        broken: gathered.broken,
        refused40: gathered.refused40,
        refused41: gathered.refused41,
        refused42: gathered.refused42,
        refused43: gathered.refused43,
    })
}

/// Writes the packets of one section at the start of `out`, and answers how many they are, each of [`PACKET`] bytes. The first
/// has the unit start and a pointer of 0; the last is filled up with 0xFF; the counters go on from this one. What `out` has past
/// them stays as it was; a refusal writes nothing.
///
/// It can refuse with 2, for a section that is not 3 + L bytes long; then with 3, for one that begins with 0xFF, which would be
/// stuffing; then with 21, for an `out` shorter than the packets; then with 25, for a PID above 0x1FFF or a counter above 15.
///
/// ```
/// use nebosvar::transport::{write_packets, PACKET};
/// use nebosvar::Refusal;
///
/// let mut out = [0; PACKET];
/// assert_eq!(write_packets(0x123, 9, &[7, 0xB0, 1, 5], &mut out), Ok(1));
/// assert_eq!(out[..10], [0x47, 0x41, 0x23, 0x19, 0, 7, 0xB0, 1, 5, 0xFF]);
///
/// assert_eq!(write_packets(0x123, 9, &[7, 0xB0, 2, 5], &mut out), Err(Refusal::bad_size(4)));
/// assert_eq!(write_packets(0x123, 9, &[0xFF, 0xB0, 1, 5], &mut out), Err(Refusal::bad_table(0)));
/// assert_eq!(write_packets(0x123, 9, &[7, 0xB0, 1, 5], &mut out[1..]), Err(Refusal::SHORT_BUFFER));
/// assert_eq!(write_packets(0x123, 16, &[7, 0xB0, 1, 5], &mut out), Err(Refusal::OUT_OF_RANGE));
/// ```
pub fn write_packets(
    pid: u16,
    counter: u8,
    section: &[u8],
    out: &mut [u8],
) -> Result<usize, Refusal> {
    // SAFETY: the borrows lend as many bytes as their lengths say, and do not overlap; no precondition.
    let packed = unsafe {
        ffi::nebosvar_write_packets(
            pid,
            counter,
            section.as_ptr(),
            section.len(),
            out.as_mut_ptr(),
            out.len(),
        )
    };
    Refusal::check(packed.refusal, place_of(packed.refusal, section))?;
    Ok(packed.packets)
}

/// Where the section broke. The archive does not tell it here, since the number does: 2 at the lent length, 3 at byte 0.
fn place_of(refusal: u8, section: &[u8]) -> usize {
    match refusal {
        2 => section.len(),
        3 => 0,
        _ => ffi::NOWHERE,
    }
}
