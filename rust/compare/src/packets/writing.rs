//! A section of each length into packets, by both writers, byte for byte; and what was written is fed back.

use std::ops::RangeInclusive;

use baseline::transport::{self as theirs, LARGEST, MOST_PACKETS, PACKET};
use nebosvar::transport::{self as ours, PacketKind, Transport, ROOM};
use nebosvar::Refusal;

use super::counts::Counts;
use super::streams::section;
use crate::difference::{same, same_bytes, Same};
use crate::fence::{Edge, Lender};
use crate::pair::Image;
use crate::random::Random;

/// Every length of a section.
pub const LENGTHS: RangeInclusive<usize> = 3..=LARGEST;
/// The most bytes by which a buffer is longer than it has to be.
const LONGER: usize = 60;

/// What both writers are told.
struct Draft<'a> {
    pid: u16,
    counter: u8,
    section: &'a [u8],
}

/// Compares both writers over a section of this length and its like that are refused.
pub fn compare(
    length: usize,
    edge: Option<Edge>,
    random: &mut Random,
    counts: &mut Counts,
) -> Same {
    let whole = section(random, length);
    let before = random.bytes(MOST_PACKETS * PACKET + LONGER);
    let (pid, counter) = (random.below(0x2000) as u16, random.below(16) as u8);
    let size = (length + 1).div_ceil(PACKET - 4) * PACKET;
    let write = |pid, counter, section: &[u8], room: usize, counts: &mut Counts| {
        let draft = Draft {
            pid,
            counter,
            section,
        };
        written(&draft, edge, &before[..room], counts)
    };
    for room in [size, size + random.within(1..=LONGER)] {
        let packets = write(pid, counter, &whole, room, counts)?;
        heard(pid, &whole, &packets, &before[..ROOM])?;
    }
    let wide = (
        random.within(0x2000..=0xFFFF) as u16,
        random.within(16..=255) as u8,
    );
    for (pid, counter) in [(wide.0, counter), (pid, wide.1), (0x2000, 15), (0x1FFF, 16)] {
        for room in [size, size - 1] {
            write(pid, counter, &whole, room, counts)?;
        }
    }
    let mut stuffing = whole.clone();
    stuffing[0] = 0xFF;
    let longer = [&whole[..], &[random.byte()]].concat();
    let wrong = [
        &whole[..length - 1],
        &longer,
        &whole[..random.below(length)],
        &stuffing,
    ];
    for section in wrong {
        for (pid, room) in [(pid, size), (wide.0, random.below(size))] {
            write(pid, counter, section, room, counts)?;
        }
    }
    write(pid, counter, &whole, random.below(size), counts)?;
    Ok(())
}

/// By both, into a buffer with these bytes; gives the packets.
fn written(
    draft: &Draft<'_>,
    edge: Option<Edge>,
    before: &[u8],
    counts: &mut Counts,
) -> Same<Vec<u8>> {
    let (mut out, mut wanted) = (Image::new(before, edge), before.to_vec());
    let mut lender = Lender::new(edge, draft.section.len());
    let section = lender.lend(draft.section);
    let (pid, counter) = (draft.pid, draft.counter);
    let answer = ours::write_packets(pid, counter, section, out.bytes_mut());
    let answer = answer.map_err(Refusal::number);
    let theirs = theirs::write_packets(pid, counter, section, &mut wanted);
    same("packets", &answer, &theirs)?;
    same_bytes("buffer", out.bytes(), &wanted)?;
    same("guards", &out.is_guarded(), &true)?;
    // "A refusal writes nothing", and past the packets nothing is written.
    let size = PACKET * answer.unwrap_or(0);
    same_bytes("past the packets", &wanted[size..], &before[size..])?;
    counts.written(&answer);
    wanted.truncate(size);
    Ok(wanted)
}

/// The section comes out of its packets again, with the last of them.
fn heard(pid: u16, section: &[u8], packets: &[u8], before: &[u8]) -> Same {
    let (mut transport, mut out) = (Transport::new(pid), before.to_vec());
    let last = packets.len() / PACKET - 1;
    for (place, packet) in packets.chunks(PACKET).enumerate() {
        let fed = transport.feed(packet, &mut out);
        let size = if place == last { section.len() } else { 0 };
        let kind = PacketKind::Taken;
        same(
            "a packet that was written",
            &fed,
            &Ok(ours::Fed { size, kind }),
        )?;
    }
    same_bytes("a section that was written", &out[..section.len()], section)
}
