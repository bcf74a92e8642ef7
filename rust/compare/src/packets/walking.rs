//! A stream, packet by packet and in stretches. In between, states that packets can not have left, and short buffers.

use baseline::transport::{PACKET, ROOM, STATE};

use super::both::{Both, MOST_LENT};
use super::counts::Counts;
use super::Stream;
use crate::difference::{same, same_bytes, Same};
use crate::fence::Edge;
use crate::random::Random;

/// The most bytes by which a buffer or a state is longer than it has to be.
const LONGER: usize = 60;
/// Where a state tells how many bytes are in hand, and where these begin.
const COUNT: usize = PACKET;
const HELD: usize = PACKET + 2;
/// Of so many calls one is tried besides with what is to be refused.
const TRIED: usize = 12;

/// Compares both over the stream, in both ways; however packets are grouped, the same sections come out.
pub fn compare(
    stream: &Stream,
    edge: Option<Edge>,
    random: &mut Random,
    counts: &mut Counts,
) -> Same {
    let state = start(random);
    let before = random.bytes(10 * ROOM);
    let mut single = Both::new(stream.pid, &state, edge);
    let mut sections = vec![];
    for (place, packet) in stream.packets.iter().enumerate() {
        let room = ROOM + random.below(LONGER);
        let at = |difference: crate::difference::Difference| difference.at(place);
        if random.one_in(TRIED) {
            refused(&single, packet, edge, &before, random, counts).map_err(at)?;
        }
        let handed = single.feed(packet, &before[..room], counts).map_err(at)?;
        sections.extend(handed);
    }
    let mut grouped = Both::new(stream.pid, &state, edge);
    let bytes = stream.packets.concat();
    let whole = stream.packets.iter().all(|packet| packet.len() == PACKET);
    let handed = stretches(&mut grouped, &bytes, whole, &before, random, counts)?;
    if whole {
        same_bytes("sections in both ways", &handed, &sections)?;
        same_bytes("states in both ways", grouped.state(), single.state())?;
    }
    Ok(())
}

/// A state before the first packet: what lies past the number of bytes in hand is not looked at.
fn start(random: &mut Random) -> Vec<u8> {
    let mut state = match random.below(3) {
        0 => vec![0; STATE],
        1 => random.bytes(STATE),
        _ => random.bytes(STATE + LONGER),
    };
    state[..HELD].fill(0);
    state
}

/// All of the stream in stretches; those of whole packets are cut between them. Gives the sections.
fn stretches(
    both: &mut Both,
    bytes: &[u8],
    whole: bool,
    before: &[u8],
    random: &mut Random,
    counts: &mut Counts,
) -> Same<Vec<u8>> {
    let (mut sections, mut at) = (vec![], 0);
    while at < bytes.len() {
        let length = match random.below(8) {
            0 if !whole => random.below(MOST_LENT),
            1 => 0,
            2 => MOST_LENT,
            _ => PACKET * random.within(1..=12),
        };
        let room = match random.below(4) {
            0 => ROOM,
            1 => ROOM + random.below(400),
            2 => ROOM + random.below(ROOM),
            _ => before.len(),
        };
        let stretch = &bytes[at..bytes.len().min(at + length)];
        let (passed, handed) = both
            .gather(stretch, &before[..room], counts)
            .map_err(|difference| difference.at(at))?;
        same(
            "at least one packet is passed",
            &(passed == 0),
            &stretch.is_empty(),
        )?;
        sections.extend(handed);
        at += passed;
    }
    Ok(sections)
}

/// The same packet with a state that can not have been left, or into a short buffer, or both: by each call.
fn refused(
    both: &Both,
    packet: &[u8],
    edge: Option<Edge>,
    before: &[u8],
    random: &mut Random,
    counts: &mut Counts,
) -> Same {
    let (mut pid, mut state) = (both.pid, both.state().to_vec());
    let short = [0, 1, random.below(ROOM), ROOM - 1];
    let mut room = random.pick(&short);
    if random.one_in(2) {
        if random.one_in(8) {
            pid ^= 1 << random.below(16);
        } else {
            damage(&mut state, random);
        }
        room = random.pick(&[room, ROOM]);
    }
    let mut other = Both::new(pid, &state, edge);
    other.feed(packet, &before[..room], counts)?;
    let mut other = Both::new(pid, &state, edge);
    let bytes = random.pick(&[&[][..], packet]);
    other.gather(bytes, &before[..room], counts)?;
    Ok(())
}

/// One of the ways in which a state can be wrong; some of them may leave it right.
fn damage(state: &mut Vec<u8>, random: &mut Random) {
    let held = usize::from(u16::from_be_bytes([state[COUNT], state[COUNT + 1]]));
    match random.below(10) {
        0 => state.truncate(random.within(STATE - 1..=STATE)),
        1 => state.truncate(random.below(STATE)),
        // Something in hand before the first packet, or nothing.
        2 => state[..PACKET].fill(0),
        3 => state[random.below(5)] ^= 1 << random.below(8),
        4 => state[random.below(PACKET)] = random.byte(),
        // Stuffing in hand, or none if nothing is.
        5 => state[HELD] = 0xFF,
        // As many bytes as the section has, or one fewer or more.
        6 => {
            let length = usize::from(state[HELD + 1] & 15) * 256 + usize::from(state[HELD + 2]) + 3;
            tell(state, random.within(length - 1..=length + 1));
        }
        // A length that what is in hand is just about.
        7 => {
            let length = held.max(3) - 3 + random.below(3);
            state[HELD + 1] = (length >> 8) as u8;
            state[HELD + 2] = length as u8;
        }
        8 => tell(
            state,
            random.pick(&[1, 2, 3, 4_096, 4_097, 4_098, 4_099, 65_535]),
        ),
        _ => tell(state, random.below(65_536)),
    }
}

/// Puts the number of bytes in hand.
fn tell(state: &mut [u8], held: usize) {
    state[COUNT..HELD].copy_from_slice(&(held as u16).to_be_bytes());
}
