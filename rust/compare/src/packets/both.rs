//! Both side by side: each call's answer, all bytes of the buffer and all of the state after it.

use baseline::transport::{self as theirs, Answer, PACKET, ROOM};
use nebosvar::transport::{self as ours, Gathered, PacketKind};
use nebosvar::Refusal;

use super::counts::Counts;
use crate::difference::{same, same_bytes, Same};
use crate::fence::{Edge, Lender};
use crate::pair::Image;

/// The most bytes of a stretch that is lent.
pub const MOST_LENT: usize = 60 * PACKET;

/// What one packet handed on, and what became of it.
type Fed = Result<(usize, PacketKind), u8>;

/// A PID, and the state of each; ours lies at a fence, if there is an edge.
pub struct Both {
    pub pid: u16,
    ours: Image,
    theirs: Vec<u8>,
    edge: Option<Edge>,
    lender: Lender,
}

impl Both {
    /// Both with this state.
    pub fn new(pid: u16, state: &[u8], edge: Option<Edge>) -> Both {
        Both {
            pid,
            ours: Image::new(state, edge),
            theirs: state.to_vec(),
            edge,
            lender: Lender::new(edge, MOST_LENT),
        }
    }

    /// The state of both.
    pub fn state(&self) -> &[u8] {
        &self.theirs
    }

    /// One packet, into a buffer with these bytes; gives the sections that are handed on.
    pub fn feed(&mut self, packet: &[u8], before: &[u8], counts: &mut Counts) -> Same<Vec<u8>> {
        let (mut out, mut wanted) = (Image::new(before, self.edge), before.to_vec());
        let lent = self.lender.lend(packet);
        let fed = ours::feed(self.pid, lent, self.ours.bytes_mut(), out.bytes_mut());
        let fed = fed.map(|fed| (fed.size, fed.kind));
        let fed = fed.map_err(Refusal::number);
        let was = self.theirs.clone();
        let theirs = their_feed(self.pid, packet, &mut self.theirs, &mut wanted);
        same("a packet", &fed, &theirs)?;
        self.check(&out, &wanted)?;
        // "A refusal changes neither", nor does a repeat.
        if !matches!(fed, Ok((_, PacketKind::Taken | PacketKind::Broken))) {
            same_bytes("state after nothing was taken", &self.theirs, &was)?;
            same_bytes("buffer after nothing was taken", &wanted, before)?;
        }
        let size = fed.map_or(0, |(size, _)| size);
        counts.fed(packet, &fed, &wanted[..size], &self.theirs);
        wanted.truncate(size);
        Ok(wanted)
    }

    /// A stretch of packets, into a buffer with these bytes; gives how many bytes were passed, and the sections that are handed on.
    pub fn gather(
        &mut self,
        packets: &[u8],
        before: &[u8],
        counts: &mut Counts,
    ) -> Same<(usize, Vec<u8>)> {
        let (mut out, mut wanted) = (Image::new(before, self.edge), before.to_vec());
        let lent = self.lender.lend(packets);
        let gathered = ours::gather(self.pid, lent, self.ours.bytes_mut(), out.bytes_mut());
        let gathered = gathered.map_err(Refusal::number);
        let theirs = their_gather(self.pid, packets, &mut self.theirs, &mut wanted)?;
        same("a stretch", &gathered, &theirs)?;
        self.check(&out, &wanted)?;
        counts.gathered(packets, &gathered);
        let gathered = gathered.unwrap_or_default();
        wanted.truncate(gathered.size);
        Ok((gathered.passed, wanted))
    }

    /// All that was lent is as it must be.
    fn check(&self, out: &Image, wanted: &[u8]) -> Same {
        same_bytes("buffer", out.bytes(), wanted)?;
        same_bytes("state", self.ours.bytes(), &self.theirs)?;
        let guarded = out.is_guarded() && self.ours.is_guarded();
        same("guards", &guarded, &true)
    }
}

/// The independent call, over bytes: refusals 1 and 21, then those of the packet.
fn their_feed(pid: u16, packet: &[u8], state: &mut [u8], out: &mut [u8]) -> Fed {
    let mut transport = theirs::Transport::from_bytes(pid, state)?;
    if out.len() < ROOM {
        return Err(21);
    }
    let mut sections = vec![];
    let kind = match transport.feed(packet, &mut sections) {
        Answer::Taken => PacketKind::Taken,
        Answer::Broken => PacketKind::Broken,
        Answer::Repeated => PacketKind::Repeated,
        Answer::Refused(number) => return Err(number),
    };
    out[..sections.len()].copy_from_slice(&sections);
    transport.to_bytes(state);
    Ok((sections.len(), kind))
}

/// The same of a stretch.
fn their_gather(
    pid: u16,
    packets: &[u8],
    state: &mut [u8],
    out: &mut [u8],
) -> Same<Result<Gathered, u8>> {
    let mut transport = match theirs::Transport::from_bytes(pid, state) {
        Ok(transport) => transport,
        Err(number) => return Ok(Err(number)),
    };
    let mut single = transport.clone();
    let mut sections = vec![];
    let gathered = match transport.gather(packets, &mut sections, out.len()) {
        Ok(gathered) => gathered,
        Err(number) => return Ok(Err(number)),
    };
    out[..sections.len()].copy_from_slice(&sections);
    // What lies past the bytes in hand is what packets left there that were taken one by one.
    for packet in packets[..gathered.passed].chunks(PACKET) {
        single.feed(packet, &mut vec![]);
        single.to_bytes(state);
    }
    same("the baseline's own walks", &transport, &single)?;
    let [refused40, refused41, refused42, refused43] = gathered.refused;
    Ok(Ok(Gathered {
        passed: gathered.passed,
        size: gathered.size,
        taken: gathered.taken,
        repeated: gathered.repeated,
        broken: gathered.broken,
        refused40,
        refused41,
        refused42,
        refused43,
    }))
}
