//! "A loss of 1 to 14 payload packets in a row costs exactly the sections with a byte in a lost packet."

use std::ops::RangeInclusive;

use crate::made::{packet, section, start, PID};
use crate::stream::Stream;
use baseline::transport::{Answer, Transport};

impl Stream {
    /// What comes out without these packets, and how many broke the counter.
    fn heard_without(&self, lost: RangeInclusive<usize>) -> (Vec<u8>, usize) {
        let (mut transport, mut out, mut broken) = (Transport::new(PID), vec![], 0);
        for (place, packet) in self.packets.iter().enumerate() {
            if !lost.contains(&place) {
                let answer = transport.feed(packet, &mut out);
                broken += usize::from(answer == Answer::Broken);
            }
        }
        (out, broken)
    }

    /// The sections without a byte in these packets.
    fn untouched(&self, lost: &RangeInclusive<usize>) -> Vec<u8> {
        let apart = |packets: &RangeInclusive<usize>| {
            packets.end() < lost.start() || packets.start() > lost.end()
        };
        let kept = self.sections.iter().filter(|(_, packets)| apart(packets));
        kept.flat_map(|(whole, _)| whole.clone()).collect()
    }
}

#[test]
fn up_to_14_cost_exactly_their_sections() {
    let small = Stream::of((0..120).map(|k| 3 + k * 37 % 200));
    let large = Stream::of((0..12).map(|k| 3 + k * 311 % 4_096));
    for stream in [small, large] {
        for count in 1..=14 {
            for first in 0..=stream.packets.len() - count {
                let lost = first..=first + count - 1;
                let wanted = stream.untouched(&lost);
                let (heard, broken) = stream.heard_without(lost.clone());
                assert!(heard == wanted, "{lost:?}");
                let inside = first > 0 && first + count < stream.packets.len();
                assert_eq!(broken, usize::from(inside));
            }
        }
    }
}

#[test]
fn fifteen_look_like_a_repeat_and_sixteen_like_none() {
    let stream = Stream::of([4_098; 4].into_iter());
    let (heard, broken) = stream.heard_without(3..=17);
    assert_eq!((heard, broken), (stream.untouched(&(3..=17)), 1));
    // A section without its middle, filled up with the next one's head: nobody sees it here.
    let (heard, broken) = stream.heard_without(10..=25);
    assert_eq!(broken, 0);
    assert_ne!(heard, stream.untouched(&(10..=25)));

    // Fifteen between packets that are the same byte for byte: nothing tells them from a repeat.
    let whole = section(4_098, 9);
    let same = packet(false, 1, &[9; 184]);
    let mut transport = Transport::new(PID);
    let first = packet(true, 0, &start(&[], &whole[..183]));
    assert_eq!(transport.feed(&first, &mut vec![]), Answer::Taken);
    assert_eq!(transport.feed(&same, &mut vec![]), Answer::Taken);
    assert_eq!(transport.feed(&same, &mut vec![]), Answer::Repeated);
}
