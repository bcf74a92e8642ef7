//! A well-formed stream of sections.

use std::ops::RangeInclusive;

use crate::made::{packet, start, varied};

/// Sections back to back in packets, with a unit start wherever one begins.
#[derive(Default)]
pub struct Stream {
    pub packets: Vec<Vec<u8>>,
    /// Each section, and which packets have bytes of it.
    pub sections: Vec<(Vec<u8>, RangeInclusive<usize>)>,
    filling: Filling,
}

/// The packet that is being filled.
#[derive(Default)]
struct Filling {
    payload: Vec<u8>,
    /// Where in it the first section begins, if one does.
    begins: Option<usize>,
}

impl Filling {
    fn room(&self) -> usize {
        184 - usize::from(self.begins.is_some()) - self.payload.len()
    }
}

impl Stream {
    /// Sections of these lengths.
    pub fn of(lengths: impl Iterator<Item = usize>) -> Stream {
        let mut stream = Stream::default();
        for (place, length) in lengths.enumerate() {
            stream.lay(varied(length, place));
        }
        stream.close();
        stream
    }

    fn lay(&mut self, whole: Vec<u8>) {
        // There must be room for its first byte, and for the pointer if the packet has none yet.
        let pointer = usize::from(self.filling.begins.is_none());
        if self.filling.room() < 1 + pointer {
            self.close();
        }
        let at = self.filling.payload.len();
        self.filling.begins.get_or_insert(at);
        let first = self.packets.len();
        for &byte in &whole {
            if self.filling.room() == 0 {
                self.close();
            }
            self.filling.payload.push(byte);
        }
        self.sections.push((whole, first..=self.packets.len()));
    }

    fn close(&mut self) {
        let Filling { payload, begins } = std::mem::take(&mut self.filling);
        let counter = self.packets.len() as u8 % 16;
        self.packets.push(match begins {
            Some(at) => packet(true, counter, &start(&payload[..at], &payload[at..])),
            None => packet(false, counter, &payload),
        });
    }
}
