//! What is run over: whole sections one after another, each with what must become of it.

use crate::receiver::Fate;

/// The most bytes of a stretch: what the paper's program reads.
pub const STRETCH: usize = 65_536;
/// The bytes of a block's section besides its data.
pub const AROUND_DATA: usize = 30;

/// Whole sections, and what becomes of each.
#[derive(Clone, Default)]
pub struct Stretch {
    pub bytes: Vec<u8>,
    pub fates: Vec<Fate>,
}

impl Stretch {
    pub fn push(&mut self, section: &[u8], fate: Fate) {
        self.bytes.extend(section);
        self.fates.push(fate);
    }
}

/// Stretches that are measured, and one that is run over before them and not measured. Most have nothing there.
#[derive(Default)]
pub struct Mix {
    pub before: Stretch,
    pub stretches: Vec<Stretch>,
}

impl Mix {
    /// Stretches that are made by their place, of so many bytes together at least.
    pub fn filled(together: usize, stretch: impl Fn(u64) -> Stretch) -> Mix {
        let mut mix = Mix::default();
        let mut bytes = 0;
        while bytes < together {
            let next = stretch(mix.stretches.len() as u64);
            bytes += next.bytes.len();
            mix.stretches.push(next);
        }
        mix
    }

    /// Lays a section behind the others. One that the end of a stretch would cut is carried over into the next.
    pub fn lay(&mut self, section: &[u8], fate: Fate) {
        match self.stretches.last_mut() {
            Some(last) if last.bytes.len() + section.len() <= STRETCH => last.push(section, fate),
            _ => {
                let mut next = Stretch::default();
                next.push(section, fate);
                self.stretches.push(next);
            }
        }
    }

    /// Of all stretches that are measured.
    pub fn bytes(&self) -> usize {
        self.stretches.iter().map(|part| part.bytes.len()).sum()
    }

    /// What becomes of each section that is measured.
    pub fn fates(&self) -> Vec<Fate> {
        let fates = self.stretches.iter().map(|part| &part.fates[..]);
        fates.collect::<Vec<_>>().concat()
    }
}

#[cfg(test)]
mod tests {
    use super::*;

    #[test]
    fn a_section_that_would_be_cut_is_carried_over() {
        let mut mix = Mix::default();
        let lengths = [STRETCH - 10, 10, 1, STRETCH, 7];
        for length in lengths {
            mix.lay(&vec![length as u8; length], Fate::Table);
        }
        let laid = |part: &Stretch| (part.bytes.len(), part.fates.len());
        let stretches: Vec<_> = mix.stretches.iter().map(laid).collect();
        assert_eq!(stretches, [(STRETCH, 2), (1, 1), (STRETCH, 1), (7, 1)]);
        assert_eq!(mix.bytes(), lengths.iter().sum());
        assert_eq!(mix.fates(), [Fate::Table; 5]);
    }
}
