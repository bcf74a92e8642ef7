//! The shore player: the archive's beside the independent one, over announcements at every limit ([`bounds`]) and by chance
//! ([`chance`]), right and wrong, byte for byte ([`writing`]); and whole rotations of each played into the other's receiver
//! ([`playing`]). There 02, §13, decides.

pub mod bounds;
pub mod chance;
pub mod counts;
mod playing;
mod writing;

use std::fmt::{self, Display};

use crate::difference::{caught, Same};
use crate::fence::Edge;
use crate::random::Random;
use counts::Counts;
use make::Module;

/// What both are lent to announce.
#[derive(Clone, Debug)]
pub struct Draft {
    pub download: u32,
    pub block_size: u16,
    pub modules: Vec<Module>,
    pub identifier: u32,
}

impl Draft {
    /// The sizes together.
    pub fn together(&self) -> u64 {
        self.modules.iter().map(|m| u64::from(m.size)).sum()
    }

    /// The blocks of each module. The block size is not 0.
    pub fn blocks(&self) -> impl Iterator<Item = usize> + '_ {
        let size = u32::from(self.block_size);
        let blocks = move |module: &Module| module.size.div_ceil(size) as usize;
        self.modules.iter().map(blocks)
    }
}

impl Display for Draft {
    fn fmt(&self, f: &mut fmt::Formatter<'_>) -> fmt::Result {
        let (download, identifier, size) = (self.download, self.identifier, self.block_size);
        write!(
            f,
            "download {download}, identifier {identifier}, blockSize {size}, modules"
        )?;
        let told = |m: &Module| format!(" {} of {} version {}", m.number, m.size, m.version);
        // The first tell enough of an announcement of thousands.
        let modules: Vec<_> = self.modules.iter().take(40).map(told).collect();
        write!(f, "{}; {} in all", modules.join(","), self.modules.len())
    }
}

/// Compares all announcements at the limits, and so many by chance.
pub fn compare(seed: u64, by_chance: u64) -> Result<Counts, String> {
    let mut counts = Counts::default();
    let all = bounds::all().chain(chance::all(seed, by_chance));
    for (number, draft) in all.enumerate() {
        let number = number as u64;
        let edge = Edge::of(number);
        let random = &mut Random::of(seed, number);
        counts.lent(edge);
        compared(&draft, edge, random, &mut counts).map_err(|difference| {
            format!("compare: a difference; seed {seed}, player {number}, {difference}\n{draft}")
        })?;
    }
    Ok(counts)
}

/// One announcement, in all ways.
fn compared(draft: &Draft, edge: Option<Edge>, random: &mut Random, counts: &mut Counts) -> Same {
    caught(|| {
        let shore = writing::compare(draft, edge, random, counts)?;
        match shore {
            Some(shore) => playing::compare(draft, &shore, random, counts),
            None => Ok(()),
        }
    })
}

#[cfg(test)]
mod tests {
    use super::*;

    #[test]
    fn every_draft_is_the_same_and_every_limit_comes() {
        let counts = compare(1, 200).unwrap();
        assert_eq!(counts.rare(10), Vec::<String>::new());
    }

    #[test]
    fn a_draft_is_told_with_all_of_it() {
        let draft = Draft {
            download: 1,
            block_size: 2,
            modules: vec![(3, 4, 5).into(), (6, 7, 8).into()],
            identifier: 9,
        };
        let told = "download 1, identifier 9, blockSize 2, modules 3 of 4 version 5, 6 of 7 version 8; 2 in all";
        assert_eq!(draft.to_string(), told);
        assert_eq!((draft.together(), draft.blocks().sum::<usize>()), (11, 6));
    }
}
