//! An announcement, counted and written: at each place, out of images and into buffers at their limits, the answer and every
//! byte of the buffer after it.

use nebosvar::player::{Listed, Playlist, LARGEST_SECTION};
use nebosvar::Refusal;

use super::counts::{Asked, Call, Counts};
use super::Draft;
use crate::difference::{same, same_bytes, Same};
use crate::fence::{Edge, Fenced, Lender};
use crate::limits::{MOST_BYTES, MOST_MODULES};
use crate::pair::Image;
use crate::random::Random;

/// Of a rotation with more sections than this, not every place is asked for.
const FEW: usize = 40;
/// The most bytes by which a buffer or an image is longer than it has to be.
const LONGER: usize = 60;
/// Places that are far past the last, also if they are cut to 32 bits, or one is added.
const FAR: [usize; 4] = [65_536, 1 << 32, usize::MAX - 1, usize::MAX];

/// Compares both players, and gives shore's image, if one can be.
pub fn compare(
    draft: &Draft,
    edge: Option<Edge>,
    random: &mut Random,
    counts: &mut Counts,
) -> Same<Option<Vec<u8>>> {
    let listed = their_modules(draft);
    let mut both = Both::new(draft, &listed, edge, random);
    let sections = both.count(counts)?;
    let least = draft.together().min(MOST_BYTES as u64) as usize;
    let shore = random.bytes(least + LONGER);
    let places = places(draft, sections);
    let few = few_places(sections);
    both.out_of(&shore[..least], &places, random, counts)?;
    for length in [
        least.saturating_sub(1),
        0,
        least + random.within(1..=LONGER),
    ] {
        both.out_of(&shore[..length], &few, random, counts)?;
    }
    counts.within += u64::from(sections.is_ok());
    Ok(sections.is_ok().then(|| shore[..least].to_vec()))
}

/// The modules in their type.
pub fn their_modules(draft: &Draft) -> Vec<baseline::player::Listed> {
    let listed = draft.modules.iter().map(|module| baseline::player::Listed {
        number: module.number,
        size: module.size,
        version: module.version,
    });
    listed.collect()
}

/// The announcement in their type.
pub fn theirs<'a>(
    draft: &Draft,
    listed: &'a [baseline::player::Listed],
) -> baseline::player::Playlist<'a> {
    baseline::player::Playlist {
        download: draft.download,
        block_size: draft.block_size,
        modules: listed,
    }
}

/// The announcement in our type, with any numbers in the entries that are not used.
pub fn ours(draft: &Draft, random: &mut Random) -> Playlist {
    let mut modules = [Listed::default(); MOST_MODULES];
    for (place, entry) in modules.iter_mut().enumerate() {
        *entry = match draft.modules.get(place) {
            Some(module) => Listed {
                number: module.number,
                size: module.size,
                version: module.version,
            },
            None => unused(draft, random),
        };
    }
    Playlist {
        download: draft.download,
        block_size: draft.block_size,
        count: draft.modules.len() as u16,
        modules,
    }
}

/// An entry that is not used, with which the announcement would be refused.
fn unused(draft: &Draft, random: &mut Random) -> Listed {
    let twice = draft.modules.first().map_or(0, |module| module.number);
    let size = random.number() as u32;
    Listed {
        number: if random.one_in(2) {
            twice
        } else {
            random.number() as u16
        },
        size: random.pick(&[0, u32::MAX, size]),
        version: random.byte(),
    }
}

/// Every place of a short rotation; of a long one the chosen places of each module. And places past the last.
fn places(draft: &Draft, sections: Result<usize, u8>) -> Vec<usize> {
    let Ok(sections) = sections else {
        return few_places(sections);
    };
    let mut places = if sections <= FEW {
        (0..sections).collect()
    } else {
        chosen_places(draft)
    };
    places.extend([sections, sections + 1]);
    places.extend(FAR);
    places
}

/// The announcement, and of each module the first blocks, those about which the section number goes round, and the last.
fn chosen_places(draft: &Draft) -> Vec<usize> {
    let (mut places, mut begin) = (vec![0], 1);
    for blocks in draft.blocks() {
        let mut chosen: Vec<_> = [0, 1, 255, 256, 257].into();
        chosen.retain(|&block| block + 1 < blocks);
        chosen.push(blocks - 1);
        places.extend(chosen.iter().map(|block| begin + block));
        begin += blocks;
    }
    places
}

/// The first, the last, and some past it.
fn few_places(sections: Result<usize, u8>) -> Vec<usize> {
    match sections {
        Ok(sections) => vec![0, 1, sections - 1, sections, usize::MAX],
        Err(_) => vec![0, 1, usize::MAX],
    }
}

/// Both announcements; ours lies at a fence, if there is an edge.
struct Both<'a> {
    draft: &'a Draft,
    theirs: baseline::player::Playlist<'a>,
    ours: Playlist,
    fence: Option<Fenced>,
    edge: Option<Edge>,
}

impl<'a> Both<'a> {
    fn new(
        draft: &'a Draft,
        listed: &'a [baseline::player::Listed],
        edge: Option<Edge>,
        random: &mut Random,
    ) -> Both<'a> {
        Both {
            draft,
            theirs: theirs(draft, listed),
            ours: ours(draft, random),
            fence: edge.map(|edge| Fenced::new(edge, size_of::<Playlist>())),
            edge,
        }
    }

    /// A call of ours, which is lent the announcement.
    fn lent<T>(&mut self, call: impl FnOnce(&Playlist) -> T) -> T {
        match &mut self.fence {
            None => call(&self.ours),
            Some(fence) => call(fence.put_value(self.ours)),
        }
    }

    /// How many sections there are.
    fn count(&mut self, counts: &mut Counts) -> Same<Result<usize, u8>> {
        let ours = self.lent(Playlist::section_count);
        let ours = ours.map_err(Refusal::number);
        same("section count", &ours, &self.theirs.section_count())?;
        counts.answer(Call::Count, &ours);
        Ok(ours)
    }

    /// Each of these places, out of this image, into buffers about the section's length.
    fn out_of(
        &mut self,
        image: &[u8],
        places: &[usize],
        random: &mut Random,
        counts: &mut Counts,
    ) -> Same {
        let mut lender = Lender::new(self.edge, image.len());
        let image = lender.lend(image);
        let before = random.bytes(LARGEST_SECTION + LONGER);
        for &place in places {
            let length = self.write_once(image, place, &before[..LARGEST_SECTION], None, counts)?;
            let rooms = match length {
                Some(length) => vec![length, length - 1, length + random.within(1..=LONGER), 0],
                None => vec![0, random.below(LARGEST_SECTION)],
            };
            for room in rooms {
                self.write_once(image, place, &before[..room], length, counts)?;
            }
        }
        Ok(())
    }

    /// Into one buffer; gives the length of what was written.
    fn write_once(
        &mut self,
        image: &[u8],
        place: usize,
        before: &[u8],
        length: Option<usize>,
        counts: &mut Counts,
    ) -> Same<Option<usize>> {
        let identifier = self.draft.identifier;
        let (mut out, mut wanted) = (Image::new(before, self.edge), before.to_vec());
        let bytes = out.bytes_mut();
        let ours = self.lent(|playlist| playlist.write_section(image, identifier, place, bytes));
        let ours = ours.map_err(Refusal::number);
        let theirs = self
            .theirs
            .write_section(image, identifier, place, &mut wanted);
        let (images, rooms) = (image.len(), before.len());
        let what = format!("section {place}, image of {images}, buffer of {rooms}");
        same(&what, &ours, &theirs)?;
        same_bytes(&format!("buffer after {what}"), out.bytes(), &wanted)?;
        same(&format!("guards after {what}"), &out.is_guarded(), &true)?;
        // "A refusal writes nothing", and past the section nothing is written.
        let size = ours.unwrap_or(0);
        same_bytes(&format!("past {what}"), &wanted[size..], &before[size..])?;
        let asked = Asked {
            draft: self.draft,
            image: images,
            room: rooms,
            place,
            length,
        };
        counts.asked(&asked, &ours);
        Ok(ours.ok())
    }
}

#[cfg(test)]
mod tests {
    use super::*;

    #[test]
    fn places_are_the_ends_of_each_module_and_past_the_last() {
        let draft = Draft {
            download: 1,
            block_size: 1,
            modules: vec![(1, 300, 0).into(), (2, 2, 0).into()],
            identifier: 2,
        };
        let wanted = [0, 1, 2, 256, 257, 258, 300, 301, 302, 303, 304];
        assert_eq!(places(&draft, Ok(303))[..11], wanted);
        assert!(places(&draft, Ok(303)).ends_with(&FAR));
        assert_eq!(places(&draft, Err(10)), [0, 1, usize::MAX]);
    }
}
