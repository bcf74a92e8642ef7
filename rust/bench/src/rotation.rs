//! A carousel as it is sent day by day: its rotation over and over, between its sections the announcement again and tables, and
//! after some turns the next download.

use compare::random::Random;
use compare::tables;
use nebosvar::{MOST_BYTES, MOST_MODULES};

use crate::receiver::Fate;
use crate::stretch::Mix;

/// The blocks of a module, and the bytes of a block.
const BLOCKS: usize = 8;
const BLOCK: usize = 1_024;
/// The version of all modules.
const VERSION: u8 = 1;
/// The turns of a rotation before the next download: the first is stored, the others repeated.
const TURNS: usize = 3;
/// After so many sections of the turns the announcement comes again, and after so many a table; neither counts there.
const ANNOUNCED_AFTER: usize = 20;
const TABLE_AFTER: usize = 50;
/// L of a table: from the least that may be filled with any descriptor to the largest, 1,024 bytes of section.
const LEAST_TABLE: usize = 15;
const MOST_TABLE: usize = 1_021;

// As much as may be announced.
const _: () = assert!(MOST_MODULES * BLOCKS * BLOCK == MOST_BYTES);

/// Download after download laid end to end, of so many bytes together at least.
pub fn carousels(together: usize) -> Mix {
    let mut mix = Mix::default();
    let mut download = 0;
    while mix.bytes() < together {
        download += 1;
        for (section, fate) in sent(download) {
            mix.lay(&section, fate);
        }
    }
    mix
}

/// All that is sent of a download, and what becomes of it.
fn sent(download: u32) -> Vec<(Vec<u8>, Fate)> {
    let rotation = rotation(download);
    let mut random = Random::of(3, download.into());
    let mut sent = vec![];
    for place in 0..TURNS * rotation.len() {
        let section = rotation[place % rotation.len()].clone();
        sent.push((section, fate(place, rotation.len())));
        if (place + 1).is_multiple_of(ANNOUNCED_AFTER) {
            sent.push((rotation[0].clone(), Fate::Same));
        }
        if (place + 1).is_multiple_of(TABLE_AFTER) {
            sent.push((table(&mut random), Fate::Table));
        }
    }
    sent
}

/// The announcement, then each block, module by module.
fn rotation(download: u32) -> Vec<Vec<u8>> {
    let module = |place| (place as u16, (BLOCKS * BLOCK) as u32, VERSION);
    let modules: Vec<_> = (0..MOST_MODULES).map(module).collect();
    let mut rotation = vec![make::announcement(download, BLOCK as u16, &modules)];
    let mut random = Random::of(4, download.into());
    for (module, _, version) in modules {
        for number in 0..BLOCKS {
            let data = random.bytes(BLOCK);
            rotation.push(make::block(download, module, version, number as u16, &data));
        }
    }
    rotation
}

/// What becomes of the section at a place of the turns.
fn fate(place: usize, rotation: usize) -> Fate {
    match (place / rotation, place % rotation) {
        (0, 0) => Fate::New,
        (_, 0) => Fate::Same,
        (0, _) => Fate::Stored,
        _ => Fate::Repeated,
    }
}

fn table(random: &mut Random) -> Vec<u8> {
    let length = random.within(LEAST_TABLE..=MOST_TABLE);
    tables::full(random, length).bytes()
}

#[cfg(test)]
mod tests {
    use super::*;
    use crate::receiver::Lent;
    use crate::stretch::{AROUND_DATA, STRETCH};
    use make::{ANNOUNCEMENT, APPLICATIONS};

    #[test]
    fn a_download_by_count() {
        let sent = sent(7);
        let count = |wanted| sent.iter().filter(|(_, fate)| *fate == wanted).count();
        // Three turns of 257 sections are 771: 38 times 20, 15 times 50.
        let announced = [count(Fate::New), count(Fate::Same)];
        assert_eq!(announced, [1, 2 + 38]);
        let blocks = [count(Fate::Stored), count(Fate::Repeated)];
        assert_eq!(blocks, [256, 2 * 256]);
        assert_eq!(count(Fate::Table), 15);
        assert_eq!(sent.len(), 771 + 38 + 15);
    }

    #[test]
    fn announcements_and_tables_come_in_their_places() {
        let sent = sent(7);
        let kinds: Vec<_> = sent.iter().map(|(section, _)| section[0]).collect();
        let wanted = [
            &[ANNOUNCEMENT][..],
            &[make::BLOCK; 19],
            &[ANNOUNCEMENT],
            &[make::BLOCK; 20],
            &[ANNOUNCEMENT],
            &[make::BLOCK; 10],
            &[APPLICATIONS],
            &[make::BLOCK; 10],
            &[ANNOUNCEMENT],
        ];
        assert!(kinds.starts_with(&wanted.concat()));
    }

    #[test]
    fn tables_have_any_length_that_is_allowed() {
        let mut random = Random::of(1, 1);
        let lengths: Vec<_> = (0..2_000).map(|_| table(&mut random).len()).collect();
        assert!(lengths.iter().all(|length| (18..=1_024).contains(length)));
        assert!(lengths.iter().any(|length| *length < 30));
        assert!(lengths.iter().any(|length| *length > 1_010));
    }

    #[test]
    fn stretches_are_cut_between_sections_and_all_is_accepted() {
        let mix = carousels(2 * TURNS * MOST_BYTES);
        let laid: Vec<_> = (1..=2).flat_map(sent).collect();
        let (sections, fates): (Vec<_>, Vec<_>) = laid.into_iter().unzip();
        let bytes = mix.stretches.iter().map(|part| &part.bytes[..]);
        assert_eq!(bytes.collect::<Vec<_>>().concat(), sections.concat());
        assert!(mix.stretches.iter().all(|part| part.bytes.len() <= STRETCH));
        let mut before_last = mix.stretches.iter().rev().skip(1);
        assert!(before_last.all(|part| part.bytes.len() + BLOCK + AROUND_DATA > STRETCH));
        assert_eq!(Lent::<baseline::Record>::new().fates(&mix), fates);
    }
}
