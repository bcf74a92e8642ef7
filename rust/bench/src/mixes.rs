//! The mixes: 64 MiB of sections each, in stretches of at most 64 KiB, all of them accepted.

use compare::random::Random;
use compare::tables;
use make::{Announcement, Module};
use nebosvar::{LARGEST_BLOCK, MOST_BLOCKS};

use crate::race::race;
use crate::receiver::Fate;
use crate::rotation::carousels;
use crate::stretch::{Mix, Stretch, AROUND_DATA, STRETCH};
use crate::ROUNDS;

/// The bytes of all stretches together, at least.
const TOGETHER: usize = 64 << 20;
/// The largest L of an application section: 1,024 bytes of it, so that 64 fill a stretch.
const TABLE_LENGTH: usize = 1_021;
/// The blocks of a module, but for the last one's rest. A module may have more; with so many the mixes stay those that were
/// measured before.
const BLOCKS_EACH: usize = 256;

const _: () = assert!(BLOCKS_EACH <= MOST_BLOCKS);

/// A mix of so many bytes at least, by its name.
type Maker = (&'static str, fn(usize) -> Mix);

/// What is measured, one at a time, since each takes its 64 MiB.
const MIXES: [Maker; 4] = [
    ("blocks of 4,066", large_blocks),
    ("blocks of 64", small_blocks),
    ("tables of 1,024", tables),
    ("a carousel", carousels),
];

/// Measures each mix and prints its line, or tells what differed.
pub fn measure() -> Result<(), String> {
    println!(
        "Mixes: MiB in a second, best and median of {ROUNDS} runs each, in turn, over the same stretches of at most 64 KiB; neither record\n\
         nor image is cleared between stretches, nor the image between runs. Every section is accepted. In the first three mixes every\n\
         announcement is new and every block stored; in the carousel each block comes three times."
    );
    println!(
        "{:<16}{:>10}{:>8}{:>12}{:>10}{:>16}{:>10}{:>8}",
        "mix", "sections", "MiB", "ours best", "median", "baseline best", "median", "times"
    );
    let mut mixes = MIXES.iter();
    mixes.try_for_each(|(name, mix)| line(name, &mix(TOGETHER)))
}

fn line(name: &str, mix: &Mix) -> Result<(), String> {
    let raced = race(mix).map_err(|told| format!("{name}: {told}"))?;
    let fates = mix.fates();
    if !fates.iter().all(|fate| fate.is_accepted()) {
        return Err(format!("{name}: a section is refused"));
    }
    let mebibytes = mix.bytes() as f64 / f64::from(1 << 20);
    println!(
        "{name:<16}{:>10}{mebibytes:>8.1}{:>12.1}{:>10.1}{:>16.1}{:>10.1}{:>8.2}",
        fates.len(),
        mebibytes / raced.ours.best,
        mebibytes / raced.ours.median,
        mebibytes / raced.theirs.best,
        mebibytes / raced.theirs.median,
        raced.times()
    );
    Ok(())
}

fn large_blocks(together: usize) -> Mix {
    Mix::filled(together, |place| carousel(place, LARGEST_BLOCK, 1))
}

fn small_blocks(together: usize) -> Mix {
    Mix::filled(together, |place| carousel(place, 64, 3))
}

fn tables(together: usize) -> Mix {
    Mix::filled(together, |place| {
        let mut random = Random::of(1, place);
        let mut stretch = Stretch::default();
        for _ in 0..STRETCH / (TABLE_LENGTH + 3) {
            let table = tables::full(&mut random, TABLE_LENGTH);
            stretch.push(&table.bytes(), Fate::Table);
        }
        stretch
    })
}

/// An announcement that is new, and all the blocks of its modules: as many whole ones as a stretch has room for.
fn carousel(place: u64, block_size: usize, modules: usize) -> Stretch {
    let download = place as u32 + 1;
    let announcement = |blocks| {
        let modules = modules_of(modules, blocks, block_size);
        Announcement::new(download, block_size as u16, &modules)
    };
    // How many blocks are announced does not change an announcement's length.
    let room = STRETCH - announcement(0).bytes().len();
    let announcement = announcement(room / (AROUND_DATA + block_size));
    let mut stretch = Stretch::default();
    stretch.push(&announcement.bytes(), Fate::New);
    let mut random = Random::of(2, place);
    for module in &announcement.modules {
        for number in 0..module.size as usize / block_size {
            let data = random.bytes(block_size);
            let block = make::block(
                download,
                module.number,
                module.version,
                number as u16,
                &data,
            );
            stretch.push(&block, Fate::Stored);
        }
    }
    stretch
}

/// So many modules with so many blocks together, each but the last with [`BLOCKS_EACH`].
fn modules_of(modules: usize, blocks: usize, block_size: usize) -> Vec<Module> {
    let module = |place: usize| {
        let left = blocks.saturating_sub(BLOCKS_EACH * place);
        Module {
            number: place as u16,
            size: (left.min(BLOCKS_EACH) * block_size) as u32,
            version: 1,
        }
    };
    (0..modules).map(module).collect()
}

#[cfg(test)]
mod tests {
    use super::*;
    use crate::receiver::Lent;

    #[test]
    fn every_section_is_accepted_as_it_was_laid() {
        for (name, mix) in MIXES {
            let mix = mix(3 * STRETCH);
            let fates = Lent::<baseline::Record>::new().fates(&mix);
            assert!(fates.iter().all(|fate| fate.is_accepted()), "{name}");
            assert_eq!(fates, mix.fates(), "{name}");
            assert!(mix.bytes() >= 3 * STRETCH, "{name}");
        }
    }

    #[test]
    fn blocks_fill_a_stretch_and_are_all_stored() {
        for (block_size, modules) in [(64, 3), (LARGEST_BLOCK, 1)] {
            let stretch = carousel(3, block_size, modules);
            let left = STRETCH - stretch.bytes.len();
            assert!(left < AROUND_DATA + block_size);
            assert_eq!(stretch.fates[0], Fate::New);
            let mut blocks = stretch.fates[1..].iter();
            assert!(blocks.all(|fate| *fate == Fate::Stored));
        }
    }
}
