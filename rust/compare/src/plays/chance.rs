//! Announcements by chance, most of them within the limits.

use super::Draft;
use crate::limits::{LARGEST_BLOCK, MOST_BLOCKS, MOST_BYTES, MOST_MODULES};
use crate::random::Random;
use make::Module;

/// So many of them. An announcement depends on the seed and its number alone.
pub fn all(seed: u64, cases: u64) -> impl Iterator<Item = Draft> {
    (0..cases).map(move |number| any(&mut Random::of(seed.rotate_left(32), number)))
}

fn any(random: &mut Random) -> Draft {
    let block_size = block_size(random);
    let sizes = sizes(random, block_size);
    let mut draft = Draft {
        download: word(random),
        block_size,
        modules: sizes.iter().map(|&size| module(random, size)).collect(),
        identifier: word(random),
    };
    for place in 1..draft.modules.len() {
        while is_twice(&draft.modules[..=place]) {
            draft.modules[place].number = random.number() as u16;
        }
    }
    if random.one_in(6) {
        spoil(random, &mut draft);
    }
    draft
}

/// Small and large, and at the ends.
fn block_size(random: &mut Random) -> u16 {
    match random.below(10) {
        0 => 1,
        1 => LARGEST_BLOCK as u16,
        2 => random.within(1..=LARGEST_BLOCK) as u16,
        _ => random.within(1..=64) as u16,
    }
}

/// Sizes within the limits: few blocks mostly, and rarely as many as there can be.
fn sizes(random: &mut Random, block_size: u16) -> Vec<u32> {
    let count = match random.below(8) {
        0 => MOST_MODULES,
        1 => random.within(1..=MOST_MODULES),
        _ => random.within(1..=4),
    };
    let share = MOST_BYTES / count;
    let blocks = if random.one_in(25) {
        MOST_BLOCKS
    } else {
        random.pick(&[1, 2, 5, 12])
    };
    let most = (blocks * usize::from(block_size)).min(share);
    let size = |_| match random.below(6) {
        0 => most,
        1 => (most / usize::from(block_size)).max(1) * usize::from(block_size).min(share),
        _ => random.within(1..=most),
    };
    (0..count).map(size).map(|size| size as u32).collect()
}

fn module(random: &mut Random, size: u32) -> Module {
    Module {
        number: if random.one_in(3) {
            random.below(3) as u16
        } else {
            random.number() as u16
        },
        size,
        version: random.byte(),
    }
}

/// Any number of 32 bits, often one with few bits set or clear.
fn word(random: &mut Random) -> u32 {
    let number = random.number() as u32;
    match random.below(4) {
        0 => number >> random.below(32),
        1 => !(number >> random.below(32)),
        _ => number,
    }
}

/// The last of these has the number of another.
fn is_twice(modules: &[Module]) -> bool {
    let Some((last, others)) = modules.split_last() else {
        return false;
    };
    others.iter().any(|other| other.number == last.number)
}

/// Passes a limit, or nearly.
fn spoil(random: &mut Random, draft: &mut Draft) {
    let place = random.below(draft.modules.len());
    let most = (MOST_BLOCKS * usize::from(draft.block_size)) as u32;
    match random.below(8) {
        0 => draft.block_size = random.pick(&[0, LARGEST_BLOCK as u16 + 1, u16::MAX]),
        1 => draft.modules[place].size = 0,
        2 => draft.modules[place].size = most.saturating_add(random.below(3) as u32),
        3 => draft.modules[place].size = random.number() as u32,
        4 => draft.modules.clear(),
        5 => {
            let more = random.within(MOST_MODULES + 1..=MOST_MODULES + 8);
            let modules = (0..more).map(|_| module(random, 1));
            draft.modules = modules.collect();
        }
        6 => fill_up(random, draft),
        _ => draft.modules.push(draft.modules[place]),
    }
}

/// Brings the sizes together to their limit, or one past it.
fn fill_up(random: &mut Random, draft: &mut Draft) {
    let wanted = (MOST_BYTES + random.below(2)) as u64;
    let left = wanted.saturating_sub(draft.together()) as u32;
    if let Some(last) = draft.modules.last_mut() {
        last.size = last.size.saturating_add(left);
    }
}

#[cfg(test)]
mod tests {
    use super::*;

    #[test]
    fn a_draft_is_made_again_from_its_seed() {
        let told = |draft: Draft| draft.to_string();
        let one: Vec<_> = all(3, 50).map(told).collect();
        let again: Vec<_> = all(3, 50).map(told).collect();
        assert_eq!(one, again);
    }
}
