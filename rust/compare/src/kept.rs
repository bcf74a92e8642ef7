//! What new announcements kept (02, §5), by the records before and after them. A comparison says nothing of keeping where there was
//! nothing to keep.

use baseline::{Module, Record};

use crate::limits::{MODULE_WORDS, MOST_MODULES};

/// What an announcement did to a module that had a mark.
#[derive(Clone, Copy, PartialEq, Eq, Debug)]
pub enum Became {
    Kept,
    Moved,
    Emptied,
    Dropped,
    /// Kept or moved with all its marks: it is complete at once.
    KeptWhole,
    /// The same, but the sizes together are now more than the image.
    KeptWholeTooLong,
    /// Kept or moved with a mark in its last word.
    KeptLastWord,
    /// Moved to the last of all places, or from it.
    MovedAtLast,
    /// Emptied, and this field alone is another.
    OtherDownload,
    OtherBlockSize,
    OtherVersion,
    OtherSize,
    OtherStart,
}

/// Their names, in the order of [`Became`].
pub const BECAME: [&str; 13] = [
    "kept a marked module",
    "moved one",
    "emptied one",
    "dropped one",
    "kept a whole one",
    "kept a whole one that is 15 now",
    "kept one with a mark in its last word",
    "moved one to the last place or from it",
    "emptied one for downloadId alone",
    "for blockSize alone",
    "for the version alone",
    "for the size alone",
    "for the start alone",
];

/// How many announcements were new, and how many of them did so.
#[derive(Clone, Default)]
pub struct Kept {
    pub new: u64,
    pub became: [u64; BECAME.len()],
}

impl Kept {
    /// An announcement was new: the records before and after it, and the bytes of the image.
    pub fn announced(&mut self, [old, new]: [&Record; 2], room: usize) {
        let mut seen = [false; BECAME.len()];
        for (place, module) in used(old).iter().enumerate() {
            if words(old, place).iter().all(|&word| word == 0) {
                continue;
            }
            for became in became([old, new], place, module, room) {
                seen[became as usize] = true;
            }
        }
        self.new += 1;
        for (count, seen) in self.became.iter_mut().zip(seen) {
            *count += u64::from(seen);
        }
    }
}

/// All that became of the old module at a place, which has a mark.
fn became([old, new]: [&Record; 2], place: usize, module: &Module, room: usize) -> Vec<Became> {
    let now = used(new)
        .iter()
        .position(|other| other.number == module.number);
    let Some(now) = now else {
        return vec![Became::Dropped];
    };
    if words(new, now).iter().all(|&word| word == 0) {
        let mut all = vec![Became::Emptied];
        all.extend(cause([old, new], module, &new.modules[now]));
        return all;
    }
    let mut all = vec![if now == place {
        Became::Kept
    } else {
        Became::Moved
    }];
    if words(new, now)[MODULE_WORDS - 1] != 0 {
        all.push(Became::KeptLastWord);
    }
    if now != place && now.max(place) == MOST_MODULES - 1 {
        all.push(Became::MovedAtLast);
    }
    let marks: u32 = words(new, now).iter().map(|word| word.count_ones()).sum();
    if marks == module.size.div_ceil(u32::from(old.block_size)) {
        let together: usize = used(new).iter().map(|module| module.size as usize).sum();
        all.push(if room < together {
            Became::KeptWholeTooLong
        } else {
            Became::KeptWhole
        });
    }
    all
}

/// The only field that is another, if there is only one.
fn cause([old, new]: [&Record; 2], before: &Module, now: &Module) -> Option<Became> {
    let others = [
        (Became::OtherDownload, old.download != new.download),
        (Became::OtherBlockSize, old.block_size != new.block_size),
        (Became::OtherVersion, before.version != now.version),
        (Became::OtherSize, before.size != now.size),
        (Became::OtherStart, before.start != now.start),
    ];
    let mut causes = others.iter().filter(|(_, other)| *other);
    match (causes.next(), causes.next()) {
        (Some((cause, _)), None) => Some(*cause),
        _ => None,
    }
}

fn used(record: &Record) -> &[Module] {
    &record.modules[..usize::from(record.count)]
}

fn words(record: &Record, place: usize) -> &[u32] {
    &record.marks[place * MODULE_WORDS..(place + 1) * MODULE_WORDS]
}

#[cfg(test)]
mod tests {
    use super::*;
    use crate::starts::{announced, mark};

    fn record(download: u32, block_size: u16, modules: &[(u16, u32, u8)]) -> Record {
        let modules: Vec<_> = modules.iter().map(|&module| module.into()).collect();
        announced(download, block_size, &modules)
    }

    /// What is counted where block 1 of the old module 5, and these of the new list, are marked.
    fn counted(new: &Record, marks: &[(usize, usize)], room: usize) -> Vec<&'static str> {
        let mut old = record(7, 4, &[(1, 8, 0), (5, 8, 3)]);
        mark(&mut old, 1, 1);
        let mut new = *new;
        for &(place, block) in marks {
            mark(&mut new, place, block);
        }
        let mut kept = Kept::default();
        kept.announced([&old, &new], room);
        let named = BECAME.iter().zip(kept.became);
        let met = named.filter(|(_, count)| *count > 0);
        met.map(|(name, _)| *name).collect()
    }

    #[test]
    fn what_became_of_a_module_is_told_by_the_records() {
        let list = |modules: &[(u16, u32, u8)]| record(7, 4, modules);
        let same = list(&[(1, 8, 1), (5, 8, 3)]);
        assert_eq!(counted(&same, &[(1, 1)], 16), [BECAME[0]]);
        assert_eq!(
            counted(&same, &[(1, 0), (1, 1)], 16),
            [BECAME[0], BECAME[4]]
        );
        assert_eq!(
            counted(&same, &[(1, 0), (1, 1)], 15),
            [BECAME[0], BECAME[5]]
        );
        let moved = list(&[(2, 4, 0), (3, 4, 0), (5, 8, 3)]);
        assert_eq!(counted(&moved, &[(2, 1)], 16), [BECAME[1]]);
        assert_eq!(counted(&list(&[(1, 8, 0)]), &[], 16), [BECAME[3]]);
        for (new, cause) in [
            (record(8, 4, &[(1, 8, 0), (5, 8, 3)]), 8),
            (record(7, 5, &[(1, 8, 0), (5, 8, 3)]), 9),
            (list(&[(1, 8, 0), (5, 8, 35)]), 10),
            (list(&[(1, 8, 0), (5, 7, 3)]), 11),
            (list(&[(1, 7, 0), (5, 8, 3)]), 12),
        ] {
            assert_eq!(counted(&new, &[], 16), [BECAME[2], BECAME[cause]]);
        }
        // Two fields together are no cause alone.
        assert_eq!(counted(&list(&[(5, 7, 3)]), &[], 16), [BECAME[2]]);
    }

    #[test]
    fn the_last_word_and_the_last_place_are_told() {
        let mut many: Vec<_> = (0..MOST_MODULES as u16 - 1).map(|n| (n, 1, 0)).collect();
        many.push((99, 1_024, 0));
        let few = [(100, MOST_MODULES as u32 - 1, 0), (99, 1_024, 0)];
        let records = [(&many[..], MOST_MODULES - 1), (&few, 1)].map(|(modules, place)| {
            let mut record = record(7, 1, modules);
            mark(&mut record, place, 1_023);
            record
        });
        for [old, new] in [[0, 1], [1, 0]] {
            let mut kept = Kept::default();
            kept.announced([&records[old], &records[new]], 1_055);
            let met = BECAME
                .iter()
                .zip(kept.became)
                .filter(|(_, count)| *count > 0);
            let met: Vec<_> = met.map(|(name, _)| *name).collect();
            assert_eq!(met, [BECAME[1], BECAME[6], BECAME[7]]);
        }
    }

    #[test]
    fn without_a_mark_nothing_is_counted() {
        let record = record(7, 4, &[(1, 8, 0)]);
        let mut kept = Kept::default();
        kept.announced([&record, &Record::empty()], 8);
        assert_eq!(kept.became, [0; BECAME.len()]);
    }
}
