//! A slow second reading of the carousel's rules, straight from the paper's table and 02, §5, §6, §8 and §9: every
//! number is judged by a clause of its own over a section read into loose values, and the lowest that applies
//! is given.

use crate::made::plain;
use baseline::{Answer, Module, Record, Refusal, BLOCKS, MODULES, MOST_TOGETHER};

/// The bits of a word of marks.
const BITS: usize = 32;

fn number(bytes: &[u8]) -> u64 {
    bytes
        .iter()
        .fold(0, |number, &byte| number << 8 | u64::from(byte))
}

/// Whether the record's rule holds, mark by mark.
pub fn is_ruled(record: &Record) -> bool {
    let count = usize::from(record.count);
    let zero = |module: &Module| {
        module.number == 0 && module.size == 0 && module.version == 0 && module.start == 0
    };
    if count == 0 {
        return record.download == 0
            && record.block_size == 0
            && record.modules.iter().all(zero)
            && record.marks.iter().all(|&word| word == 0);
    }
    if count > MODULES {
        return false;
    }
    let size = u64::from(record.block_size);
    let sizes: Vec<u64> = record.modules.iter().map(|m| u64::from(m.size)).collect();
    if !(1..=4_066).contains(&size) || !are_in_limits(&sizes[..count], size) {
        return false;
    }
    for i in 0..MODULES {
        let module = &record.modules[i];
        if i >= count && !zero(module) {
            return false;
        }
        if i < count {
            if u64::from(module.start) != sizes[..i].iter().sum::<u64>() {
                return false;
            }
            if (0..i).any(|j| record.modules[j].number == module.number) {
                return false;
            }
        }
    }
    let mut marked = all_marked(record);
    marked.all(|(place, block)| place < count && block as u64 * size < sizes[place])
}

/// The limits of 10 for sizes: each, and all together.
fn are_in_limits(sizes: &[u64], block_size: u64) -> bool {
    let most = u64::from(BLOCKS) * block_size;
    sizes.iter().all(|size| (1..=most).contains(size))
        && sizes.iter().sum::<u64>() <= u64::from(MOST_TOGETHER)
}

/// Each mark that is set, as place and block.
fn all_marked(record: &Record) -> impl Iterator<Item = (usize, usize)> + '_ {
    let words = record.marks.iter().enumerate();
    words
        .filter(|(_, &word)| word != 0)
        .flat_map(|(at, _)| BITS * at..BITS * (at + 1))
        .map(|mark| (mark / BLOCKS as usize, mark % BLOCKS as usize))
        .filter(|&(place, block)| is_marked(record, place, block))
}

/// The word and the bit of a mark.
pub fn mark(place: usize, block: usize) -> (usize, u32) {
    let mark = BLOCKS as usize * place + block;
    (mark / BITS, 1 << (mark % BITS))
}

pub fn is_marked(record: &Record, place: usize, block: usize) -> bool {
    let (word, bit) = mark(place, block);
    record.marks[word] & bit != 0
}

/// The tables of a rule, and its largest L.
pub type Rule<'a> = (&'a [u8], usize);
pub const APPLICATION: Rule = (&[0x74], 1_021);
pub const CAROUSEL: Rule = (&[0x3B, 0x3C], 4_093);

/// Refusals 2 to 6: all that is wrong with a section, each with its place, in any order. The lowest number is
/// given, and of 4 the lower place: the section numbers count only where nothing else of 4 is wrong.
pub fn broken(section: &[u8], (tables, most): Rule) -> Option<Refusal> {
    let lent = section.len();
    let byte = |at: usize| section.get(at).copied();
    let word = number(section.get(1..3).unwrap_or_default()) as usize;
    let (syntax, told) = (word / 0x8000, word % 0x1000);
    let faults = [
        (6, 5, byte(5).is_some_and(|byte| byte % 2 == 0)),
        (5, told.saturating_sub(1), make::crc(section) != 0),
        (4, 6, byte(6) > byte(7)),
        (4, 1, syntax == 0 || told < 9 || told > most),
        (3, 0, byte(0).is_some_and(|byte| !tables.contains(&byte))),
        (2, lent, lent < 3 || lent - 3 != told),
    ];
    let found = faults.iter().filter(|fault| fault.2);
    let lowest = found.map(|&(number, place, _)| (number, place)).min();
    lowest.map(|(number, place)| Refusal::at(number, place))
}

/// The step, by value.
pub fn step(record: &Record, section: &[u8], image: &[u8]) -> (Answer, Record, Vec<u8>) {
    let refused = |number| (plain(number), *record, image.to_vec());
    if !is_ruled(record) {
        return refused(1);
    }
    if let Some(refusal) = broken(section, CAROUSEL) {
        return (Answer::Refused(refusal), *record, image.to_vec());
    }
    let body = &section[8..section.len() - 4];
    if body.len() < 12 {
        return refused(7);
    }
    let wanted = if section[0] == 0x3B {
        0x1103_1002
    } else {
        0x1103_1003
    };
    if number(&body[..4]) != wanted {
        return refused(8);
    }
    let content = 12 + usize::from(body[9]);
    if number(&body[10..12]) as usize != body.len() - 12 || content > body.len() {
        return refused(7);
    }
    let content = &body[content..];
    if section[0] == 0x3B {
        announce(record, content, image)
    } else {
        store(record, section, number(&body[4..8]), content, image)
    }
}

/// The modules of an announcement, when it is framed to its end.
fn framed(content: &[u8]) -> Option<Vec<Module>> {
    let compatibility = number(content.get(16..18)?) as usize;
    let mut at = 18 + compatibility;
    let count = number(content.get(at..at + 2)?);
    at += 2;
    let mut modules = vec![];
    for _ in 0..count {
        let fields = content.get(at..at + 8)?;
        modules.push(Module {
            number: number(&fields[..2]) as u16,
            size: number(&fields[2..6]) as u32,
            version: fields[6],
            start: 0,
        });
        at += 8 + usize::from(fields[7]);
    }
    let private = number(content.get(at..at + 2)?) as usize;
    (at + 2 + private == content.len()).then_some(modules)
}

fn announce(record: &Record, content: &[u8], image: &[u8]) -> (Answer, Record, Vec<u8>) {
    let refused = |number| (plain(number), *record, image.to_vec());
    let Some(modules) = framed(content) else {
        return refused(7);
    };
    let download = number(&content[..4]) as u32;
    let block_size = number(&content[4..6]);
    let sizes: Vec<u64> = modules.iter().map(|m| u64::from(m.size)).collect();
    if block_size == 0
        || block_size > 4_066
        || modules.is_empty()
        || modules.len() > MODULES
        || !are_in_limits(&sizes, block_size)
    {
        return refused(10);
    }
    for (i, module) in modules.iter().enumerate() {
        if modules[i + 1..].iter().any(|m| m.number == module.number) {
            return refused(11);
        }
    }
    let mut fresh = Record::empty();
    fresh.download = download;
    fresh.block_size = block_size as u16;
    fresh.count = modules.len() as u16;
    for (i, module) in modules.iter().enumerate() {
        fresh.modules[i] = *module;
        fresh.modules[i].start = sizes[..i].iter().sum::<u64>() as u32;
    }
    let same = record.download == download
        && u64::from(record.block_size) == block_size
        && usize::from(record.count) == modules.len()
        && modules.iter().zip(&record.modules).all(|(new, old)| {
            (new.number, new.size, new.version) == (old.number, old.size, old.version)
        });
    if same {
        (Answer::Same, *record, image.to_vec())
    } else {
        keep(record, &mut fresh);
        (Answer::New, fresh, image.to_vec())
    }
}

/// The request's §5: each mark of the old record goes where its module is now, if it is there as it was.
fn keep(old: &Record, fresh: &mut Record) {
    let kept = |place: usize| {
        let before = &old.modules[place];
        (0..usize::from(fresh.count)).find(|&at| {
            let now = &fresh.modules[at];
            (old.download, old.block_size) == (fresh.download, fresh.block_size)
                && (before.number, before.version) == (now.number, now.version)
                && (before.size, before.start) == (now.size, now.start)
        })
    };
    let moved: Vec<_> = all_marked(old)
        .filter_map(|(place, block)| Some((kept(place)?, block)))
        .collect();
    for (place, block) in moved {
        let (word, bit) = mark(place, block);
        fresh.marks[word] |= bit;
    }
}

fn store(
    record: &Record,
    section: &[u8],
    download: u64,
    content: &[u8],
    image: &[u8],
) -> (Answer, Record, Vec<u8>) {
    let refused = |number| (plain(number), *record, image.to_vec());
    if content.len() < 6 {
        return refused(7);
    }
    let (module, block) = (number(&content[..2]), number(&content[4..6]));
    let data = &content[6..];
    if number(&section[3..5]) != module || u64::from(section[6]) != block % 256 {
        return refused(9);
    }
    // The request's §6: the version stands between two reserved bits and current_next.
    if section[5] % 64 / 2 != content[2] % 32 {
        return refused(9);
    }
    if record.count == 0 || u64::from(record.download) != download {
        return refused(12);
    }
    let count = usize::from(record.count);
    let Some(place) = (0..count).find(|&i| u64::from(record.modules[i].number) == module) else {
        return refused(13);
    };
    let entry = &record.modules[place];
    if entry.version != content[2] {
        return refused(14);
    }
    let together: u64 = record.modules.iter().map(|m| u64::from(m.size)).sum();
    if (image.len() as u64) < together {
        return refused(15);
    }
    let (size, block_size) = (u64::from(entry.size), u64::from(record.block_size));
    let blocks = size / block_size + u64::from(size % block_size != 0);
    let right = if block + 1 == blocks {
        size - block * block_size
    } else {
        block_size
    };
    if block >= blocks || data.len() as u64 != right {
        return refused(16);
    }
    let begin = (u64::from(entry.start) + block * block_size) as usize;
    if is_marked(record, place, block as usize) {
        return if image[begin..begin + data.len()] == *data {
            (Answer::Repeated, *record, image.to_vec())
        } else {
            refused(17)
        };
    }
    let (mut record, mut image) = (*record, image.to_vec());
    let (word, bit) = mark(place, block as usize);
    record.marks[word] |= bit;
    image[begin..begin + data.len()].copy_from_slice(data);
    (Answer::Stored, record, image)
}
