//! "The carousel record": its rule, the step that takes one section, the hand-out and the missing report.

use std::ops::Range;

use crate::message::{self, Announcement, Block};
use crate::refusal::{self, Refusal};
use crate::section::{self, Frame};

/// The most modules of an announcement, and a record's entries (refusal 10; 02, §8).
pub const MODULES: usize = 32;
/// The most blocks of a module (refusal 10; 02, §8).
pub const BLOCKS: u32 = 1_024;
/// The most bytes of all modules together (refusal 10; 02, §8).
pub const MOST_TOGETHER: u32 = 262_144;
/// The largest blockSize (refusal 10).
const MOST_BLOCK_SIZE: u16 = 4_066;
/// The largest L of a carousel section (refusal 4).
const MOST_LENGTH: usize = 4_093;

/// The bits of a word of marks.
const BITS: usize = u32::BITS as usize;
/// The words of marks of one module, a mark for each possible block.
pub const WORDS: usize = BLOCKS as usize / BITS;
/// The words of marks of a record.
pub const ALL_WORDS: usize = MODULES * WORDS;

// A module's marks fill its words. Neither the sizes of all entries together, each in its limit, nor the bytes
// of the most blocks overflow.
const _: () = assert!(WORDS * BITS == BLOCKS as usize);
const _: () = assert!(MODULES <= (u32::MAX / MOST_TOGETHER) as usize);
const _: () = assert!(BLOCKS <= u32::MAX / MOST_BLOCK_SIZE as u32);

/// An announced module and where it begins in the image.
#[derive(Clone, Copy, PartialEq, Eq, Debug)]
pub struct Module {
    /// Its number (moduleId).
    pub number: u16,
    /// Its size in bytes.
    pub size: u32,
    /// Its version.
    pub version: u8,
    /// Its first byte in the image: the sizes before it, together.
    pub start: u32,
}

impl Module {
    /// An unused entry.
    pub(crate) const NONE: Module = Module {
        number: 0,
        size: 0,
        version: 0,
        start: 0,
    };

    /// How many blocks it has: ceil(size / blockSize).
    pub(crate) fn blocks(&self, block_size: u16) -> usize {
        self.size.div_ceil(u32::from(block_size)) as usize
    }

    /// Its part of the image.
    pub(crate) fn part(&self) -> Range<usize> {
        self.start as usize..self.start as usize + self.size as usize
    }
}

/// The carousel record. Any record may be lent, also one that breaks its rule.
#[derive(Clone, Copy, PartialEq, Eq, Debug)]
pub struct Record {
    /// downloadId.
    pub download: u32,
    /// blockSize.
    pub block_size: u16,
    /// How many modules are announced.
    pub count: u16,
    /// The modules in announced order, the unused entries zero.
    pub modules: [Module; MODULES],
    /// Mark 1,024 × i + b is for block b of the module at place i (02, §8); a word's lowest bit is its first
    /// mark.
    pub marks: [u32; ALL_WORDS],
}

/// What a step did with a section.
#[derive(Clone, Copy, PartialEq, Eq, Debug)]
pub enum Answer {
    /// Another announcement, which the record holds now. What is as before keeps its marks (02, §5).
    New,
    /// The announcement the record holds.
    Same,
    /// A block that was missing, now in the image.
    Stored,
    /// A block that was marked, with equal bytes.
    Repeated,
    /// A refusal, as the section check or the record gives it. Nothing changed.
    Refused(Refusal),
}

/// The missing report of a module.
#[derive(Clone, Copy, PartialEq, Eq, Debug)]
pub enum Missing {
    /// A refusal, by the paper's number.
    Refused(u8),
    /// No block is missing.
    Whole,
    /// Some are.
    Lacking {
        /// How many.
        count: usize,
        /// The lowest missing block.
        lowest: usize,
    },
}

impl Default for Record {
    fn default() -> Self {
        Record::empty()
    }
}

impl Record {
    const EMPTY: Record = Record {
        download: 0,
        block_size: 0,
        count: 0,
        modules: [Module::NONE; MODULES],
        marks: [0; ALL_WORDS],
    };

    /// The record to start from.
    #[must_use]
    pub fn empty() -> Record {
        Record::EMPTY
    }

    /// Whether the record's rule holds (02, §8): at most 32 modules; if any, the limits of refusals 10 and 11
    /// hold and starts are running sums; unused entries and marks past a last block are zero; with none, all is
    /// zero.
    #[must_use]
    pub fn is_ruled(&self) -> bool {
        if self.count == 0 {
            return *self == Record::EMPTY;
        }
        let Some((used, unused)) = self.modules.split_at_checked(usize::from(self.count)) else {
            return false;
        };
        judge(self.block_size, used).is_ok()
            && starts_are_sums(used)
            && unused.iter().all(|module| *module == Module::NONE)
            && self.marks_are_ruled(used)
    }

    /// Whether the marks past each last block, and of unused entries, are zero. The limits of refusal 10 hold.
    fn marks_are_ruled(&self, used: &[Module]) -> bool {
        let (marks, unused) = self.marks.split_at(used.len() * WORDS);
        is_clear(unused)
            && marks
                .chunks_exact(WORDS)
                .zip(used)
                .all(|(words, module)| clear_from(words, module.blocks(self.block_size)))
    }

    /// Takes one carousel section: table 0x3B or 0x3C, any other is refusal 3.
    pub fn step(&mut self, section: &[u8], image: &mut [u8]) -> Answer {
        if !self.is_ruled() {
            return Answer::Refused(Refusal::plain(refusal::RECORD));
        }
        self.ruled_step(section, image)
    }

    /// The step on a record whose rule is known to hold; it holds again afterwards.
    pub(crate) fn ruled_step(&mut self, section: &[u8], image: &mut [u8]) -> Answer {
        self.try_step(section, image)
            .unwrap_or_else(Answer::Refused)
    }

    fn try_step(&mut self, section: &[u8], image: &mut [u8]) -> Result<Answer, Refusal> {
        let frame = section::frame(section, is_carousel, MOST_LENGTH)?;
        self.take_framed(&frame, image).map_err(Refusal::plain)
    }

    /// A section that refusals 2 to 6 do not meet: any other has no place.
    fn take_framed(&mut self, frame: &Frame<'_>, image: &mut [u8]) -> Result<Answer, u8> {
        if frame.table == section::ANNOUNCEMENT {
            self.announce(frame)
        } else {
            self.store(&message::block(frame)?, image)
        }
    }

    /// An announcement: refusals 7, 8, 10, 11; then "same" or "new". It never looks at the image.
    fn announce(&mut self, frame: &Frame<'_>) -> Result<Answer, u8> {
        let mut announced = message::announcement(frame)?;
        let used = announced
            .modules
            .get_mut(..usize::from(announced.count))
            .ok_or(refusal::LIMITS)?;
        judge(announced.block_size, used)?;
        set_starts(used);
        if self.is_announced(&announced) {
            return Ok(Answer::Same);
        }
        self.marks = self.kept_marks(&announced);
        self.download = announced.download;
        self.block_size = announced.block_size;
        self.count = announced.count;
        self.modules = announced.modules;
        Ok(Answer::New)
    }

    /// The marks under a new announcement (02, §5). A module of the same downloadId, blockSize, number, version, size
    /// and start keeps its own, at its place in the new list; every other begins empty.
    fn kept_marks(&self, announced: &Announcement) -> [u32; ALL_WORDS] {
        let mut marks = [0; ALL_WORDS];
        if self.download != announced.download || self.block_size != announced.block_size {
            return marks;
        }
        let modules = &announced.modules[..usize::from(announced.count)];
        for (words, module) in marks.chunks_exact_mut(WORDS).zip(modules) {
            // The old module of this number must be equal in all: number, size, version and start are its entry.
            if let Ok((place, old)) = self.module(module.number) {
                if old == *module {
                    words.copy_from_slice(self.words(place));
                }
            }
        }
        marks
    }

    /// Whether this is the announcement held. Starts follow from sizes in both, so whole entries compare.
    fn is_announced(&self, announced: &Announcement) -> bool {
        self.download == announced.download
            && self.block_size == announced.block_size
            && self.count == announced.count
            && self.modules == announced.modules
    }

    /// A block that refusals 2 to 9 do not meet: refusals 12 to 17, "stored" or "repeated".
    fn store(&mut self, block: &Block<'_>, image: &mut [u8]) -> Result<Answer, u8> {
        if self.count == 0 || self.download != block.download {
            return Err(refusal::DOWNLOAD);
        }
        let (place, module) = self.module(block.module)?;
        if module.version != block.version {
            return Err(refusal::VERSION);
        }
        if image.len() < self.total() {
            return Err(refusal::IMAGE);
        }
        let size = usize::from(self.block_size);
        let number = usize::from(block.number);
        let offset = number * size;
        // A block past the last begins at or past the module's end, so nothing is left for it.
        let left = (module.size as usize).saturating_sub(offset);
        if left == 0 || block.data.len() != left.min(size) {
            return Err(refusal::BLOCK);
        }
        let begin = module.start as usize + offset;
        let stored = &mut image[begin..begin + block.data.len()];
        let word = &mut self.marks[place * WORDS + number / BITS];
        let mark = 1 << (number % BITS);
        if *word & mark == 0 {
            stored.copy_from_slice(block.data);
            *word |= mark;
            Ok(Answer::Stored)
        } else if *stored == *block.data {
            Ok(Answer::Repeated)
        } else {
            Err(refusal::DIFFERS)
        }
    }

    /// The hand-out's number: 0, or refusal 1, 13, 15 or 20.
    #[must_use]
    pub fn handout_number(&self, image: &[u8], number: u16) -> u8 {
        self.complete(image, number).err().unwrap_or(0)
    }

    /// A complete module, its part of the image; empty where [`Record::handout_number`] is a refusal.
    #[must_use]
    pub fn handout<'a>(&self, image: &'a [u8], number: u16) -> &'a [u8] {
        self.complete(image, number)
            .map_or(&[], |module| &image[module.part()])
    }

    /// The module of this number when it may be handed out.
    fn complete(&self, image: &[u8], number: u16) -> Result<Module, u8> {
        let (place, module) = self.asked(number)?;
        if image.len() < self.total() {
            return Err(refusal::IMAGE);
        }
        if self.received(place) != module.blocks(self.block_size) {
            return Err(refusal::INCOMPLETE);
        }
        Ok(module)
    }

    /// The missing report of the module with this number. It never looks at the image.
    #[must_use]
    pub fn missing(&self, number: u16) -> Missing {
        let (place, module) = match self.asked(number) {
            Ok(found) => found,
            Err(refused) => return Missing::Refused(refused),
        };
        let count = module.blocks(self.block_size) - self.received(place);
        if count == 0 {
            return Missing::Whole;
        }
        Missing::Lacking {
            count,
            lowest: self.lowest_clear(place),
        }
    }

    /// The place and entry of a module on a record of any kind: refusals 1 and 13.
    fn asked(&self, number: u16) -> Result<(usize, Module), u8> {
        if !self.is_ruled() {
            return Err(refusal::RECORD);
        }
        self.module(number)
    }

    /// The place and entry of a module on a ruled record: refusal 13.
    fn module(&self, number: u16) -> Result<(usize, Module), u8> {
        let used = &self.modules[..usize::from(self.count)];
        used.iter()
            .position(|module| module.number == number)
            .map(|place| (place, used[place]))
            .ok_or(refusal::UNKNOWN_MODULE)
    }

    /// The sizes of a ruled record together: the end of its last module.
    fn total(&self) -> usize {
        self.modules[..usize::from(self.count)]
            .last()
            .map_or(0, |module| module.part().end)
    }

    /// The words of marks of the module at a place.
    fn words(&self, place: usize) -> &[u32] {
        &self.marks[place * WORDS..(place + 1) * WORDS]
    }

    /// How many blocks of the module at a place are marked. On a ruled record none past its last is.
    fn received(&self, place: usize) -> usize {
        let ones: u32 = self.words(place).iter().map(|word| word.count_ones()).sum();
        ones as usize
    }

    /// The first clear mark of the module at a place, where it has one.
    fn lowest_clear(&self, place: usize) -> usize {
        let words = self.words(place);
        let full = words.iter().take_while(|&&word| word == u32::MAX).count();
        full * BITS
            + words
                .get(full)
                .map_or(0, |word| word.trailing_ones() as usize)
    }
}

fn is_carousel(table: u8) -> bool {
    matches!(table, section::ANNOUNCEMENT | section::BLOCK)
}

/// The limits of refusals 10 and 11, over the modules of an announcement, of a record or of what is to be played.
/// More than 32 are for the caller to refuse.
pub(crate) fn judge(block_size: u16, modules: &[Module]) -> Result<(), u8> {
    if block_size == 0 || block_size > MOST_BLOCK_SIZE || modules.is_empty() {
        return Err(refusal::LIMITS);
    }
    let most = (BLOCKS * u32::from(block_size)).min(MOST_TOGETHER);
    let mut together = 0;
    for module in modules {
        if module.size == 0 || module.size > most {
            return Err(refusal::LIMITS);
        }
        // At most 32 sizes of at most 262,144: no overflow.
        together += module.size;
    }
    if together > MOST_TOGETHER {
        return Err(refusal::LIMITS);
    }
    if has_twice(modules) {
        return Err(refusal::TWICE);
    }
    Ok(())
}

/// Whether a number stands twice. All pairs are compared: that is quicker here than to stop at the first.
fn has_twice(modules: &[Module]) -> bool {
    let mut twice = false;
    for (place, module) in modules.iter().enumerate() {
        for other in &modules[..place] {
            twice |= other.number == module.number;
        }
    }
    twice
}

/// Lays the modules one after another from byte 0. Their limits hold.
pub(crate) fn set_starts(modules: &mut [Module]) {
    let mut start = 0;
    for module in modules {
        module.start = start;
        start += module.size;
    }
}

/// Whether the modules lie one after another from byte 0. Their limits hold.
fn starts_are_sums(modules: &[Module]) -> bool {
    let mut start = 0;
    for module in modules {
        if module.start != start {
            return false;
        }
        start += module.size;
    }
    true
}

/// Whether no mark is set in these words.
fn is_clear(words: &[u32]) -> bool {
    words.iter().fold(0, |all, word| all | word) == 0
}

/// Whether no mark from this one on is set in these words.
fn clear_from(words: &[u32], mark: usize) -> bool {
    match words.get(mark / BITS..) {
        Some([first, rest @ ..]) => first >> (mark % BITS) == 0 && is_clear(rest),
        _ => true,
    }
}
