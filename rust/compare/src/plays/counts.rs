//! What was answered how often, and which limits were met, from which side.

use crate::columns::write_columns;
use std::fmt::{self, Display};

use super::Draft;
use crate::fence::Edge;
use crate::limits::{LARGEST_BLOCK, MOST_BLOCKS, MOST_BYTES, MOST_MODULES, SECTION_NUMBERS};
use nebosvar::player::LARGEST_SECTION;

/// The calls that can refuse.
#[derive(Clone, Copy, PartialEq, Eq, Debug)]
pub enum Call {
    Count,
    Write,
}

/// Their names, in the order of [`Call`].
const CALLS: [&str; 2] = ["count", "write"];
/// Each refusal, and which of the calls can give it.
const REFUSALS: [(u8, [bool; CALLS.len()]); 5] = [
    (10, [true, true]),
    (11, [true, true]),
    (15, [false, true]),
    (19, [false, true]),
    (21, [false, true]),
];

/// What is counted of sections that were written, and of refusals that a single limit, passed by one, was the cause of.
#[derive(Clone, Copy, PartialEq, Eq, Debug)]
pub enum Limit {
    LeastBlockSize,
    NoBlockSize,
    LargestBlockSize,
    BlockSizeOver,
    OneModule,
    NoModule,
    MostModules,
    OneModuleMore,
    ManyModulesMore,
    LeastSize,
    NoSize,
    MostBlocks,
    OneBlockMore,
    MostBytes,
    OneByteMore,
    Twice,
    ExactImage,
    LongerImage,
    ShortImage,
    ShortImageAtFirst,
    LastPlace,
    OnePast,
    FarPast,
    ExactBuffer,
    LongerBuffer,
    ShortBuffer,
    NoBuffer,
    LargestSection,
    ShortLastBlock,
    FullLastBlock,
    BlocksTo255,
    BlocksTo256,
    HighBlock,
    HighVersion,
}

/// Their words, in the order of [`Limit`].
const LIMITS: [&str; 34] = [
    "blockSize 1 written",
    "blockSize 0 refused with 10",
    "blockSize 4,066 written",
    "blockSize 4,067 refused with 10",
    "one module written",
    "no module refused with 10",
    "32 modules written",
    "33 modules refused with 10",
    "more modules refused with 10",
    "a size of 1 written",
    "a size of 0 refused with 10",
    "1,024 blocks written",
    "a byte more refused with 10",
    "sums of 262,144 written",
    "sums of 262,145 refused with 10",
    "a number twice refused with 11",
    "written out of the least image",
    "written out of a longer image",
    "an image one byte short refused with 15",
    "that at place 0",
    "the last place written",
    "one past refused with 19",
    "far past refused with 19",
    "written into the least buffer",
    "written into a longer buffer",
    "a buffer one byte short refused with 21",
    "no buffer refused with 21",
    "sections of 4,096 bytes written",
    "short last blocks written",
    "full last blocks written",
    "last blocks of 255 written",
    "last blocks of 256 written",
    "blocks above 255 written",
    "versions above 31 written",
];

/// A section that was asked for.
pub struct Asked<'a> {
    pub draft: &'a Draft,
    /// The bytes of the image, and of the buffer.
    pub image: usize,
    pub room: usize,
    pub place: usize,
    /// The length of this section, as it is told in a buffer that is long enough.
    pub length: Option<usize>,
}

/// How often each answer came. Both gave it: it is counted after they were found to agree.
#[derive(Clone)]
pub struct Counts {
    /// Announcements, and how many were within the limits.
    pub drafts: u64,
    pub within: u64,
    /// Calls into a buffer, and sections that were written.
    pub buffers: u64,
    pub written: u64,
    /// Whole rotations that were played, their sections, and how many answers "repeated" and "same" came.
    pub rotations: u64,
    pub played: u64,
    pub repeated: u64,
    pub same: u64,
    /// Announcements of which all that is lent ended at a fence, and began at one.
    pub fenced: [u64; 2],
    refusals: [[u64; CALLS.len()]; REFUSALS.len()],
    /// Refusals that are none of the player.
    others: u64,
    limits: [u64; LIMITS.len()],
}

impl Default for Counts {
    fn default() -> Counts {
        Counts {
            drafts: 0,
            within: 0,
            buffers: 0,
            written: 0,
            rotations: 0,
            played: 0,
            repeated: 0,
            same: 0,
            fenced: [0; 2],
            refusals: [[0; CALLS.len()]; REFUSALS.len()],
            others: 0,
            limits: [0; LIMITS.len()],
        }
    }
}

impl Counts {
    /// An announcement is lent at this edge, if at any.
    pub fn lent(&mut self, edge: Option<Edge>) {
        self.drafts += 1;
        if let Some(edge) = edge {
            self.fenced[edge as usize] += 1;
        }
    }

    /// An answer of a call.
    pub fn answer(&mut self, call: Call, answer: &Result<usize, u8>) {
        let Err(number) = answer else {
            return;
        };
        match REFUSALS.iter().position(|(refusal, _)| refusal == number) {
            Some(place) => self.refusals[place][call as usize] += 1,
            None => self.others += 1,
        }
    }

    /// A section that was asked for, and the answer.
    pub fn asked(&mut self, asked: &Asked<'_>, answer: &Result<usize, u8>) {
        self.buffers += 1;
        self.answer(Call::Write, answer);
        match answer {
            Ok(length) => self.written(asked, *length),
            Err(10) => self.beyond(asked.draft),
            Err(11) => self.met(Limit::Twice, true),
            Err(15) => {
                let one_short = asked.image as u64 + 1 == asked.draft.together();
                self.met(Limit::ShortImage, one_short);
                self.met(Limit::ShortImageAtFirst, one_short && asked.place == 0);
            }
            Err(19) => {
                let sections = 1 + asked.draft.blocks().sum::<usize>();
                self.met(Limit::OnePast, asked.place == sections);
                self.met(Limit::FarPast, asked.place > sections + MOST_BLOCKS);
            }
            Err(21) => {
                self.met(Limit::ShortBuffer, Some(asked.room + 1) == asked.length);
                self.met(Limit::NoBuffer, asked.room == 0);
            }
            Err(_) => {}
        }
    }

    fn met(&mut self, limit: Limit, met: bool) {
        self.limits[limit as usize] += u64::from(met);
    }

    /// A section that was written.
    fn written(&mut self, asked: &Asked<'_>, length: usize) {
        self.written += 1;
        let draft = asked.draft;
        let (size, count) = (draft.block_size, draft.modules.len());
        let sections = 1 + draft.blocks().sum::<usize>();
        let exact = asked.image as u64 == draft.together();
        self.met(Limit::LeastBlockSize, size == 1);
        self.met(Limit::LargestBlockSize, usize::from(size) == LARGEST_BLOCK);
        self.met(Limit::OneModule, count == 1);
        self.met(Limit::MostModules, count == MOST_MODULES);
        self.met(Limit::LeastSize, draft.modules.iter().any(|m| m.size == 1));
        self.met(
            Limit::MostBlocks,
            draft.modules.iter().any(|m| m.size == most(size)),
        );
        self.met(Limit::MostBytes, draft.together() == MOST_BYTES as u64);
        self.met(Limit::ExactImage, exact);
        self.met(Limit::LongerImage, !exact);
        self.met(Limit::LastPlace, asked.place + 1 == sections);
        self.met(Limit::ExactBuffer, asked.room == length);
        self.met(Limit::LongerBuffer, asked.room > length);
        self.met(Limit::LargestSection, length == LARGEST_SECTION);
        if let Some(block) = asked.place.checked_sub(1) {
            self.block(draft, block);
        }
    }

    /// A block that was written, counted over all modules.
    fn block(&mut self, draft: &Draft, mut block: usize) {
        for (module, blocks) in draft.modules.iter().zip(draft.blocks()) {
            if block >= blocks {
                block -= blocks;
                continue;
            }
            let last = block + 1 == blocks;
            let full = module.size % u32::from(draft.block_size) == 0;
            self.met(Limit::ShortLastBlock, last && !full);
            self.met(Limit::FullLastBlock, last && full);
            self.met(Limit::BlocksTo255, last && blocks == SECTION_NUMBERS - 1);
            self.met(Limit::BlocksTo256, last && blocks == SECTION_NUMBERS);
            self.met(Limit::HighBlock, block >= SECTION_NUMBERS);
            self.met(Limit::HighVersion, module.version >= 32);
            return;
        }
    }

    /// An announcement that was refused with 10, where a single limit was passed, and that by one.
    fn beyond(&mut self, draft: &Draft) {
        if let [limit] = passed(draft)[..] {
            self.met(limit, true);
        }
    }

    /// The answers and limits that came fewer times than this, and the answers that came and can not.
    pub fn rare(&self, least: u64) -> Vec<String> {
        let mut rare: Vec<String> = vec![];
        for ((number, can), counts) in REFUSALS.iter().zip(&self.refusals) {
            for ((name, can), &count) in CALLS.iter().zip(can).zip(counts) {
                if *can && count < least || !*can && count > 0 {
                    rare.push(format!("{number} by {name}: {count}"));
                }
            }
        }
        let others = [
            ("rotations played", self.rotations),
            ("blocks repeated", self.repeated),
            ("announcements again", self.same),
            ("announcements that end at a fence", self.fenced[0]),
            ("announcements that begin at a fence", self.fenced[1]),
        ];
        let limits = LIMITS.into_iter().zip(self.limits);
        for (what, count) in limits.chain(others) {
            if count < least {
                rare.push(format!("{what}: {count}"));
            }
        }
        if self.others > 0 {
            rare.push(format!("other refusals: {}", self.others));
        }
        rare
    }
}

/// The most bytes of a module.
fn most(block_size: u16) -> u32 {
    MOST_BLOCKS as u32 * u32::from(block_size)
}

/// The limits of refusal 10 that an announcement passes; one passed by more than one is told as two.
fn passed(draft: &Draft) -> Vec<Limit> {
    let mut passed = vec![];
    let mut tell = |limit, by: u64| passed.extend(vec![limit; by.min(2) as usize]);
    let size = draft.block_size;
    let most = u64::from(most(size));
    tell(Limit::NoBlockSize, u64::from(size == 0));
    let over = usize::from(size).saturating_sub(LARGEST_BLOCK);
    tell(Limit::BlockSizeOver, over as u64);
    match draft.modules.len().saturating_sub(MOST_MODULES) {
        0 => tell(Limit::NoModule, u64::from(draft.modules.is_empty())),
        1 => tell(Limit::OneModuleMore, 1),
        _ => tell(Limit::ManyModulesMore, 1),
    }
    if size != 0 {
        for module in &draft.modules {
            tell(Limit::NoSize, u64::from(module.size == 0));
            tell(
                Limit::OneBlockMore,
                u64::from(module.size).saturating_sub(most),
            );
        }
    }
    tell(
        Limit::OneByteMore,
        draft.together().saturating_sub(MOST_BYTES as u64),
    );
    passed
}

impl Display for Counts {
    /// A line for each refusal, a column for each call; then the limits.
    fn fmt(&self, f: &mut fmt::Formatter<'_>) -> fmt::Result {
        let rows = REFUSALS.iter().zip(&self.refusals);
        write_columns(
            f,
            &CALLS,
            rows.map(|((number, _), counts)| (number, &counts[..])),
        )?;
        let limits = LIMITS.iter().zip(&self.limits);
        let limits: Vec<_> = limits
            .map(|(what, count)| format!("{what} {count}"))
            .collect();
        write!(f, "the player at the limits: {}", limits.join(", "))
    }
}

#[cfg(test)]
mod tests {
    use super::*;

    fn of(block_size: u16, sizes: &[u32]) -> Draft {
        Draft {
            download: 1,
            block_size,
            modules: sizes
                .iter()
                .map(|&size| (size as u16, size, 0).into())
                .collect(),
            identifier: 2,
        }
    }

    #[test]
    fn a_limit_is_passed_by_one_and_by_nothing_else() {
        for (draft, wanted) in [
            (of(0, &[1]), &[Limit::NoBlockSize][..]),
            (of(4_067, &[1]), &[Limit::BlockSizeOver]),
            (of(4_068, &[1]), &[Limit::BlockSizeOver; 2]),
            (of(1, &[]), &[Limit::NoModule]),
            (of(1, &[1; 33]), &[Limit::OneModuleMore]),
            (of(1, &[1; 34]), &[Limit::ManyModulesMore]),
            (of(1, &[0, 1]), &[Limit::NoSize]),
            (of(1, &[1_025, 7]), &[Limit::OneBlockMore]),
            (of(1, &[1_026, 7]), &[Limit::OneBlockMore; 2]),
            (of(400, &[262_144, 1]), &[Limit::OneByteMore]),
            (of(400, &[262_144, 2]), &[Limit::OneByteMore; 2]),
            (of(400, &[262_143, 1]), &[]),
        ] {
            assert_eq!(passed(&draft), wanted, "{draft}");
        }
    }

    #[test]
    fn what_is_rare_and_what_can_not_come_is_told() {
        let mut counts = Counts::default();
        let possible = REFUSALS.iter().flat_map(|(_, can)| can).filter(|can| **can);
        assert_eq!(counts.rare(1).len(), possible.count() + LIMITS.len() + 5);
        counts.answer(Call::Count, &Err(15));
        counts.answer(Call::Write, &Err(21));
        counts.answer(Call::Write, &Err(20));
        let rare = counts.rare(1);
        assert!(rare.contains(&"15 by count: 1".to_string()));
        assert!(!rare.contains(&"21 by write: 0".to_string()));
        assert!(rare.contains(&"other refusals: 1".to_string()));
    }

    #[test]
    fn a_block_is_counted_in_its_module() {
        let mut counts = Counts::default();
        let draft = of(1, &[255, 256, 300]);
        counts.block(&draft, 254);
        counts.block(&draft, 255 + 255);
        counts.block(&draft, 255 + 256 + 256);
        let met = |limit: Limit| counts.limits[limit as usize];
        assert_eq!(met(Limit::BlocksTo255), 1);
        assert_eq!(met(Limit::BlocksTo256), 1);
        assert_eq!(met(Limit::HighBlock), 1);
        assert_eq!(met(Limit::FullLastBlock), 2);
    }
}
