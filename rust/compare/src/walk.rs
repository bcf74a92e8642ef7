//! One case, whole: the stretch walked section by section, then run over at once.

use std::ops::Range;

use nebosvar::{Kind, Stop};

use crate::counts::Counts;
use crate::difference::{same, Same};
use crate::fence::{Edge, Lender};
use crate::pair::{Fate, Pair, Passage};
use crate::random::Random;
use crate::reading;
use crate::stretches::{sections, Case};
use crate::whole::{Change, Watcher};
use make::APPLICATIONS;

/// Compares both receivers over a case. `random` says how sections are cut and where runs are split.
/// Where there is an edge, all that our receiver is lent lies at a fence.
pub fn compare(case: &Case, edge: Option<Edge>, random: &mut Random, counts: &mut Counts) -> Same {
    let start = Pair::new(&case.record, &case.image, edge);
    let mut walk = Walk {
        case,
        random,
        counts,
        pair: start.clone(),
        before: start.clone(),
        scratch: start.clone(),
        watcher: Watcher::default(),
        // A section may be lent twice over, or with a byte more.
        lender: Lender::new(edge, 2 * case.stretch.len() + 1),
    };
    walk.counts.reached.lent(&case.record);
    let walked = walk.walk()?;
    walk.run(&start, walked)?;
    walk.split_run(&start, walked)
}

/// So many modules are asked for after a call, at most.
const MOST_ASKED: usize = 4;

struct Walk<'a> {
    case: &'a Case,
    random: &'a mut Random,
    counts: &'a mut Counts,
    pair: Pair,
    /// What the pair was before the call.
    before: Pair,
    /// A copy of that, for calls that are only tried.
    scratch: Pair,
    /// Of what is whole.
    watcher: Watcher,
    /// Of sections and stretches.
    lender: Lender,
}

impl Walk<'_> {
    /// Walks over the stretch by `take`; answers what a run over it must.
    fn walk(&mut self) -> Same<Passage> {
        let mut passage = Passage {
            taken: 0,
            passed: 0,
            stop: Stop::State,
        };
        let mut places = sections(&self.case.stretch);
        // What is left behind the last section stops the walk, if nothing does before.
        let end = places.last().map_or(0, |last| last.end);
        places.push(end..self.case.stretch.len());
        self.modules()?;
        for place in places {
            let start = place.start;
            let budget = self.case.budget - passage.taken;
            let taken = self.place(place, budget);
            match taken.map_err(|difference| difference.at(start))? {
                Ok(length) => {
                    passage.taken += 1;
                    passage.passed += length;
                }
                // A record that breaks its rule stops at every place, so all of them are tried.
                Err(Stop::State) => {}
                Err(stop) => {
                    passage.stop = stop;
                    break;
                }
            }
        }
        Ok(passage)
    }

    /// All calls at one place; answers the length of the section taken there, or the stop.
    fn place(&mut self, place: Range<usize>, budget: usize) -> Same<Result<usize, Stop>> {
        let stretch = &self.case.stretch;
        let section = &stretch[place.clone()];
        let other = self.other_size(section);
        self.step(section)?;
        self.step(&other)?;
        self.read(section, &other)?;
        let rest = self.lender.lend(&stretch[place.start..]);
        let taken = self.pair.take(rest, budget, self.counts)?;
        self.counts.sections += u64::from(taken.is_ok());
        if let Ok((_, fate)) = &taken {
            self.counts.versions(section, fate);
            self.counts.header(section, fate);
            let records = [self.before.record(), self.pair.record()];
            let room = self.case.image.len();
            self.counts.reached.taken(section, fate, records, room);
            if *fate == Ok(Kind::New) {
                self.counts.kept.announced(records, room);
            }
        }
        let kind = taken.ok().and_then(|(_, fate)| fate.ok());
        unchanged(&self.pair, &self.before, kind)?;
        // Where nothing was taken the record may break its rule.
        if let Ok((_, fate)) = &taken {
            self.watch(fate)?;
        }
        if may_change(kind) {
            self.before.copy_from(&self.pair);
            self.scratch.copy_from(&self.pair);
        }
        self.modules()?;
        if let Ok((length, _)) = taken {
            same("length of the section", &length, &section.len())?;
        }
        Ok(taken.map(|(length, _)| length))
    }

    /// What is whole stays whole over this section.
    fn watch(&mut self, fate: &Fate) -> Same {
        let (record, image) = (self.before.record(), self.before.image());
        for number in self.watcher.before(record, image) {
            let handout = self.before.handout(number, self.counts)?;
            self.watcher.handed_out(number, handout)?;
        }
        let change = Change {
            fate,
            records: [self.before.record(), self.pair.record()],
            images: [self.before.image(), self.pair.image()],
        };
        for number in self.watcher.taken(&change)? {
            let handout = self.pair.handout(number, self.counts)?;
            self.watcher.handed_out(number, handout)?;
        }
        self.counts.watched(self.watcher.events());
        Ok(())
    }

    /// A section's bytes, some less or some more: only so can refusal 2 be reached.
    fn other_size(&mut self, section: &[u8]) -> Vec<u8> {
        let mut bytes = section.to_vec();
        match self.random.below(6) {
            0 => bytes.truncate(section.len().saturating_sub(1)),
            1 => bytes.truncate(self.random.below(section.len() + 1)),
            2 => bytes.truncate(self.random.below(4)),
            3 => bytes.push(self.random.byte()),
            4 => bytes.push(0xFF),
            _ => bytes.extend(section),
        }
        bytes
    }

    /// A step, only tried.
    fn step(&mut self, section: &[u8]) -> Same {
        let section = self.lender.lend(section);
        let kind = self.scratch.step(section, self.counts)?.ok();
        unchanged(&self.scratch, &self.before, kind)?;
        if may_change(kind) {
            self.scratch.copy_from(&self.before);
        }
        Ok(())
    }

    /// Every table is read, and now and then what is none.
    fn read(&mut self, section: &[u8], other: &[u8]) -> Same {
        if section.first() == Some(&APPLICATIONS) || self.random.one_in(20) {
            reading::compare(self.lender.lend(section), self.counts)?;
            reading::compare(self.lender.lend(other), self.counts)?;
        }
        Ok(())
    }

    /// The hand-out and the missing report of every announced module, of many of the last one and some by chance, and of a
    /// number that is not announced.
    fn modules(&mut self) -> Same {
        let record = self.pair.record();
        let count = usize::from(record.count).min(record.modules.len());
        let numbers = record.modules.map(|module| module.number);
        let mut other = self.random.number() as u16;
        while numbers.contains(&other) {
            other = other.wrapping_add(1);
        }
        self.pair.module(other, self.counts)?;
        for asked in 0..count.min(MOST_ASKED) {
            let place = match asked {
                _ if count <= MOST_ASKED => asked,
                0 => count - 1,
                _ => self.random.below(count),
            };
            self.pair.module(numbers[place], self.counts)?;
        }
        Ok(())
    }

    /// The run answers what the walk came to, and leaves what the walk left.
    fn run(&mut self, start: &Pair, walked: Passage) -> Same {
        self.scratch.copy_from(start);
        let (stretch, budget) = (&self.case.stretch, self.case.budget);
        let stretch = self.lender.lend(stretch);
        let ran = self.scratch.run(stretch, budget, self.counts)?;
        same("run beside the walk", &ran, &walked)?;
        self.scratch.same_records(&self.pair)?;
        self.scratch.same_images(&self.pair)
    }

    /// "A budget of n, then one of m on the rest, leaves the same record, image and last stop as n + m."
    fn split_run(&mut self, start: &Pair, walked: Passage) -> Same {
        self.scratch.copy_from(start);
        let (stretch, budget) = (&self.case.stretch, self.case.budget);
        let first = self.random.within(0..=walked.taken);
        let lent = self.lender.lend(stretch);
        let some = self.scratch.run(lent, first, self.counts)?;
        let rest = self.lender.lend(&stretch[some.passed..]);
        let rest = self.scratch.run(rest, budget - first, self.counts)?;
        let both = Passage {
            taken: some.taken + rest.taken,
            passed: some.passed + rest.passed,
            stop: rest.stop,
        };
        same("split run beside the walk", &both, &walked)?;
        self.scratch.same_records(&self.pair)?;
        self.scratch.same_images(&self.pair)
    }
}

/// Whether an answer changes anything. A refusal or a stop has no kind.
fn may_change(kind: Option<Kind>) -> bool {
    matches!(kind, Some(Kind::New | Kind::Stored))
}

/// What must be as it was before: the image unless a block was stored, the record unless it is "new" besides.
fn unchanged(pair: &Pair, before: &Pair, kind: Option<Kind>) -> Same {
    if kind != Some(Kind::Stored) {
        pair.same_images(before)?;
    }
    if may_change(kind) {
        return Ok(());
    }
    pair.same_records(before)
}
