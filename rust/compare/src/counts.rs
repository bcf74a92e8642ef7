//! What was answered how often. A comparison says nothing of an answer that never came.

use crate::columns::write_columns;
use std::fmt::{self, Display};

use baseline::Refusal;
use nebosvar::{Kind, Stop};

use crate::fence::Edge;
use crate::kept::{Kept, BECAME};
use crate::reached::{Reached, LIMITS};
use crate::versions;
use crate::whole::{Events, EVENTS};

/// The calls that can refuse.
#[derive(Clone, Copy, PartialEq, Eq, Debug)]
pub enum Call {
    Take,
    Step,
    Handout,
    Missing,
    Table,
    Application,
    Descriptor,
    Item,
    Extension,
    Label,
}

/// Their names, in the order of [`Call`].
const CALLS: [&str; 10] = [
    "take", "step", "handout", "missing", "table", "applic.", "descr.", "item", "extens.", "label",
];
const KINDS: [&str; 5] = ["table", "new", "same", "stored", "repeated"];
const STOPS: [&str; 5] = ["end", "stuffing", "short", "budget", "state"];
/// The refusals, from 1.
const REFUSALS: usize = 20;
/// Module versions that the five bits of a section version tell whole, and the others.
const VERSIONS: [&str; 2] = ["under 32", "of 32 and more"];

/// A refusal 4 by what is wrong: the section numbers are its place only where nothing else is (02, §9).
const HEADERS: [&str; 3] = ["section numbers alone", "they and more", "all but they"];

/// How often each answer came. Both receivers gave it: it is counted after they were found to agree.
#[derive(Clone, Default)]
pub struct Counts {
    /// Sections walked over.
    pub sections: u64,
    /// Stretches of which all that is lent ended at a fence, and began at one.
    pub fenced: [u64; 2],
    refusals: [[u64; CALLS.len()]; REFUSALS],
    kinds: [u64; KINDS.len()],
    stops: [u64; STOPS.len()],
    headers: [u64; HEADERS.len()],
    /// Blocks refused with 9 for their section version alone, and blocks that were taken, by module version.
    stale: [u64; VERSIONS.len()],
    fresh: [u64; VERSIONS.len()],
    handouts: u64,
    places: u64,
    /// The limits of 02, §8.
    pub reached: Reached,
    /// What new announcements kept (02, §5).
    pub kept: Kept,
    /// Sections with which such a thing came of whole modules (request §12).
    whole: [u64; EVENTS.len()],
}

impl Counts {
    /// An answer of a call: a refusal is counted by the call and its number.
    pub fn refusal<T>(&mut self, call: Call, answer: &Result<T, Refusal>) {
        if let Err(refusal) = answer {
            self.refusals[usize::from(refusal.number) - 1][call as usize] += 1;
        }
    }

    /// What became of a section.
    pub fn fate(&mut self, call: Call, fate: &Result<Kind, Refusal>) {
        self.refusal(call, fate);
        if let Ok(kind) = fate {
            self.kinds[*kind as usize] += 1;
        }
    }

    /// A block that was refused with 9 or taken, by its versions.
    pub fn versions(&mut self, section: &[u8], fate: &Result<Kind, Refusal>) {
        let Some(version) = versions::of_module(section) else {
            return;
        };
        let place = usize::from(version >= 32);
        match fate {
            Err(Refusal { number: 9, .. }) => self.stale[place] += 1,
            Ok(Kind::Stored | Kind::Repeated) => self.fresh[place] += 1,
            _ => {}
        }
    }

    /// A section that was refused with 4, by its place and its section numbers.
    pub fn header(&mut self, section: &[u8], fate: &Result<Kind, Refusal>) {
        let Err(Refusal { number: 4, place }) = *fate else {
            return;
        };
        let wrong = matches!(section, [_, _, _, _, _, _, number, last, ..] if number > last);
        match (place, wrong) {
            (Some(6), true) => self.headers[0] += 1,
            (Some(1), true) => self.headers[1] += 1,
            (Some(1), false) => self.headers[2] += 1,
            _ => {}
        }
    }

    pub fn stop(&mut self, stop: Stop) {
        self.stops[stop as usize] += 1;
    }

    /// What came of whole modules with a section.
    pub fn watched(&mut self, events: &Events) {
        for (count, event) in self.whole.iter_mut().zip(events) {
            *count += u64::from(*event);
        }
    }

    /// A stretch is lent at this edge, if at any.
    pub fn lent(&mut self, edge: Option<Edge>) {
        if let Some(edge) = edge {
            self.fenced[edge as usize] += 1;
        }
    }

    /// A module was handed out.
    pub fn handed_out(&mut self) {
        self.handouts += 1;
    }

    /// Something was found, or not, at a place of a table.
    pub fn found(&mut self, found: bool) {
        self.places += u64::from(found);
    }

    /// Adds another thread's.
    pub fn add(&mut self, other: &Counts) {
        self.sections += other.sections;
        self.handouts += other.handouts;
        self.places += other.places;
        add(&mut self.fenced, &other.fenced);
        add(&mut self.kinds, &other.kinds);
        add(&mut self.stops, &other.stops);
        add(&mut self.headers, &other.headers);
        add(&mut self.stale, &other.stale);
        add(&mut self.fresh, &other.fresh);
        add(&mut self.reached.0, &other.reached.0);
        self.kept.new += other.kept.new;
        add(&mut self.kept.became, &other.kept.became);
        add(&mut self.whole, &other.whole);
        for (counts, others) in self.refusals.iter_mut().zip(&other.refusals) {
            add(counts, others);
        }
    }

    /// The answers that came fewer times than this.
    pub fn rare(&self, least: u64) -> Vec<String> {
        below(least, self.answers())
    }

    /// The limits that were reached fewer times than this.
    pub fn rare_limits(&self, least: u64) -> Vec<String> {
        below(least, self.limits())
    }

    /// Every limit, by name, and how often it was reached.
    fn limits(&self) -> Vec<(String, u64)> {
        let named = LIMITS.iter().map(|name| name.to_string());
        named.zip(self.reached.0).collect()
    }

    /// What became of marked modules in fewer announcements than this.
    pub fn rare_kept(&self, least: u64) -> Vec<String> {
        below(least, self.became())
    }

    /// What became of modules, by name, and in how many new announcements.
    fn became(&self) -> Vec<(String, u64)> {
        let named = BECAME.iter().map(|name| name.to_string());
        named.zip(self.kept.became).collect()
    }

    /// How many announcements were new, and what became of marked modules in them.
    pub fn told_kept(&self) -> String {
        format!("new {}, {}", self.kept.new, told(&self.became()))
    }

    /// What came of whole modules with fewer sections than this.
    pub fn rare_whole(&self, least: u64) -> Vec<String> {
        below(least, self.events())
    }

    /// What came of whole modules, by name, and with how many sections.
    fn events(&self) -> Vec<(String, u64)> {
        let named = EVENTS.iter().map(|name| name.to_string());
        named.zip(self.whole).collect()
    }

    /// What came of whole modules, as it is told.
    pub fn told_whole(&self) -> String {
        told(&self.events())
    }

    /// The limits, as they are told.
    pub fn told_limits(&self) -> String {
        told(&self.limits())
    }

    /// Every answer, by name, and how often it came in all calls together.
    fn answers(&self) -> Vec<(String, u64)> {
        let refusals = self.refusals.iter().enumerate();
        let mut all: Vec<_> = refusals
            .map(|(place, counts)| (format!("refusal {}", place + 1), counts.iter().sum()))
            .collect();
        all.extend(named("kind", &KINDS, &self.kinds));
        all.extend(named("stop", &STOPS, &self.stops));
        all.extend(named("bad header,", &HEADERS, &self.headers));
        all.extend(named("stale headers, versions", &VERSIONS, &self.stale));
        all.extend(named("blocks taken, versions", &VERSIONS, &self.fresh));
        all.push(("complete hand-outs".to_string(), self.handouts));
        all.push(("places of tables".to_string(), self.places));
        all
    }
}

fn add(counts: &mut [u64], others: &[u64]) {
    for (count, other) in counts.iter_mut().zip(others) {
        *count += other;
    }
}

fn below(least: u64, counted: Vec<(String, u64)>) -> Vec<String> {
    counted
        .into_iter()
        .filter(|(_, count)| *count < least)
        .map(|(answer, count)| format!("{answer}: {count}"))
        .collect()
}

fn told(counted: &[(String, u64)]) -> String {
    let told = counted
        .iter()
        .map(|(name, count)| format!("{name} {count}"));
    told.collect::<Vec<_>>().join(", ")
}

fn named(what: &str, names: &[&str], counts: &[u64]) -> Vec<(String, u64)> {
    names
        .iter()
        .zip(counts)
        .map(|(name, count)| (format!("{what} {name}"), *count))
        .collect()
}

impl Display for Counts {
    /// A line for each refusal, a column for each call; then every other answer; then the limits.
    fn fmt(&self, f: &mut fmt::Formatter<'_>) -> fmt::Result {
        let rows = self.refusals.iter().enumerate();
        write_columns(
            f,
            &CALLS,
            rows.map(|(place, counts)| (place + 1, &counts[..])),
        )?;
        writeln!(f, "{}", told(&self.answers().split_off(REFUSALS)))?;
        write!(f, "limits: {}", self.told_limits())
    }
}

#[cfg(test)]
mod tests {
    use super::*;

    #[test]
    fn answers_are_counted_by_name() {
        let mut counts = Counts::default();
        counts.fate(Call::Step, &Err(Refusal::plain(20)));
        counts.fate(Call::Take, &Ok(Kind::Repeated));
        counts.stop(Stop::State);
        let mut twice = counts.clone();
        twice.add(&counts);
        let rare = twice.rare(2);
        for answer in ["refusal 20", "kind repeated", "stop state"] {
            assert!(!rare.iter().any(|line| line.starts_with(answer)));
        }
        assert!(rare.contains(&"refusal 1: 0".to_string()));
        assert_eq!(rare.len(), 20 + 5 + 5 + 3 + 4 + 2 - 3);
    }

    #[test]
    fn a_limit_that_is_reached_too_rarely_is_told() {
        let mut counts = Counts::default();
        counts.reached.0 = [2; LIMITS.len()];
        counts.reached.0[3] = 1;
        let mut twice = counts.clone();
        twice.add(&counts);
        assert_eq!(twice.rare_limits(2), [""; 0]);
        assert_eq!(twice.rare_limits(3), [format!("{}: 2", LIMITS[3])]);
        assert!(twice.to_string().ends_with(&twice.told_limits()));
    }

    #[test]
    fn what_is_kept_too_rarely_is_told() {
        let mut counts = Counts::default();
        counts.kept.new = 3;
        counts.kept.became = [2; BECAME.len()];
        counts.kept.became[1] = 0;
        let mut twice = counts.clone();
        twice.add(&counts);
        assert_eq!(twice.rare_kept(1), ["moved one: 0"]);
        assert_eq!(twice.rare_kept(5).len(), BECAME.len());
        assert!(twice
            .told_kept()
            .starts_with("new 6, kept a marked module 4, moved one 0,"));
    }

    #[test]
    fn what_comes_too_rarely_of_whole_modules_is_told() {
        let mut counts = Counts::default();
        let mut events = [true; EVENTS.len()];
        counts.watched(&events);
        events[3] = false;
        counts.watched(&events);
        let mut twice = counts.clone();
        twice.add(&counts);
        assert_eq!(twice.rare_whole(2), [""; 0]);
        assert_eq!(twice.rare_whole(3), ["handed out again after 15: 2"]);
        assert!(twice.told_whole().starts_with("handed out again 4, "));
    }
}
