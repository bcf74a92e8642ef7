//! What is whole stays whole (request §12), watched over every walk: by the fields and marks of the records, the bytes of the images and
//! the hand-outs. No receiver is asked which modules it takes for the same, or for complete.

use std::collections::BTreeMap;
use std::ops::Range;

use baseline::{Module, Record};
use nebosvar::Kind;

use crate::difference::{Difference, Same};
use crate::limits::{BITS, MODULE_WORDS, MOST_BLOCKS};
use crate::pair::{Fate, Handout};

/// The hand-out's refusal where the image has no room for all that is announced.
const NO_ROOM: u8 = 15;
/// So many hand-outs are asked after a section that changed nothing, at most.
const MOST_ASKED: usize = 4;

/// What came of whole modules with a section.
#[derive(Clone, Copy, PartialEq, Eq, Debug)]
pub enum Event {
    Again,
    AgainAfterNew,
    NoRoom,
    AgainAfterNoRoom,
    Emptied,
    Dropped,
    Refused,
}

/// Their names, in the order of [`Event`].
pub const EVENTS: [&str; 7] = [
    "handed out again",
    "handed out again after new",
    "15 after a hand-out",
    "handed out again after 15",
    "emptied when whole",
    "dropped when whole",
    "refused beside a whole one",
];

/// Whether each came with a section.
pub type Events = [bool; EVENTS.len()];

/// A section that was taken: its fate, the records and the images before and after it. The records keep their rule.
pub struct Change<'a> {
    pub fate: &'a Fate,
    pub records: [&'a Record; 2],
    pub images: [&'a [u8]; 2],
}

/// Watches one record and one image from section to section.
#[derive(Default)]
pub struct Watcher {
    /// The modules that were whole and that no section undid since, by number.
    whole: BTreeMap<u16, Whole>,
    /// What came with the last section.
    events: Events,
    /// Whether the last section was "new".
    is_new: bool,
    /// Whether the image has room for all that is announced now.
    has_room: bool,
    /// From which of the whole ones on the next few are asked.
    turn: usize,
}

/// What is remembered of a whole module.
#[derive(Default)]
struct Whole {
    /// Where in the image it began when it was first handed out, and its bytes then.
    first: Option<(usize, Vec<u8>)>,
    /// Since then its hand-out was 15, and it was not handed out after that.
    had_no_room: bool,
}

impl Watcher {
    /// What there is before a section. Answers the whole modules not known yet: their hand-outs are to be told now.
    pub fn before(&mut self, record: &Record, image: &[u8]) -> Vec<u16> {
        self.events = Events::default();
        self.is_new = false;
        self.has_room = has_room(record, image);
        self.remember(record)
    }

    /// A section was taken. Answers the modules whose hand-outs are to be told now.
    pub fn taken(&mut self, change: &Change) -> Same<Vec<u16>> {
        let ([before, after], [_, image]) = (change.records, change.images);
        self.is_new = *change.fate == Ok(Kind::New);
        self.has_room = has_room(after, image);
        if change.fate.is_err() && !self.whole.is_empty() {
            self.met(Event::Refused);
        }
        // Nothing else changes anything; the walk looks whether that is so.
        if !matches!(change.fate, Ok(Kind::New | Kind::Stored)) {
            return Ok(self.some());
        }
        for place in 0..used(before).len() {
            self.module(change, &Place::new(before, place))?;
        }
        self.remember(after);
        Ok(self.whole.keys().copied().collect())
    }

    /// The hand-out of a module that was whole and that no section undid since.
    pub fn handed_out(&mut self, number: u16, handout: Handout) -> Same {
        match handout.map_err(|refusal| refusal.number) {
            Ok(part) => self.part(number, part),
            Err(NO_ROOM) => self.no_room(number),
            Err(answer) => fault(format!(
                "module {number} was whole, nothing undid it, and it answers {answer}"
            )),
        }
    }

    /// What came with the last section.
    pub fn events(&self) -> &Events {
        &self.events
    }

    /// A module is handed out: all fits, and it is as it was first.
    fn part(&mut self, number: u16, part: (usize, Vec<u8>)) -> Same {
        if !self.has_room {
            return fault(format!(
                "module {number} is handed out, and the image has no room for all"
            ));
        }
        let whole = self.whole.entry(number).or_default();
        let Some((start, bytes)) = &whole.first else {
            whole.first = Some(part);
            return Ok(());
        };
        if *start != part.0 {
            return fault(format!("module {number} is handed out at another place"));
        }
        if *bytes != part.1 {
            return fault(format!("module {number} is handed out with other bytes"));
        }
        if std::mem::take(&mut whole.had_no_room) {
            self.met(Event::AgainAfterNoRoom);
        }
        if self.is_new {
            self.met(Event::AgainAfterNew);
        }
        self.met(Event::Again);
        Ok(())
    }

    /// A module is 15: not all fits.
    fn no_room(&mut self, number: u16) -> Same {
        if self.has_room {
            return fault(format!(
                "module {number} is 15, and the image has room for all"
            ));
        }
        let whole = self.whole.get_mut(&number);
        if let Some(whole) = whole.filter(|whole| whole.first.is_some()) {
            whole.had_no_room = true;
            self.met(Event::NoRoom);
        }
        Ok(())
    }

    /// What a section did to a module that was announced before it.
    fn module(&mut self, change: &Change, old: &Place) -> Same {
        let number = old.module().number;
        match Fortune::of(change, old) {
            Fortune::Stays(new) => stays(change, old, &new),
            Fortune::Emptied(new) => {
                self.forget(number, Event::Emptied);
                is_empty(&new)
            }
            Fortune::Dropped => {
                self.forget(number, Event::Dropped);
                Ok(())
            }
            Fortune::Lost => fault(format!("module {number} is gone, and nothing undid it")),
        }
    }

    /// A section undid a module.
    fn forget(&mut self, number: u16, event: Event) {
        if self.whole.remove(&number).is_some() {
            self.met(event);
        }
    }

    /// Remembers the whole modules of a record; answers those that were not known.
    fn remember(&mut self, record: &Record) -> Vec<u16> {
        let mut numbers = vec![];
        for (place, module) in used(record).iter().enumerate() {
            let number = module.number;
            if !self.whole.contains_key(&number) && Place::new(record, place).is_whole() {
                self.whole.insert(number, Whole::default());
                numbers.push(number);
            }
        }
        numbers
    }

    /// A few of the whole modules, others each time.
    fn some(&mut self) -> Vec<u16> {
        let first = self.turn % self.whole.len().max(1);
        self.turn = first + MOST_ASKED;
        let numbers = self.whole.keys().copied();
        let round = numbers.clone().chain(numbers).skip(first);
        round.take(MOST_ASKED.min(self.whole.len())).collect()
    }

    fn met(&mut self, event: Event) {
        self.events[event as usize] = true;
    }
}

/// A module that is announced, by its place in a record.
struct Place<'a> {
    record: &'a Record,
    place: usize,
}

impl<'a> Place<'a> {
    fn new(record: &'a Record, place: usize) -> Place<'a> {
        Place { record, place }
    }

    /// Where a record has the module of this number, if it does.
    fn find(record: &'a Record, number: u16) -> Option<Place<'a>> {
        let mut modules = used(record).iter();
        let place = modules.position(|module| module.number == number)?;
        Some(Place::new(record, place))
    }

    fn module(&self) -> &Module {
        &self.record.modules[self.place]
    }

    /// All its blocks by number.
    fn blocks(&self) -> Range<usize> {
        let block_size = u32::from(self.record.block_size);
        0..self.module().size.div_ceil(block_size) as usize
    }

    fn is_marked(&self, block: usize) -> bool {
        let mark = MOST_BLOCKS * self.place + block;
        self.record.marks[mark / BITS] >> (mark % BITS) & 1 == 1
    }

    fn marked(&self) -> impl Iterator<Item = usize> + '_ {
        self.blocks().filter(|&block| self.is_marked(block))
    }

    fn missing(&self) -> usize {
        self.blocks().len() - self.marked().count()
    }

    fn is_whole(&self) -> bool {
        self.blocks().all(|block| self.is_marked(block))
    }

    /// What an image has of a block: nothing of one that lies past its end.
    fn bytes<'b>(&self, block: usize, image: &'b [u8]) -> &'b [u8] {
        let (start, size) = (self.module().start as usize, self.module().size as usize);
        let block_size = usize::from(self.record.block_size);
        let first = start + block * block_size;
        let end = (first + block_size).min(start + size).min(image.len());
        image.get(first..end).unwrap_or_default()
    }

    /// Whether another record has the module as this one has it.
    fn is_same(&self, other: &Place) -> bool {
        let (old, new) = (self.module(), other.module());
        self.record.download == other.record.download
            && self.record.block_size == other.record.block_size
            && (old.number, old.version) == (new.number, new.version)
            && (old.size, old.start) == (new.size, new.start)
    }
}

/// What a section made of a module that was announced before it.
enum Fortune<'a> {
    /// The section did not undo it.
    Stays(Place<'a>),
    /// Undone: it is announced, but not as it was.
    Emptied(Place<'a>),
    /// Undone: it is not announced.
    Dropped,
    /// Not announced, though only a new announcement undoes one.
    Lost,
}

impl<'a> Fortune<'a> {
    fn of(change: &Change<'a>, old: &Place) -> Fortune<'a> {
        let is_new = *change.fate == Ok(Kind::New);
        match Place::find(change.records[1], old.module().number) {
            Some(new) if is_new && !old.is_same(&new) => Fortune::Emptied(new),
            Some(new) => Fortune::Stays(new),
            None if is_new => Fortune::Dropped,
            None => Fortune::Lost,
        }
    }
}

/// A module that was not undone keeps its marks and their bytes, and lacks no more than it did.
fn stays(change: &Change, old: &Place, new: &Place) -> Same {
    let number = old.module().number;
    if old.marked().any(|block| !new.is_marked(block)) {
        return fault(format!("a block of module {number} lost its mark"));
    }
    let [before, after] = change.images;
    let other = |block: usize| old.bytes(block, before) != old.bytes(block, after);
    if old.marked().any(other) {
        return fault(format!("a marked block of module {number} has other bytes"));
    }
    if new.missing() > old.missing() {
        return fault(format!("more blocks of module {number} are missing"));
    }
    Ok(())
}

/// A module that was emptied has no mark at all.
fn is_empty(new: &Place) -> Same {
    let first = MODULE_WORDS * new.place;
    let words = &new.record.marks[first..first + MODULE_WORDS];
    if words.iter().all(|&word| word == 0) {
        return Ok(());
    }
    let number = new.module().number;
    fault(format!("module {number} was emptied, and has a mark"))
}

/// Whether an image has room for all that a record announces.
fn has_room(record: &Record, image: &[u8]) -> bool {
    let sizes = used(record).iter().map(|module| module.size as usize);
    sizes.sum::<usize>() <= image.len()
}

fn used(record: &Record) -> &[Module] {
    &record.modules[..usize::from(record.count)]
}

/// Both receivers did what neither may.
fn fault(what: String) -> Same {
    Err(Difference {
        place: 0,
        what,
        ours: "as baseline's".to_string(),
        theirs: "as nebosvar's".to_string(),
    })
}

#[cfg(test)]
mod tests {
    use super::*;
    use crate::starts::{announced, mark};
    use baseline::Refusal;

    const NEW: Fate = Ok(Kind::New);
    const STORED: Fate = Ok(Kind::Stored);
    const SAME: Fate = Ok(Kind::Same);

    /// Module 5 has two blocks, the last a short one, and begins at byte 3 in each of these lists.
    const LIST: &[(u16, u32, u8)] = &[(1, 3, 0), (5, 6, 2)];
    const MOVED: &[(u16, u32, u8)] = &[(2, 1, 0), (3, 2, 0), (5, 6, 2)];
    /// One byte more than the image has.
    const LONG: &[(u16, u32, u8)] = &[(1, 3, 0), (5, 6, 2), (9, 2, 0)];
    const IMAGE: &[u8] = b"abcDEFGHIj";

    /// The record of such a list with these blocks marked, each by its module's place.
    fn record(modules: &[(u16, u32, u8)], marks: &[(usize, usize)]) -> Record {
        let modules: Vec<_> = modules.iter().map(|&module| module.into()).collect();
        let mut record = announced(7, 4, &modules);
        for &(place, block) in marks {
            mark(&mut record, place, block);
        }
        record
    }

    /// Module 5 whole, in each of the lists.
    fn whole() -> [Record; 3] {
        [(LIST, 1), (MOVED, 2), (LONG, 1)]
            .map(|(list, place)| record(list, &[(place, 0), (place, 1)]))
    }

    fn refused(number: u8) -> Handout {
        Err(Refusal::plain(number))
    }

    fn part(start: usize, bytes: &[u8]) -> Handout {
        Ok((start, bytes.to_vec()))
    }

    /// What the watcher says of a section. Before it module 5 is handed out, if it is whole; after it this is its hand-out.
    fn said(watcher: &mut Watcher, change: &Change, handout: Handout) -> Same {
        for number in watcher.before(change.records[0], change.images[0]) {
            watcher.handed_out(number, part(3, b"DEFGHI"))?;
        }
        for number in watcher.taken(change)? {
            assert_eq!(number, 5);
            watcher.handed_out(number, handout.clone())?;
        }
        Ok(())
    }

    /// What a new watcher finds wrong with one section.
    fn found(fate: Fate, records: [&Record; 2], images: [&[u8]; 2], handout: Handout) -> String {
        let change = Change {
            fate: &fate,
            records,
            images,
        };
        let said = said(&mut Watcher::default(), &change, handout);
        said.expect_err("something is wrong").what
    }

    /// The same where the image stays as it is.
    fn answered(fate: Fate, records: [&Record; 2], handout: Handout) -> String {
        found(fate, records, [IMAGE, IMAGE], handout)
    }

    /// The events of sections that are right, one after another, each with its fate, the record after it and module 5's hand-out.
    fn events(start: &Record, sections: &[(Fate, Record, Handout)]) -> Vec<Vec<&'static str>> {
        let mut watcher = Watcher::default();
        let mut before = start;
        let mut all = vec![];
        for (fate, after, handout) in sections {
            let change = Change {
                fate,
                records: [before, after],
                images: [IMAGE, IMAGE],
            };
            said(&mut watcher, &change, handout.clone()).expect("nothing is wrong");
            let named = EVENTS.iter().zip(watcher.events());
            all.push(
                named
                    .filter(|(_, met)| **met)
                    .map(|(name, _)| *name)
                    .collect(),
            );
            before = after;
        }
        all
    }

    #[test]
    fn what_stays_whole_is_right() {
        let [list, moved, long] = whole();
        let emptied = record(&[(1, 4, 0), (5, 6, 2)], &[]);
        let fifth = || part(3, b"DEFGHI");
        let sections = [
            (STORED, list, fifth()),
            (NEW, moved, fifth()),
            (SAME, moved, fifth()),
            (NEW, list, fifth()),
            (NEW, long, refused(15)),
            (Err(Refusal::plain(15)), long, refused(15)),
            (NEW, list, fifth()),
            (NEW, record(&[(1, 3, 0)], &[]), refused(13)),
            (NEW, list, fifth()),
            (NEW, emptied, refused(20)),
            (Err(Refusal::plain(7)), emptied, refused(20)),
        ];
        let [again, new, late, again_late, emptied, dropped, beside] = EVENTS;
        let expected: [&[&str]; 11] = [
            &[],
            &[again, new],
            &[again],
            &[again, new],
            &[late],
            &[late, beside],
            &[again, new, again_late],
            &[dropped],
            &[],
            &[emptied],
            &[],
        ];
        assert_eq!(events(&record(LIST, &[(1, 0)]), &sections), expected);
    }

    #[test]
    fn what_is_not_marked_may_change() {
        let [some, more] = [record(LIST, &[(1, 0)]), record(LIST, &[(0, 0), (1, 0)])];
        let change = Change {
            fate: &STORED,
            records: [&some, &more],
            images: [IMAGE, b"xxxDEFGyyy"],
        };
        let mut watcher = Watcher::default();
        // Module 1 is whole now.
        assert_eq!(watcher.taken(&change).expect("nothing is wrong"), [1]);
    }

    #[test]
    fn a_lost_mark_is_found() {
        let [list, moved, _] = whole();
        let lost = "a block of module 5 lost its mark";
        for marks in [vec![], vec![(1, 0)], vec![(1, 1)], vec![(0, 0), (0, 1)]] {
            let less = record(LIST, &marks);
            assert_eq!(answered(STORED, [&list, &less], refused(20)), lost);
            assert_eq!(answered(NEW, [&moved, &less], refused(20)), lost);
        }
        // The marks stay at the place where the module was.
        let behind = record(MOVED, &[(1, 0), (1, 1)]);
        assert_eq!(answered(NEW, [&list, &behind], refused(20)), lost);
    }

    #[test]
    fn other_bytes_of_a_marked_block_are_found() {
        let [list, moved, _] = whole();
        let other = "a marked block of module 5 has other bytes";
        for place in 3..9 {
            let mut image = IMAGE.to_vec();
            image[place] ^= 1;
            for (fate, after) in [(STORED, &list), (NEW, &moved)] {
                let handout = part(3, &image[3..9]);
                let images = [IMAGE, &image];
                assert_eq!(found(fate, [&list, after], images, handout), other);
            }
        }
        // Of a block in which the image ends, what it has; and the module need not be whole.
        let last = record(LIST, &[(1, 1)]);
        let images: [&[u8]; 2] = [b"abcDEFGH", b"abcDEFGh"];
        assert_eq!(found(STORED, [&last, &last], images, refused(15)), other);
    }

    #[test]
    fn more_missing_blocks_are_found() {
        let longer: &[(u16, u32, u8)] = &[(1, 3, 0), (5, 9, 2)];
        for marks in [vec![(1, 0)], vec![(1, 0), (1, 1)]] {
            let [old, new] = [LIST, longer].map(|list| record(list, &marks));
            let more = "more blocks of module 5 are missing";
            assert_eq!(answered(STORED, [&old, &new], refused(15)), more);
        }
    }

    #[test]
    fn a_whole_module_that_answers_otherwise_is_found() {
        let [list, moved, _] = whole();
        for number in [1, 13, 20] {
            let otherwise =
                format!("module 5 was whole, nothing undid it, and it answers {number}");
            for (fate, after) in [(STORED, &list), (NEW, &moved), (SAME, &list)] {
                assert_eq!(answered(fate, [&list, after], refused(number)), otherwise);
            }
        }
    }

    #[test]
    fn one_that_was_whole_once_and_answers_otherwise_is_found() {
        let [list, _, _] = whole();
        for (less, number) in [(record(LIST, &[]), 20), (record(&[(1, 3, 0)], &[]), 13)] {
            // What became of it between these two sections is not seen: only the hand-out tells.
            let [first, later] = [&list, &less].map(|record| Change {
                fate: &SAME,
                records: [record, record],
                images: [IMAGE, IMAGE],
            });
            let mut watcher = Watcher::default();
            assert!(said(&mut watcher, &first, part(3, b"DEFGHI")).is_ok());
            assert_eq!(
                said(&mut watcher, &later, refused(number))
                    .expect_err("it was whole")
                    .what,
                format!("module 5 was whole, nothing undid it, and it answers {number}")
            );
        }
    }

    #[test]
    fn another_hand_out_than_the_first_is_found() {
        let [list, moved, _] = whole();
        let bytes = "module 5 is handed out with other bytes";
        let place = "module 5 is handed out at another place";
        for (fate, after) in [(STORED, &list), (NEW, &moved), (SAME, &list)] {
            for other in [&b"DEFGHi"[..], b"DEFGH", b"DEFGHIj"] {
                assert_eq!(answered(fate, [&list, after], part(3, other)), bytes);
            }
            for other in [0, 2, 4] {
                let handout = part(other, b"DEFGHI");
                assert_eq!(answered(fate, [&list, after], handout), place);
            }
        }
    }

    #[test]
    fn a_hand_out_that_does_not_go_by_the_room_is_found() {
        let [list, moved, long] = whole();
        let fits = "module 5 is 15, and the image has room for all";
        for (fate, after) in [(STORED, &list), (NEW, &moved), (SAME, &list)] {
            assert_eq!(answered(fate, [&list, after], refused(15)), fits);
        }
        let long_out = "module 5 is handed out, and the image has no room for all";
        let handout = part(3, b"DEFGHI");
        assert_eq!(answered(NEW, [&list, &long], handout), long_out);
    }

    #[test]
    fn a_mark_of_an_emptied_module_is_found() {
        let [list, _, _] = whole();
        for (place, block) in [(1, 0), (1, MOST_BLOCKS - 1)] {
            let emptied = record(&[(1, 3, 0), (5, 6, 3)], &[(place, block)]);
            assert_eq!(
                answered(NEW, [&list, &emptied], refused(20)),
                "module 5 was emptied, and has a mark"
            );
        }
    }

    #[test]
    fn one_that_is_dropped_by_no_announcement_is_found() {
        let [list, _, _] = whole();
        let less = record(&[(1, 3, 0)], &[]);
        assert_eq!(
            answered(STORED, [&list, &less], refused(13)),
            "module 5 is gone, and nothing undid it"
        );
    }

    #[test]
    fn every_field_undoes() {
        let [list, _, _] = whole();
        let mut others = [record(LIST, &[]); 5];
        others[0].download += 1;
        others[1].block_size += 1;
        others[2].modules[1].version += 1;
        others[3].modules[1].size -= 1;
        others[4] = record(&[(1, 4, 0), (5, 6, 2)], &[]);
        for other in others {
            let [.., emptied, _, _] = EVENTS;
            let seen = events(&list, &[(NEW, other, refused(20))]);
            assert_eq!(seen, [[emptied]]);
        }
    }

    #[test]
    fn a_few_are_asked_in_turn_where_nothing_changed() {
        let modules: Vec<_> = (0..6).map(|number| (number, 1, 0)).collect();
        let all: Vec<_> = (0..6).map(|place| (place, 0)).collect();
        let record = record(&modules, &all);
        let mut watcher = Watcher::default();
        assert_eq!(watcher.before(&record, IMAGE), [0, 1, 2, 3, 4, 5]);
        for expected in [[0, 1, 2, 3], [4, 5, 0, 1], [2, 3, 4, 5]] {
            let change = Change {
                fate: &SAME,
                records: [&record, &record],
                images: [IMAGE, IMAGE],
            };
            let asked = watcher.taken(&change).expect("nothing is wrong");
            assert_eq!(asked, expected);
        }
    }
}
