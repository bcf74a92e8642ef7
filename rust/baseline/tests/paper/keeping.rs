//! What a new announcement keeps (02, §5): the marks of a module of the same downloadId, blockSize, number,
//! version, size and start. All others begin empty, and no image byte moves.

use crate::made::*;
use crate::model;
use crate::random::Dice;
use baseline::{Answer, Missing, Record, ALL_WORDS, WORDS};

const DOWNLOAD: u32 = 7;
const BLOCK_SIZE: u16 = 10;

/// Three modules of different blocks: they begin at 0, 100 and 300.
const A: Announced = (1, 100, 5);
const B: Announced = (2, 200, 6);
const C: Announced = (3, 55, 7);
const OLD: [Announced; 3] = [A, B, C];
/// The bytes of A, B and C.
const TOGETHER: usize = 355;

/// A record and its image, carried from call to call.
#[derive(Clone)]
struct Receiver {
    record: Record,
    image: Vec<u8>,
}

/// The bytes of a block, by its module's number and version.
fn data((number, size, version): Announced, block: usize) -> Vec<u8> {
    let begin = block * usize::from(BLOCK_SIZE);
    let end = (begin + usize::from(BLOCK_SIZE)).min(size as usize);
    (begin..end)
        .map(|at| (at as u8).wrapping_mul(3) ^ (number as u8) << 6 ^ version)
        .collect()
}

/// All bytes of a module.
fn whole(module: Announced) -> Vec<u8> {
    (0..blocks(module))
        .flat_map(|block| data(module, block))
        .collect()
}

fn blocks((_, size, _): Announced) -> usize {
    size.div_ceil(u32::from(BLOCK_SIZE)) as usize
}

impl Receiver {
    /// It has heard the announcement of A, B and C, and these blocks of them.
    fn with(heard: &[(Announced, &[usize])]) -> Receiver {
        let mut this = Receiver {
            record: Record::empty(),
            image: vec![0xEE; TOGETHER],
        };
        this.announce(&OLD);
        for &(module, blocks) in heard {
            for &block in blocks {
                assert_eq!(this.hear(module, block), Answer::Stored);
            }
        }
        this
    }

    /// It has heard all blocks of A, B and C.
    fn full() -> Receiver {
        let all: Vec<_> = (0..blocks(B)).collect();
        let of = |module| &all[..blocks(module)];
        Receiver::with(&[(A, of(A)), (B, of(B)), (C, of(C))])
    }

    fn hear(&mut self, module: Announced, block: usize) -> Answer {
        let data = data(module, block);
        let block = Block::new(DOWNLOAD, module.0, module.2, block as u16, &data);
        self.record.step(&block.bytes(), &mut self.image)
    }

    /// A new announcement of these modules.
    fn announce(&mut self, modules: &[Announced]) {
        self.announce_as(DOWNLOAD, BLOCK_SIZE, modules);
    }

    /// An announcement that is new: the record holds it and keeps its rule, and no image byte moves.
    fn announce_as(&mut self, download: u32, block_size: u16, modules: &[Announced]) {
        let announcement = Announcement::new(download, block_size, modules);
        let image = self.image.clone();
        let answer = self.record.step(&announcement.bytes(), &mut self.image);
        assert_eq!(answer, Answer::New);
        assert_eq!(self.image, image);
        assert!(self.record.is_ruled());
        let mut emptied = self.record;
        emptied.marks = [0; ALL_WORDS];
        assert_eq!(emptied, announced(&announcement));
    }

    /// The marked blocks at each place of the list.
    fn marked(&self) -> Vec<Vec<usize>> {
        let places = 0..usize::from(self.record.count);
        let of = |place| (0..1_024).filter(move |&b| model::is_marked(&self.record, place, b));
        let marked: Vec<Vec<usize>> = places.map(|place| of(place).collect()).collect();
        let past = &self.record.marks[marked.len() * WORDS..];
        assert!(past.iter().all(|&word| word == 0));
        marked
    }
}

const NONE: [usize; 0] = [];

#[test]
fn a_module_is_kept_at_another_place() {
    let mut heard = Receiver::with(&[(A, &[0]), (B, &[19]), (C, &[1, 5])]);
    assert_eq!(heard.marked(), [vec![0], vec![19], vec![1, 5]]);
    // 300 bytes lie before C again, but in one module.
    let d = (4, 300, 0);
    heard.announce(&[d, C]);
    assert_eq!(heard.marked(), [vec![], vec![1, 5]]);
    assert_eq!(
        heard.record.missing(C.0),
        Missing::Lacking {
            count: 4,
            lowest: 0
        }
    );
    assert_eq!(heard.hear(C, 5), Answer::Repeated);
    assert_eq!(heard.hear(C, 0), Answer::Stored);
    assert_eq!(heard.hear(A, 0), plain(13));
    assert_eq!(heard.hear(d, 29), Answer::Stored);
    assert_eq!(heard.marked(), [vec![29], vec![0, 1, 5]]);
    // And back, further from the front.
    heard.announce(&[(8, 1, 0), (9, 1, 0), (10, 298, 0), C]);
    assert_eq!(heard.marked(), [vec![], vec![], vec![], vec![0, 1, 5]]);
}

#[test]
fn two_of_equal_sizes_swapped_are_both_emptied() {
    let (e, f) = ((8, 30, 1), (9, 30, 1));
    let mut heard = Receiver::with(&[]);
    heard.announce(&[e, f]);
    assert_eq!(heard.hear(e, 0), Answer::Stored);
    assert_eq!(heard.hear(f, 2), Answer::Stored);
    heard.announce(&[f, e]);
    assert_eq!(heard.marked(), [NONE, NONE]);
}

#[test]
fn of_two_swapped_the_one_with_its_old_start_is_kept() {
    let mut heard = Receiver::with(&[(A, &[3]), (B, &[4]), (C, &[5])]);
    // A and B change places: the bytes before C are as many as they were, and it alone is kept.
    heard.announce(&[B, A, C]);
    assert_eq!(heard.marked(), [vec![], vec![], vec![5]]);
    // B and C change places, and a new one fills up before B what C leaves open.
    let mut heard = Receiver::with(&[(A, &[3]), (B, &[4]), (C, &[5])]);
    let fill = (9, 45, 0);
    heard.announce(&[C, fill, B]);
    assert_eq!(heard.marked(), [vec![], vec![], vec![4]]);
}

#[test]
fn one_dropped_and_announced_again_begins_empty() {
    let mut heard = Receiver::full();
    heard.announce(&[A, B]);
    assert_eq!(heard.hear(C, 0), plain(13));
    heard.announce(&OLD);
    assert_eq!(heard.marked()[2], NONE);
    assert_eq!(heard.record.handout_number(&heard.image, C.0), 20);
    // The others were there all the time.
    for module in [A, B] {
        assert_eq!(heard.record.handout(&heard.image, module.0), whole(module));
    }
}

#[test]
fn one_whose_predecessor_changes_its_size_is_emptied() {
    for size in [99, 101, 110] {
        let mut heard = Receiver::full();
        heard.announce(&[(A.0, size, A.2), B, C]);
        assert_eq!(heard.marked(), [NONE, NONE, NONE]);
    }
    // What lies before it does not move.
    let mut heard = Receiver::full();
    heard.announce(&[A, (B.0, 199, B.2), C]);
    assert_eq!(heard.marked()[1..], [NONE, NONE]);
    assert_eq!(heard.record.handout(&heard.image, A.0), whole(A));
    // Two that change their sizes alike in all: what follows them is kept.
    let mut heard = Receiver::full();
    heard.announce(&[(A.0, 150, A.2), (B.0, 150, B.2), C]);
    assert_eq!(heard.marked()[..2], [NONE, NONE]);
    assert_eq!(heard.record.handout(&heard.image, C.0), whole(C));
}

#[test]
fn another_version_is_emptied_and_its_old_bytes_stay() {
    for version in [B.2 + 1, B.2 + 32, 0, 255] {
        let mut heard = Receiver::full();
        let newer = (B.0, B.1, version);
        heard.announce(&[A, newer, C]);
        assert_eq!(heard.marked()[1], NONE);
        assert_eq!(heard.image[100..300], whole(B));
        assert_eq!(heard.record.handout_number(&heard.image, B.0), 20);
        assert_eq!(heard.record.handout(&heard.image, A.0), whole(A));
        assert_eq!(heard.record.handout(&heard.image, C.0), whole(C));
        // Its old blocks are refused, its new ones are stored over them.
        assert_eq!(heard.hear(B, 0), plain(14));
        assert_eq!(heard.hear(newer, 0), Answer::Stored);
        assert_eq!(heard.image[100..110], data(newer, 0));
        assert_eq!(heard.image[110..300], whole(B)[10..]);
    }
}

#[test]
fn another_number_size_or_both_is_emptied() {
    for other in [(4, 200, 6), (2, 199, 6), (2, 201, 6), (0x0102, 200, 6)] {
        let mut heard = Receiver::full();
        heard.announce(&[A, other, C]);
        assert_eq!(heard.marked()[1], NONE, "{other:?}");
        assert_eq!(heard.marked()[0].len(), blocks(A));
    }
}

#[test]
fn another_download_empties_all() {
    for download in [DOWNLOAD + 1, 0, DOWNLOAD | 1 << 31] {
        let mut heard = Receiver::full();
        heard.announce_as(download, BLOCK_SIZE, &OLD);
        assert_eq!(heard.marked(), [NONE, NONE, NONE]);
        // Back again, and all of it is to be sent anew.
        heard.announce(&OLD);
        assert_eq!(heard.marked(), [NONE, NONE, NONE]);
    }
}

#[test]
fn another_block_size_empties_all() {
    // With 11 and 9 even the numbers of blocks differ, of some modules; with 200 each is one block.
    for block_size in [9, 11, 200] {
        let mut heard = Receiver::full();
        heard.announce_as(DOWNLOAD, block_size, &OLD);
        assert_eq!(heard.marked(), [NONE, NONE, NONE]);
        heard.announce(&OLD);
        assert_eq!(heard.marked(), [NONE, NONE, NONE]);
    }
}

#[test]
fn a_complete_one_that_is_kept_is_handed_out_at_once() {
    let mut heard = Receiver::full();
    // Only A changes: as the tide table that emptied the buoy list.
    heard.announce(&[(A.0, A.1, A.2 + 1), B, C]);
    assert_eq!(heard.record.missing(A.0), lacking(10));
    for module in [B, C] {
        assert_eq!(heard.record.missing(module.0), Missing::Whole);
        assert_eq!(heard.record.handout_number(&heard.image, module.0), 0);
        assert_eq!(heard.record.handout(&heard.image, module.0), whole(module));
    }
    // And from another place.
    heard.announce(&[(9, 300, 0), C]);
    assert_eq!(heard.record.missing(C.0), Missing::Whole);
    assert_eq!(heard.record.handout(&heard.image, C.0), whole(C));
}

fn lacking(count: usize) -> Missing {
    Missing::Lacking { count, lowest: 0 }
}

#[test]
fn a_complete_one_that_is_kept_is_15_in_an_image_that_is_now_too_short() {
    let mut heard = Receiver::full();
    let more = (9, 1, 0);
    heard.announce(&[A, B, C, more]);
    for module in [A, B, C] {
        assert_eq!(heard.record.missing(module.0), Missing::Whole);
        assert_eq!(heard.record.handout_number(&heard.image, module.0), 15);
        assert!(heard.record.handout(&heard.image, module.0).is_empty());
        assert_eq!(heard.hear(module, 0), plain(15));
    }
    // With room for one byte more it is what it was.
    let mut longer = heard.clone();
    longer.image.push(0);
    assert_eq!(longer.record.handout(&longer.image, C.0), whole(C));
    // So also when the list shrinks again.
    heard.announce(&OLD);
    assert_eq!(heard.record.handout(&heard.image, C.0), whole(C));
    assert_eq!(heard.hear(C, 0), Answer::Repeated);
}

#[test]
fn all_are_kept_when_one_is_added_at_the_end() {
    let mut heard = Receiver::with(&[(A, &[0, 9]), (B, &[7]), (C, &[5])]);
    let before = heard.marked();
    let added = (9, 3, 0);
    heard.announce(&[A, B, C, added]);
    assert_eq!(heard.marked()[..3], before);
    assert_eq!(heard.marked()[3], NONE);
    // And when it goes: then the answer is "new", though every module is kept.
    heard.announce(&OLD);
    assert_eq!(heard.marked(), before);
}

#[test]
fn marks_move_to_the_last_place_and_from_it() {
    // 31 modules of a byte before one of 1,024 blocks, and then one of 31 bytes before it.
    let large = (500, 1_024, 3);
    let mut list: Vec<Announced> = (0..31).map(|number| (number, 1, 0)).collect();
    list.push(large);
    let short: [Announced; 2] = [(100, 31, 0), large];
    let sent = |block: u16| Block::new(1, large.0, large.2, block, &[block as u8]).bytes();
    let mut image = [0; 1_055];
    let mut record = announced(&Announcement::new(1, 1, &list));
    for block in [0, 31, 32, 1_022, 1_023] {
        assert_eq!(record.step(&sent(block), &mut image), Answer::Stored);
    }
    let held = record;
    let words = &held.marks[31 * WORDS..];
    assert!(words.iter().any(|&word| word != 0));
    // From the last place to the second, and back.
    let short = Announcement::new(1, 1, &short).bytes();
    assert_eq!(record.step(&short, &mut image), Answer::New);
    assert_eq!(record.marks[WORDS..2 * WORDS], *words);
    assert_eq!(record.marks[..WORDS], [0; WORDS]);
    assert!(record.marks[2 * WORDS..].iter().all(|&word| word == 0));
    let long = Announcement::new(1, 1, &list).bytes();
    assert_eq!(record.step(&long, &mut image), Answer::New);
    assert_eq!(record, held);
}

#[test]
fn a_refused_announcement_keeps_everything() {
    let heard = Receiver::full();
    for (number, modules) in [(11, [A, A]), (10, [A, (2, 0, 0)])] {
        let section = Announcement::new(DOWNLOAD, BLOCK_SIZE, &modules).bytes();
        assert_eq!(refused(&heard.record, &section, &heard.image), number);
    }
}

/// A list of a front and a rear, out of a few. Most fronts have the same bytes in all, and so keep the rear.
fn list(dice: &mut Dice) -> Announcement {
    let front = dice.pick(&[
        &[(1, 4, 0), (2, 4, 0)][..],
        &[(2, 4, 0), (1, 4, 0)],
        &[(3, 8, 0)],
        &[(1, 4, 0), (5, 1, 0), (6, 3, 0)],
        &[(1, 4, 1), (2, 4, 0)],
        &[(1, 5, 0), (2, 4, 0)],
    ]);
    let rear = dice.pick(&[
        &[][..],
        &[(4, 6, 0)],
        &[(4, 6, 0), (7, 6, 0)],
        &[(4, 6, 32)],
    ]);
    let download = if dice.one_in(20) { 8 } else { 7 };
    let block_size = if dice.one_in(20) { 3 } else { 2 };
    Announcement::new(download, block_size, &[front, rear].concat())
}

#[test]
fn what_is_kept_agrees_with_the_model() {
    let mut dice = Dice(0x0BAD_CAFE_5EA5_1DE5);
    let mut record = Record::empty();
    let mut image = vec![0xAA; 40];
    // Kept with a mark set, at the same place and at another; emptied of one, and dropped with one.
    let mut seen = [0usize; 4];
    for _ in 0..10_000 {
        let section = list(&mut dice).bytes();
        let old = record;
        let expected = model::step(&old, &section, &image);
        let answer = record.step(&section, &mut image);
        assert_eq!((answer, record, image.clone()), expected);
        assert!(record.is_ruled() && model::is_ruled(&record));
        if answer == Answer::New {
            count(&mut seen, &old, &record);
        }
        for _ in 0..dice.below(5) {
            let place = dice.below(usize::from(record.count));
            let size = record.modules[place].size as usize;
            let block = dice.below(size.div_ceil(usize::from(record.block_size)));
            let (word, bit) = model::mark(place, block);
            record.marks[word] |= bit;
        }
    }
    assert!(seen.iter().all(|&times| times > 300), "{seen:?}");
}

/// Counts, of each old module with a mark, what became of it.
fn count(seen: &mut [usize; 4], old: &Record, new: &Record) {
    let words = |record: &Record, place: usize| record.marks[place * WORDS];
    for place in 0..usize::from(old.count) {
        let marks = words(old, place);
        if marks == 0 {
            continue;
        }
        let number = old.modules[place].number;
        let now = (0..usize::from(new.count)).find(|&at| new.modules[at].number == number);
        seen[match now {
            None => 3,
            Some(at) if words(new, at) == 0 => 2,
            Some(at) => {
                assert_eq!(words(new, at), marks);
                usize::from(at != place)
            }
        }] += 1;
    }
}
