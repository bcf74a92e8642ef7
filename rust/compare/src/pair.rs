//! Both receivers side by side. Every call is made of both; their answers, all fields of their records and all
//! bytes of their images must be equal after it. A refusal is its number and its place, if it has one.

use baseline::Refusal;
use nebosvar::{Kind, Stop};

use crate::counts::{Call, Counts};
use crate::difference::{same, same_bytes, Same};
use crate::fence::{Edge, Fenced};

/// Bytes before and after each image that lies at no fence, and each buffer: a byte written outside shows in them.
const GUARD: usize = 64;

const GUARDS: [u8; GUARD] = [0xA5; GUARD];

/// The bytes that a receiver is lent as its image, or a writer as its buffer.
#[derive(Clone)]
pub enum Image {
    Guarded(Vec<u8>),
    Fenced(Fenced),
}

impl Image {
    pub fn new(bytes: &[u8], edge: Option<Edge>) -> Image {
        let Some(edge) = edge else {
            return Image::Guarded([&GUARDS, bytes, &GUARDS].concat());
        };
        let mut fenced = Fenced::new(edge, bytes.len());
        fenced.put(bytes);
        Image::Fenced(fenced)
    }

    pub fn bytes(&self) -> &[u8] {
        match self {
            Image::Guarded(all) => &all[GUARD..all.len() - GUARD],
            Image::Fenced(fenced) => fenced.bytes(),
        }
    }

    pub fn bytes_mut(&mut self) -> &mut [u8] {
        match self {
            Image::Guarded(all) => {
                let end = all.len() - GUARD;
                &mut all[GUARD..end]
            }
            Image::Fenced(fenced) => fenced.bytes_mut(),
        }
    }

    /// The bytes before and after it are as they were. A fence needs no look.
    pub fn is_guarded(&self) -> bool {
        match self {
            Image::Guarded(all) => all.starts_with(&GUARDS) && all.ends_with(&GUARDS),
            Image::Fenced(_) => true,
        }
    }
}

/// What became of a section.
pub type Fate = Result<Kind, Refusal>;
/// Where in the image a module begins that is handed out, and its bytes; or the refusal.
pub type Handout = Result<(usize, Vec<u8>), Refusal>;
/// A section's length and fate, or why none was taken.
pub type Taken = Result<(usize, Fate), Stop>;

/// How far a run came.
#[derive(Clone, Copy, PartialEq, Eq, Debug)]
pub struct Passage {
    pub taken: usize,
    pub passed: usize,
    pub stop: Stop,
}

/// Both receivers, each with its record and its image.
#[derive(Clone)]
pub struct Pair {
    ours: nebosvar::Record,
    our_image: Image,
    /// Where our record is lent, if at a fence.
    fence: Option<Fenced>,
    theirs: baseline::Record,
    their_image: Image,
}

impl Pair {
    /// Both with this record and these bytes; ours lie at a fence, if there is an edge.
    pub fn new(record: &baseline::Record, image: &[u8], edge: Option<Edge>) -> Pair {
        Pair {
            ours: ours(record),
            our_image: Image::new(image, edge),
            fence: edge.map(|edge| Fenced::new(edge, size_of::<nebosvar::Record>())),
            theirs: *record,
            their_image: Image::new(image, None),
        }
    }

    /// A call of ours, which is lent the record and the image.
    fn lent<T>(&mut self, call: impl FnOnce(&mut nebosvar::Record, &mut [u8]) -> T) -> T {
        let image = self.our_image.bytes_mut();
        let Some(fence) = &mut self.fence else {
            return call(&mut self.ours, image);
        };
        let record = fence.put_value(self.ours);
        let answer = call(record, image);
        self.ours = *record;
        answer
    }

    /// Becomes a copy of another pair whose images have the same room.
    pub fn copy_from(&mut self, other: &Pair) {
        self.ours = other.ours;
        self.theirs = other.theirs;
        let image = self.our_image.bytes_mut();
        image.copy_from_slice(other.our_image.bytes());
        let image = self.their_image.bytes_mut();
        image.copy_from_slice(other.their_image.bytes());
    }

    /// The record, all of whose fields are the same on both sides.
    pub fn record(&self) -> &baseline::Record {
        &self.theirs
    }

    /// The image, all of whose bytes are the same on both sides.
    pub fn image(&self) -> &[u8] {
        self.their_image.bytes()
    }

    /// Takes what stands at the head of the stretch.
    pub fn take(&mut self, stretch: &[u8], budget: usize, counts: &mut Counts) -> Same<Taken> {
        let ours = our_taken(self.lent(|record, image| record.take(stretch, image, budget)));
        let image = self.their_image.bytes_mut();
        let theirs = their_taken(self.theirs.take(stretch, image, budget));
        same("take", &ours, &theirs)?;
        self.agree("take")?;
        match &ours {
            Ok((_, fate)) => counts.fate(Call::Take, fate),
            Err(stop) => counts.stop(*stop),
        }
        Ok(ours)
    }

    /// Takes one section of the carousel.
    pub fn step(&mut self, section: &[u8], counts: &mut Counts) -> Same<Fate> {
        let answer = self.lent(|record, image| record.step(section, image));
        let ours = answer.map_err(their_refusal);
        let theirs = self.theirs.step(section, self.their_image.bytes_mut());
        same("step", &ours, &their_fate(theirs.into()))?;
        self.agree("step")?;
        counts.fate(Call::Step, &ours);
        Ok(ours)
    }

    /// Runs over a stretch.
    pub fn run(&mut self, stretch: &[u8], budget: usize, counts: &mut Counts) -> Same<Passage> {
        let ours = self.lent(|record, image| record.run(stretch, image, budget));
        let ours = Passage {
            taken: ours.taken,
            passed: ours.passed,
            stop: ours.stop,
        };
        let theirs = self
            .theirs
            .run(stretch, self.their_image.bytes_mut(), budget);
        let theirs = Passage {
            taken: theirs.taken,
            passed: theirs.passed,
            stop: their_stop(theirs.stop),
        };
        same("run", &ours, &theirs)?;
        self.agree("run")?;
        counts.stop(ours.stop);
        Ok(ours)
    }

    /// The hand-out and the missing report of the module with this number.
    pub fn module(&mut self, number: u16, counts: &mut Counts) -> Same {
        drop(self.handout(number, counts)?);
        self.missing(number, counts)
    }

    /// The hand-out's number, its bytes, and where in the image they lie.
    pub fn handout(&mut self, number: u16, counts: &mut Counts) -> Same<Handout> {
        let ours = self.lent(|record, image| match record.handout(image, number) {
            Ok(part) => Ok((offset(part, image), part.to_vec())),
            Err(refusal) => Err(their_refusal(refusal)),
        });
        let image = self.their_image.bytes();
        let part = self.theirs.handout(image, number);
        let theirs = match self.theirs.handout_number(image, number) {
            0 => Ok((offset(part, image), part.to_vec())),
            number => Err(Refusal::plain(number)),
        };
        same(&format!("hand-out of {number}"), &ours, &theirs)?;
        counts.refusal(Call::Handout, &ours);
        if ours.is_ok() {
            counts.handed_out();
        }
        // "Where that is a refusal, the part is empty, and otherwise it never is."
        same("hand-out's part is empty", &part.is_empty(), &ours.is_err())?;
        Ok(ours)
    }

    /// How many blocks are missing and the lowest of them, or none.
    fn missing(&mut self, number: u16, counts: &mut Counts) -> Same {
        let ours = match self.lent(|record, _| record.missing(number)) {
            Ok(missing) => Ok(missing.map(|missing| (missing.count, missing.lowest))),
            Err(refusal) => Err(their_refusal(refusal)),
        };
        let theirs = match self.theirs.missing(number) {
            baseline::Missing::Refused(number) => Err(Refusal::plain(number)),
            baseline::Missing::Whole => Ok(None),
            baseline::Missing::Lacking { count, lowest } => Ok(Some((count, lowest))),
        };
        same(&format!("missing of {number}"), &ours, &theirs)?;
        counts.refusal(Call::Missing, &ours);
        Ok(())
    }

    /// Both records and both images are equal.
    fn agree(&self, call: &str) -> Same {
        // Field by field, as one type: the two have no common one.
        same(
            &format!("record after {call}"),
            &theirs(&self.ours),
            &self.theirs,
        )?;
        same_bytes(
            &format!("image after {call}"),
            self.our_image.bytes(),
            self.their_image.bytes(),
        )?;
        let guarded = self.our_image.is_guarded() && self.their_image.is_guarded();
        same(&format!("guards after {call}"), &guarded, &true)
    }

    /// Neither record has changed since.
    pub fn same_records(&self, before: &Pair) -> Same {
        same("record unchanged, nebosvar's", &self.ours, &before.ours)?;
        same("record unchanged, baseline's", &self.theirs, &before.theirs)
    }

    /// Neither image has changed since.
    pub fn same_images(&self, before: &Pair) -> Same {
        let (ours, before_ours) = (self.our_image.bytes(), before.our_image.bytes());
        same_bytes("image unchanged, nebosvar's", ours, before_ours)?;
        let (theirs, before_theirs) = (self.their_image.bytes(), before.their_image.bytes());
        same_bytes("image unchanged, baseline's", theirs, before_theirs)
    }
}

/// Where a part of an image begins in it.
fn offset(part: &[u8], image: &[u8]) -> usize {
    part.as_ptr() as usize - image.as_ptr() as usize
}

/// The same record in our type.
pub fn ours(record: &baseline::Record) -> nebosvar::Record {
    nebosvar::Record {
        download: record.download,
        block_size: record.block_size,
        count: record.count,
        modules: record.modules.map(|module| nebosvar::Module {
            number: module.number,
            size: module.size,
            version: module.version,
            start: module.start,
        }),
        marks: record.marks,
    }
}

/// The same record in their type.
pub fn theirs(record: &nebosvar::Record) -> baseline::Record {
    baseline::Record {
        download: record.download,
        block_size: record.block_size,
        count: record.count,
        modules: record.modules.map(|module| baseline::Module {
            number: module.number,
            size: module.size,
            version: module.version,
            start: module.start,
        }),
        marks: record.marks,
    }
}

/// The same refusal in their type.
pub fn their_refusal(refusal: nebosvar::Refusal) -> Refusal {
    Refusal {
        number: refusal.number(),
        place: refusal.place(),
    }
}

fn our_taken(taken: nebosvar::Taken) -> Taken {
    match taken {
        nebosvar::Taken::Stopped(stop) => Err(stop),
        nebosvar::Taken::Section { length, fate } => Ok((length, fate.map_err(their_refusal))),
    }
}

fn their_taken(taken: baseline::Taken) -> Taken {
    match taken {
        baseline::Taken::Stopped(stop) => Err(their_stop(stop)),
        baseline::Taken::Section { length, fate } => Ok((length, their_fate(fate))),
    }
}

fn their_fate(fate: baseline::Fate) -> Fate {
    match fate {
        baseline::Fate::Table => Ok(Kind::Table),
        baseline::Fate::New => Ok(Kind::New),
        baseline::Fate::Same => Ok(Kind::Same),
        baseline::Fate::Stored => Ok(Kind::Stored),
        baseline::Fate::Repeated => Ok(Kind::Repeated),
        baseline::Fate::Refused(refusal) => Err(refusal),
    }
}

fn their_stop(stop: baseline::Stop) -> Stop {
    match stop {
        baseline::Stop::End => Stop::End,
        baseline::Stop::Stuffing => Stop::Stuffing,
        baseline::Stop::Short => Stop::Short,
        baseline::Stop::Budget => Stop::Budget,
        baseline::Stop::State => Stop::State,
    }
}

#[cfg(test)]
mod tests {
    use super::*;
    use crate::carousels::Carousel;
    use crate::limits::MARK_WORDS;
    use crate::random::Random;
    use crate::starts::announced_of;

    #[test]
    fn a_record_goes_over_and_back() {
        let mut record = announced_of(&Carousel::any(&mut Random::of(1, 1)));
        record.marks[MARK_WORDS - 1] = 9;
        assert_eq!(theirs(&ours(&record)), record);
    }

    #[test]
    fn the_place_alone_is_a_difference() {
        let ours = their_refusal(nebosvar::Refusal::bad_crc(12));
        assert!(same("step", &ours, &Refusal::at(5, 12)).is_ok());
        for theirs in [Refusal::at(5, 13), Refusal::plain(5), Refusal::at(4, 12)] {
            assert!(same("step", &ours, &theirs).is_err());
        }
        let ours = their_refusal(nebosvar::Refusal::MALFORMED);
        assert!(same("step", &ours, &Refusal::plain(7)).is_ok());
        assert!(same("step", &ours, &Refusal::at(7, 0)).is_err());
    }
}
