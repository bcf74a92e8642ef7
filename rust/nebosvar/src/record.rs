//! The carousel record and its calls.

use crate::answer::{Kind, Missing, Passage, Stop, Taken};
use crate::ffi;
use crate::limits::{MARK_WORDS, MOST_MODULES};
use crate::proved::{excluded, range};
use crate::Refusal;

/// An announced module.
#[repr(C)]
#[derive(Clone, Copy, PartialEq, Eq, Debug, Default)]
pub struct Module {
    /// Its number.
    pub number: u16,
    /// Its bytes.
    pub size: u32,
    /// Its version.
    pub version: u8,
    /// Where its part of the image begins.
    pub start: u32,
}

/// The carousel record: what was announced, and which blocks have come.
///
/// It may be copied, kept and lent again. Its fields may be written, too: every call looks at the
/// record's rule first, and refuses a record that breaks it (1; a run stops by [`Stop::State`]). Which
/// image belongs to a record is the caller's to know.
///
/// It has 4,616 bytes, so a copy is no trifle: the calls take it by reference.
#[repr(C)]
#[derive(Clone, Copy, PartialEq, Eq, Debug)]
pub struct Record {
    /// The announcement's downloadId.
    pub download: u32,
    /// Bytes of a block, but for a module's last.
    pub block_size: u16,
    /// How many modules are announced: at most 32 ([`MOST_MODULES`]), and 0 in a record without an announcement.
    pub count: u16,
    /// The modules, in announced order; all zero from `count` on.
    pub modules: [Module; MOST_MODULES],
    /// Mark 1,024 × i + b says that block b of the module at place i has come; a word's lowest bit is
    /// its first mark. What a new announcement keeps of them: [`Kind::New`](crate::Kind::New).
    pub marks: [u32; MARK_WORDS],
}

impl Record {
    /// The record to start with: nothing is announced.
    pub fn new() -> Record {
        // SAFETY: it is lent nothing and has no precondition.
        unsafe { ffi::nebosvar_start() }
    }

    /// Takes one section of the carousel: an announcement (table 0x3B) or a block (0x3C). It can
    /// refuse with 1 to 17.
    ///
    /// An announcement never looks at the image; a block needs one of the announced sizes together. One of
    /// [`MOST_BYTES`](crate::MOST_BYTES) is always enough.
    ///
    /// ```
    /// # use make::{announcement, block};
    /// use nebosvar::{Kind, Record, Refusal};
    ///
    /// // Download 1 in blocks of 4 bytes; module 7 has 6 bytes and version 2.
    /// let announced = announcement(1, 4, &[(7, 6, 2)]);
    /// let first = block(1, 7, 2, 0, b"buoy");
    /// let other = block(1, 7, 2, 0, b"gull");
    ///
    /// let mut record = Record::new();
    /// let mut image = [0; 6];
    /// assert_eq!(record.step(&announced, &mut image), Ok(Kind::New));
    /// assert_eq!(record.step(&first, &mut image), Ok(Kind::Stored));
    /// assert_eq!(record.step(&first, &mut image), Ok(Kind::Repeated));
    /// assert_eq!(record.step(&other, &mut image), Err(Refusal::BYTES_DIFFER));
    /// assert_eq!(record.step(&announced, &mut image), Ok(Kind::Same));
    /// assert_eq!(&image, b"buoy\0\0");
    /// ```
    pub fn step(&mut self, section: &[u8], image: &mut [u8]) -> Result<Kind, Refusal> {
        // SAFETY: the borrows lend as many bytes as their lengths say and do not overlap; no precondition.
        let fate = unsafe {
            ffi::nebosvar_step(
                self,
                section.as_ptr(),
                section.len(),
                image.as_mut_ptr(),
                image.len(),
            )
        };
        Kind::check(fate.refusal, fate.refused_at, fate.kind)
    }

    /// Takes the section at the head of a stretch, or says why there is none to take. A table 0x74
    /// goes by the application section's rules, every other by the carousel's.
    ///
    /// ```
    /// # use make::{announcement, block};
    /// use nebosvar::{Record, Stop, Taken};
    ///
    /// let announced = announcement(1, 4, &[(7, 6, 2)]);
    /// let late = block(1, 7, 1, 0, b"gull"); // of version 1
    /// let stretch = [announced, late].concat();
    ///
    /// let (mut record, mut image) = (Record::new(), [0; 6]);
    /// let mut rest = &stretch[..];
    /// let mut answers = vec![];
    /// let stop = loop {
    ///     match record.take(rest, &mut image, 100) {
    ///         Taken::Section { length, fate } => {
    ///             answers.push(fate.map_or_else(|refusal| refusal.number(), |_| 0));
    ///             rest = &rest[length..];
    ///         }
    ///         Taken::Stopped(stop) => break stop,
    ///     }
    /// };
    /// assert_eq!((answers, stop), (vec![0, 14], Stop::End));
    /// ```
    pub fn take(&mut self, stretch: &[u8], image: &mut [u8], budget: usize) -> Taken {
        // SAFETY: the borrows lend as many bytes as their lengths say and do not overlap; no precondition.
        let taken = unsafe {
            ffi::nebosvar_take(
                self,
                stretch.as_ptr(),
                stretch.len(),
                image.as_mut_ptr(),
                image.len(),
                budget,
            )
        };
        match taken.stop {
            0 => Taken::Section {
                length: taken.length,
                fate: Kind::check(taken.refusal, taken.refused_at, taken.kind),
            },
            stop => Taken::Stopped(Stop::of(stop)),
        }
    }

    /// Takes sections, at most `budget` of them, until there is a stop. A refused section counts as
    /// taken, and the run goes on behind it.
    ///
    /// ```
    /// # use make::{announcement, block};
    /// use nebosvar::{Record, Stop};
    ///
    /// let mut stretch = announcement(1, 4, &[(7, 6, 2)]);
    /// stretch.extend(block(1, 7, 2, 0, b"buoy"));
    /// stretch.extend(block(1, 7, 2, 1, b" 3"));
    ///
    /// let (mut record, mut image) = (Record::new(), [0; 6]);
    /// let some = record.run(&stretch, &mut image, 2);
    /// assert_eq!((some.taken, some.stop), (2, Stop::Budget));
    /// let rest = record.run(&stretch[some.passed..], &mut image, 2);
    /// assert_eq!((rest.taken, rest.stop), (1, Stop::End));
    /// assert_eq!(record.handout(&image, 7), Ok(&b"buoy 3"[..]));
    /// ```
    pub fn run(&mut self, stretch: &[u8], image: &mut [u8], budget: usize) -> Passage {
        // SAFETY: the borrows lend as many bytes as their lengths say and do not overlap; no precondition.
        let passage = unsafe {
            ffi::nebosvar_run(
                self,
                stretch.as_ptr(),
                stretch.len(),
                image.as_mut_ptr(),
                image.len(),
                budget,
            )
        };
        Passage {
            taken: passage.taken,
            passed: passage.passed,
            stop: Stop::of(passage.stop),
        }
    }

    /// The bytes of a module, by its number: its part of the image, once every block of it has come.
    /// It can refuse with 1, 13, 15 and 20.
    ///
    /// What was handed out once is handed out again after any further calls with this record and image, written by nobody
    /// else: the same bytes, or 15 while more is announced than the image holds; until a new announcement changes or drops the
    /// module.
    ///
    /// ```
    /// # use make::{announcement, block};
    /// # use nebosvar::{Record, Refusal};
    /// let (mut record, mut image) = (Record::new(), [0; 6]);
    /// record.step(&announcement(1, 4, &[(7, 6, 2)]), &mut image)?;
    /// record.step(&block(1, 7, 2, 1, b" 3"), &mut image)?;
    /// assert_eq!(record.handout(&image, 7), Err(Refusal::INCOMPLETE));
    /// record.step(&block(1, 7, 2, 0, b"buoy"), &mut image)?;
    /// assert_eq!(record.handout(&image, 7), Ok(&b"buoy 3"[..]));
    /// assert_eq!(record.handout(&image, 8), Err(Refusal::NO_MODULE));
    /// assert_eq!(record.handout(&image[..5], 7), Err(Refusal::SHORT_IMAGE));
    /// # Ok::<(), Refusal>(())
    /// ```
    pub fn handout<'a>(&self, image: &'a [u8], number: u16) -> Result<&'a [u8], Refusal> {
        // SAFETY: the borrows lend as many bytes as their lengths say; no precondition.
        let part = unsafe { ffi::nebosvar_handout(self, image.as_ptr(), image.len(), number) };
        Refusal::check(part.refusal, part.refused_at)?;
        match image.get(range(part.at, part.length)) {
            Some(bytes) => Ok(bytes),
            None => excluded(),
        }
    }

    /// The blocks that a module lacks, by its number; `None` when it is complete. It can refuse with
    /// 1 and 13.
    ///
    /// ```
    /// # use make::{announcement, block};
    /// # use nebosvar::{Missing, Record, Refusal};
    /// let (mut record, mut image) = (Record::new(), [0; 6]);
    /// record.step(&announcement(1, 4, &[(7, 6, 2)]), &mut image)?;
    /// assert_eq!(record.missing(7), Ok(Some(Missing { count: 2, lowest: 0 })));
    /// record.step(&block(1, 7, 2, 0, b"buoy"), &mut image)?;
    /// assert_eq!(record.missing(7), Ok(Some(Missing { count: 1, lowest: 1 })));
    /// record.step(&block(1, 7, 2, 1, b" 3"), &mut image)?;
    /// assert_eq!(record.missing(7), Ok(None));
    /// # Ok::<(), Refusal>(())
    /// ```
    pub fn missing(&self, number: u16) -> Result<Option<Missing>, Refusal> {
        // SAFETY: the borrow lends one record; no precondition.
        let lack = unsafe { ffi::nebosvar_missing(self, number) };
        Refusal::check(lack.refusal, ffi::NOWHERE)?;
        Ok((lack.count > 0).then_some(Missing {
            count: lack.count,
            lowest: lack.lowest,
        }))
    }
}

impl Default for Record {
    fn default() -> Record {
        Record::new()
    }
}
