//! Both receivers in turn over the same stretches. What they answer and leave must be the same.

use crate::receiver::{Lent, Seconds};
use crate::stretch::Mix;
use crate::ROUNDS;

/// How long each took.
pub struct Raced {
    pub ours: Seconds,
    pub theirs: Seconds,
}

impl Raced {
    /// The best time of ours against that of the baseline.
    pub fn times(&self) -> f64 {
        self.ours.best / self.theirs.best
    }
}

/// Measures both, or tells what differed: first what becomes of each section, which the mix knows besides; then, after every
/// round, what they answered and left.
pub fn race(mix: &Mix) -> Result<Raced, String> {
    let mut ours = Lent::<nebosvar::Record>::new();
    let mut theirs = Lent::<baseline::Record>::new();
    let (fates, laid) = (ours.fates(mix), mix.fates());
    same("the fates of sections", &fates, &theirs.fates(mix))?;
    same("the fates of sections and those laid", &fates, &laid)?;
    for _ in 0..ROUNDS {
        ours.round(mix);
        theirs.round(mix);
        check(&ours, &theirs)?;
    }
    // All was taken that was laid.
    let laid = (laid.len(), mix.bytes());
    same("sections and bytes", ours.taken_and_passed(), laid)?;
    Ok(Raced {
        ours: ours.seconds(),
        theirs: theirs.seconds(),
    })
}

/// Both answered the same of every stretch, and left the same record and image.
fn check(ours: &Lent<nebosvar::Record>, theirs: &Lent<baseline::Record>) -> Result<(), String> {
    let record = compare::pair::theirs(&ours.record);
    same("answers", &ours.answers, &theirs.answers)?;
    same("records", &record, &theirs.record)?;
    same("images", &ours.image, &theirs.image)
}

fn same<T: PartialEq>(what: &str, ours: T, theirs: T) -> Result<(), String> {
    if ours == theirs {
        Ok(())
    } else {
        Err(format!("{what} differ"))
    }
}

#[cfg(test)]
mod tests {
    use super::*;
    use crate::receiver::Fate;

    /// A table, laid with this fate.
    fn laid(fate: Fate) -> Mix {
        let mut mix = Mix::default();
        mix.lay(&make::table(&[], &[]), fate);
        mix
    }

    #[test]
    fn a_section_must_become_what_it_is_laid_for() {
        assert!(race(&laid(Fate::Table)).is_ok());
        assert!(race(&laid(Fate::Refused(5))).is_err());
    }

    #[test]
    fn bytes_that_are_no_section_are_told() {
        let mut mix = laid(Fate::Table);
        mix.stretches[0].bytes.push(0x74);
        assert!(race(&mix).is_err());
    }
}
