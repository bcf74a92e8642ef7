//! A difference between the receivers, or between what one did and what the paper lets it do.

use std::fmt::{self, Debug, Display};
use std::panic::{catch_unwind, AssertUnwindSafe};

/// What differed, and both sides of it.
#[derive(Debug)]
pub struct Difference {
    /// Where in the stretch, in bytes.
    pub place: usize,
    pub what: String,
    pub ours: String,
    pub theirs: String,
}

/// Nothing, or the difference that ends the comparison.
pub type Same<T = ()> = Result<T, Difference>;

impl Difference {
    /// It came up at this place of the stretch.
    pub fn at(mut self, place: usize) -> Difference {
        self.place = place;
        self
    }
}

impl Display for Difference {
    fn fmt(&self, f: &mut fmt::Formatter<'_>) -> fmt::Result {
        writeln!(f, "place {}: {}", self.place, self.what)?;
        writeln!(f, "nebosvar: {}", self.ours)?;
        write!(f, "baseline: {}", self.theirs)
    }
}

/// Both sides must be equal.
pub fn same<T: PartialEq + Debug + ?Sized>(what: &str, ours: &T, theirs: &T) -> Same {
    if ours == theirs {
        return Ok(());
    }
    Err(Difference {
        place: 0,
        what: what.to_string(),
        ours: format!("{ours:?}"),
        theirs: format!("{theirs:?}"),
    })
}

/// Both images must be equal. Of images that are not, only the bytes from the first other one to the last are
/// shown.
pub fn same_bytes(what: &str, ours: &[u8], theirs: &[u8]) -> Same {
    if ours == theirs {
        return Ok(());
    }
    let differ = |&at: &usize| ours.get(at) != theirs.get(at);
    let length = ours.len().max(theirs.len());
    let first = (0..length).find(differ).unwrap_or(0);
    let last = (0..length).rfind(differ).unwrap_or(0);
    let shown = |bytes: &[u8]| {
        let part = bytes.get(first..=last).unwrap_or_default();
        format!("{} bytes, at {first} {}", bytes.len(), hex(part))
    };
    Err(Difference {
        place: 0,
        what: what.to_string(),
        ours: shown(ours),
        theirs: shown(theirs),
    })
}

/// One that panics has given no answer: that is a difference too.
pub fn caught(compare: impl FnOnce() -> Same) -> Same {
    catch_unwind(AssertUnwindSafe(compare)).unwrap_or_else(|_| {
        Err(Difference {
            place: 0,
            what: "a panic, told above".to_string(),
            ours: "unknown".to_string(),
            theirs: "unknown".to_string(),
        })
    })
}

/// Bytes as a difference shows them.
pub fn hex(bytes: &[u8]) -> String {
    bytes.iter().map(|byte| format!("{byte:02x}")).collect()
}

#[cfg(test)]
mod tests {
    use super::*;

    #[test]
    fn only_the_bytes_that_differ_are_shown() {
        let difference = same_bytes("image", b"abcde", b"aBcDe").unwrap_err().at(7);
        assert_eq!(
            difference.to_string(),
            "place 7: image\nnebosvar: 5 bytes, at 1 626364\nbaseline: 5 bytes, at 1 426344"
        );
        assert!(same_bytes("image", b"abc", b"abc").is_ok());
    }

    #[test]
    fn a_panic_is_a_difference() {
        assert!(caught(|| Ok(())).is_ok());
        let told = caught(|| panic!("as it is meant to")).unwrap_err();
        assert_eq!(told.what, "a panic, told above");
    }
}
