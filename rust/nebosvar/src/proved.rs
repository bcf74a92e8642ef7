//! What the archive's proofs say of its answers, and Rust's types do not.

use std::ops::Range;

/// The end of every match over the archive's numbers, and of a part outside the bytes that were lent.
#[cold]
pub fn excluded() -> ! {
    unreachable!(
        "libnebosvar.a gave an answer that its proofs exclude: it is not the archive of this header"
    )
}

/// A part, as a range.
pub fn range(at: usize, length: usize) -> Range<usize> {
    match at.checked_add(length) {
        Some(end) => at..end,
        None => excluded(),
    }
}

#[cfg(test)]
mod tests {
    use super::range;
    use crate::drift::State;
    use crate::ffi::NOWHERE;
    use crate::transport::PacketKind;
    use crate::{Class, Control, Kind, Refusal, Stop};
    use std::panic::{catch_unwind, UnwindSafe};

    #[test]
    fn what_the_header_does_not_have_is_excluded() {
        let calls: [fn(); 22] = [
            || assert!(Refusal::check(22, NOWHERE).is_ok()),
            || assert!(Refusal::check(29, NOWHERE).is_ok()),
            || assert!(Refusal::check(38, NOWHERE).is_ok()),
            || assert!(Refusal::check(24, NOWHERE).is_ok()),
            || assert!(Refusal::check(26, NOWHERE).is_ok()),
            || assert!(Refusal::check(39, NOWHERE).is_ok()),
            || assert!(Refusal::check(44, NOWHERE).is_ok()),
            || assert!(PacketKind::check(0, 0).is_ok()),
            || assert!(PacketKind::check(0, 4).is_ok()),
            || assert!(Refusal::check(21, 0).is_ok()),
            || assert!(Kind::check(0, 0, 1).is_ok()), // accepted, at a place
            || assert!(Kind::check(0, NOWHERE, 0).is_ok()),
            || assert!(Kind::check(0, NOWHERE, 6).is_ok()),
            || assert!(Kind::check(5, NOWHERE, 0).is_ok()), // refused with 5, at none
            || assert_eq!(Stop::of(0), Stop::End),
            || assert_eq!(Stop::of(6), Stop::End),
            || assert_eq!(Class::of(0), Class::Unsigned),
            || assert_eq!(Class::of(5), Class::Unsigned),
            || assert_eq!(Control::of(0), Control::Reserved),
            || assert_eq!(Control::of(5), Control::Reserved), // a reserved code, told as 255
            || assert_eq!(State::of(3), State::LastKnown),    // which is refused
            || assert!(range(1, usize::MAX).is_empty()),
        ];
        for call in calls {
            assert!(is_excluded(call));
        }
    }

    /// Whether it ends so.
    fn is_excluded(call: impl FnOnce() + UnwindSafe) -> bool {
        let ended = catch_unwind(call).err();
        let words = ended.and_then(|panic| panic.downcast_ref::<&str>().copied());
        words.is_some_and(|words| words.contains("its proofs exclude"))
    }

    #[test]
    fn refusals_2_to_6_have_a_place_and_no_other_has() {
        for number in 0..=u8::MAX {
            let known = matches!(number, 0..=21 | 25 | 30..=37 | 40..=43);
            let placed = matches!(number, 2..=6);
            let check = |place| Refusal::check(number, place).unwrap_or(());
            assert_eq!(is_excluded(|| check(NOWHERE)), placed || !known);
            assert_eq!(is_excluded(|| check(0)), !placed);
            assert_eq!(is_excluded(|| check(NOWHERE - 1)), !placed);
        }
        assert_eq!(Refusal::check(5, 12), Err(Refusal::bad_crc(12)));
        assert_eq!(Refusal::check(7, NOWHERE), Err(Refusal::MALFORMED));
        assert_eq!(Refusal::check(0, NOWHERE), Ok(()));
    }
}
