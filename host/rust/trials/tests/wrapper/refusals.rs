//! Refusals: numbers, names and sentences.
use lemtskavo::{Refusal, RefusedRead, UnknownRefusal};

use crate::NO_VISIT;

const NUMBERS: [(Refusal, u32); 12] = [
    (Refusal::LineOutOfRange, 1),
    (Refusal::BufferLength, 2),
    (Refusal::ChipOutOfRange, 3),
    (Refusal::PatternLength, 4),
    (Refusal::CatchWordCount, 5),
    (Refusal::BootMemoryLength, 11),
    (Refusal::NotReady, 12),
    (Refusal::MemoryLength, 13),
    (Refusal::RegisterDiffers, 14),
    (Refusal::Unlocated, 20),
    (Refusal::Uncorrectable, 21),
    (Refusal::TaskOutOfRange, 31),
];

/// The numbers that are tried: those of the documents, all about them, and the largest.
fn numbers() -> impl Iterator<Item = u32> {
    (0..=300).chain([65_536 + 1, 1 << 31, u32::MAX])
}

#[test]
fn numbers_are_those_of_the_documents() {
    for (refusal, number) in NUMBERS {
        assert_eq!(refusal.number(), number);
        assert_eq!(Refusal::try_from(number), Ok(refusal));
        assert_eq!(Refusal::check(number), Err(refusal));
    }
}

#[test]
fn a_number_of_no_refusal_is_an_error_of_its_own() {
    for number in numbers().filter(|number| NUMBERS.iter().all(|(_, known)| known != number)) {
        let error = Refusal::try_from(number).unwrap_err();
        assert_eq!(error, UnknownRefusal(number));
        assert!(error.to_string().starts_with(&format!("{number} ")));
    }
}

#[test]
fn a_call_with_a_number_that_is_not_known_is_refused_without_a_panic() {
    assert_eq!(Refusal::check(0), Ok(()));
    for number in numbers().filter(|number| *number != 0) {
        let refusal = Refusal::check(number).unwrap_err();
        assert_eq!(refusal, Refusal::try_from(number).unwrap_or(Refusal::Unknown(number)));
        assert_eq!(refusal.number(), number);
        assert!(refusal.to_string().starts_with(&format!("{number}: ")));
    }
}

#[test]
fn a_refused_read_says_what_its_refusal_says() {
    for (refusal, _) in NUMBERS {
        let refused = RefusedRead { refusal, visit: NO_VISIT };
        assert_eq!(refused.to_string(), refusal.to_string());
        assert_eq!(Refusal::from(refused), refusal);
    }
}
