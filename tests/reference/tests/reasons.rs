//! The numbers and the words of the reasons: docs/SPEC.md, "Refusals".

use std::collections::BTreeSet;

use reference::{answer, Reason};

/// The table of docs/SPEC.md, "Refusals".
const NUMBERS: &[(Reason, u64)] = &[
    (Reason::Length, 1),
    (Reason::NoDigit, 2),
    (Reason::Product, 3),
    (Reason::Segment, 4),
    (Reason::Kind, 5),
    (Reason::BoxCheck, 6),
    (Reason::GeneralCheck, 7),
    (Reason::NoText, 8),
    (Reason::Unexpected, 9),
    (Reason::Fixed, 10),
    (Reason::NoDate, 11),
    (Reason::UnknownCode, 12),
    (Reason::TrailerCount, 13),
    (Reason::TrailerTotal, 14),
    (Reason::TooManyPayments, 15),
    (Reason::FileTotal, 16),
    (Reason::TooManyLanes, 17),
    (Reason::BoardTotal, 18),
    (Reason::FileOpen, 19),
    (Reason::WideNumber, 21),
    (Reason::NoLineEnd, 22),
    (Reason::WrongList, 25),
    (Reason::NotFollowing, 26),
    (Reason::PairsFull, 27),
];

#[test]
fn each_reason_has_its_number() {
    for &(reason, number) in NUMBERS {
        assert_eq!(reason.number(), number, "{reason:?}");
        assert_eq!(answer::<()>(&Err(reason.at(7))), (number, 7));
    }
    let table: BTreeSet<Reason> = NUMBERS.iter().map(|&(reason, _)| reason).collect();
    assert_eq!(table, Reason::ALL.iter().copied().collect());
}

#[test]
fn no_reason_is_accepted_or_retired() {
    for reason in Reason::ALL {
        assert_ne!(reason.number(), 0, "{reason:?}: 0 is accepted");
        assert_ne!(reason.number(), 20, "{reason:?}: 20 is retired");
    }
}

#[test]
fn no_two_reasons_share_words() {
    let words: BTreeSet<&str> = Reason::ALL.iter().map(|reason| reason.words()).collect();
    assert_eq!(words.len(), Reason::ALL.len());
}

#[test]
fn a_refusal_shows_number_place_and_reason() {
    let refusal = Reason::GeneralCheck.at(41);
    assert_eq!(refusal.to_string(), "7 at 41: general check is wrong");
    assert_eq!(answer::<()>(&Err(refusal)), (7, 41));
    assert_eq!(answer(&Ok(5)), (0, 0));
}
