//! The ways to make the numbers of a day wrong on purpose.

mod common;

use std::collections::{BTreeMap, BTreeSet};

use common::{a_of, g, p4_code, z};
use reference::days;
use reference::random::Random;

/// Two files of one payment each, with these numbers: 900 bytes.
fn two_files(one: u64, next: u64) -> Vec<u8> {
    let file = |number| [a_of(number), g(&p4_code(), 5), z(3, 5)];
    [file(one), file(next)].concat().concat()
}

/// How a day differs from another one of two files and the same length, whose headers are records 0 and 3. Nothing but
/// the pair and the number of one header may differ.
fn difference(before: &[u8], day: &[u8]) -> &'static str {
    let changed: Vec<usize> = (0..before.len()).filter(|&i| day[i] != before[i]).collect();
    let records: BTreeSet<usize> = changed.iter().map(|i| i / 150).collect();
    assert!(records.len() <= 1, "{records:?}");
    assert!(records.iter().all(|record| [0, 3].contains(record)));
    let places: Vec<usize> = changed.iter().map(|i| i % 150 + 1).collect();
    let is_of_number = |place: &usize| matches!(place, 74..=79);
    let is_of_pair = |place: &usize| matches!(place, 3..=22 | 43..=45);
    assert!(places
        .iter()
        .all(|place| is_of_number(place) || is_of_pair(place)));
    match &places[..] {
        [] => "nothing",
        _ if places.iter().any(is_of_pair) => "another pair",
        _ => "another number",
    }
}

/// What has become of a day with files 999999 and 1.
fn outcome(day: &[u8]) -> &'static str {
    let two = two_files(999_999, 1);
    let (one, next) = two.split_at(450);
    let repeated = [[one, one, next], [one, next, next], [one, next, one]];
    if repeated.iter().any(|files| files.concat() == day) {
        "a file twice"
    } else if day.len() != two.len() {
        "another length"
    } else if day == two_files(1, 999_999) {
        "files swapped"
    } else if day == two_files(999_999, 0) {
        "zeros"
    } else {
        difference(&two, day)
    }
}

/// Each way to make a number wrong is taken, and any bytes are answered.
#[test]
fn misnumbering() {
    let mut random = Random::new(307);
    let mut lengths = BTreeSet::new();
    let mut outcomes = BTreeMap::new();
    for _ in 0..2_000 {
        let mut day = two_files(999_999, 1);
        days::misnumber(&mut random, &mut day);
        lengths.insert(day.len() / 450);
        *outcomes.entry(outcome(&day)).or_insert(0) += 1;
        let mut bytes: Vec<u8> = (0..random.below(400))
            .map(|_| random.one_of(b"AGZ\r\n"))
            .collect();
        days::misnumber(&mut random, &mut bytes);
    }
    // From one file left out to 17 put in.
    assert_eq!(Vec::from_iter(lengths), Vec::from_iter(1..=19));
    assert!(outcomes.get("zeros") > Some(&100), "{outcomes:?}");
    for wanted in [
        "a file twice",
        "files swapped",
        "another pair",
        "another number",
    ] {
        let count = outcomes.get(wanted);
        assert!(count > Some(&50), "{wanted} of {outcomes:?}");
    }
}

#[test]
fn days_without_files() {
    let mut random = Random::new(308);
    for mut nothing in [Vec::new(), z(2, 0).to_vec(), a_of(1)[..149].to_vec()] {
        let before = nothing.clone();
        days::misnumber(&mut random, &mut nothing);
        assert_eq!(nothing, before);
    }
}
