//! Lists of agreed issuers: which are right, and what is in them. Each choice has an input that tells it from another
//! reading.

mod common;

use common::{assert_answer, key_of, rising};
use reference::agreed::{check, is_agreed, key};
use reference::{Issuer, AGREED};

const E8: u64 = 100_000_000;

fn issuer(segment: u64, number: u64) -> Issuer {
    Issuer { segment, number }
}

#[test]
fn keys() {
    assert_eq!(key(issuer(1, 3_659)), 100_003_659);
    assert_eq!(key(issuer(6, 33_041_260)), 633_041_260);
    assert_eq!(key(issuer(9, 0)), 900_000_000);
    assert_eq!(key(issuer(6, E8 - 1)), 699_999_999);
    for segment in [1, 2, 3, 4, 5, 7, 9] {
        assert_eq!(key(issuer(segment, 9_999)), segment * E8 + 9_999);
        assert_eq!(key(issuer(segment, 10_000)), 0);
    }
    // The last two would be the key of another issuer, cut to 64 bits or carried over.
    for (segment, number) in [
        (0, 0),
        (0, 3_659),
        (8, 0),
        (8, 3_659),
        (10, 3_659),
        (6, E8),
        (1, u64::MAX),
        (u64::MAX, 0),
        (u64::MAX, u64::MAX),
        (0, E8 + 3_659),
        (1 << 56, E8 + 3_659),
    ] {
        assert_eq!(key(issuer(segment, number)), 0, "{segment}-{number}");
        assert!(!is_agreed(issuer(segment, number), &[0, 100_003_659]));
    }
}

#[test]
fn entries_that_name_an_issuer() {
    for segment in 0..=20 {
        for (number, short, long) in [
            (0, true, true),
            (9_999, true, true),
            (10_000, false, true),
            (99_999_999, false, true),
        ] {
            let named = match segment {
                0 | 8 | 10.. => false,
                6 => long,
                _ => short,
            };
            let number_given = if named { 0 } else { 25 };
            assert_answer(check(&[segment * E8 + number]), number_given, 0);
        }
    }
    for entry in [1, 3_659, u64::MAX, u64::MAX / 2, 1 << 32, 10 * E8 + 3_659] {
        assert_answer(check(&[entry]), 25, 0);
        assert_answer(check(&[100_003_659, entry, 200_003_659]), 25, 0);
    }
}

#[test]
fn a_list_has_at_most_64_entries() {
    assert_eq!(AGREED, 64);
    for length in 0..=200 {
        let number = if length <= 64 { 0 } else { 25 };
        let mut list = rising(length);
        assert_answer(check(&list), number, 0);
        list.reverse();
        assert_answer(check(&list), number, 0);
        let middle = list.len() / 2;
        list.rotate_left(middle);
        assert_answer(check(&list), number, 0);
    }
    // 65 entries, of which one is there twice, are too many as well.
    let list = [rising(64), rising(1)].concat();
    assert_answer(check(&list), 25, 0);
}

/// An issuer twice, at every two places of a full list in each order.
#[test]
fn an_issuer_twice() {
    let mut lists = [rising(64), rising(64), rising(64)];
    lists[1].reverse();
    lists[2].rotate_left(20);
    for right in lists {
        for first in 0..64 {
            for second in (0..64).filter(|&second| second != first) {
                let mut list = right.clone();
                list[second] = list[first];
                assert_answer(check(&list), 25, 0);
            }
        }
    }
    assert_answer(check(&[key_of(1, 5), key_of(1, 5)]), 25, 0);
    // The same number in two segments is two issuers.
    assert_answer(check(&[key_of(1, 5), key_of(2, 5), key_of(6, 5)]), 0, 0);
}

#[test]
fn issuers_in_a_list() {
    let full = rising(64);
    for number in 0..500 {
        let listed = number % 7 == 0 && number < 7 * 64;
        assert_eq!(is_agreed(issuer(3, number), &full), listed);
        assert!(!is_agreed(issuer(2, number), &full));
        assert!(!is_agreed(issuer(3, number), &[]));
    }
}
