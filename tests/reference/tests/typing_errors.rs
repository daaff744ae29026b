//! Which typing errors pass: docs/SPEC.md, "Typing errors".

mod common;

use std::collections::BTreeMap;

use common::{assert_answer, barcode_of_line, key_of, with_byte};
use reference::agreed::{is_agreed, key};
use reference::random::Random;
use reference::{answer, days, line, Date, Modulus};

#[test]
fn changes_that_pass_under_modulo_11() {
    // A 0 to 8, segment 2 to 9, and kind 7 to 9.
    let samples = [
        (
            b"818000000004014361582218011100202310001303003101",
            25,
            b'8',
        ),
        (b"829000000000011351990220303000212303030330100000", 2, b'9'),
        (b"827600000000000196040000000000000000000000000000", 3, b'9'),
    ];
    for (typed, place, to) in samples {
        assert_answer(line::decode(typed, &[]), 0, 0);
        assert_answer(line::decode(&with_byte(*typed, place, to), &[]), 0, 0);
    }
}

/// The remainders of the third box and of the whole code.
fn remainders(typed: &[u8; 48]) -> (u64, u64) {
    let code = barcode_of_line(typed);
    let whole = [&code[..3], &code[4..]].concat();
    (
        Modulus::Eleven.remainder(&typed[24..35]).unwrap(),
        Modulus::Eleven.remainder(&whole).unwrap(),
    )
}

#[test]
fn the_two_remainders_may_move_in_opposite_directions() {
    let typed = b"818000000004014361582218011100202310001303003101";
    let (third, whole) = remainders(typed);
    let (third_after, whole_after) = remainders(&with_byte(*typed, 25, b'8'));
    assert_eq!((third + third_after, whole + whole_after), (1, 1));
    assert_ne!(third, whole);
}

#[test]
fn a_change_passes_only_at_some_places() {
    let mut passed = [0; 49];
    let mut random = Random::new(4);
    for _ in 0..15_000 {
        let typed = days::line(&mut random).unwrap();
        let eleven = typed[2] >= b'8';
        for place in 1..=48 {
            for digit in (b'0'..=b'9').filter(|&digit| digit != typed[place - 1]) {
                // A change of the modulus itself may pass, and is left out.
                if place == 3 && (digit >= b'8') != eleven {
                    continue;
                }
                if line::decode(&with_byte(typed, place, digit), &[]).is_ok() {
                    assert!(eleven, "modulo 10 catches every single wrong digit");
                    passed[place] += 1;
                }
            }
        }
    }
    let places: Vec<usize> = (1..=48).filter(|&place| passed[place] > 0).collect();
    let expected: Vec<usize> = [2, 8, 25, 29, 33].into_iter().chain(37..=47).collect();
    assert_eq!(places, expected);
}

#[test]
fn zero_and_nine_change_places() {
    let mut random = Random::new(5);
    let mut seen = [0; 3];
    while seen.iter().any(|&count| count < 20) {
        let typed = days::line(&mut random).unwrap();
        if typed[2] >= b'8' {
            continue;
        }
        for (i, (first, number, place)) in
            [(4, 0, 0), (11, 7, 4), (12, 6, 12)].into_iter().enumerate()
        {
            let pair = [typed[first - 1], typed[first]];
            if pair == *b"09" || pair == *b"90" {
                let mut swapped = typed;
                swapped.swap(first - 1, first);
                assert_answer(line::decode(&swapped, &[]), number, place);
                seen[i] += 1;
            }
        }
    }
}

/// The lines that differ from this one in one digit, with the place. A change of the modulus itself is left out.
fn changed(typed: &[u8; 48]) -> impl Iterator<Item = (usize, [u8; 48])> + '_ {
    let eleven = typed[2] >= b'8';
    (1..=48).flat_map(move |place| {
        (b'0'..=b'9')
            .filter(move |&digit| digit != typed[place - 1])
            .filter(move |&digit| place != 3 || (digit >= b'8') == eleven)
            .map(move |digit| (place, with_byte(*typed, place, digit)))
    })
}

/// The lines in which two different neighbours have changed places.
fn exchanged(typed: &[u8; 48]) -> impl Iterator<Item = [u8; 48]> + '_ {
    (1..48).filter(|&i| typed[i - 1] != typed[i]).map(|i| {
        let mut line = *typed;
        line.swap(i - 1, i);
        line
    })
}

/// The number that a line is answered under a list. It is that under an empty list; but a line of an agreed issuer that
/// passes there passes or is refused 11.
#[track_caller]
fn number_under(typed: &[u8; 48], agreed: &[u64]) -> u64 {
    let plain = line::decode(typed, &[]);
    let listed = line::decode(typed, agreed);
    match plain {
        Ok(decoded) if is_agreed(decoded.issuer(), agreed) => {
            let place = if decoded.segment == 6 { 26 } else { 21 };
            assert!([(0, 0), (11, place)].contains(&answer(&listed)));
        }
        _ => assert_eq!(listed, plain),
    }
    answer(&listed).0
}

/// A random line and a list that does not refuse it. In half of the lists there is its own issuer, and in all of them
/// most of those that the lines changed from it have.
fn line_and_list(random: &mut Random) -> ([u8; 48], Vec<u64>) {
    let issuer = days::issuer(random);
    let own = [key(issuer)];
    let mut agreed = own[..random.index(2)].to_vec();
    let typed = days::line_under(random, issuer, &agreed).unwrap();
    for (_, line) in changed(&typed) {
        if let Ok(decoded) = line::decode(&line, &[]) {
            let other = key(decoded.issuer());
            if other != own[0] && !agreed.contains(&other) && !random.once_in(4) {
                agreed.push(other);
            }
        }
    }
    (typed, agreed)
}

/// Under any list, every change that modulo 10 catches is refused, and a change passes or is refused 11 only at the
/// places where it passes under an empty list.
#[test]
fn changes_under_lists() {
    let mut random = Random::new(6);
    let mut seen = BTreeMap::new();
    let places: Vec<usize> = [2, 8, 25, 29, 33].into_iter().chain(37..=47).collect();
    for _ in 0..8_000 {
        let (typed, agreed) = line_and_list(&mut random);
        let decoded = line::decode(&typed, &agreed).expect("accepted");
        let own = is_agreed(decoded.issuer(), &agreed);
        assert_eq!(decoded.due.is_some(), own);
        for (place, line) in changed(&typed) {
            let number = number_under(&line, &agreed);
            if typed[2] < b'8' {
                assert!([2, 3, 4, 5, 6, 7].contains(&number));
            } else if number == 0 || number == 11 {
                assert!(places.contains(&place), "{place}");
                *seen.entry((own, place == 2, number)).or_insert(0) += 1;
            }
        }
    }
    // A change of the segment makes the issuer another one, which may be agreed where the first is not.
    for wanted in [
        (true, false, 0),
        (true, false, 11),
        (false, false, 0),
        (true, true, 0),
        (false, true, 0),
        (false, true, 11),
    ] {
        assert!(seen.contains_key(&wanted), "{wanted:?} of {seen:?}");
    }
}

/// The line whose segment 2 is changed into 9: its free field begins with 02230300, and either issuer may be agreed.
#[test]
fn a_change_of_the_segment_under_lists() {
    let typed = b"829000000000011351990220303000212303030330100000";
    let slip = with_byte(*typed, 2, b'9');
    let (two, nine) = (key_of(2, 5_199), key_of(9, 5_199));
    for (agreed, before, after) in [
        (&[][..], (0, 0), (0, 0)),
        (&[two], (11, 21), (0, 0)),
        (&[nine], (0, 0), (11, 21)),
        (&[two, nine], (11, 21), (11, 21)),
    ] {
        assert_eq!(answer(&line::decode(typed, agreed)), before);
        assert_eq!(answer(&line::decode(&slip, agreed)), after);
    }
}

/// The line of 7-2193 whose free field begins with 20211004, under modulo 11. With place 29 changed it begins with
/// 20211000, and no check digit tells.
#[test]
fn a_change_of_the_due_date_under_lists() {
    let typed = b"878000000008009221932023110040211200210121020029";
    let mistyped = with_byte(*typed, 29, b'0');
    let agreed = [key_of(7, 2_193)];
    let shown = line::decode(typed, &agreed).expect("accepted");
    assert_eq!(shown.due, Date::new(2021, 10, 4));
    assert_answer(line::decode(&mistyped, &agreed), 11, 21);
    for typed in [typed, &mistyped] {
        assert_eq!(line::decode(typed, &[]).map(|shown| shown.due), Ok(None));
    }
}

#[test]
fn exchanges_under_lists() {
    let mut random = Random::new(7);
    let mut seen = [0; 26];
    for _ in 0..20_000 {
        let issuer = days::issuer(&mut random);
        let typed = days::line_under(&mut random, issuer, &[key(issuer)]).unwrap();
        let agreed = days::agreed(&mut random, &[issuer]);
        for line in exchanged(&typed) {
            seen[number_under(&line, &agreed) as usize] += 1;
        }
    }
    assert!(
        [0, 6, 7, 11]
            .iter()
            .all(|&number: &usize| seen[number] > 20),
        "{seen:?}"
    );
}
