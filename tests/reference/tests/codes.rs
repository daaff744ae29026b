//! Choices of docs/SPEC.md, "Barcode", "Builder" and "Typed line", each with an input that tells it from another
//! reading.

mod common;

use std::collections::BTreeSet;

use common::{assert_answer, barcode_of_line, code_for, naive, p4_code, with_byte, P4};
use reference::agreed::key;
use reference::random::Random;
use reference::{answer, barcode, days, line, Date, Issuer, Modulus};

fn built(free: &[u8; 25]) -> [u8; 44] {
    let mut code = [0; 44];
    barcode::build(1, 6, 0, 0, free, &[], &mut code).expect("good fields");
    code
}

#[test]
fn due_date_limits() {
    let issuer = Issuer {
        segment: 1,
        number: 0,
    };
    let agreed = [key(issuer)];
    let due = |free| barcode::decode(&built(free), &agreed).map(|decoded| decoded.due);
    assert_answer(due(b"2200010100000000000000000"), 11, 20);
    assert_answer(due(b"1899123100000000000000000"), 11, 20);
    assert_answer(due(b"2023022900000000000000000"), 11, 20);
    let last = due(b"2199123100000000000000000");
    assert_eq!(last, Ok(Date::new(2199, 12, 31)));
    let first = due(b"1900010100000000000000000");
    assert_eq!(first, Ok(Date::new(1900, 1, 1)));
}

#[test]
fn the_free_field_is_a_part_of_the_barcode() {
    let code = p4_code();
    let free = barcode::free_field(&code, &[]);
    assert_eq!(free.len(), 25);
    assert_eq!(free.as_ptr(), code[19..].as_ptr());
    let code = code_for(6, 12_345_678);
    assert_eq!(
        barcode::free_field(&code, &[]).as_ptr(),
        code[23..].as_ptr()
    );
    assert_eq!(barcode::free_field(&code, &[]).len(), 21);
    let code = p4_code();
    for refused in [
        &code[..43],
        &with_byte(code, 44, b'x'),
        &with_byte(code, 1, b'7'),
        &with_byte(code, 2, b'8'),
        &with_byte(code, 3, b'5'),
        &with_byte(code, 4, b'0'),
        &[],
    ] {
        assert!(barcode::free_field(refused, &[]).is_empty());
    }
}

#[test]
fn line_from_fields_in_two_calls() {
    let mut random = Random::new(3);
    for _ in 0..5_000 {
        let typed = days::line(&mut random).unwrap();
        let decoded = line::decode(&typed, &[]).unwrap();
        let read = barcode_of_line(&typed);
        let free = barcode::free_field(&read, &[]);
        let mut code = [0; 44];
        barcode::build(
            decoded.segment,
            decoded.kind,
            decoded.value,
            decoded.issuer,
            free,
            &[],
            &mut code,
        )
        .unwrap();
        let mut again = [0; 48];
        line::line_from_barcode(&code, &[], &mut again).unwrap();
        assert_eq!(again, typed);
    }
}

#[test]
fn builder_takes_numbers() {
    let build = |segment, kind| barcode::build(segment, kind, 0, 0, &[b'0'; 25], &[], &mut [0; 44]);
    assert_answer(build(49, 6), 4, 2);
    assert_answer(build(0, 6), 4, 2);
    assert_answer(build(8, 6), 4, 2);
    assert_answer(build(u64::MAX, 6), 4, 2);
    assert_answer(build(1, 54), 5, 3);
    assert_answer(build(1, 5), 5, 3);
    assert_answer(build(1, 10), 5, 3);
    assert_answer(build(8, 5), 4, 2);
}

#[test]
fn builder_order() {
    let e11 = 100_000_000_000;
    let mut out = [7; 44];
    let mut build = |length: usize, segment, kind, value, issuer, free: &[u8]| {
        let outcome = barcode::build(segment, kind, value, issuer, free, &[], &mut out[..length]);
        assert!(outcome.is_ok() || out == [7; 44], "changed");
        answer(&outcome)
    };
    assert_eq!(build(43, 8, 5, e11, 10_000, b""), (1, 0));
    assert_eq!(build(44, 8, 5, e11, 10_000, b""), (4, 2));
    assert_eq!(build(44, 6, 5, e11, 10_000, b""), (5, 3));
    assert_eq!(build(44, 6, 6, e11, 100_000_000, &[b'x'; 25]), (1, 0));
    assert_eq!(build(44, 1, 6, e11, 10_000, &[b'x'; 21]), (1, 0));
    assert_eq!(build(44, 6, 6, e11, 100_000_000, &[b'x'; 21]), (21, 5));
    assert_eq!(build(44, 6, 6, e11 - 1, 100_000_000, &[b'x'; 21]), (21, 16));
    assert_eq!(build(44, 6, 6, e11 - 1, 99_999_999, &[b'x'; 21]), (2, 24));
    assert_eq!(build(44, 1, 6, e11 - 1, 10_000, &[b'x'; 25]), (21, 16));
    assert_eq!(build(44, 1, 6, u64::MAX, 9_999, &[b'x'; 25]), (21, 5));
    assert_eq!(build(44, 1, 6, 0, u64::MAX, &[b'x'; 25]), (21, 16));
    for i in 0..25 {
        let mut free = [b'0'; 25];
        free[i] = b'/';
        assert_eq!(build(44, 1, 6, 0, 0, &free), (2, 20 + i));
        if i < 21 {
            assert_eq!(build(44, 6, 6, 0, 0, &free[..21]), (2, 24 + i));
        }
    }
    assert_eq!(build(44, 6, 9, e11 - 1, 99_999_999, &[b'9'; 21]), (0, 0));
}

/// Digits, their remainder and its check, for every remainder. The last digit has weight 2, the 3 of 30 weight 3.
#[test]
fn no_check_needs_two_places() {
    let ten: [(&[u8], u64, u64); 10] = [
        (b"0", 0, 0),
        (b"5", 1, 9),
        (b"1", 2, 8),
        (b"6", 3, 7),
        (b"2", 4, 6),
        (b"7", 5, 5),
        (b"3", 6, 4),
        (b"8", 7, 3),
        (b"4", 8, 2),
        (b"9", 9, 1),
    ];
    let eleven: [(&[u8], u64, u64); 11] = [
        (b"0", 0, 0),
        (b"6", 1, 0),
        (b"1", 2, 9),
        (b"7", 3, 8),
        (b"2", 4, 7),
        (b"8", 5, 6),
        (b"3", 6, 5),
        (b"9", 7, 4),
        (b"4", 8, 3),
        (b"30", 9, 2),
        (b"5", 10, 1),
    ];
    for (modulus, rows) in [(Modulus::Ten, &ten[..]), (Modulus::Eleven, &eleven[..])] {
        for &(digits, remainder, check) in rows {
            assert_eq!(modulus.remainder(digits), Ok(remainder));
            assert_eq!(modulus.check_digit(digits), Ok(check));
        }
        let remainders: BTreeSet<u64> = rows.iter().map(|row| row.1).collect();
        assert_eq!(remainders, (0..modulus.number()).collect());
    }
}

/// Valid fields build a barcode that is accepted. Its check is one digit, and each of the ten occurs in each kind.
#[test]
fn valid_fields_are_built() {
    let mut random = Random::new(20);
    let mut checks = BTreeSet::new();
    for _ in 0..50_000 {
        let code = days::barcode(&mut random).expect("valid fields");
        let decoded = barcode::decode(&code, &[]).expect("accepted");
        assert_eq!(naive::barcode(&code, &[]), Ok(None));
        checks.insert((decoded.kind, code[3]));
    }
    let expected = (6..=9).flat_map(|kind| (b'0'..=b'9').map(move |check| (kind, check)));
    assert_eq!(checks, expected.collect());
}

#[test]
fn conversions_check_lengths_first() {
    let bad = [b'x'; 48];
    let mut long = [7; 60];
    assert_answer(line::barcode_from_line(&bad, &[], &mut long[..43]), 1, 0);
    assert_answer(
        line::barcode_from_line(&bad[..47], &[], &mut long[..44]),
        1,
        0,
    );
    assert_answer(line::barcode_from_line(&bad, &[], &mut long[..44]), 2, 1);
    assert_answer(
        line::line_from_barcode(&bad[..44], &[], &mut long[..47]),
        1,
        0,
    );
    assert_answer(
        line::line_from_barcode(&bad[..43], &[], &mut long[..48]),
        1,
        0,
    );
    assert_answer(
        line::line_from_barcode(&bad[..44], &[], &mut long[..48]),
        2,
        1,
    );
    let mut code = [7; 44];
    for place in [12, 24, 36, 48] {
        let wrong = with_byte(*P4, place, b'0' + (P4[place - 1] - b'0' + 1) % 10);
        assert_answer(line::barcode_from_line(&wrong, &[], &mut code), 6, place);
    }
    let mut typed = *P4;
    typed[..12].copy_from_slice(b"817800000009");
    assert_answer(line::barcode_from_line(&typed, &[], &mut code), 7, 4);
    let mut line = [7; 48];
    assert_answer(
        line::line_from_barcode(&with_byte(p4_code(), 4, b'8'), &[], &mut line),
        7,
        4,
    );
    assert_eq!((code, line, long), ([7; 44], [7; 48], [7; 60]));
}

#[test]
fn a_line_with_blanks_is_too_long() {
    // P4 as printed: 51 bytes.
    let printed = b"817700000000 010936599702 411310797039 001433708318";
    assert_answer(line::decode(printed, &[]), 1, 0);
}
