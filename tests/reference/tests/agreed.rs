//! Agreed issuers: what their list means for barcodes and typed lines. Each choice has an input that tells it from
//! another reading.

mod common;

use common::{assert_answer, barcode_of_line, code_due, key_of, rising, with_byte, WRONG};
use reference::{answer, barcode, line, Barcode, Date};

/// A line of issuer 1-3659 whose free field begins with 20190901.
const LINE: &[u8; 48] = b"817000000007010936592012909010000000000000000000";

#[test]
fn the_sample_line() {
    let agreed = [100_003_659];
    let shown = line::decode(LINE, &agreed).expect("accepted");
    assert_eq!(shown.due, Date::new(2019, 9, 1));
    let hidden = line::decode(LINE, &[]).expect("accepted");
    assert_eq!(hidden.due, None);
    assert_eq!(Barcode { due: None, ..shown }, hidden);
    // Places 25 and 26, 9 and 0, exchanged: 20109901.
    let mut swapped = *LINE;
    swapped.swap(24, 25);
    assert_answer(line::decode(&swapped, &agreed), 11, 21);
    assert_eq!(line::decode(&swapped, &[]).map(|shown| shown.due), Ok(None));
    let mut code = [7; 44];
    let outcome = line::barcode_from_line(&swapped, &agreed, &mut code);
    assert_answer(outcome, 11, 21);
    assert_eq!(code, [7; 44]);
}

/// An answer: its number, its place in a barcode and its place in a line.
type Answers = (u64, usize, usize);

const ACCEPTED: Answers = (0, 0, 0);

/// Every way to read or make a barcode, in kind 6 and without value, whose free field begins with these digits. A
/// refused call leaves its buffer as it is.
#[track_caller]
fn assert_each(segment: u64, number: u64, first: &[u8; 8], agreed: &[u64], answers: Answers) {
    let code = code_due(segment, number, first);
    let mut typed = [7; 48];
    line::line_from_barcode(&code, &[], &mut typed).expect("accepted");
    let free = barcode::free_field(&code, &[]);
    let (mut built, mut read, mut written) = ([7; 44], [7; 44], [7; 48]);
    let decoded = barcode::decode(&code, agreed).map(|_| ());
    let build = barcode::build(segment, 6, 0, number, free, agreed, &mut built);
    let write = line::line_from_barcode(&code, agreed, &mut written);
    for outcome in [decoded, build, write] {
        assert_answer(outcome, answers.0, answers.1);
    }
    let decoded = line::decode(&typed, agreed).map(|_| ());
    let read_line = line::barcode_from_line(&typed, agreed, &mut read);
    for outcome in [decoded, read_line] {
        assert_answer(outcome, answers.0, answers.2);
    }
    let shown = barcode::free_field(&code, agreed);
    if answers == ACCEPTED {
        assert_eq!((built, read, written, shown), (code, code, typed, free));
    } else {
        assert_eq!((built, read, written), ([7; 44], [7; 44], [7; 48]));
        assert!(shown.is_empty());
    }
}

#[test]
fn eight_digits_that_must_be_a_date() {
    for first in [
        b"00000000",
        b"18991231",
        b"22000101",
        b"20230229",
        b"21000229",
        b"20240431",
        b"20241301",
        b"20240100",
        b"99999999",
        b"01012024",
    ] {
        for segment in [1, 2, 3, 4, 5, 7, 9] {
            let agreed = [key_of(6, 3_659), key_of(segment, 3_659)];
            assert_each(segment, 3_659, first, &agreed, (11, 20, 21));
        }
        let agreed = [key_of(1, 3_659), key_of(6, 33_041_260)];
        assert_each(6, 33_041_260, first, &agreed, (11, 24, 26));
    }
    for first in [b"19000101", b"21991231", b"20000229", b"20240229"] {
        assert_each(1, 3_659, first, &[key_of(1, 3_659)], ACCEPTED);
        assert_each(6, 3_659, first, &[key_of(6, 3_659)], ACCEPTED);
    }
}

/// The list names the issuer with its segment, and every entry counts.
#[test]
fn only_agreed_issuers_are_asked() {
    let others = [key_of(2, 3_659), key_of(6, 3_659), key_of(1, 3_658)];
    for agreed in [&[][..], &others, &rising(64)] {
        for first in [b"00000000", b"20240131"] {
            assert_each(1, 3_659, first, agreed, ACCEPTED);
            let code = code_due(1, 3_659, first);
            assert_eq!(barcode::decode(&code, agreed).unwrap().due, None);
        }
    }
    for place in 0..64 {
        let mut agreed = rising(64);
        agreed[place] = key_of(1, 3_659);
        assert_each(1, 3_659, b"00000000", &agreed, (11, 20, 21));
        assert_each(1, 3_659, b"20240131", &agreed, ACCEPTED);
        let shown = barcode::decode(&code_due(1, 3_659, b"20240131"), &agreed);
        assert_eq!(shown.unwrap().due, Date::new(2024, 1, 31));
    }
}

/// 11 is the last question: each fault before it is the one answered.
#[test]
fn the_due_date_is_asked_last() {
    let agreed = [100_003_659];
    let mut code = code_due(1, 3_659, b"20240230");
    assert_answer(barcode::decode(&code, &agreed), 11, 20);
    for (place, byte, number, shown) in [
        (4, code[3] ^ 1, 7, 4),
        (3, b'5', 5, 3),
        (2, b'8', 4, 2),
        (1, b'7', 3, 1),
        (44, b'x', 2, 44),
        (20, b'x', 2, 20),
    ] {
        code = with_byte(code, place, byte);
        assert_answer(barcode::decode(&code, &agreed), number, shown);
        let outcome = line::line_from_barcode(&code, &agreed, &mut [0; 48]);
        assert_answer(outcome, number, shown);
    }
    let mut typed = *LINE;
    typed.swap(24, 25);
    for (place, byte, number, shown) in [
        (48, b'1', 6, 48),
        (24, b'1', 6, 24),
        (3, b'5', 5, 3),
        (48, b'x', 2, 48),
    ] {
        typed = with_byte(typed, place, byte);
        assert_answer(line::decode(&typed, &agreed), number, shown);
    }
    let free = |last| with_byte(*b"2024023000000000000000000", 25, last);
    let build = |value, last, out: &mut [u8]| {
        let outcome = barcode::build(1, 6, value, 3_659, &free(last), &agreed, out);
        answer(&outcome)
    };
    assert_eq!(build(0, b'0', &mut [0; 44]), (11, 20));
    assert_eq!(build(0, b'x', &mut [0; 44]), (2, 44));
    assert_eq!(build(100_000_000_000, b'0', &mut [0; 44]), (21, 5));
    assert_eq!(build(0, b'0', &mut [0; 43]), (1, 0));
}

/// 25 comes before 1 and before all that the bytes say, and leaves the buffers as they are.
#[test]
fn a_wrong_list_comes_first() {
    let good = barcode_of_line(LINE);
    for agreed in WRONG {
        for code in [&good[..], &good[..43], b"", &[b'x'; 44], &[b'7'; 44]] {
            assert_answer(barcode::decode(code, agreed), 25, 0);
            assert!(barcode::free_field(code, agreed).is_empty());
            for length in [48, 47] {
                let mut out = [7; 48];
                let outcome = line::line_from_barcode(code, agreed, &mut out[..length]);
                assert_answer(outcome, 25, 0);
                assert_eq!(out, [7; 48]);
            }
        }
        for typed in [&LINE[..], &LINE[..47], b"", &[b'x'; 48]] {
            assert_answer(line::decode(typed, agreed), 25, 0);
            let mut out = [7; 44];
            let outcome = line::barcode_from_line(typed, agreed, &mut out);
            assert_answer(outcome, 25, 0);
            let outcome = line::barcode_from_line(typed, agreed, &mut out[..9]);
            assert_answer(outcome, 25, 0);
            assert_eq!(out, [7; 44]);
        }
        for (segment, free) in [(1, &[b'0'; 25][..]), (8, b""), (6, b"x")] {
            for length in [44, 43] {
                let mut out = [7; 44];
                let outcome = barcode::build(segment, 6, 0, 0, free, agreed, &mut out[..length]);
                assert_answer(outcome, 25, 0);
                assert_eq!(out, [7; 44]);
            }
        }
    }
}
