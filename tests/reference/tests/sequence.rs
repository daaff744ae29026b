//! Sequence numbers: docs/SPEC.md, "Sequence numbers". Each choice has an input that tells it from another reading.

mod common;

use common::steps::{assert_refused, assert_taken, take_file};
use common::{a, a06, a_by, a_nth, a_of, assert_answer, followed, g, lined, numbered, p4_code};
use common::{with_byte, with_bytes, z, WRONG};
use reference::session::PAIRS;
use reference::{digits, Memory, Pair, Session};

const LEFT: &[u8; 20] = b"PS0001              ";
const RIGHT: &[u8; 20] = b"              PS0001";

/// A session that has accepted empty files with these headers.
#[track_caller]
fn after(headers: &[[u8; 150]]) -> Session {
    let mut session = Session::new();
    for header in headers {
        take_file(&mut session, header);
    }
    session
}

fn pair(bank: &[u8; 3], agreement: &[u8; 20], sequence: u64) -> Pair {
    Pair {
        bank: *bank,
        agreement: *agreement,
        sequence,
    }
}

#[test]
fn a_new_memory_is_empty() {
    let memory = Session::new().memory;
    assert_eq!(memory, Memory::default());
    assert_eq!((memory.pairs, memory.used), ([Pair::new(); PAIRS], 0));
    let zeros = pair(&[0; 3], &[0; 20], 0);
    assert_eq!((Session::new().opening, Pair::default()), (zeros, zeros));
    assert_eq!(PAIRS, 16);
}

/// A pair is 23 bytes: the same text at another place is another agreement, and one agreement has files of many banks.
#[test]
fn a_pair_is_its_bytes() {
    let mut session = after(&[a_by(b"341", LEFT, 5)]);
    for (bank, agreement) in [
        (b"341", RIGHT),
        (b"237", LEFT),
        (b"237", RIGHT),
        (b"341", b"ps0001              "),
        (b"341", b"PS0001             \xA0"),
        (b"341", &[b' '; 20]),
        (b"000", &[b' '; 20]),
    ] {
        // The number of another pair neither has to be followed nor is in the way.
        take_file(&mut session, &a_by(bank, agreement, 5));
        assert_refused(&mut session, &a_by(bank, agreement, 5), 26, 74);
    }
    assert_eq!(session.memory.used, 8);
    take_file(&mut session, &a_by(b"341", LEFT, 6));
    assert_eq!(session.memory.used, 8);
}

/// All that is not bank or agreement makes no other pair.
#[test]
fn other_fields_make_no_other_pair() {
    let first = a_of(7);
    for other in [
        numbered(a06(), 7),
        with_byte(first, 83, 211),
        with_bytes(first, 23, b"ANOTHER"),
        with_bytes(first, 46, b"ANOTHER"),
        with_bytes(first, 66, b"20250101"),
    ] {
        let mut session = after(&[first]);
        assert_refused(&mut session, &other, 26, 74);
        assert_refused(&mut session, &lined(&other), 26, 74);
        take_file(&mut session, &numbered(other, 8));
        assert_answer(session.take(&lined(&numbered(other, 9)), &[]), 0, 0);
        assert_answer(session.take(&lined(&z(2, 0)), &[]), 0, 0);
        assert_eq!(session.memory, after(&[first, a_of(8), a_of(9)]).memory);
    }
}

/// From any last number, one number alone is taken.
#[test]
fn one_number_follows() {
    for (last, next) in [(0, 1), (41, 42), (999_998, 999_999), (999_999, 1)] {
        let mut session = after(&[a_of(last)]);
        let before = session.clone();
        let mut header = a();
        for number in (0..1_000_000).filter(|number| *number != next) {
            digits::write(number, &mut header[73..79]);
            assert_answer(session.take(&header, &[]), 26, 74);
        }
        assert_eq!(session, before);
        take_file(&mut session, &a_of(next));
        assert_refused(&mut session, &a_of(next), 26, 74);
    }
}

#[test]
fn over_the_last_number() {
    let mut session = after(&[a_of(999_998), a_of(999_999)]);
    assert_refused(&mut session, &a_of(0), 26, 74);
    assert_refused(&mut session, &a_of(999_999), 26, 74);
    for number in [1, 2, 3] {
        take_file(&mut session, &a_of(number));
    }
    let agreement = b"AGREEMENT           ";
    assert_eq!(session.memory.in_use(), [pair(b"341", agreement, 3)]);
    // 0 may come first, and 1 follows it.
    let mut session = after(&[a_of(0)]);
    assert_refused(&mut session, &a_of(0), 26, 74);
    take_file(&mut session, &a_of(1));
    assert_refused(&mut session, &a_of(0), 26, 74);
}

/// A pair's first number may be any.
#[test]
fn any_first_number() {
    let mut session = Session::new();
    let mut header = a();
    for number in 0..1_000_000 {
        digits::write(number, &mut header[73..79]);
        assert_answer(session.take(&header, &[]), 0, 0);
        session.abandon();
    }
    assert_eq!(session, Session::new());
}

/// Faults of a header: the place, the byte that is put there, and the answer.
const FAULTS: [(usize, u8, u64, usize); 17] = [
    (1, b'B', 9, 1),
    (2, b'1', 10, 2),
    (3, 7, 8, 3),
    (22, 7, 8, 22),
    (23, 7, 8, 23),
    (43, b'x', 2, 43),
    (45, b' ', 2, 45),
    (46, 7, 8, 46),
    (66, b'x', 2, 66),
    (73, b'9', 11, 66),
    (74, b'x', 2, 74),
    (79, b'x', 2, 79),
    (81, b'5', 10, 80),
    (83, b'o', 10, 82),
    (98, b'x', 10, 82),
    (99, b'x', 10, 99),
    (150, b'x', 10, 99),
];

/// A repeated header, and one of a 17th pair, with a fault in a field, a wrong length or a wrong list.
#[test]
fn behind_the_headers_own_refusals() {
    let sixteen: Vec<[u8; 150]> = (0..16).map(|i| a_nth(i, 1)).collect();
    for (mut session, header, number, place) in [
        (after(&[a()]), a(), 26, 74),
        (after(&sixteen), a_nth(16, 1), 27, 3),
    ] {
        assert_refused(&mut session, &header, number, place);
        assert_refused(&mut session, &lined(&header), number, place);
        for (fault, byte, number, shown) in FAULTS {
            let bad = with_byte(header, fault, byte);
            assert_refused(&mut session, &bad, number, shown);
            assert_refused(&mut session, &lined(&bad), number, shown);
        }
        assert_refused(&mut session, &header[..149], 1, 0);
        let before = session.clone();
        for end in [&b"\r"[..], b"\n\r", b"\r\n\r"] {
            assert_answer(session.take(&followed(&header, end), &[]), 1, 0);
        }
        for agreed in WRONG {
            assert_answer(session.take(&header, agreed), 25, 0);
            assert_answer(session.take(&header[..149], agreed), 25, 0);
            assert_answer(session.run(&header, false, agreed).answer, 25, 0);
        }
        assert_eq!(session, before);
    }
}

/// While a file is open, every header is 9, whatever its number, its pair and its fields are.
#[test]
fn behind_9() {
    let mut headers: Vec<[u8; 150]> = (0..16).map(|i| a_nth(i, 1)).collect();
    headers.push(a_nth(0, 2));
    let mut session = after(&headers);
    assert_answer(session.take(&a_nth(1, 2), &[]), 0, 0);
    for header in [
        a_nth(1, 2),
        a_nth(1, 3),
        a_nth(0, 2),
        a_nth(0, 3),
        a_nth(16, 1),
        with_byte(a_nth(0, 2), 83, b'o'),
        with_byte(a_nth(1, 2), 83, b'o'),
    ] {
        assert_refused(&mut session, &header, 9, 1);
    }
}

#[test]
fn seventeen_pairs() {
    let mut session = Session::new();
    for i in 0..16 {
        take_file(&mut session, &a_nth(i, 100 + i));
    }
    let banks = session.memory.in_use().iter().map(|pair| pair.bank);
    let expected = (0..16).map(|i| format!("{i:03}").into_bytes());
    assert!(banks.map(Vec::from).eq(expected));
    for number in [0, 1, 100, 117, 999_999] {
        assert_refused(&mut session, &a_nth(16, number), 27, 3);
    }
    // A known pair is still accepted, the last one and the first one too.
    for i in [15, 7, 0] {
        assert_refused(&mut session, &a_nth(i, 100 + i), 26, 74);
        take_file(&mut session, &a_nth(i, 101 + i));
    }
    assert_refused(&mut session, &a_nth(16, 1), 27, 3);
    let numbers: Vec<u64> = session.memory.pairs.map(|pair| pair.sequence).to_vec();
    let expected = (0..16).map(|i| 100 + i + u64::from([15, 7, 0].contains(&i)));
    assert_eq!(numbers, expected.collect::<Vec<u64>>());
    assert_eq!(session.memory.used, 16);
}

/// An abandoned 16th pair takes no place, so another pair may; then the abandoned one is the 17th.
#[test]
fn an_abandoned_16th_pair() {
    let fifteen: Vec<[u8; 150]> = (0..15).map(|i| a_nth(i, 1)).collect();
    let mut session = after(&fifteen);
    let before = session.clone();
    assert_taken(&mut session, &a_nth(15, 7));
    session.abandon();
    assert_eq!(session, before);
    take_file(&mut session, &a_nth(16, 9));
    let sixteenth = pair(b"016", b"AGREEMENT           ", 9);
    assert_eq!(session.memory.used, 16);
    assert_eq!(session.memory.pairs[..15], before.memory.pairs[..15]);
    assert_eq!(session.memory.pairs[15], sixteenth);
    for number in [1, 7, 8, 10] {
        assert_refused(&mut session, &a_nth(15, number), 27, 3);
    }
    take_file(&mut session, &a_nth(16, 10));
}

/// A number is remembered when Z is accepted, not before, and a refused Z leaves it.
#[test]
fn remembered_with_the_trailer() {
    let mut session = after(&[a_of(4)]);
    let remembered = session.memory;
    let agreement = b"AGREEMENT           ";
    let opening = pair(b"341", agreement, 5);
    for record in [a_of(5), g(&p4_code(), 7)] {
        assert_answer(session.take(&record, &[]), 0, 0);
        assert_eq!((session.opening, session.memory), (opening, remembered));
    }
    for (refused, number, place) in [
        (z(3, 6), 14, 8),
        (z(2, 7), 13, 2),
        (a_of(5), 9, 1),
        (a_of(6), 9, 1),
        (with_byte(z(3, 7), 150, b'x'), 10, 25),
        (with_bytes(g(&p4_code(), 7), 22, b"20230229"), 11, 22),
    ] {
        assert_refused(&mut session, &refused, number, place);
        assert_eq!((session.opening, session.memory), (opening, remembered));
    }
    assert_answer(session.take(&z(3, 7), &[]), 0, 0);
    assert_eq!(session.opening, Pair::new());
    assert_eq!(session.memory.in_use(), [opening]);
    assert_refused(&mut session, &a_of(5), 26, 74);
    take_file(&mut session, &a_of(6));
}

/// An abandoned file leaves the memory as it was, so its number may come again; a first file leaves no pair.
#[test]
fn abandoned_numbers_come_again() {
    let mut session = after(&[a_of(4)]);
    let before = session.clone();
    for _ in 0..3 {
        assert_answer(session.take(&a_of(5), &[]), 0, 0);
        assert_answer(session.take(&g(&p4_code(), 7), &[]), 0, 0);
        session.abandon();
        assert_eq!(session, before);
        assert_refused(&mut session, &a_of(6), 26, 74);
    }
    take_file(&mut session, &a_of(5));
    let mut session = Session::new();
    for (i, number) in [(3, 7), (3, 1), (2, 9)] {
        assert_answer(session.take(&a_nth(i, number), &[]), 0, 0);
        session.abandon();
        assert_eq!(session, Session::new());
    }
    // Pairs stand in the order in which they were accepted, not opened.
    take_file(&mut session, &a_nth(2, 9));
    take_file(&mut session, &a_nth(3, 7));
    assert_eq!(session.memory.in_use()[0].bank, *b"002");
}
