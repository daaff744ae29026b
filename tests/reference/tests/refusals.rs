//! Each refusal with its place (docs/SPEC.md, "Refusals"), and that a refusal changes nothing.

mod common;

use std::collections::BTreeSet;

use common::{a, assert_answer, decode, followed, g, p4_code, with_byte, with_bytes, z, P4};
use reference::{answer, barcode, line, records, Board, Date, Modulus, Reason, Refusal, Session};

/// A session with an open file that has these figures.
fn session(taken: u64, total: u64, change: impl Fn(&mut Board)) -> Session {
    let mut session = Session::new();
    session.take(&a(), &[]).unwrap();
    session.taken = taken;
    session.total = total;
    change(&mut session.working);
    session
}

#[test]
fn each_number_with_its_place() {
    let code = p4_code();
    let good = g(&code, 1);
    let mut seen = BTreeSet::new();
    let mut assert_seen = |outcome: Result<(), Refusal>, number: u64, place: usize| {
        assert_eq!(answer(&outcome), (number, place));
        seen.extend(outcome.err().map(|refusal| refusal.reason));
    };
    let check_barcode = |bytes: &[u8]| barcode::decode(bytes, &[]).map(|_| ());
    let check_line = |bytes: &[u8]| line::decode(bytes, &[]).map(|_| ());
    let check_record = |bytes: &[u8]| decode(bytes).map(|_| ());
    let take = |mut session: Session, record: &[u8]| {
        let before = session.clone();
        let outcome = session.take(record, &[]);
        assert_eq!(session, before, "a refusal changes nothing");
        outcome
    };
    let none = |_: &mut Board| {};

    for length in [0, 1, 43, 45, 48, 150] {
        assert_seen(check_barcode(&vec![b'8'; length]), 1, 0);
    }
    for length in [0, 1, 44, 47, 49, 150] {
        assert_seen(check_line(&vec![b'8'; length]), 1, 0);
    }
    for length in [0, 1, 149, 151, 152, 300] {
        assert_seen(check_record(&vec![b'A'; length]), 1, 0);
        assert_seen(take(Session::new(), &vec![b'A'; length]), 1, 0);
    }
    for place in 1..=44 {
        assert_seen(check_barcode(&with_byte(code, place, b':')), 2, place);
    }
    for place in 1..=48 {
        assert_seen(check_line(&with_byte(*P4, place, b'/')), 2, place);
    }
    assert_seen(check_barcode(&with_byte(code, 1, b'9')), 3, 1);
    assert_seen(check_line(&with_byte(*P4, 1, b'9')), 3, 1);
    for segment in [b'0', b'8'] {
        assert_seen(check_barcode(&with_byte(code, 2, segment)), 4, 2);
        assert_seen(check_line(&with_byte(*P4, 2, segment)), 4, 2);
    }
    for kind in b'0'..=b'5' {
        assert_seen(check_barcode(&with_byte(code, 3, kind)), 5, 3);
        assert_seen(check_line(&with_byte(*P4, 3, kind)), 5, 3);
    }
    for place in [12, 24, 36, 48] {
        let other = b'0' + (P4[place - 1] - b'0' + 1) % 10;
        assert_seen(check_line(&with_byte(*P4, place, other)), 6, place);
    }
    assert_seen(check_barcode(&with_byte(code, 4, b'8')), 7, 4);
    assert_seen(check_record(&with_byte(good, 41, b'8')), 7, 41);
    for byte in [0, 31, 127, 159] {
        for place in [3, 22, 23, 42, 46, 65] {
            assert_seen(check_record(&with_byte(a(), place, byte)), 8, place);
        }
        for place in [2, 21, 109, 116, 118, 140] {
            assert_seen(check_record(&with_byte(good, place, byte)), 8, place);
        }
    }
    for byte in [32, 126, 160, 255] {
        assert!(check_record(&with_byte(good, 2, byte)).is_ok());
    }
    assert_seen(check_record(&with_byte(good, 1, b'g')), 9, 1);
    assert_seen(take(Session::new(), &good), 9, 1);
    assert_seen(take(Session::new(), &z(2, 0)), 9, 1);
    assert_seen(take(session(0, 0, none), &a()), 9, 1);
    for (place, last) in [(2, 2), (80, 81), (82, 98), (99, 150)] {
        assert_seen(check_record(&with_byte(a(), place, b'!')), 10, place);
        assert_seen(check_record(&with_byte(a(), last, b'!')), 10, place);
    }
    assert_seen(check_record(&with_byte(good, 150, b'!')), 10, 142);
    assert_seen(check_record(&with_byte(z(2, 0), 150, 0)), 10, 25);
    assert_seen(check_record(&with_bytes(a(), 66, b"21000229")), 11, 66);
    assert_seen(check_record(&with_bytes(good, 22, b"20240431")), 11, 22);
    assert_seen(check_record(&with_bytes(good, 30, b"20241301")), 11, 30);
    assert_seen(check_record(&with_byte(good, 117, b'j')), 12, 117);
    assert_seen(check_record(&with_byte(good, 141, b'0')), 12, 141);
    let under_04 = |bytes: &[u8]| records::decode(bytes, 4, &[]).map(|_| ());
    assert_seen(under_04(&with_byte(good, 117, b'g')), 12, 117);
    assert_seen(under_04(&with_byte(good, 141, b'4')), 12, 141);
    assert_seen(records::decode(&good, 77, &[]).map(|_| ()), 10, 80);
    assert_seen(take(session(0, 0, none), &z(3, 1)), 13, 2);
    assert_seen(take(session(0, 0, none), &z(2, 1)), 14, 8);
    assert_seen(take(session(999_997, u64::MAX, none), &good), 15, 1);
    assert_seen(
        take(session(0, 99_999_999_999_999_999, none), &good),
        16,
        82,
    );
    let full = |board: &mut Board| {
        board.used = 64;
        board.centavos = u64::MAX;
    };
    assert_seen(take(session(0, 0, full), &good), 17, 53);
    let heavy = |board: &mut Board| board.centavos = 1_000_000_000_000_000_000;
    assert_seen(take(session(0, 0, heavy), &good), 18, 82);
    let dear = |board: &mut Board| board.tariff = 1_000_000_000_000_000_000;
    assert_seen(take(session(0, 0, dear), &good), 18, 94);
    assert_seen(session(0, 0, none).finish(), 19, 0);
    let in_lines = Session {
        lined: true,
        ..session(0, 0, none)
    };
    for end in [&b""[..], b"\r", b"\n", b"\r\r", b"\n\n", b"\n\r", b"\0\0"] {
        assert_seen(take(in_lines.clone(), &followed(&good, end)), 22, 151);
        assert_seen(take(in_lines.clone(), &followed(&z(2, 0), end)), 22, 151);
    }
    for length in [0, 1, 149, 153, 300] {
        assert_seen(take(in_lines.clone(), &vec![b'G'; length]), 1, 0);
    }
    for length in [0, 1, 149, 151, 152, 300] {
        assert_seen(take(session(0, 0, none), &vec![b'G'; length]), 1, 0);
    }
    let mut out = [0; 44];
    assert_seen(
        barcode::build(1, 6, 100_000_000_000, 0, &[b'0'; 25], &[], &mut out),
        21,
        5,
    );
    assert_seen(
        barcode::build(1, 6, 0, 10_000, &[b'0'; 25], &[], &mut out),
        21,
        16,
    );
    assert_eq!(out, [0; 44]);
    assert_seen(barcode::decode(&code, &[0]).map(|_| ()), 25, 0);
    let mut after = Session::new();
    after.run(&[a(), z(2, 0)].concat(), false, &[]);
    assert_seen(take(after.clone(), &a()), 26, 74);
    after.memory.used = 16;
    assert_seen(take(after, &with_bytes(a(), 43, b"237")), 27, 3);
    assert_eq!(seen, Reason::ALL.iter().copied().collect());
}

#[test]
fn a_record_is_read_from_left_to_right() {
    // From right to left: each new fault is the first one of the record.
    let mut record = g(&p4_code(), 1);
    for (place, byte, number, shown) in [
        (150, b'x', 10, 142),
        (141, b'x', 12, 141),
        (140, 7, 8, 140),
        (118, 7, 8, 118),
        (117, b'x', 12, 117),
        (116, 7, 8, 116),
        (108, b'x', 2, 108),
        (101, b'x', 2, 101),
        (100, b'x', 2, 100),
        (93, b' ', 2, 93),
        (82, b' ', 2, 82),
        (41, b'0', 7, 41),
        (40, b'0', 5, 40),
        (39, b'0', 4, 39),
        (38, b'0', 3, 38),
        (81, b'x', 2, 81),
        (38, b'x', 2, 38),
        (37, b'9', 11, 30),
        (37, b'x', 2, 37),
        (29, b'9', 11, 22),
        (22, b'x', 2, 22),
        (21, 7, 8, 21),
        (2, 7, 8, 2),
        (1, b'X', 9, 1),
    ] {
        record[place - 1] = byte;
        assert_answer(decode(&record), number, shown);
    }
    let mut record = a();
    for (place, byte, number, shown) in [
        (150, b'x', 10, 99),
        (98, b'x', 10, 82),
        (81, b'5', 10, 80),
        (79, b'x', 2, 79),
        (74, b'x', 2, 74),
        (73, b'9', 11, 66),
        (66, b'x', 2, 66),
        (65, 7, 8, 65),
        (45, b' ', 2, 45),
        (42, 7, 8, 42),
        (22, 7, 8, 22),
        (3, 7, 8, 3),
        (2, b'1', 10, 2),
        (1, b'a', 9, 1),
    ] {
        record[place - 1] = byte;
        assert_answer(decode(&record), number, shown);
    }
    let mut record = z(2, 0);
    for (place, byte, number, shown) in [
        (150, b'0', 10, 25),
        (24, b'x', 2, 24),
        (8, b'x', 2, 8),
        (7, b'x', 2, 7),
        (2, b' ', 2, 2),
        (1, 0, 9, 1),
    ] {
        record[place - 1] = byte;
        assert_answer(decode(&record), number, shown);
    }
}

#[test]
fn a_line_is_checked_in_its_order() {
    let mut typed = *P4;
    for (place, byte, number, shown) in [
        (48, b'9', 6, 48),
        (36, b'0', 6, 36),
        (24, b'0', 6, 24),
        (4, b'0', 6, 12),
        (3, b'0', 5, 3),
        (2, b'0', 4, 2),
        (1, b'0', 3, 1),
        (47, b'x', 2, 47),
        (1, b'x', 2, 1),
    ] {
        typed[place - 1] = byte;
        assert_answer(line::decode(&typed, &[]), number, shown);
        let mut code = [7; 44];
        assert_answer(
            line::barcode_from_line(&typed, &[], &mut code),
            number,
            shown,
        );
        assert_eq!(code, [7; 44]);
    }
}

#[test]
fn checks_and_dates_answer_any_bytes() {
    assert_eq!(Modulus::Ten.check_digit(b""), Ok(0));
    assert_eq!(Modulus::Eleven.remainder(b""), Ok(0));
    assert_answer(Modulus::Eleven.remainder(b"12x"), 2, 3);
    assert_answer(Modulus::Ten.check_digit(&[255]), 2, 1);
    // Under modulo 10 each 9 adds 9; under modulo 11 each eight of them add 9 * 44, and the three left add 81.
    assert_eq!(Modulus::Ten.remainder(&[b'9'; 100_003]), Ok(7));
    assert_eq!(Modulus::Eleven.remainder(&[b'9'; 100_003]), Ok(4));
    assert_answer(Date::read(b""), 1, 0);
    assert_answer(Date::read(b"2024010"), 1, 0);
    assert_answer(Date::read(b"2024010x"), 2, 8);
    for text in [
        b"00000000",
        b"18991231",
        b"22000101",
        b"20240001",
        b"20241301",
        b"20240100",
        b"20240132",
        b"20230229",
        b"20240431",
        b"99999999",
    ] {
        assert_answer(Date::read(text), 11, 1);
    }
}

#[test]
fn every_date_of_the_calendar() {
    let mut real = 0;
    for year in 0..=9999u32 {
        for month in 0..=13 {
            for day in 0..=32 {
                let text = format!("{year:04}{month:02}{day:02}");
                let read = Date::read(text.as_bytes());
                let expected = common::naive::is_date(text.as_bytes());
                assert_eq!(read.is_ok(), expected, "{text}");
                if let Ok(date) = read {
                    assert_eq!(date.digits(), text.as_bytes());
                    real += 1;
                }
            }
        }
    }
    // 300 years, with 73 leap years: every fourth, without 1900 and 2100.
    assert_eq!(real, 300 * 365 + 73);
}
