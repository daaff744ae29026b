//! Choices of docs/SPEC.md, "Records" and "Field bytes", each with an input that tells it from another reading.

mod common;

use common::{a, assert_answer, code_for, decode, g, p4_code, with_byte, with_bytes, z};
use reference::records::{self, TABLE};
use reference::{answer, barcode, Record, Session};

const FILE_LIMIT: u64 = 99_999_999_999_999_999;

#[test]
fn the_first_field_is_never_10() {
    for byte in 0..=255 {
        let outcome = decode(&with_byte(a(), 1, byte));
        match byte {
            b'A' => assert_answer(outcome, 0, 0),
            b'G' | b'Z' => assert_ne!(answer(&outcome), (10, 1)),
            _ => assert_answer(outcome, 9, 1),
        }
    }
    assert_eq!(
        (TABLE[0].first, TABLE[11].first, TABLE[24].first),
        (1, 1, 1)
    );
}

#[test]
fn service_field_is_only_10() {
    assert_answer(decode(&with_byte(a(), 83, 211)), 0, 0);
    for byte in [b'o', 31, 32, 127, 0xC3, 243] {
        assert_answer(decode(&with_byte(a(), 83, byte)), 10, 82);
    }
    assert_answer(
        decode(&with_bytes(a(), 82, "CÓDIGO DE BARRAS".as_bytes())),
        10,
        82,
    );
    assert_answer(decode(&with_byte(a(), 98, b'.')), 10, 82);
    assert_answer(decode(&with_byte(a(), 98, 0)), 10, 82);
}

#[test]
fn capture_and_form_are_only_12() {
    let good = g(&p4_code(), 1);
    let versions: [(u64, &[u8], &[u8]); 2] = [
        (4, b"123456abcdef", b"123"),
        (6, b"123456789abcdefghi", b"123456"),
    ];
    for (version, captures, forms) in versions {
        for (place, known) in [(117, captures), (141, forms)] {
            for byte in 0..=255u8 {
                let outcome = records::decode(&with_byte(good, place, byte), version, &[]);
                if known.contains(&byte) {
                    assert_answer(outcome, 0, 0);
                } else {
                    assert_answer(outcome, 12, place);
                }
            }
        }
    }
}

#[test]
fn missing_dates() {
    let good = g(&p4_code(), 1);
    assert_answer(decode(&with_bytes(good, 22, b"        ")), 2, 22);
    assert_answer(decode(&with_bytes(good, 22, b"00000000")), 11, 22);
    assert_answer(decode(&with_bytes(good, 30, b"        ")), 2, 30);
    assert_answer(decode(&with_bytes(good, 30, b"00000000")), 11, 30);
    assert_answer(decode(&with_bytes(a(), 66, b"        ")), 2, 66);
    assert_answer(decode(&with_bytes(a(), 66, b"00000000")), 11, 66);
    assert_answer(decode(&with_bytes(good, 22, b"2024013 ")), 2, 29);
}

#[test]
fn barcode_in_g() {
    let good = g(&p4_code(), 1);
    assert_answer(
        decode(&with_byte(with_byte(good, 38, b'9'), 81, b'x')),
        2,
        81,
    );
    assert_answer(
        decode(&with_byte(with_byte(good, 38, b'9'), 39, b'8')),
        3,
        38,
    );
    assert_answer(
        decode(&with_byte(with_byte(good, 39, b'8'), 40, b'5')),
        4,
        39,
    );
    assert_answer(
        decode(&with_byte(with_byte(good, 40, b'5'), 41, b'0')),
        5,
        40,
    );
    assert_answer(decode(&with_byte(good, 41, b'0')), 7, 41);
}

#[test]
fn z_and_g_alone() {
    assert_answer(decode(&z(999_999, FILE_LIMIT)), 0, 0);
    assert_answer(decode(&z(0, 0)), 0, 0);
    assert_answer(decode(&g(&p4_code(), 999_999_999_999)), 0, 0);
}

#[test]
fn zeros_are_allowed() {
    let header = with_bytes(with_bytes(a(), 43, b"000"), 74, b"000000");
    let Ok(Record::A(decoded)) = decode(&header) else {
        panic!("accepted")
    };
    assert_eq!((decoded.bank, decoded.sequence), (0, 0));
    assert_eq!(decoded.version, 4);
    let mut session = Session::new();
    assert_answer(session.take(&header, &[]), 0, 0);
    assert_answer(session.take(&g(&p4_code(), 0), &[]), 0, 0);
    assert_answer(session.take(&z(3, 0), &[]), 0, 0);
    assert_eq!(session.board().in_use()[0].payments, 1);
    assert_eq!(session.board().payments, 1);
    let code = code_for(1, 0);
    assert_eq!(
        barcode::decode(&code, &[]).map(|decoded| decoded.value),
        Ok(0)
    );
}

#[test]
fn a_refused_record_has_no_field() {
    let samples = [a(), g(&p4_code(), 7), z(3, 7)];
    for record in samples {
        let mut covered = 0;
        for (i, row) in TABLE.iter().enumerate() {
            let field = records::field(&record, 4, i, &[]);
            if row.letter == record[0] {
                assert_eq!(field, &record[row.first - 1..row.last]);
                assert_eq!(field.as_ptr(), record[row.first - 1..].as_ptr());
                covered += field.len();
            } else {
                assert!(field.is_empty());
            }
            assert!(records::field(&with_byte(record, 1, b'B'), 4, i, &[]).is_empty());
            assert!(records::field(&with_byte(record, 150, b'B'), 4, i, &[]).is_empty());
            assert!(records::field(&record[..149], 4, i, &[]).is_empty());
        }
        assert_eq!(covered, 150);
        for past in [28, 29, usize::MAX] {
            assert!(records::field(&record, 4, past, &[]).is_empty());
        }
    }
}

#[test]
fn what_is_not_checked() {
    // Text aligned right, record numbers falling, segment 9 with any code.
    assert_answer(decode(&with_bytes(a(), 3, b"               RIGHT")), 0, 0);
    let mut session = Session::new();
    let code = code_for(9, 9_999);
    for record in [
        a(),
        with_bytes(g(&code, 1), 101, b"00000009"),
        with_bytes(g(&code, 1), 101, b"00000002"),
        z(4, 2),
    ] {
        assert_answer(session.take(&record, &[]), 0, 0);
    }
}

#[test]
fn field_bytes() {
    let mut out = [7; 200];
    // The length of the buffer hangs on the record's kind, and these have no field bytes: 9 for every length.
    for length in [0, 23, 78, 80, 121, 150, 200] {
        for record in [
            z(2, 0),
            with_byte(z(2, 0), 2, b'x'),
            with_byte(a(), 1, b'B'),
        ] {
            assert_answer(records::join(&record, 4, &[], &mut out[..length]), 9, 1);
            assert_answer(
                records::join(&record[..149], 4, &[], &mut out[..length]),
                1,
                0,
            );
        }
    }
    assert_answer(records::join(&a(), 4, &[], &mut out[..121]), 1, 0);
    assert_answer(records::join(&a()[..149], 4, &[], &mut out[..80]), 1, 0);
    let bad = with_byte(a(), 43, b'x');
    for length in [0, 77, 78, 79, 81] {
        assert_answer(records::join(&bad, 4, &[], &mut out[..length]), 1, 0);
    }
    assert_answer(records::join(&bad, 4, &[], &mut out[..80]), 2, 43);
    let payment = g(&p4_code(), 5);
    assert_answer(records::join(&payment, 4, &[], &mut out[..80]), 1, 0);
    assert_answer(
        records::join(&with_byte(payment, 41, b'0'), 4, &[], &mut out[..121]),
        7,
        41,
    );
    assert_eq!(out, [7; 200]);
    assert_answer(
        records::join(&with_byte(a(), 83, 211), 4, &[], &mut out[..80]),
        0,
        0,
    );
    assert_eq!((out[79], out[80]), (211, 7));
    assert_eq!(&out[..77], &a()[2..79]);
    assert_eq!(&out[77..79], b"04");
    assert_answer(records::join(&payment, 4, &[], &mut out[..121]), 0, 0);
    assert_eq!(&out[..80], &payment[1..81]);
    assert_eq!(&out[80..121], &payment[100..141]);
    assert_eq!(out[121], 7);
}
