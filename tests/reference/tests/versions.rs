//! The versions 04 and 06 of a single record: docs/SPEC.md, "Records" and "Field bytes", each choice with an input that
//! tells it from another reading.

mod common;

use common::{a, a06, assert_answer, g, p4_code, with_byte, with_bytes, z};
use reference::random::Random;
use reference::records::{self, TABLE};
use reference::{answer, days, digits, Record, Refusal, Session, Stage, Writer};

/// Numbers that are no version; some are 4 or 6 if they are cut to fewer bits, or read as other digits.
const NO_VERSIONS: [u64; 16] = [
    0,
    1,
    3,
    5,
    7,
    40,
    46,
    52,
    54,
    60,
    77,
    (1 << 8) + 4,
    (1 << 16) + 6,
    (1 << 32) + 4,
    (1 << 32) + 6,
    u64::MAX,
];

/// Decodes a record, no issuer being agreed.
fn decode(record: &[u8], version: u64) -> Result<Record, Refusal> {
    records::decode(record, version, &[])
}

/// Writes the field bytes of a record, no issuer being agreed.
fn join(record: &[u8], version: u64, out: &mut [u8]) -> Result<(), Refusal> {
    records::join(record, version, &[], out)
}

/// The answer for a G by each way in: alone, and by a session and a writer with this version. It must be one answer,
/// and a refusal changes nothing.
#[track_caller]
fn payment_answer(payment: &[u8; 150], version: u64) -> (u64, usize) {
    let alone = answer(&decode(payment, version));
    let mut fields = [7; 121];
    let joined = answer(&join(payment, version, &mut fields));
    let field = records::field(payment, version, records::G_CAPTURE, &[]);
    let mut session = Session {
        open: true,
        version,
        ..Session::new()
    };
    let before = session.clone();
    let taken = answer(&session.take(payment, &[]));
    let mut writer = Writer {
        stage: Stage::Open,
        version,
        ..Writer::new()
    };
    let mut out = [7; 150];
    let given = [&payment[1..81], &payment[100..141]].concat();
    let money = |first: usize, last: usize| digits::number(&payment[first - 1..last]).unwrap();
    let written = answer(&writer.payment(&given, money(82, 93), money(94, 100), &[], &mut out));
    assert_eq!([joined, taken, written], [alone; 3]);
    assert_eq!((session.version, writer.version), (version, version));
    if alone == (0, 0) {
        assert_eq!(
            (field, &fields[..], &out),
            (&payment[116..117], &given[..], payment)
        );
        assert_eq!((session.taken, writer.taken), (1, 1));
    } else {
        assert_eq!((field, fields, out), (&[][..], [7; 121], [7; 150]));
        assert_eq!((session, writer.taken), (before, 0));
    }
    alone
}

/// The answer for an A by each way in; the version that is told with a single record must not matter.
#[track_caller]
fn header_answer(header: &[u8; 150]) -> (u64, usize) {
    let alone = answer(&decode(header, 4));
    for version in [0, 6, 77, u64::MAX] {
        assert_eq!(decode(header, version), decode(header, 4));
        let mut fields = [7; 80];
        assert_eq!(answer(&join(header, version, &mut fields)), alone);
        assert_eq!(fields == [7; 80], alone != (0, 0));
        let field = records::field(header, version, records::A_VERSION, &[]);
        assert_eq!(field.is_empty(), alone != (0, 0));
    }
    let mut session = Session::new();
    assert_eq!(answer(&session.take(header, &[])), alone);
    assert_eq!(session == Session::new(), alone != (0, 0));
    alone
}

#[test]
fn further_captures_under_06() {
    let good = g(&p4_code(), 1);
    for byte in *b"789ghi" {
        let payment = with_byte(good, 117, byte);
        assert_eq!(payment_answer(&payment, 6), (0, 0));
        assert_eq!(payment_answer(&payment, 4), (12, 117));
        let Ok(Record::G(decoded)) = decode(&payment, 6) else {
            panic!("accepted")
        };
        assert_eq!((decoded.capture, decoded.form), (byte, b'2'));
    }
    for byte in *b"123456abcdef" {
        let payment = with_byte(good, 117, byte);
        assert_eq!(payment_answer(&payment, 6), (0, 0));
        assert_eq!(payment_answer(&payment, 4), (0, 0));
    }
    for byte in *b"0j:/`@AGI \x00\xff" {
        let payment = with_byte(good, 117, byte);
        assert_eq!(payment_answer(&payment, 6), (12, 117));
        assert_eq!(payment_answer(&payment, 4), (12, 117));
    }
}

#[test]
fn further_payment_forms_under_06() {
    let good = g(&p4_code(), 1);
    for byte in *b"456" {
        let payment = with_byte(good, 141, byte);
        assert_eq!(payment_answer(&payment, 6), (0, 0));
        assert_eq!(payment_answer(&payment, 4), (12, 141));
        let Ok(Record::G(decoded)) = decode(&payment, 6) else {
            panic!("accepted")
        };
        assert_eq!((decoded.capture, decoded.form), (b'a', byte));
    }
    for byte in *b"123" {
        let payment = with_byte(good, 141, byte);
        assert_eq!(payment_answer(&payment, 6), (0, 0));
        assert_eq!(payment_answer(&payment, 4), (0, 0));
    }
    for byte in *b"7089/:a \x00\xff" {
        let payment = with_byte(good, 141, byte);
        assert_eq!(payment_answer(&payment, 6), (12, 141));
        assert_eq!(payment_answer(&payment, 4), (12, 141));
    }
}

/// 10 at 80 comes after 1 and 9, and before every field.
#[test]
fn a_g_told_another_version() {
    let good = g(&p4_code(), 1);
    for version in NO_VERSIONS {
        assert_eq!(payment_answer(&good, version), (10, 80));
        for (place, byte) in [
            (2, 7),
            (22, b'x'),
            (29, b'9'),
            (38, b'9'),
            (41, b'0'),
            (81, b'x'),
            (101, b'x'),
            (117, b'9'),
            (117, b'x'),
            (141, b'0'),
        ] {
            let bad = with_byte(good, place, byte);
            assert_eq!(payment_answer(&bad, version), (10, 80));
        }
        // A writer cannot be given these two.
        for (place, byte) in [(82, b'x'), (150, b'x')] {
            let bad = with_byte(good, place, byte);
            assert_answer(decode(&bad, version), 10, 80);
            assert_answer(join(&bad, version, &mut [0; 121]), 10, 80);
        }
        assert_answer(decode(&good[..149], version), 1, 0);
        assert_answer(decode(b"", version), 1, 0);
        for byte in [b'B', b'g', 0] {
            assert_answer(decode(&with_byte(good, 1, byte), version), 9, 1);
        }
        for row in 0..TABLE.len() {
            assert!(records::field(&good, version, row, &[]).is_empty());
        }
    }
}

#[test]
fn join_checks_both_lengths_before_the_version() {
    let good = g(&p4_code(), 1);
    let mut out = [7; 150];
    for version in NO_VERSIONS {
        for length in [0, 80, 120, 122, 150] {
            let outcome = join(&good, version, &mut out[..length]);
            assert_answer(outcome, 1, 0);
        }
        assert_answer(join(&good[..149], version, &mut out[..121]), 1, 0);
        assert_answer(join(&z(2, 0), version, &mut out[..121]), 9, 1);
        assert_answer(join(&good, version, &mut out[..121]), 10, 80);
    }
    assert_eq!(out, [7; 150]);
}

#[test]
fn an_a_or_z_is_not_asked_its_version() {
    for version in NO_VERSIONS.into_iter().chain([4, 6]) {
        for record in [a(), a06(), z(3, 7)] {
            let outcome = decode(&record, version);
            assert_eq!(outcome, decode(&record, 4));
            assert_answer(outcome, 0, 0);
            for (i, row) in TABLE.iter().enumerate() {
                let field = records::field(&record, version, i, &[]);
                assert_eq!(field.is_empty(), row.letter != record[0]);
            }
        }
        assert_answer(decode(&with_byte(a06(), 74, b'x'), version), 2, 74);
        let bad = with_bytes(a(), 80, b"05");
        assert_answer(decode(&bad, version), 10, 80);
        assert_answer(decode(&with_byte(z(3, 7), 24, b'x'), version), 2, 24);
        let mut fields = [7; 80];
        assert_answer(join(&a06(), version, &mut fields), 0, 0);
        assert_eq!(fields, *[&a06()[2..81], b"O"].concat());
        assert_answer(join(&a06(), version, &mut [7; 121]), 1, 0);
    }
}

#[test]
fn a_decoded_a_shows_its_version() {
    for (header, version) in [(a(), 4), (a06(), 6)] {
        let Ok(Record::A(decoded)) = decode(&header, 77) else {
            panic!("accepted")
        };
        assert_eq!(decoded.version, version);
        assert_eq!((decoded.bank, decoded.sequence), (341, 1));
    }
}

#[test]
fn every_two_version_bytes() {
    for high in 0..=255 {
        for low in 0..=255 {
            let bytes = [high, low];
            let expected = match &bytes {
                b"04" | b"06" => (0, 0),
                _ => (10, 80),
            };
            let header = with_bytes(a(), 80, &bytes);
            assert_eq!(header_answer(&header), expected, "{bytes:?}");
            let fields = [&header[2..81], b"O"].concat();
            let outcome = Writer::new().header(&fields, &mut [0; 150]);
            assert_eq!(answer(&outcome), expected, "{bytes:?}");
        }
    }
}

/// The version is refused in its turn: after the sequence number, before the service field.
#[test]
fn version_bytes_in_their_turn() {
    for bytes in [
        b"05", b"x6", b"60", b"  ", b"4 ", b"40", b"6 ", b"0x", b"00",
    ] {
        let bad = with_bytes(a(), 80, bytes);
        assert_eq!(header_answer(&bad), (10, 80));
        assert_eq!(header_answer(&with_byte(bad, 74, b'x')), (2, 74));
        assert_eq!(header_answer(&with_byte(bad, 79, b' ')), (2, 79));
        assert_eq!(header_answer(&with_byte(bad, 73, b'9')), (11, 66));
        assert_eq!(header_answer(&with_byte(bad, 82, b'x')), (10, 80));
        assert_eq!(header_answer(&with_byte(bad, 83, b'o')), (10, 80));
        assert_eq!(header_answer(&with_byte(bad, 99, b'x')), (10, 80));
        assert_eq!(header_answer(&with_byte(bad, 2, b'1')), (10, 2));
    }
    for good in [a(), a06()] {
        assert_eq!(header_answer(&with_byte(good, 83, b'o')), (10, 82));
        assert_eq!(header_answer(&with_byte(good, 99, b'x')), (10, 99));
    }
}

/// What is accepted under 04 is accepted under 06 and decodes to the same; what 06 refuses, 04 refuses.
#[test]
fn under_06_nothing_is_lost() {
    let mut random = Random::new(41);
    let mut counts = [0; 3];
    for round in 0..200_000 {
        let version = days::version(&mut random);
        let mut record = days::record(&mut random, version).unwrap();
        if round % 2 == 0 {
            days::damage(&mut random, &mut record);
        }
        let (old, new) = (decode(&record, 4), decode(&record, 6));
        match (old, new) {
            (Ok(_), _) => assert_eq!(old, new),
            (Err(_), Ok(_)) => {
                assert!([(12, 117), (12, 141)].contains(&answer(&old)));
                assert_eq!(record[0], b'G');
            }
            (Err(_), Err(_)) => {}
        }
        counts[usize::from(old.is_err()) + usize::from(new.is_err())] += 1;
    }
    assert!(counts.iter().all(|&count| count > 1000), "{counts:?}");
}
