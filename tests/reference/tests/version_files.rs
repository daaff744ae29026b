//! The versions 04 and 06 of whole files: docs/SPEC.md, "Sessions" and "Writer", each choice with an input that tells
//! it from another reading.

mod common;

use common::{a, a06, a_of, assert_answer, g, memory_of_a, numbered, p4_code};
use common::{with_byte, with_bytes, z};
use reference::random::Random;
use reference::{answer, days, Board, Session, Stage, Writer};

const FILE_LIMIT: u64 = 99_999_999_999_999_999;
const NO_VERSIONS: [u64; 6] = [0, 5, 7, 77, (1 << 32) + 6, u64::MAX];

/// A payment of 5 centavos with this capture.
fn captured(byte: u8) -> [u8; 150] {
    with_byte(g(&p4_code(), 5), 117, byte)
}

#[track_caller]
fn take_all(session: &mut Session, records: &[[u8; 150]]) {
    for record in records {
        assert_answer(session.take(record, &[]), 0, 0);
    }
}

/// The field bytes of a header or of a payment, cut out of the record.
fn header_fields(header: &[u8; 150]) -> Vec<u8> {
    [&header[2..81], &header[82..83]].concat()
}

fn payment_fields(payment: &[u8; 150]) -> Vec<u8> {
    [&payment[1..81], &payment[100..141]].concat()
}

fn open_writer(header: &[u8; 150]) -> Writer {
    let mut writer = Writer::new();
    let mut out = [7; 150];
    assert_answer(writer.header(&header_fields(header), &mut out), 0, 0);
    assert_eq!(&out, header);
    writer
}

#[test]
fn the_header_of_the_open_file_decides() {
    let mut session = Session::new();
    take_all(&mut session, &[a06(), captured(b'9'), z(3, 5)]);
    take_all(&mut session, &[a_of(2)]);
    let before = session.clone();
    assert_answer(session.take(&captured(b'9'), &[]), 12, 117);
    let card = with_byte(captured(b'1'), 141, b'4');
    assert_answer(session.take(&card, &[]), 12, 141);
    assert_eq!(session, before);
    take_all(&mut session, &[captured(b'6'), z(3, 5)]);
    let newer = |number| numbered(a06(), number);
    take_all(&mut session, &[newer(3), captured(b'i'), card, z(4, 10)]);
    assert_eq!(session.board().payments, 4);
    // An abandoned file leaves no version behind.
    take_all(&mut session, &[newer(4)]);
    session.abandon();
    take_all(&mut session, &[a_of(4)]);
    assert_answer(session.take(&captured(b'9'), &[]), 12, 117);
    session.abandon();
    take_all(&mut session, &[newer(4), captured(b'9')]);
}

#[test]
fn a_session_keeps_its_headers_version() {
    for (header, version) in [(a(), 4), (a06(), 6)] {
        let mut session = Session::new();
        assert_eq!(session.version, 0);
        assert_answer(session.take(&with_bytes(header, 80, b"05"), &[]), 10, 80);
        assert_answer(session.take(&with_byte(header, 83, b'o'), &[]), 10, 82);
        assert_eq!(session, Session::new());
        take_all(&mut session, &[header, captured(b'1')]);
        assert_eq!(session.version, version);
        // None of these is accepted, so the version stays.
        for record in [a(), a06(), captured(b'j'), z(3, 6), z(2, 5)] {
            let before = session.clone();
            assert!(session.take(&record, &[]).is_err());
            assert_eq!(session, before);
        }
        let (number, place) = if version == 4 { (12, 117) } else { (0, 0) };
        assert_answer(session.take(&captured(b'9'), &[]), number, place);
        assert_eq!(session.version, version);
    }
}

#[test]
fn the_closed_state_has_version_0() {
    let mut closed = Session::new();
    closed.shown.payments = 3;
    closed.working.payments = 3;
    for header in [a(), a06()] {
        let mut session = closed.clone();
        take_all(&mut session, &[header]);
        session.abandon();
        assert_eq!(session, closed);
        take_all(&mut session, &[header, z(2, 0)]);
        assert_eq!(session.memory, memory_of_a());
        session.memory = closed.memory;
        assert_eq!(session, closed);
    }
    assert_eq!(closed.version, 0);
    assert_eq!(Session::default().version, 0);
}

#[test]
fn arbitrary_sessions() {
    for version in NO_VERSIONS {
        let mut open = Session {
            open: true,
            taken: 2,
            total: 5,
            version,
            ..Session::new()
        };
        let before = open.clone();
        assert_answer(open.take(&captured(b'1')[..149], &[]), 1, 0);
        assert_answer(open.take(&a(), &[]), 9, 1);
        assert_answer(open.take(&with_byte(captured(b'1'), 1, b'g'), &[]), 9, 1);
        assert_answer(open.take(&captured(b'1'), &[]), 10, 80);
        assert_answer(open.take(&with_byte(captured(b'1'), 2, 7), &[]), 10, 80);
        assert_answer(open.take(&z(4, 6), &[]), 14, 8);
        assert_answer(open.finish(), 19, 0);
        assert_eq!(open, before);
        let mut full = before.clone();
        (full.taken, full.total) = (u64::MAX, u64::MAX);
        assert_answer(full.take(&captured(b'1'), &[]), 10, 80);
        // A Z has nothing to do with the version.
        let mut abandoned = open.clone();
        take_all(&mut open, &[z(4, 5)]);
        abandoned.abandon();
        // The file's pair is zeros, which is remembered as another would be.
        assert_eq!(open.memory.used, 1);
        open.memory.used = 0;
        assert_eq!((open, abandoned), (Session::new(), Session::new()));
    }
}

/// Without a file open, abandoning keeps even the version; an accepted A replaces it.
#[test]
fn arbitrary_closed_sessions() {
    for version in NO_VERSIONS.into_iter().chain([4, 6]) {
        let mut session = Session {
            version,
            working: Board {
                payments: 9,
                ..Board::new()
            },
            ..Session::new()
        };
        let before = session.clone();
        session.abandon();
        assert_answer(session.take(&captured(b'1'), &[]), 9, 1);
        assert_answer(session.take(&z(2, 0), &[]), 9, 1);
        assert_answer(session.take(&with_bytes(a(), 80, b"05"), &[]), 10, 80);
        assert_answer(session.finish(), 0, 0);
        assert_eq!(session, before);
        let mut other = session.clone();
        take_all(&mut session, &[a()]);
        take_all(&mut other, &[a06()]);
        assert_eq!((session.version, other.version), (4, 6));
    }
}

#[test]
fn field_bytes_of_a_header() {
    let good = header_fields(&a06());
    assert_eq!(&good[77..], b"06O");
    let mut out = [7; 150];
    for length in [0, 77, 78, 79, 81, 121, 150] {
        let mut fields = good.clone();
        fields.resize(length, b'0');
        assert_answer(Writer::new().header(&fields, &mut out), 1, 0);
    }
    // The 78 bytes that were enough before there were two versions.
    let old = [&a()[2..79], b"O"].concat();
    assert_answer(Writer::new().header(&old, &mut out), 1, 0);
    for (byte, value, number, place) in [
        (77, b'x', 2, 79),
        (78, b'4', 10, 80),
        (78, b'x', 10, 80),
        (79, b'0', 10, 80),
        (79, b'5', 10, 80),
        (79, b' ', 10, 80),
        (80, b'6', 10, 82),
        (80, b'o', 10, 82),
    ] {
        let mut fields = good.clone();
        fields[byte - 1] = value;
        assert_answer(Writer::new().header(&fields, &mut out), number, place);
    }
    // Not the service field's byte before the version.
    let turned = [&good[..77], b"O06"].concat();
    assert_answer(Writer::new().header(&turned, &mut out), 10, 80);
    let both = [&good[..77], b"05o"].concat();
    assert_answer(Writer::new().header(&both, &mut out), 10, 80);
    assert_eq!(out, [7; 150]);
    let accented = [&good[..79], &[211]].concat();
    assert_answer(Writer::new().header(&accented, &mut out), 0, 0);
    assert_eq!(out, with_byte(a06(), 83, 211));
}

#[test]
fn a_writer_keeps_its_headers_version() {
    assert_eq!(Writer::new().version, 0);
    for (header, other, version) in [(a(), a06(), 4), (a06(), a(), 6)] {
        let mut writer = open_writer(&header);
        let mut out = [7; 150];
        assert_answer(writer.header(&header_fields(&other), &mut out), 9, 1);
        assert_eq!(writer.version, version);
        for (payment, place) in [
            (captured(b'9'), 117),
            (captured(b'i'), 117),
            (with_byte(captured(b'1'), 141, b'6'), 141),
        ] {
            let before = writer.clone();
            let outcome = writer.payment(&payment_fields(&payment), 5, 150, &[], &mut out);
            if version == 4 {
                assert_answer(outcome, 12, place);
                assert_eq!((&writer, out), (&before, [7; 150]));
            } else {
                assert_answer(outcome, 0, 0);
                assert_eq!(out, payment);
            }
        }
        assert_answer(writer.trailer(&mut out), 0, 0);
        assert_eq!((writer.stage, writer.version), (Stage::Closed, version));
        assert_answer(writer.header(&header_fields(&other), &mut out), 9, 1);
        assert_eq!(writer.version, version);
    }
}

/// 10 at 80 comes after both lengths and 9, and before the fields, 21, 15 and 16.
#[test]
fn arbitrary_writers() {
    let good = payment_fields(&captured(b'1'));
    let bad = [b"\x07", &good[1..]].concat();
    for version in NO_VERSIONS {
        let mut out = [7; 150];
        let mut writer = Writer {
            stage: Stage::Open,
            taken: 999_997,
            total: FILE_LIMIT,
            version,
            lined: false,
        };
        let before = writer.clone();
        assert_answer(writer.payment(&good[..120], 1, 1, &[], &mut out), 1, 0);
        assert_answer(writer.payment(&good, 1, 1, &[], &mut out[..149]), 1, 0);
        assert_answer(writer.header(&header_fields(&a()), &mut out), 9, 1);
        assert_answer(writer.payment(&good, 1, 1, &[], &mut out), 10, 80);
        assert_answer(writer.payment(&bad, 1, 1, &[], &mut out), 10, 80);
        for received in [0, u64::MAX] {
            let outcome = writer.payment(&good, received, u64::MAX, &[], &mut out);
            assert_answer(outcome, 10, 80);
        }
        assert_eq!((&writer, out), (&before, [7; 150]));
        for stage in [Stage::Fresh, Stage::Closed] {
            writer.stage = stage;
            assert_answer(writer.payment(&bad, 1, 1, &[], &mut out), 9, 1);
            assert_answer(writer.trailer(&mut out), 9, 1);
        }
        // A Z has nothing to do with the version.
        writer.stage = Stage::Open;
        assert_answer(writer.trailer(&mut out), 0, 0);
        assert_eq!(out, z(999_999, FILE_LIMIT));
        assert_eq!((writer.stage, writer.version), (Stage::Closed, version));
    }
}

/// A day with every header turned into 06 is accepted as before and has the same board.
#[test]
fn days_under_06() {
    let mut random = Random::new(42);
    for _ in 0..50 {
        let mut day = days::day(&mut random, 20, 12, 20).unwrap();
        let mut session = Session::new();
        assert_eq!(session.run(&day.bytes, false, &[]).answer, Ok(()));
        let headers = |record: &&mut [u8]| record[0] == b'A';
        for header in day.bytes.chunks_mut(150).filter(headers) {
            header[79..81].copy_from_slice(b"06");
        }
        let mut newer = Session::new();
        assert_eq!(newer.run(&day.bytes, false, &[]).answer, Ok(()));
        assert_eq!(newer, session);
        // Under 04 the further codes are refused, and nothing else is.
        for header in day.bytes.chunks_mut(150).filter(headers) {
            header[79..81].copy_from_slice(b"04");
        }
        let run = Session::new().run(&day.bytes, false, &[]);
        assert!([(12, 117), (12, 141)].contains(&answer(&run.answer)));
    }
}
