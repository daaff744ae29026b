//! Choices of docs/SPEC.md, "Writer", each with an input that tells it from another reading.

mod common;

use common::{a, a_nth, assert_answer, g, header_fields, p4_code, payment_fields, with_byte, z};
use reference::{answer, Session, Stage, Writer};

const FILE_LIMIT: u64 = 99_999_999_999_999_999;

fn open_writer() -> Writer {
    let mut writer = Writer::new();
    writer.header(&header_fields(), &mut [0; 150]).unwrap();
    writer
}

#[test]
fn order_of_calls() {
    let (header, payment) = (header_fields(), payment_fields());
    let mut out = [7; 150];
    let mut writer = Writer::new();
    assert_answer(writer.payment(&payment, 1, 1, &[], &mut out), 9, 1);
    assert_answer(writer.payment(&[0; 121], 1, 1, &[], &mut out), 9, 1);
    assert_answer(writer.payment(&payment[..120], 1, 1, &[], &mut out), 1, 0);
    assert_answer(writer.payment(&payment, 1, 1, &[], &mut out[..149]), 1, 0);
    assert_answer(writer.trailer(&mut out), 9, 1);
    assert_answer(writer.trailer(&mut out[..149]), 1, 0);
    assert_answer(writer.header(&header[..79], &mut out), 1, 0);
    assert_answer(writer.header(&header, &mut out[..149]), 1, 0);
    assert_eq!((&writer, out), (&Writer::new(), [7; 150]));
    assert_answer(writer.header(&header, &mut out), 0, 0);
    assert_eq!(out, a());
    assert_answer(writer.header(&header, &mut out), 9, 1);
    assert_answer(writer.header(&[0; 80], &mut out), 9, 1);
    assert_eq!(out, a());
    assert_answer(writer.payment(&payment, 109, 150, &[], &mut out), 0, 0);
    assert_eq!(out, g(&p4_code(), 109));
    assert_answer(writer.trailer(&mut out), 0, 0);
    assert_eq!(out, z(3, 109));
    // A closed writer keeps its count, total, version and form.
    let closed = Writer {
        stage: Stage::Closed,
        taken: 1,
        total: 109,
        version: 4,
        lined: false,
    };
    assert_eq!(writer, closed);
    assert_answer(writer.header(&header, &mut out), 9, 1);
    assert_answer(writer.payment(&payment, u64::MAX, 0, &[], &mut out), 9, 1);
    assert_answer(writer.trailer(&mut out), 9, 1);
    assert_answer(writer.header(&header[..79], &mut out), 1, 0);
    assert_answer(writer.payment(&payment[..9], 1, 1, &[], &mut out), 1, 0);
    assert_answer(writer.trailer(&mut out[..9]), 1, 0);
    assert_eq!((writer, out), (closed, z(3, 109)));
}

#[test]
fn places_are_those_of_the_record() {
    let mut out = [7; 150];
    for (byte, value, place) in [(80, b'o', 82), (79, b'5', 80), (78, b'x', 80)] {
        let fields = with_byte(header_fields(), byte, value);
        assert_answer(Writer::new().header(&fields, &mut out), 10, place);
    }
    let fields = with_byte(header_fields(), 41, b'x');
    assert_answer(Writer::new().header(&fields, &mut out), 2, 43);
    let fields = with_byte(header_fields(), 1, 10);
    assert_answer(Writer::new().header(&fields, &mut out), 8, 3);
    for (byte, value, number, place) in [
        (1, 10, 8, 2),
        (21, b'x', 2, 22),
        (80, b'x', 2, 81),
        (81, b'x', 2, 101),
        (89, 10, 8, 109),
        (97, b'7', 12, 117),
        (98, 10, 8, 118),
        (121, b'4', 12, 141),
    ] {
        let fields = with_byte(payment_fields(), byte, value);
        assert_answer(
            open_writer().payment(&fields, 1, 1, &[], &mut out),
            number,
            place,
        );
    }
    assert_eq!(out, [7; 150]);
}

#[test]
fn wide_numbers_in_their_turn() {
    let (e12, e7) = (1_000_000_000_000, 10_000_000);
    let good = payment_fields();
    let bad_code = with_byte(good, 37, b'7');
    let bad_number = with_byte(good, 81, b'x');
    let bad_date = with_date(good, b"20230229");
    let mut out = [7; 150];
    let mut assert_refused = |fields: &[u8; 121], received, tariff, number, place| {
        let mut writer = open_writer();
        let outcome = writer.payment(fields, received, tariff, &[], &mut out);
        assert_eq!(answer(&outcome), (number, place));
        assert_eq!((&writer, out), (&open_writer(), [7; 150]));
    };
    assert_refused(&bad_code, e12, e7, 3, 38);
    assert_refused(&bad_date, e12, e7, 11, 22);
    assert_refused(&bad_number, e12, e7, 21, 82);
    assert_refused(&bad_number, e12, 0, 21, 82);
    assert_refused(&bad_number, e12 - 1, e7, 21, 94);
    assert_refused(&bad_number, e12 - 1, e7 - 1, 2, 101);
    assert_refused(&good, 0, e7, 21, 94);
    assert_refused(&good, u64::MAX, u64::MAX, 21, 82);
    assert_refused(&good, 0, u64::MAX, 21, 94);
    let mut writer = open_writer();
    common::assert_answer(writer.payment(&good, e12 - 1, e7 - 1, &[], &mut out), 0, 0);
    assert_eq!(&out[81..100], b"9999999999999999999");
}

fn with_date(mut fields: [u8; 121], date: &[u8; 8]) -> [u8; 121] {
    fields[20..28].copy_from_slice(date);
    fields
}

#[test]
fn arbitrary_writers() {
    let mut out = [7; 150];
    for (taken, total, number, place) in [
        (999_998, 0, 15, 1),
        (u64::MAX, u64::MAX, 15, 1),
        (999_997, FILE_LIMIT + 1, 16, 82),
        (0, u64::MAX, 16, 82),
    ] {
        let mut writer = Writer {
            stage: Stage::Open,
            taken,
            total,
            version: 4,
            lined: false,
        };
        let before = writer.clone();
        assert_answer(writer.trailer(&mut out), number, place);
        assert_eq!((&writer, out), (&before, [7; 150]));
    }
    let mut writer = Writer {
        stage: Stage::Open,
        taken: u64::MAX,
        total: u64::MAX,
        version: 4,
        lined: false,
    };
    assert_answer(
        writer.payment(&payment_fields(), 0, 0, &[], &mut out),
        15,
        1,
    );
    writer.taken = 0;
    assert_answer(
        writer.payment(&payment_fields(), 0, 0, &[], &mut out),
        16,
        82,
    );
    writer.total = FILE_LIMIT;
    assert_answer(
        writer.payment(&payment_fields(), 1, 0, &[], &mut out),
        16,
        82,
    );
    assert_eq!(out, [7; 150]);
    assert_answer(writer.payment(&payment_fields(), 0, 0, &[], &mut out), 0, 0);
    writer.taken = 999_997;
    let bad = with_byte(payment_fields(), 121, b'4');
    assert_answer(writer.payment(&bad, 1, 0, &[], &mut out), 12, 141);
    assert_answer(
        writer.payment(&payment_fields(), 1, 0, &[], &mut out),
        15,
        1,
    );
    assert_answer(writer.trailer(&mut out), 0, 0);
    assert_eq!(out, z(999_999, FILE_LIMIT));
    let closed = Writer {
        stage: Stage::Closed,
        taken: 999_997,
        total: FILE_LIMIT,
        version: 4,
        lined: false,
    };
    assert_eq!(writer, closed);
}

/// A fresh writer in an arbitrary state: refusals keep its count, total, version and form; an accepted A starts the
/// first two at 0 and gives its own version and form.
#[test]
fn arbitrary_fresh_writers() {
    for (taken, total, version, lined) in [
        (5, 0, 0, false),
        (0, 5, 6, true),
        (999_997, FILE_LIMIT, 77, false),
        (u64::MAX, u64::MAX, u64::MAX, true),
    ] {
        let mut out = [7; 150];
        let mut writer = Writer {
            stage: Stage::Fresh,
            taken,
            total,
            version,
            lined,
        };
        let before = writer.clone();
        let bad = with_byte(header_fields(), 80, b'o');
        assert_answer(writer.header(&bad, &mut out), 10, 82);
        assert_answer(writer.payment(&payment_fields(), 1, 1, &[], &mut out), 9, 1);
        assert_answer(writer.trailer(&mut out), 9, 1);
        assert_eq!((&writer, out), (&before, [7; 150]));
        assert_answer(writer.header(&header_fields(), &mut out), 0, 0);
        assert_eq!(out, a());
        let open = Writer {
            stage: Stage::Open,
            taken: 0,
            total: 0,
            version: 4,
            lined: false,
        };
        assert_eq!(writer, open);
    }
}

/// The file of one payment that a new writer makes of these field bytes.
#[track_caller]
fn written(header: &[u8; 80]) -> Vec<u8> {
    let mut writer = Writer::new();
    let mut records = [[7; 150]; 3];
    let [first, second, third] = &mut records;
    assert_answer(writer.header(header, first), 0, 0);
    assert_answer(
        writer.payment(&payment_fields(), 109, 150, &[], second),
        0,
        0,
    );
    assert_answer(writer.trailer(third), 0, 0);
    records.concat()
}

/// The session accepts a file of one payment.
#[track_caller]
fn assert_accepted(session: &mut Session, file: &[u8]) {
    let run = session.run(file, false, &[]);
    assert_answer(run.answer, 0, 0);
    assert_eq!((run.records, run.files, run.bytes), (3, 1, 450));
}

/// The session refuses a file at its header and does not change.
#[track_caller]
fn assert_refused(session: &mut Session, file: &[u8], number: u64, place: usize) {
    let before = session.clone();
    let run = session.run(file, false, &[]);
    assert_answer(run.answer, number, place);
    assert_eq!((run.records, run.files, run.bytes), (0, 0, 0));
    assert_eq!(*session, before);
}

/// A writer has no memory: one header may be written twice. The second file is for a session to refuse.
#[test]
fn one_header_from_two_writers() {
    let files = [written(&header_fields()), written(&header_fields())];
    for file in &files {
        assert_eq!(*file, [a(), g(&p4_code(), 109), z(3, 109)].concat());
        assert_accepted(&mut Session::new(), file);
    }
    let mut session = Session::new();
    assert_accepted(&mut session, &files[0]);
    assert_refused(&mut session, &files[1], 26, 74);
}

/// Nor do writers count pairs: a fresh session accepts each of their files, and one session refuses the 17th.
#[test]
fn writers_of_17_pairs() {
    let mut session = Session::new();
    for i in 0..17 {
        let mut header = header_fields();
        header[40..43].copy_from_slice(format!("{i:03}").as_bytes());
        let file = written(&header);
        assert_eq!(file[..150], a_nth(i, 1));
        assert_accepted(&mut Session::new(), &file);
        match i {
            16 => assert_refused(&mut session, &file, 27, 3),
            _ => assert_accepted(&mut session, &file),
        }
    }
}
