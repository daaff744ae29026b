//! Writers of lined files: the buffer of the header decides. Each choice has an input that tells it from another
//! reading.

mod common;

use common::{
    a, a06, assert_answer, g, header_fields, lined, p4_code, payment_fields, with_byte, z,
};
use reference::days::{self, Form};
use reference::random::Random;
use reference::{digits, records, Session, Stage, Writer};

/// The lengths of buffers that are tried.
const SIZES: [usize; 9] = [0, 2, 149, 150, 151, 152, 153, 300, 304];

fn open_writer(size: usize) -> Writer {
    let mut writer = Writer::new();
    writer.header(&header_fields(), &mut vec![0; size]).unwrap();
    writer
}

fn closed_writer(size: usize) -> Writer {
    let mut writer = open_writer(size);
    writer.trailer(&mut vec![0; size]).unwrap();
    writer
}

/// The call is refused, and changes neither the writer nor its buffer.
#[track_caller]
fn assert_refused(
    writer: &Writer,
    size: usize,
    number: u64,
    call: impl Fn(&mut Writer, &mut [u8]) -> Result<(), reference::Refusal>,
) {
    let mut same = writer.clone();
    let mut out = vec![7; size];
    assert_answer(call(&mut same, &mut out), number, usize::from(number == 9));
    assert_eq!((&same, out), (writer, vec![7; size]));
}

#[test]
fn the_headers_buffer_decides() {
    for size in SIZES {
        let mut writer = Writer::new();
        let mut out = vec![7; size];
        let outcome = writer.header(&header_fields(), &mut out);
        if size == 150 || size == 152 {
            assert_answer(outcome, 0, 0);
            assert_eq!(out, lined(&a())[..size]);
            assert_eq!((writer.stage, writer.lined), (Stage::Open, size == 152));
        } else {
            assert_answer(outcome, 1, 0);
            assert_eq!((writer, out), (Writer::new(), vec![7; size]));
        }
    }
}

#[test]
fn later_buffers_are_as_long() {
    for right in [150, 152] {
        for size in SIZES.into_iter().filter(|&size| size != right) {
            let writer = open_writer(right);
            assert_refused(&writer, size, 1, |w, out| {
                w.payment(&payment_fields(), 5, 150, &[], out)
            });
            assert_refused(&writer, size, 1, |w, out| {
                w.payment(&[0; 121], u64::MAX, 0, &[], out)
            });
            assert_refused(&writer, size, 1, |w, out| w.trailer(out));
        }
        let mut writer = open_writer(right);
        let mut out = vec![7; right];
        let outcome = writer.payment(&payment_fields(), 5, 150, &[], &mut out);
        assert_answer(outcome, 0, 0);
        assert_eq!(out, lined(&g(&p4_code(), 5))[..right]);
        assert_answer(writer.trailer(&mut out), 0, 0);
        assert_eq!(out, lined(&z(3, 5))[..right]);
        assert_eq!((writer.stage, writer.lined), (Stage::Closed, right == 152));
    }
}

/// 9 where the buffer is right, else 1: to a fresh writer a payment or a trailer, to an open one a header, to a closed
/// one any call.
#[test]
fn calls_that_are_not_expected() {
    let header = |w: &mut Writer, out: &mut [u8]| w.header(&header_fields(), out);
    let payment = |w: &mut Writer, out: &mut [u8]| w.payment(&payment_fields(), 5, 150, &[], out);
    let trailer = |w: &mut Writer, out: &mut [u8]| w.trailer(out);
    for size in SIZES {
        let number = |right: bool| if right { 9 } else { 1 };
        let either = number(size == 150 || size == 152);
        assert_refused(&Writer::new(), size, either, payment);
        assert_refused(&Writer::new(), size, either, trailer);
        for right in [150, 152] {
            let number = number(size == right);
            assert_refused(&open_writer(right), size, number, header);
            assert_refused(&closed_writer(right), size, number, header);
            assert_refused(&closed_writer(right), size, number, payment);
            assert_refused(&closed_writer(right), size, number, trailer);
        }
        // The field bytes of the wrong length are 1, whatever the buffer.
        assert_refused(&Writer::new(), size, 1, |w, out| w.header(&[0; 79], out));
        assert_refused(&Writer::new(), size, 1, |w, out| {
            w.payment(&[0; 120], 5, 150, &[], out)
        });
        assert_refused(&closed_writer(152), size, 1, |w, out| {
            w.header(&[0; 78], out)
        });
    }
}

/// A fresh writer in an arbitrary state may be lined: that is not asked.
#[test]
fn arbitrary_fresh_writers() {
    let strange = Writer {
        lined: true,
        ..Writer::new()
    };
    for size in SIZES {
        let right = size == 150 || size == 152;
        let number = if right { 9 } else { 1 };
        assert_refused(&strange, size, number, |w, out| {
            w.payment(&payment_fields(), 5, 150, &[], out)
        });
        assert_refused(&strange, size, number, |w, out| w.trailer(out));
        if right {
            let mut writer = strange.clone();
            let mut out = vec![7; size];
            assert_answer(writer.header(&header_fields(), &mut out), 0, 0);
            assert_eq!(writer, open_writer(size));
            assert_eq!(out, lined(&a())[..size]);
        } else {
            assert_refused(&strange, size, 1, |w, out| w.header(&header_fields(), out));
        }
    }
}

/// Refusals of the fields leave a lined buffer as it is too, and a refused header decides nothing.
#[test]
fn refused_records_write_no_line_end() {
    let mut out = [7; 152];
    let mut writer = Writer::new();
    let bad = with_byte(header_fields(), 80, b'o');
    assert_answer(writer.header(&bad, &mut out), 10, 82);
    assert_eq!((&writer, out), (&Writer::new(), [7; 152]));
    let mut writer = open_writer(152);
    let before = writer.clone();
    let bad = with_byte(payment_fields(), 121, b'4');
    assert_answer(writer.payment(&bad, 5, 150, &[], &mut out), 12, 141);
    let outcome = writer.payment(&payment_fields(), 1_000_000_000_000, 0, &[], &mut out);
    assert_answer(outcome, 21, 82);
    assert_eq!((&writer, out), (&before, [7; 152]));
    for (taken, total, number, place) in [(999_998, 0, 15, 1), (0, u64::MAX, 16, 82)] {
        (writer.taken, writer.total) = (taken, total);
        assert_answer(writer.trailer(&mut out), number, place);
        let outcome = writer.payment(&payment_fields(), 1, 0, &[], &mut out);
        assert_answer(outcome, number, place);
        assert_eq!(out, [7; 152]);
    }
}

/// Writes the records of a day back from their fields, each with a buffer of its own length.
fn written_back(bytes: &[u8]) -> Vec<u8> {
    let mut writer = Writer::new();
    let mut written = Vec::new();
    let mut session = Session::new();
    let mut rest = bytes;
    while !rest.is_empty() {
        let is_lined = session.open && session.lined;
        let size = if is_lined || (!session.open && rest[150..].starts_with(b"\r\n")) {
            152
        } else {
            150
        };
        let (piece, after) = rest.split_at(size);
        let record = &piece[..150];
        let mut out = vec![7; size];
        let outcome = match piece[0] {
            b'A' => {
                writer = Writer::new();
                let mut fields = [0; 80];
                records::join(record, 0, &[], &mut fields).unwrap();
                writer.header(&fields, &mut out)
            }
            b'G' => {
                let mut fields = [0; 121];
                records::join(record, session.version, &[], &mut fields).unwrap();
                let received = digits::number(&record[81..93]).unwrap();
                let tariff = digits::number(&record[93..100]).unwrap();
                writer.payment(&fields, received, tariff, &[], &mut out)
            }
            _ => writer.trailer(&mut out),
        };
        assert_answer(outcome, 0, 0);
        assert_answer(session.take(piece, &[]), 0, 0);
        written.extend_from_slice(&out);
        rest = after;
    }
    written
}

#[test]
fn writing_back_keeps_the_form() {
    let bare = [a06(), g(&p4_code(), 5), z(3, 5)].concat();
    assert_eq!(written_back(&bare), bare);
    let mut random = Random::new(81);
    for round in 0..90 {
        let form = Form::ALL[round % 3];
        let day = days::day_of(&mut random, 20, 8, 20, form).unwrap();
        assert_eq!(written_back(&day.bytes), day.bytes);
    }
}
