//! Agreed issuers: what their list means for records, sessions, runs and writers. Each choice has an input that tells
//! it from another reading.

mod common;

use common::{a, a06, a_of, assert_answer, code_due, g, header_fields, lined, lined_all};
use common::{key_of, payment_fields, rising, with_byte, with_bytes, z, WRONG};
use reference::records::{self, TABLE};
use reference::{page, Date, Record, RunResult, Session, Stage, Writer};

const AGREED_1: [u64; 1] = [100_003_659];
const AGREED_6: [u64; 1] = [633_041_260];

/// A payment of 5 centavos of issuer 1-3659, whose free field begins with these digits.
fn paid(first: &[u8; 8]) -> [u8; 150] {
    g(&code_due(1, 3_659, first), 5)
}

/// The same of issuer 6-33041260.
fn paid_6(first: &[u8; 8]) -> [u8; 150] {
    g(&code_due(6, 33_041_260, first), 5)
}

fn opened(version: u64) -> Session {
    Session {
        open: true,
        version,
        ..Session::new()
    }
}

fn open_writer() -> Writer {
    let mut writer = Writer::new();
    writer.header(&header_fields(), &mut [0; 150]).unwrap();
    writer
}

/// The field bytes of a payment, cut out of the record.
fn fields_of(payment: &[u8; 150]) -> Vec<u8> {
    [&payment[1..81], &payment[100..141]].concat()
}

/// A payment by each way in: alone, by its field bytes, by a session and, if the amounts are digits, by a writer.
#[track_caller]
fn assert_each(payment: &[u8; 150], agreed: &[u64], number: u64, place: usize) {
    assert_answer(records::decode(payment, 4, agreed), number, place);
    let mut fields = [7; 121];
    let joined = records::join(payment, 4, agreed, &mut fields);
    assert_answer(joined, number, place);
    let mut session = opened(4);
    assert_answer(session.take(payment, agreed), number, place);
    let mut writer = open_writer();
    let mut out = [7; 150];
    let written = writer.payment(&fields_of(payment), 5, 150, agreed, &mut out);
    if payment[81..100] == *b"0000000000050000150" {
        assert_answer(written, number, place);
    }
    for (i, row) in TABLE.iter().enumerate() {
        let shown = !records::field(payment, 4, i, agreed).is_empty();
        assert_eq!(shown, number == 0 && row.letter == b'G');
    }
    if number == 0 {
        assert_eq!((&fields[..], &out), (&fields_of(payment)[..], payment));
    } else {
        assert_eq!((fields, session), ([7; 121], opened(4)));
        assert!(written.is_ok() || (writer, out) == (open_writer(), [7; 150]));
    }
}

#[test]
fn eight_digits_that_must_be_a_date() {
    for first in [b"00000000", b"20230229", b"22000101", b"18991231"] {
        assert_each(&paid(first), &AGREED_1, 11, 57);
        assert_each(&paid_6(first), &AGREED_6, 11, 61);
        for agreed in [&[][..], &AGREED_6, &rising(64)] {
            assert_each(&paid(first), agreed, 0, 0);
        }
        assert_each(&paid_6(first), &AGREED_1, 0, 0);
    }
    for agreed in [&[][..], &AGREED_1, &AGREED_6, &rising(64)] {
        assert_each(&paid(b"20240229"), agreed, 0, 0);
        assert_each(&paid_6(b"20240229"), agreed, 0, 0);
    }
}

#[test]
fn a_due_date_is_shown_only_for_an_agreed_issuer() {
    let due = |payment: &[u8; 150], agreed: &[u64]| match records::decode(payment, 6, agreed) {
        Ok(Record::G(decoded)) => decoded.barcode.due,
        _ => panic!("accepted"),
    };
    let date = Date::new(2024, 2, 29);
    assert_eq!(due(&paid(b"20240229"), &AGREED_1), date);
    assert_eq!(due(&paid_6(b"20240229"), &AGREED_6), date);
    for agreed in [&[][..], &[key_of(2, 3_659)], &rising(64)] {
        assert_eq!(due(&paid(b"20240229"), agreed), None);
        assert_eq!(due(&paid_6(b"20240229"), agreed), None);
        assert_eq!(due(&paid(b"00000000"), agreed), None);
    }
}

/// 11 in the barcode's turn: behind its other refusals and the fields before it, before the fields behind it.
#[test]
fn the_due_date_in_its_turn() {
    let bad = paid(b"00000000");
    for (place, byte) in [(82, b'x'), (101, b'x'), (109, 7), (117, b'x'), (150, b'x')] {
        assert_each(&with_byte(bad, place, byte), &AGREED_1, 11, 57);
        assert!(records::decode(&with_byte(bad, place, byte), 4, &[]).is_err());
    }
    assert_each(&with_byte(bad, 41, bad[40] ^ 1), &AGREED_1, 7, 41);
    assert_each(&with_byte(bad, 81, b'x'), &AGREED_1, 2, 81);
    assert_each(&with_bytes(bad, 30, b"20230229"), &AGREED_1, 11, 30);
    assert_each(&with_byte(bad, 2, 7), &AGREED_1, 8, 2);
    assert_answer(records::decode(&bad, 5, &AGREED_1), 10, 80);
    assert_answer(opened(5).take(&bad, &AGREED_1), 10, 80);
    // 21, and 15 to 18 and 22, come later.
    let mut out = [7; 150];
    for received in [5, 1_000_000_000_000] {
        let mut writer = open_writer();
        writer.taken = 999_997;
        let outcome = writer.payment(&fields_of(&bad), received, 10_000_000, &AGREED_1, &mut out);
        assert_answer(outcome, 11, 57);
    }
    let mut session = opened(4);
    (session.taken, session.total, session.lined) = (u64::MAX, u64::MAX, true);
    session.working.used = 64;
    assert_answer(session.take(&bad, &AGREED_1), 11, 57);
    assert_answer(session.take(&bad, &[]), 15, 1);
}

/// Good records and others, of right and wrong lengths.
fn any_records() -> Vec<Vec<u8>> {
    let good = paid(b"20240229");
    let (header, trailer) = (a(), z(2, 0));
    let alone: [&[u8]; 6] = [&header, &a06(), &good, &trailer, &[7; 150], &good[..149]];
    let ended = [lined(&header).to_vec(), lined(&good).to_vec(), Vec::new()];
    [&alone.map(<[u8]>::to_vec)[..], &ended].concat()
}

/// 25 comes before 1, 9, 10 and all fields.
#[test]
fn a_wrong_list_comes_first() {
    for (record, agreed) in any_records()
        .iter()
        .flat_map(|r| WRONG.map(|list| (r, list)))
    {
        for version in [4, 5] {
            assert_answer(records::decode(record, version, agreed), 25, 0);
            for length in [80, 121, 9] {
                let mut out = [7; 121];
                let outcome = records::join(record, version, agreed, &mut out[..length]);
                assert_answer(outcome, 25, 0);
                assert_eq!(out, [7; 121]);
            }
            for row in 0..TABLE.len() + 2 {
                assert!(records::field(record, version, row, agreed).is_empty());
            }
        }
        for before in [Session::new(), opened(4), opened(77)] {
            let mut session = before.clone();
            assert_answer(session.take(record, agreed), 25, 0);
            assert_eq!(session, before);
        }
    }
}

/// 25 at every stage and with any lengths.
#[test]
fn a_wrong_list_comes_first_for_a_writer() {
    for stage in [Stage::Fresh, Stage::Open, Stage::Closed] {
        let before = Writer {
            stage,
            ..open_writer()
        };
        for (fields, length) in [(121, 150), (120, 150), (121, 149), (0, 0)] {
            let fields = &payment_fields()[..fields];
            for agreed in WRONG {
                let mut writer = before.clone();
                let mut out = [7; 150];
                let outcome = writer.payment(fields, u64::MAX, 0, agreed, &mut out[..length]);
                assert_answer(outcome, 25, 0);
                assert_eq!((&writer, out), (&before, [7; 150]));
            }
        }
    }
}

#[test]
fn a_run_under_a_wrong_list() {
    let bare = [a(), paid(b"20240229"), z(3, 5)].concat();
    let ended = lined_all(&[a(), paid(b"20240229"), z(3, 5)]);
    for agreed in WRONG {
        for input in [&bare[..], &ended, b"", b"x", &bare[150..], &bare[..149]] {
            for more in [false, true] {
                for before in [Session::new(), opened(4), opened(77)] {
                    let mut session = before.clone();
                    let RunResult {
                        records,
                        files,
                        answer,
                        bytes,
                    } = session.run(input, more, agreed);
                    assert_answer(answer, 25, 0);
                    assert_eq!((records, files, bytes), (0, 0, 0));
                    assert_eq!(session, before);
                }
            }
        }
    }
}

#[test]
fn a_run_up_to_a_payment_without_a_date() {
    let (good, bad) = (paid(b"20240229"), paid(b"00000000"));
    let input = [a(), good, z(3, 5), a_of(2), good, bad, z(4, 10)].concat();
    let mut session = Session::new();
    let run = session.run(&input, false, &AGREED_1);
    assert_answer(run.answer, 11, 57);
    assert_eq!((run.records, run.files, run.bytes), (5, 1, 750));
    assert_eq!((session.taken, session.board().payments), (1, 1));
    // The rest under a list without that issuer.
    let run = session.run(&input[750..], false, &AGREED_6);
    assert_eq!((run.answer, run.records, run.files), (Ok(()), 2, 1));
    assert_eq!(session.board().payments, 3);
    // The page lends an empty list.
    let mut whole = Session::new();
    assert_eq!(whole.run(&input, false, &[]).answer, Ok(()));
    assert_eq!(whole, session);
    assert!(page::page_of(&input).starts_with(b"answer=0\nplace=0\nrecord=7\nfiles=2\n"));
}

/// Each call has its own list, and a session or a writer remembers none.
#[test]
fn the_list_may_change_within_a_file() {
    let (good, bad) = (paid(b"20240229"), paid(b"00000000"));
    let full = rising(64);
    let mut session = Session::new();
    let mut plain = Session::new();
    for (record, agreed) in [
        (a(), &AGREED_1[..]),
        (bad, &[]),
        (good, &AGREED_1),
        (bad, &full),
        (good, &AGREED_6),
        (bad, &AGREED_6),
        (z(7, 25), &full),
    ] {
        if record == bad {
            assert_answer(session.take(&record, &AGREED_1), 11, 57);
        }
        assert_answer(session.take(&record, WRONG[0]), 25, 0);
        assert_answer(session.take(&record, agreed), 0, 0);
        assert_answer(plain.take(&record, &[]), 0, 0);
        assert_eq!(session, plain);
    }
    let mut writer = open_writer();
    let mut out = [7; 150];
    for (payment, agreed) in [(bad, &[][..]), (good, &AGREED_1), (bad, &full)] {
        let fields = fields_of(&payment);
        let outcome = writer.payment(&fields, 5, 150, agreed, &mut out);
        assert_answer(outcome, 0, 0);
        assert_eq!(out, payment);
    }
    assert_eq!((writer.taken, writer.total), (3, 15));
}

/// Header and trailer are lent no list, so a file without payments can be written whatever the list is.
#[test]
fn a_writer_under_a_wrong_list() {
    for agreed in WRONG {
        let mut writer = Writer::new();
        let mut out = [7; 150];
        assert_answer(writer.header(&header_fields(), &mut out), 0, 0);
        let outcome = writer.payment(&payment_fields(), 5, 150, agreed, &mut out);
        assert_answer(outcome, 25, 0);
        assert_eq!((&writer, out), (&open_writer(), a()));
        assert_answer(writer.trailer(&mut out), 0, 0);
        assert_eq!(out, z(2, 0));
        let outcome = writer.payment(&payment_fields(), 5, 150, agreed, &mut out);
        assert_answer(outcome, 25, 0);
        let outcome = writer.payment(&payment_fields(), 5, 150, &AGREED_1, &mut out);
        assert_answer(outcome, 9, 1);
    }
}
