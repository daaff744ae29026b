//! Lined files, whose records CR and LF follow: what a session takes, each choice with an input that tells it from
//! another reading.

mod common;

use common::{a, a06, a_of, assert_answer, code_for, followed, g, lined, numbered, p4_code};
use common::{with_byte, with_bytes, z};
use reference::random::Random;
use reference::{answer, days, Session};

/// What may stand behind a record, and is not its line end.
const NO_ENDS: [&[u8]; 10] = [
    b"", b"\r", b"\n", b" ", b"\n\r", b"\r\r", b"\n\n", b"\r ", b" \n", b"  ",
];

fn opened(header: &[u8]) -> Session {
    let mut session = Session::new();
    assert_answer(session.take(header, &[]), 0, 0);
    session
}

fn opened_lined() -> Session {
    opened(&lined(&a()))
}

fn good() -> [u8; 150] {
    g(&p4_code(), 5)
}

/// Takes a record that is refused, which must change nothing.
#[track_caller]
fn assert_refused(session: &mut Session, record: &[u8], number: u64, place: usize) {
    let before = session.clone();
    assert_answer(session.take(record, &[]), number, place);
    assert_eq!(*session, before);
}

/// The bytes of a length that start as the record with its line end does.
fn of_length(record: &[u8; 150], length: usize) -> Vec<u8> {
    let mut bytes = lined(record).to_vec();
    bytes.resize(length, b'\n');
    bytes
}

#[test]
fn lengths_in_each_state() {
    let lengths = [
        0, 1, 2, 149, 150, 151, 152, 153, 154, 300, 302, 304, 65_686, 65_688,
    ];
    for length in lengths {
        // Where A is expected.
        let number = u64::from(length != 150 && length != 152);
        assert_answer(
            Session::new().take(&of_length(&a(), length), &[]),
            number,
            0,
        );
        // In an open bare file and in an open lined file.
        for record in [good(), z(2, 0)] {
            let bytes = of_length(&record, length);
            let number = u64::from(length != 150);
            assert_answer(opened(&a()).take(&bytes, &[]), number, 0);
            let (number, place) = match length {
                150 | 151 => (22, 151),
                152 => (0, 0),
                _ => (1, 0),
            };
            assert_answer(opened_lined().take(&bytes, &[]), number, place);
        }
    }
}

/// A wrong length comes before all that the bytes say.
#[test]
fn lengths_first() {
    for first in *b"AGZX\r" {
        let record = with_byte(with_byte(a(), 1, first), 2, 7);
        for length in [1, 2, 149, 151, 153, 300] {
            assert_refused(&mut Session::new(), &of_length(&record, length), 1, 0);
        }
        for length in [1, 2, 149, 151, 152, 153, 300] {
            assert_refused(&mut opened(&a()), &of_length(&record, length), 1, 0);
        }
        for length in [1, 2, 149, 153, 154, 300] {
            assert_refused(&mut opened_lined(), &of_length(&record, length), 1, 0);
        }
        for end in NO_ENDS.into_iter().filter(|end| !end.is_empty()) {
            assert_refused(&mut Session::new(), &followed(&record, end), 1, 0);
        }
    }
    assert_refused(&mut Session::new(), &[], 1, 0);
    assert_refused(&mut opened_lined(), &[], 1, 0);
}

#[test]
fn a_header_of_152_bytes_that_ends_otherwise() {
    for first in 0..=255 {
        for second in 0..=255 {
            let number = u64::from((first, second) != (13, 10));
            let bytes = followed(&a(), &[first, second]);
            assert_answer(Session::new().take(&bytes, &[]), number, 0);
        }
    }
}

#[test]
fn a_later_record_that_ends_otherwise() {
    let session = opened_lined();
    for record in [good(), z(2, 0)] {
        for first in 0..=255 {
            for second in [0, 10, 13, 32, first, 255] {
                let bytes = followed(&record, &[first, second]);
                let ended = (first, second) == (13, 10);
                let (number, place) = if ended { (0, 0) } else { (22, 151) };
                assert_answer(session.clone().take(&bytes, &[]), number, place);
            }
        }
    }
}

/// 9 comes before 22.
#[test]
fn records_that_are_not_expected() {
    for record in [good(), z(2, 0), with_byte(a(), 1, b'a'), [13; 150]] {
        assert_refused(&mut Session::new(), &lined(&record), 9, 1);
        assert_refused(&mut Session::new(), &record, 9, 1);
    }
    for record in [a(), a06(), with_byte(good(), 1, b'g'), [13; 150]] {
        let mut session = opened_lined();
        assert_refused(&mut session, &lined(&record), 9, 1);
        for end in NO_ENDS {
            assert_refused(&mut session, &followed(&record, end), 9, 1);
        }
    }
    assert_refused(&mut opened(&a()), &a(), 9, 1);
    assert_refused(&mut opened(&a()), &lined(&a()), 1, 0);
}

/// The fields, and 13 to 18, come before 22; the same record with its line end has the same answer.
#[test]
fn all_other_checks_come_before_the_line_end() {
    let good = good();
    let mut plain = opened_lined();
    assert_answer(plain.take(&lined(&good), &[]), 0, 0);
    let with = |change: &dyn Fn(&mut Session)| {
        let mut session = plain.clone();
        change(&mut session);
        session
    };
    let full = with(&|session| session.working.used = 64);
    let heavy = with(&|session| session.working.centavos = 1_000_000_000_000_000_000);
    let dear = with(&|session| session.working.tariff = 1_000_000_000_000_000_000);
    let many = with(&|session| session.taken = 999_997);
    let rich = with(&|session| session.total = 99_999_999_999_999_999);
    let strange = with(&|session| session.version = 77);
    let other = g(&code_for(3, 3), 5);
    for (mut session, record, number, place) in [
        (plain.clone(), with_byte(good, 2, 7), 8, 2),
        (plain.clone(), with_bytes(good, 22, b"20230229"), 11, 22),
        (plain.clone(), with_byte(good, 41, b'0'), 7, 41),
        (plain.clone(), with_byte(good, 93, b'x'), 2, 93),
        (plain.clone(), with_byte(good, 117, b'g'), 12, 117),
        (plain.clone(), with_byte(good, 150, 13), 10, 142),
        (plain.clone(), with_byte(z(3, 5), 7, b'x'), 2, 7),
        (plain.clone(), with_byte(z(3, 5), 150, 13), 10, 25),
        (plain.clone(), z(2, 5), 13, 2),
        (plain.clone(), z(2, 6), 13, 2),
        (plain.clone(), z(3, 6), 14, 8),
        (many, good, 15, 1),
        (rich, good, 16, 82),
        (full, other, 17, 53),
        (heavy, good, 18, 82),
        (dear, good, 18, 94),
        (strange, good, 10, 80),
    ] {
        assert_refused(&mut session, &lined(&record), number, place);
        for end in NO_ENDS {
            assert_refused(&mut session, &followed(&record, end), number, place);
        }
    }
}

#[test]
fn a_refused_22_changes_nothing() {
    let mut session = opened_lined();
    for record in [good(), g(&code_for(3, 3), 7), z(4, 12)] {
        for end in NO_ENDS {
            assert_refused(&mut session, &followed(&record, end), 22, 151);
        }
        assert_answer(session.take(&lined(&record), &[]), 0, 0);
    }
    let lanes = session.board().in_use();
    assert_eq!((lanes.len(), lanes[0].centavos), (2, 5));
    assert_answer(session.finish(), 0, 0);
}

#[test]
fn a_session_keeps_its_headers_form() {
    let mut session = Session::new();
    assert!(!session.lined);
    let mut bare = opened(&a());
    assert!(!bare.lined);
    // A refused header decides nothing.
    assert_refused(&mut session, &lined(&with_bytes(a(), 80, b"05")), 10, 80);
    for (header, number) in [(a(), 1), (a06(), 3)] {
        let lined_header = lined(&numbered(header, number));
        assert_answer(session.take(&lined_header, &[]), 0, 0);
        assert!(session.lined);
        assert_answer(session.take(&lined(&good()), &[]), 0, 0);
        assert!(session.lined);
        assert_answer(session.finish(), 19, 0);
        assert_answer(session.take(&lined(&z(3, 5)), &[]), 0, 0);
        assert!(!session.lined);
        // A bare file in turn.
        for record in [numbered(header, number + 1), good(), z(3, 5)] {
            assert_answer(session.take(&record, &[]), 0, 0);
            assert!(!session.lined);
        }
    }
    assert_eq!(session.board().payments, 4);
    let closed = session.clone();
    assert_answer(session.take(&lined(&a_of(5)), &[]), 0, 0);
    session.abandon();
    assert_eq!(session, closed);
    assert_refused(&mut bare, &lined(&good()), 1, 0);
}

/// In an arbitrary state a closed session may be lined: that is not asked, and an accepted header replaces it.
#[test]
fn arbitrary_closed_sessions() {
    let strange = Session {
        lined: true,
        ..Session::new()
    };
    let mut session = strange.clone();
    session.abandon();
    assert_answer(session.finish(), 0, 0);
    for end in NO_ENDS.into_iter().filter(|end| !end.is_empty()) {
        assert_refused(&mut session, &followed(&a(), end), 1, 0);
    }
    assert_refused(&mut session, &good(), 9, 1);
    assert_refused(&mut session, &lined(&good()), 9, 1);
    assert_refused(&mut session, &with_byte(a(), 2, b'1'), 10, 2);
    assert_eq!(session, strange);
    assert_answer(session.take(&a(), &[]), 0, 0);
    assert_eq!(session, opened(&a()));
    let mut session = strange.clone();
    assert_answer(session.take(&lined(&a()), &[]), 0, 0);
    assert_eq!(session, opened_lined());
}

/// A record of any content: a good one, a damaged one, or any bytes.
fn any_record(random: &mut Random, session: &Session) -> [u8; 150] {
    let mut record = match random.below(12) {
        0 | 1 => days::header(random).unwrap(),
        2 => z(session.taken + 2, session.total),
        3 => days::trailer(random),
        4 => std::array::from_fn(|_| random.byte()),
        _ => days::payment(random, if session.version == 6 { 6 } else { 4 }).unwrap(),
    };
    if random.once_in(6) {
        days::damage(random, &mut record);
    }
    if random.once_in(20) {
        record[..2].copy_from_slice(b"\r\n");
    }
    record
}

/// Records of any content, each with its line end, get the answers that they get bare, and the sessions left are equal
/// but for `lined`.
#[test]
fn the_forms_agree() {
    let mut random = Random::new(71);
    let mut accepted = 0;
    for _ in 0..400 {
        let mut bare = Session::new();
        let mut ended = Session::new();
        for _ in 0..60 {
            let record = any_record(&mut random, &bare);
            let before = ended.clone();
            let outcome = bare.take(&record, &[]);
            assert_eq!(ended.take(&lined(&record), &[]), outcome);
            if outcome.is_err() {
                assert_eq!(ended, before);
            }
            assert_eq!(ended.lined, ended.open);
            let same = Session {
                lined: false,
                ..ended.clone()
            };
            assert_eq!(same, bare);
            accepted += u64::from(answer(&outcome) == (0, 0));
        }
    }
    assert!(accepted > 5_000, "{accepted}");
}
