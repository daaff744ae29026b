//! What follows a record: every two bytes, damaged line ends and every length, in bare and lined files and where a
//! header is expected. A record is taken alone, and in runs with more to come or not.

use reference::random::Random;
use reference::records::{G_RECEIVED, G_TARIFF, LINE_END};
use reference::session::{LANES, MOST_BOARD_TOTAL, MOST_FILE_TOTAL, MOST_PAYMENTS};
use reference::{days, Session};

use super::{boards, sessions};
use crate::calls::Calls;
use crate::lines::WRONG_ENDS;
use crate::{lists, versions};

/// A session with a file open.
fn open(version: u64, lined: bool) -> Session {
    Session {
        open: true,
        taken: 3,
        total: 500,
        version,
        lined,
        ..Session::new()
    }
}

/// Sessions of this version in both forms: with no file open, with one open, and with one open at each limit, where a
/// payment is refused 15, 16, 17, 18 at 82 or 18 at 94.
fn states(version: u64) -> Vec<Session> {
    let mut states = Vec::new();
    for lined in [false, true] {
        let closed = Session {
            lined,
            ..Session::new()
        };
        let mut limits = [(); 5].map(|()| open(version, lined));
        limits[0].taken = MOST_PAYMENTS;
        limits[1].total = MOST_FILE_TOTAL;
        limits[2].working.used = LANES;
        limits[3].working.payments = MOST_BOARD_TOTAL;
        limits[4].working.tariff = MOST_BOARD_TOTAL;
        states.extend([closed, open(version, lined)]);
        states.extend(limits);
    }
    states
}

/// An A, a G and a right Z for the session's file, accepted under this list.
fn right_records(
    random: &mut Random,
    session: &Session,
    version: u64,
    agreed: &[u64],
) -> [[u8; 150]; 3] {
    let mut payment = boards::payment(random, version, agreed);
    // An amount of 0 passes no limit.
    boards::set(&mut payment, G_RECEIVED, 1 + random.number(10));
    boards::set(&mut payment, G_TARIFF, 1 + random.number(6));
    [
        versions::header(random, version),
        payment,
        sessions::trailer(session),
    ]
}

/// Records that are refused for other reasons than their line end: a wrong count, a wrong total, a letter that names no
/// record, and damaged records.
fn wrong_records(
    random: &mut Random,
    session: &Session,
    version: u64,
    agreed: &[u64],
) -> Vec<[u8; 150]> {
    let mut counted = session.clone();
    counted.taken += 1;
    let mut summed = session.clone();
    summed.total -= session.total.min(1);
    let right = right_records(random, session, version, agreed);
    let mut wrong = right.to_vec();
    for record in &mut wrong {
        days::damage(random, record);
    }
    let mut unknown = right[1];
    unknown[0] = b'X';
    wrong.extend([
        sessions::trailer(&counted),
        sessions::trailer(&summed),
        unknown,
    ]);
    wrong
}

/// Goes on with this session, if the last call has changed it.
pub fn start(calls: &mut Calls, session: &Session) {
    if calls.session() != session {
        calls.set_session(session);
    }
}

/// The bytes as one record, and in runs.
fn compare(calls: &mut Calls, session: &Session, bytes: &[u8], agreed: &[u64]) {
    start(calls, session);
    let _ = calls.take(bytes, agreed);
    for more in [false, true] {
        start(calls, session);
        calls.run(bytes, more, agreed);
    }
}

/// Each two bytes behind an A where one is expected, and behind a G and a right Z of a lined file. In runs each two
/// behind the G, which has a fast path there, and behind the others each two of which one is right.
pub fn each_two_bytes(calls: &mut Calls, random: &mut Random, times: u64) {
    for _ in 0..times {
        let version = days::version(random);
        let lined = open(version, true);
        let agreed = lists::right(random, &boards::FEW);
        let [header, payment, trailer] = right_records(random, &lined, version, &agreed);
        let closed = Session::new();
        for (session, record) in [(&closed, header), (&lined, payment), (&lined, trailer)] {
            let mut bytes = [&record, LINE_END.as_slice()].concat();
            for two in 0..=u16::MAX {
                let end = two.to_be_bytes();
                bytes[150..].copy_from_slice(&end);
                start(calls, session);
                let _ = calls.take(&bytes, &agreed);
                if record[0] == b'G' || end[0] == LINE_END[0] || end[1] == LINE_END[1] {
                    start(calls, session);
                    calls.run(&bytes, true, &agreed);
                }
            }
        }
    }
}

/// Right and wrong records with each damaged line end; then each length of two records, with and without line ends.
/// Payments may be of agreed issuers and have no due date.
pub fn each_length(calls: &mut Calls, random: &mut Random, times: u64) {
    for _ in 0..times {
        for version in [4, 6] {
            for session in states(version) {
                let agreed = lists::lent(random, &boards::FEW);
                let made = lists::made(random, &agreed);
                let right = right_records(random, &session, version, made);
                let wrong = wrong_records(random, &session, version, made);
                for record in right.iter().chain(&wrong) {
                    for end in WRONG_ENDS.iter().chain([&LINE_END.as_slice()]) {
                        compare(calls, &session, &[record, *end].concat(), &agreed);
                    }
                }
                for record in right {
                    cut_anywhere(calls, random, &session, &record, &agreed);
                }
            }
        }
    }
}

/// Each length of a record and a G behind it: as one record up to 160 bytes, and in runs.
fn cut_anywhere(
    calls: &mut Calls,
    random: &mut Random,
    session: &Session,
    record: &[u8; 150],
    agreed: &[u64],
) {
    let made = lists::made(random, agreed);
    let second = boards::payment(random, session.version.max(4), made);
    for end in [b"".as_slice(), LINE_END] {
        let bytes = [record, end, &second, end].concat();
        for length in 0..=160 {
            start(calls, session);
            let _ = calls.take(&bytes[..length], agreed);
        }
        for length in 0..=bytes.len() {
            for more in [false, true] {
                start(calls, session);
                calls.run(&bytes[..length], more, agreed);
            }
        }
    }
}
