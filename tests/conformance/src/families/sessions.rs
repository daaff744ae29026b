//! Sessions, boards and pages: days, lined and bare, damaged, out of order, with codes of the other version, with wrong
//! sequence numbers and cut anywhere, and sessions in arbitrary states.

use reference::random::Random;
use reference::records::{LENGTH, LINED, LINE_END};
use reference::session::LANES;
use reference::{days, digits, Board, Issuer, Lane, Reason, Session};

use super::boards::{board, payment, FEW};
use super::near;
use crate::calls::{Calls, MOST_PAGE, PAGE};
use crate::{lines, lists, memories, versions};

/// A day of 0 to 70 issuers and a list, with files of both versions, lined, bare or both: unchanged, damaged at one to
/// three places, out of order, or both. One in five has another version or another code in one to three records, one in
/// five a damaged line end, one in five wrong sequence numbers.
fn day(random: &mut Random) -> (Vec<u8>, Vec<u64>) {
    let count = random.index(71);
    let issuers = days::issuers(random, count);
    let agreed = lists::lent(random, &issuers);
    let made = lists::made(random, &agreed);
    let (files, most) = (random.index(5), random.index(30));
    let form = lines::form(random);
    let mut bytes = days::day_under(random, &issuers, files, most, form, made)
        .expect("a good day")
        .bytes;
    let how = random.below(4);
    if how & 1 != 0 {
        days::damage(random, &mut bytes);
    }
    if how & 2 != 0 {
        days::disorder(random, &mut bytes);
    }
    match random.below(5) {
        0 => versions::change_day(random, &mut bytes),
        1 => days::damage_line_end(random, &mut bytes),
        2 => days::misnumber(random, &mut bytes),
        _ => {}
    }
    (bytes, agreed)
}

/// Days record by record, with the session after each. Sometimes a record is tried with another line end first, or has
/// another list. Sometimes a refused record is taken again, or the file abandoned.
pub fn by_record(calls: &mut Calls, random: &mut Random, times: u64) {
    for _ in 0..1_500 * times {
        calls.new_session();
        let (bytes, agreed) = day(random);
        for range in lines::records(&bytes) {
            let record = &bytes[range];
            let list = lists::sometimes_other(random, &agreed);
            if random.once_in(8) {
                if let Some(record) = record.first_chunk() {
                    let lined = random.once_in(2);
                    let _ = calls.take(&lines::with_end(random, record, lined), &agreed);
                }
            }
            if calls.take(record, &list).is_err() {
                match random.below(4) {
                    0 => calls.abandon(),
                    1 => calls.finish_session(),
                    2 => calls.take(record, &agreed).unwrap_or(()),
                    _ => {}
                }
            }
            if random.once_in(40) {
                calls.abandon();
            }
        }
        calls.finish_session();
        calls.board();
    }
}

/// Days in runs over pieces that are cut anywhere, then the page.
pub fn by_run(calls: &mut Calls, random: &mut Random, times: u64) {
    for _ in 0..8_000 * times {
        calls.new_session();
        let (bytes, agreed) = day(random);
        if random.once_in(2) {
            let ends = lines::cuts(random, bytes.len());
            lines::feed(calls, &bytes, &ends, &agreed);
        } else {
            lines::run_pieces(calls, random, &bytes, &agreed);
        }
        calls.finish_session();
        calls.page(0, 0, random.number(19), random.number(19), PAGE);
    }
}

/// Random bytes of every length up to 200, half of them with a letter first and half of the long ones with CR and LF
/// where they follow a record: taken by a new session, and by one with a bare or a lined file open.
pub fn noise(calls: &mut Calls, random: &mut Random, times: u64) {
    for i in 0..20 * times {
        calls.new_session();
        if i % 2 == 1 {
            let header = days::header(random).expect("a good header");
            let end = lines::end(i % 4 == 3);
            calls
                .take(&[&header, end].concat(), &[])
                .expect("a file to open");
        }
        for length in 0..=200 {
            let mut bytes = super::noise(random, length);
            if let (Some(first), true) = (bytes.first_mut(), random.once_in(2)) {
                *first = random.one_of(b"AGZ");
            }
            if let (Some(end), true) = (bytes.get_mut(LENGTH..LINED), random.once_in(2)) {
                end.copy_from_slice(LINE_END);
            }
            let agreed = lists::lent(random, &[]);
            let _ = calls.take(&bytes, &agreed);
            calls.run(&bytes, false, &agreed);
            calls.run(&bytes, true, &agreed);
        }
    }
}

/// A trailer with the count and the total of the session's file, if they fit in its fields.
pub fn trailer(session: &Session) -> [u8; 150] {
    let mut record = [b' '; 150];
    record[0] = b'Z';
    record[1..24].fill(b'0');
    digits::write(session.taken.saturating_add(2), &mut record[1..7]);
    digits::write(session.total, &mut record[7..24]);
    record
}

/// The figures of a file, payments and centavos: near their limits, or far from them, so that payments come up to the
/// limits of the board.
fn figures(random: &mut Random) -> [u64; 2] {
    if random.once_in(2) {
        return [random.number(5), random.number(16)];
    }
    [
        near(random, &[0, 999_996, 999_997, u64::MAX - 2]),
        near(random, &[0, 99_999_999_999_999_999, u64::MAX]),
    ]
}

/// Sessions in arbitrary states, with a few calls each. Their file may have a version that is none, and may be lined or
/// have a pair while it is not open.
pub fn arbitrary(calls: &mut Calls, random: &mut Random, times: u64) {
    for _ in 0..12_000 * times {
        let memory = memories::memory(random);
        let [taken, total] = figures(random);
        let session = Session {
            open: !random.once_in(8),
            taken,
            total,
            version: versions::told(random),
            lined: random.once_in(2),
            shown: board(random),
            working: board(random),
            opening: memories::opening(random, &memory),
            memory,
        };
        calls.set_session(&session);
        let agreed = lists::lent(random, &FEW);
        for _ in 0..random.index(5) {
            call(calls, random, &agreed);
        }
        match random.below(4) {
            0 => calls.abandon(),
            1 => calls.finish_session(),
            2 => calls.board(),
            _ => calls.page(
                answer_number(random),
                random.number(19),
                random.bits(),
                random.bits(),
                PAGE,
            ),
        }
    }
}

/// One record for the session as it is, or a run of three, mostly with the line ends of its file.
fn call(calls: &mut Calls, random: &mut Random, agreed: &[u64]) {
    let Session { version, lined, .. } = *calls.session();
    let version = versions::made(random, version);
    let made = lists::made(random, agreed);
    let next = match random.below(10) {
        0 => trailer(calls.session()),
        1 => days::trailer(random),
        2 => memories::header(random, &calls.session().memory),
        _ => payment(random, version, made),
    };
    let mut bytes = lines::with_end(random, &next, lined);
    if random.once_in(8) {
        let second = payment(random, version, made);
        bytes.extend(lines::with_end(random, &second, lined));
        let mut ahead = calls.session().clone();
        ahead.run(&bytes, false, agreed);
        bytes.extend(lines::with_end(random, &trailer(&ahead), lined));
        calls.run(&bytes, random.once_in(2), agreed);
    } else {
        let _ = calls.take(&bytes, agreed);
    }
}

/// The number of an answer on a page: that of a reason, one near it, or any number.
fn answer_number(random: &mut Random) -> u64 {
    let reason = Reason::ALL[random.index(Reason::ALL.len())];
    near(random, &[0, reason.number(), u64::MAX])
}

/// The length of a page's buffer: mostly the required one.
fn page_length(random: &mut Random) -> usize {
    match random.below(8) {
        0 => random.index(MOST_PAGE + 1),
        1 => PAGE - 1 + 2 * random.index(2),
        _ => PAGE,
    }
}

/// The board with the longest page: every lane is in use, and every number has 20 digits.
fn longest() -> Board {
    let most = u64::MAX;
    let lane = Lane {
        issuer: Issuer {
            segment: most,
            number: most,
        },
        payments: most,
        centavos: most,
        tariff: most,
    };
    Board {
        lanes: [lane; LANES],
        used: LANES,
        payments: most,
        centavos: most,
        tariff: most,
    }
}

/// The longest page, and pages of boards in arbitrary states, with answers of any number and any place, into buffers of
/// any length.
pub fn pages(calls: &mut Calls, random: &mut Random, times: u64) {
    let mut session = Session::new();
    session.shown = longest();
    calls.set_session(&session);
    calls.page(u64::MAX, u64::MAX, u64::MAX, u64::MAX, PAGE);
    for _ in 0..1_500 * times {
        session.shown = board(random);
        calls.set_session(&session);
        calls.page(
            answer_number(random),
            near(random, &[0, 150, u64::MAX]),
            random.bits(),
            random.bits(),
            page_length(random),
        );
        calls.page(
            answer_number(random),
            random.number(4),
            random.number(19),
            random.number(19),
            PAGE,
        );
    }
}
