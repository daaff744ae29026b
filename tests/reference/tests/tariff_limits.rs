//! Tariffs near 10^18, on boards in arbitrary states: 18 at 94, what comes before it and what comes behind it.

mod common;

use common::steps::{assert_refused, assert_taken};
use common::{a, a_of, assert_answer, code_for, followed, g_tariff, lined, p4_code, with_bytes, z};
use reference::{Board, Issuer, Lane, Session};

const E18: u64 = 1_000_000_000_000_000_000;
const FILE_LIMIT: u64 = 99_999_999_999_999_999;

/// The issuer of P4.
const P4_ISSUER: Issuer = Issuer {
    segment: 1,
    number: 3_659,
};

/// A session with a file open, whose working board has one lane, of the issuer of P4: payments, centavos and tariff of
/// the lane, and of the totals.
fn by_hand(lane: [u64; 3], totals: [u64; 3]) -> Session {
    let mut session = Session::new();
    assert_answer(session.take(&a(), &[]), 0, 0);
    session.working = Board {
        used: 1,
        payments: totals[0],
        centavos: totals[1],
        tariff: totals[2],
        ..Board::new()
    };
    session.working.lanes[0] = Lane {
        issuer: P4_ISSUER,
        payments: lane[0],
        centavos: lane[1],
        tariff: lane[2],
    };
    session
}

/// A payment of P4's issuer.
fn paid(received: u64, tariff: u64) -> [u8; 150] {
    g_tariff(&p4_code(), received, tariff)
}

/// The lane's tariff and the total.
fn tariffs(session: &Session) -> (u64, u64) {
    (session.working.lanes[0].tariff, session.working.tariff)
}

#[test]
fn exactly_at_the_limit_is_accepted() {
    for (lane, total) in [(E18 - 150, E18 - 150), (E18 - 150, 0), (0, E18 - 150)] {
        let mut session = by_hand([1, 1, lane], [1, 1, total]);
        assert_refused(&mut session, &paid(0, 151), 18, 94);
        assert_refused(&mut session, &paid(0, 9_999_999), 18, 94);
        assert_taken(&mut session, &paid(0, 150));
        assert_eq!(tariffs(&session), (lane + 150, total + 150));
        assert_refused(&mut session, &paid(0, 1), 18, 94);
        assert_taken(&mut session, &paid(0, 0));
        assert_eq!(tariffs(&session), (lane + 150, total + 150));
    }
}

/// Past the limit before: then tariff 0 is refused too, and no sum wraps.
#[test]
fn past_the_limit_before() {
    for past in [E18 + 1, 1 << 63, u64::MAX - 1, u64::MAX] {
        for (lane, total) in [(past, 0), (0, past), (past, past)] {
            let mut session = by_hand([1, 1, lane], [1, 1, total]);
            for tariff in [0, 1, 2, 9_999_999] {
                assert_refused(&mut session, &paid(1, tariff), 18, 94);
            }
        }
    }
}

/// The lane's own sum is asked, though the total is not past the limit, and the other way round.
#[test]
fn the_lane_and_the_total_are_both_asked() {
    assert_refused(&mut by_hand([1, 1, E18], [1, 1, 0]), &paid(0, 1), 18, 94);
    assert_refused(&mut by_hand([1, 1, 0], [1, 1, E18]), &paid(0, 1), 18, 94);
    // A new issuer has no sum of its own.
    let mut session = by_hand([1, 1, 0], [1, 1, E18]);
    let other = code_for(2, 3_659);
    assert_refused(&mut session, &g_tariff(&other, 0, 1), 18, 94);
    assert_taken(&mut session, &g_tariff(&other, 0, 0));
}

/// Only the payment's own lane is asked, of the working board. A lane that is not in use has no sums.
#[test]
fn other_sums_are_not_asked() {
    let mut session = by_hand([1, 1, u64::MAX], [1, 1, 0]);
    session.shown.tariff = u64::MAX;
    session.shown.lanes[0].tariff = u64::MAX;
    let other = g_tariff(&code_for(2, 7), 0, 5);
    session.working.lanes[1].tariff = u64::MAX;
    assert_taken(&mut session, &other);
    assert_eq!(session.working.lanes[1].tariff, 5);
    assert_eq!(tariffs(&session), (u64::MAX, 5));
    assert_eq!(session.shown.tariff, u64::MAX);
    assert_refused(&mut session, &paid(0, 0), 18, 94);
}

/// Each of the six sums past the limit or exactly at it: 18 at 82 for any of the older four, else 18 at 94.
#[test]
fn each_combination_of_sums() {
    for mask in 0..64u64 {
        let is_past = |bit: u32| mask >> bit & 1 == 1;
        let before = |bit: u32| if is_past(bit) { E18 } else { E18 - 1 };
        let mut session = by_hand([0, 1, 2].map(before), [3, 4, 5].map(before));
        let older = [0, 1, 3, 4].into_iter().any(is_past);
        if older {
            assert_refused(&mut session, &paid(1, 1), 18, 82);
        } else if mask != 0 {
            assert_refused(&mut session, &paid(1, 1), 18, 94);
        } else {
            assert_taken(&mut session, &paid(1, 1));
            assert_eq!(tariffs(&session), (E18, E18));
        }
    }
}

/// Both are past, in the lane or in the totals: the older sums come first.
#[test]
fn the_older_sums_come_first() {
    for past in [E18, u64::MAX] {
        for older in [[past, 0, 0], [0, past, 0], [past, past, 0]] {
            let and_tariff = [older[0], older[1], past];
            let tariff = [0, 0, past];
            for (lane, totals) in [
                (and_tariff, [0; 3]),
                ([0; 3], and_tariff),
                (older, tariff),
                (tariff, older),
                (and_tariff, and_tariff),
            ] {
                assert_refused(&mut by_hand(lane, totals), &paid(1, 1), 18, 82);
            }
        }
    }
}

#[test]
fn a_65th_issuer_comes_first() {
    for past in [E18, u64::MAX] {
        for totals in [[past; 3], [0, 0, past]] {
            let mut session = by_hand([past; 3], totals);
            for (i, lane) in session.working.lanes[1..].iter_mut().enumerate() {
                lane.issuer = Issuer {
                    segment: 3,
                    number: i as u64,
                };
            }
            session.working.used = 64;
            let new = g_tariff(&code_for(2, 3_659), 1, 1);
            assert_refused(&mut session, &new, 17, 53);
            let place = if totals[0] == past { 82 } else { 94 };
            let known = g_tariff(&code_for(3, 62), 1, 1);
            assert_refused(&mut session, &known, 18, place);
        }
    }
}

#[test]
fn the_file_and_the_fields_come_first() {
    let dear = by_hand([0, 0, E18], [0, 0, E18]);
    let mut many = dear.clone();
    many.taken = 999_997;
    assert_refused(&mut many, &paid(0, 1), 15, 1);
    let mut full = dear.clone();
    full.total = FILE_LIMIT;
    assert_refused(&mut full, &paid(1, 1), 16, 82);
    assert_refused(&mut full, &paid(0, 1), 18, 94);
    let mut dear = dear;
    for (place, bytes, number, answered) in [
        (22, &b"20230229"[..], 11, 22),
        (94, b"x", 2, 94),
        (101, b"x", 2, 101),
        (117, b"0", 12, 117),
        (141, b"0", 12, 141),
        (150, b"x", 10, 142),
    ] {
        let record = with_bytes(paid(1, 1), place, bytes);
        assert_refused(&mut dear, &record, number, answered);
    }
    assert_refused(&mut dear, &paid(1, 1), 18, 94);
}

#[test]
fn a_wrong_line_end_comes_behind() {
    let mut session = by_hand([0, 0, E18], [0, 0, 0]);
    session.lined = true;
    for end in [&b""[..], b"\r", b"\n", b"\n\r", b"\r\r", b"xx"] {
        let dear = followed(&paid(1, 1), end);
        assert_refused(&mut session, &dear, 18, 94);
        let good = followed(&paid(1, 0), end);
        assert_refused(&mut session, &good, 22, 151);
    }
    assert_refused(&mut session, &lined(&paid(1, 1)), 18, 94);
    assert_taken(&mut session, &lined(&paid(1, 0)));
}

/// From one file to the next: the working board starts from the board shown.
#[test]
fn the_limit_over_two_files() {
    let mut session = by_hand([5, 5, E18 - 4], [5, 5, E18 - 4]);
    for record in [paid(2, 3), z(3, 2), a_of(2), paid(2, 1)] {
        assert_taken(&mut session, &record);
    }
    assert_eq!(session.board().tariff, E18 - 1);
    assert_refused(&mut session, &paid(2, 1), 18, 94);
    assert_taken(&mut session, &z(3, 2));
    let (board, lane) = (session.board(), session.board().lanes[0]);
    assert_eq!((lane.payments, lane.centavos, lane.tariff), (7, 9, E18));
    assert_eq!((board.payments, board.centavos, board.tariff), (7, 9, E18));
    assert_taken(&mut session, &a_of(3));
    assert_refused(&mut session, &paid(0, 1), 18, 94);
    let other = g_tariff(&code_for(2, 3_659), 0, 1);
    assert_refused(&mut session, &other, 18, 94);
    assert_taken(&mut session, &paid(0, 0));
}
