//! The cases of payments at the limit of tariffs are told apart: a run must reach each of them.

use conformance::calls::cases::{self, Case};
use reference::random::Random;
use reference::records::{LENGTH, LINE_END};
use reference::session::{LANES, MOST_BOARD_TOTAL, MOST_FILE_TOTAL, MOST_PAYMENTS};
use reference::{days, Issuer, Lane, Session, Stage, Writer};

const ISSUER: Issuer = Issuer {
    segment: 2,
    number: 42,
};

/// A payment of the issuer.
fn payment(received: u64, tariff: u64) -> Vec<u8> {
    let random = &mut Random::new(1);
    let code = days::barcode_of(random, ISSUER).expect("a good barcode");
    let fields = days::payment_fields(random, &code, 4);
    let mut writer = Writer {
        stage: Stage::Open,
        version: 4,
        ..Writer::new()
    };
    let mut record = vec![0; LENGTH];
    let written = writer.payment(&fields, received, tariff, &[], &mut record);
    written.expect("a good payment");
    record
}

/// A session with a file open, whose working board has one lane, of the issuer: payments, centavos and tariff of the
/// lane, and of the total.
fn session(lane: [u64; 3], total: [u64; 3]) -> Session {
    let mut session = Session {
        open: true,
        version: 4,
        ..Session::new()
    };
    let board = &mut session.working;
    board.used = 1;
    board.lanes[0] = Lane {
        issuer: ISSUER,
        payments: lane[0],
        centavos: lane[1],
        tariff: lane[2],
    };
    [board.payments, board.centavos, board.tariff] = total;
    session
}

/// The cases that these bytes meet, as one record and in a run.
fn met(session: &Session, bytes: &[u8]) -> Vec<Case> {
    let mut after = session.clone();
    let answer = after.take(bytes, &[]);
    let taken = cases::of([session, &after], bytes, answer);
    let mut after = session.clone();
    let result = after.run(bytes, false, &[]);
    let rest = &bytes[result.bytes..];
    assert_eq!(cases::of([session, &after], rest, result.answer), taken);
    taken
}

/// A payment of tariff 7 is just accepted.
const NEAR: [u64; 3] = [0, 0, MOST_BOARD_TOTAL - 7];
const FAR: [u64; 3] = [0; 3];
const FULL: [u64; 3] = [MOST_BOARD_TOTAL; 3];

#[test]
fn accepted_payments() {
    let both = vec![Case::LaneExact, Case::TotalExact];
    assert_eq!(met(&session(NEAR, NEAR), &payment(5, 7)), both);
    let lane = met(&session(NEAR, FAR), &payment(5, 7));
    assert_eq!(lane, [Case::LaneExact]);
    let total = met(&session(FAR, NEAR), &payment(5, 7));
    assert_eq!(total, [Case::TotalExact]);
    assert_eq!(met(&session(NEAR, NEAR), &payment(5, 6)), []);
    // They were 10^18 before.
    let exact = [0, 0, MOST_BOARD_TOTAL];
    assert_eq!(met(&session(exact, exact), &payment(5, 0)), []);
}

#[test]
fn payments_refused_for_their_tariff() {
    let past = payment(5, 8);
    assert_eq!(met(&session(NEAR, NEAR), &past), [Case::BothPast]);
    assert_eq!(met(&session(NEAR, FAR), &past), [Case::LanePast]);
    assert_eq!(met(&session(FAR, NEAR), &past), [Case::TotalPast]);
}

#[test]
fn payments_of_lined_files() {
    let mut lined = session(NEAR, NEAR);
    lined.lined = true;
    let late = [Case::BothPast, Case::PastBeforeLineEnd];
    assert_eq!(met(&lined, &payment(5, 8)), late);
    assert_eq!(met(&lined, &payment(5, 7)), [Case::ExactAtLineEnd]);
    assert_eq!(met(&lined, &payment(5, 6)), []);
    let past = [&payment(5, 8)[..], LINE_END].concat();
    assert_eq!(met(&lined, &past), [Case::BothPast]);
}

#[test]
fn payments_refused_before_their_tariff() {
    let others = [MOST_BOARD_TOTAL, 0, MOST_BOARD_TOTAL - 7];
    for [lane, total] in [[others, FAR], [FAR, others], [others, NEAR]] {
        let session = session(lane, total);
        assert_eq!(met(&session, &payment(5, 8)), [Case::BehindOthers]);
        assert_eq!(met(&session, &payment(5, 7)), []);
    }
    let mut at_end = session(NEAR, FAR);
    at_end.total = MOST_FILE_TOTAL;
    assert_eq!(met(&at_end, &payment(5, 8)), [Case::BehindFile]);
    assert_eq!(met(&at_end, &payment(5, 7)), []);
    at_end.taken = MOST_PAYMENTS;
    assert_eq!(met(&at_end, &payment(0, 8)), [Case::BehindFile]);
    for (total, wanted) in [(FULL, vec![Case::BehindLanes]), (NEAR, vec![])] {
        let mut session = session(FAR, total);
        session.working.used = LANES;
        session.working.lanes[0].issuer.number += 1;
        assert_eq!(met(&session, &payment(5, 8)), wanted);
    }
}

/// In a run a payment may be accepted and the next one refused.
#[test]
fn runs() {
    let before = session(NEAR, FAR);
    let mut after = before.clone();
    let bytes = [payment(5, 7), payment(5, 1)].concat();
    let result = after.run(&bytes, false, &[]);
    let rest = &bytes[result.bytes..];
    let cases = cases::of([&before, &after], rest, result.answer);
    assert_eq!(cases, [Case::LaneExact, Case::LanePast]);
}
