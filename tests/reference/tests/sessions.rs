//! Choices of docs/SPEC.md, "Sessions" and "Board", each with an input that tells it from another reading.

mod common;

use common::{a, a_of, assert_answer, code_for, g, p4_code, with_bytes, z};
use reference::session::PAIRS;
use reference::{barcode, Board, Lane, Memory, Pair, Session};

const E18: u64 = 1_000_000_000_000_000_000;
const FILE_LIMIT: u64 = 99_999_999_999_999_999;

/// A pair that no header has.
const STRANGE: Pair = Pair {
    bank: [7; 3],
    agreement: [7; 20],
    sequence: u64::MAX,
};

fn opened() -> Session {
    let mut session = Session::new();
    assert_answer(session.take(&a(), &[]), 0, 0);
    session
}

#[test]
fn limits_are_checked_after_the_fields() {
    let mut session = opened();
    session.taken = 999_997;
    let good = g(&p4_code(), 1);
    assert_answer(
        session.take(&with_bytes(good, 22, b"20230229"), &[]),
        11,
        22,
    );
    assert_answer(session.take(&with_bytes(good, 142, b"x"), &[]), 10, 142);
    assert_answer(session.take(&good, &[]), 15, 1);
}

#[test]
fn a_refused_z_leaves_the_file_open() {
    let mut session = opened();
    assert_answer(session.take(&g(&p4_code(), 109), &[]), 0, 0);
    let before = session.clone();
    assert_answer(session.take(&z(3, 1), &[]), 14, 8);
    assert_eq!(session, before);
    assert_answer(session.take(&z(2, 1), &[]), 13, 2);
    assert_eq!(session, before);
    assert_answer(session.take(&z(3, 109), &[]), 0, 0);
    assert_eq!(session.board().centavos, 109);
}

#[test]
fn lanes_of_the_open_file_count() {
    let mut session = opened();
    for number in 0..64 {
        assert_answer(session.take(&g(&code_for(1, number), 1), &[]), 0, 0);
    }
    let before = session.clone();
    assert_answer(session.take(&g(&code_for(2, 0), 1), &[]), 17, 53);
    assert_eq!(session, before);
    // An issuer of the open file is not new a second time.
    assert_answer(session.take(&g(&code_for(1, 63), 1), &[]), 0, 0);
    assert_eq!(session.board().used, 0);
    session.abandon();
    assert_eq!(session, Session::new());
}

#[test]
fn exactly_at_the_limit_is_accepted() {
    let mut session = opened();
    session.total = FILE_LIMIT - 1;
    assert_answer(session.take(&g(&p4_code(), 2), &[]), 16, 82);
    assert_answer(session.take(&g(&p4_code(), 1), &[]), 0, 0);
    assert_answer(session.take(&g(&p4_code(), 1), &[]), 16, 82);
    assert_answer(session.take(&g(&p4_code(), 0), &[]), 0, 0);
    let mut session = opened();
    session.working.centavos = E18 - 1;
    assert_answer(session.take(&g(&p4_code(), 2), &[]), 18, 82);
    assert_answer(session.take(&g(&p4_code(), 1), &[]), 0, 0);
    assert_answer(session.take(&g(&p4_code(), 1), &[]), 18, 82);
    assert_answer(session.take(&g(&p4_code(), 0), &[]), 0, 0);
    let mut session = opened();
    session.working.payments = E18 - 1;
    assert_answer(session.take(&g(&p4_code(), 0), &[]), 0, 0);
    assert_answer(session.take(&g(&p4_code(), 0), &[]), 18, 82);
}

#[test]
fn abandon_without_a_file_changes_nothing() {
    let memory = Memory {
        pairs: [STRANGE; PAIRS],
        used: 99,
    };
    let mut session = Session {
        open: false,
        taken: u64::MAX,
        total: 5,
        version: 77,
        lined: true,
        shown: Board::new(),
        working: Board {
            used: 99,
            ..Board::new()
        },
        opening: STRANGE,
        memory,
    };
    let before = session.clone();
    session.abandon();
    assert_eq!(session, before);
    session.open = true;
    session.abandon();
    let closed = Session {
        memory,
        ..Session::new()
    };
    assert_eq!(session, closed);
}

#[test]
fn an_accepted_a_starts_from_the_board_shown() {
    let mut session = Session {
        open: false,
        taken: 9,
        total: 9,
        version: 9,
        lined: true,
        shown: Board::new(),
        working: Board {
            payments: 9,
            ..Board::new()
        },
        opening: STRANGE,
        memory: Memory::new(),
    };
    assert_answer(session.take(&a(), &[]), 0, 0);
    assert_eq!(session, opened());
}

#[test]
fn closed_sessions_are_equal() {
    let mut session = opened();
    assert_answer(session.take(&g(&p4_code(), 5), &[]), 0, 0);
    assert_answer(session.take(&z(3, 5), &[]), 0, 0);
    assert_eq!((session.taken, session.total, session.version), (0, 0, 0));
    assert!(!session.lined);
    assert_eq!(session.working, session.shown);
    assert_eq!(session.opening, Pair::new());
    let closed = session.clone();
    assert_answer(session.take(&a_of(2), &[]), 0, 0);
    assert_answer(session.take(&g(&code_for(3, 3), 5), &[]), 0, 0);
    session.abandon();
    assert_eq!(session, closed);
}

/// `finish` borrows the session, so it changes nothing.
#[test]
fn finish_answers_for_an_open_file() {
    assert_answer(Session::new().finish(), 0, 0);
    let mut session = opened();
    assert_answer(session.finish(), 19, 0);
    assert_answer(session.take(&g(&p4_code(), 5), &[]), 0, 0);
    assert_answer(session.finish(), 19, 0);
    assert_answer(session.take(&z(3, 5), &[]), 0, 0);
    assert_answer(session.finish(), 0, 0);
}

#[test]
fn arbitrary_sessions() {
    let code = p4_code();
    let mut most = opened();
    most.taken = u64::MAX;
    assert_answer(most.take(&g(&code, 0), &[]), 15, 1);
    assert_answer(most.take(&z(1, 0), &[]), 13, 2);
    assert_answer(most.take(&z(999_999, 0), &[]), 13, 2);
    let mut wide = opened();
    wide.total = u64::MAX;
    assert_answer(wide.take(&g(&code, 1), &[]), 16, 82);
    assert_answer(wide.take(&g(&code, 0), &[]), 16, 82);
    assert_answer(wide.take(&z(2, 0), &[]), 14, 8);
    let mut crowded = opened();
    crowded.working.used = usize::MAX;
    assert_answer(crowded.take(&g(&code, 1), &[]), 17, 53);
    // Lanes are searched among the 64, however large `used` is.
    assert_answer(crowded.take(&g(&code_for(1, 1), 1), &[]), 17, 53);
    crowded.working.lanes[63] = Lane {
        issuer: barcode::decode(&code, &[]).unwrap().issuer(),
        payments: 0,
        centavos: 0,
        tariff: 0,
    };
    assert_answer(crowded.take(&g(&code, 1), &[]), 0, 0);
    assert_eq!(crowded.working.used, usize::MAX);
    crowded.working.used = 63;
    assert_answer(crowded.take(&g(&code, 1), &[]), 0, 0);
    assert_eq!(crowded.working.lanes[63].payments, 1);
    assert_eq!(crowded.working.used, 64);
    for (lane, board) in [(u64::MAX, 0), (0, u64::MAX), (E18, 0), (0, E18)] {
        for payments in [true, false] {
            let mut past = opened();
            assert_answer(past.take(&g(&code, 0), &[]), 0, 0);
            if payments {
                past.working.lanes[0].payments = lane;
                past.working.payments = board;
            } else {
                past.working.lanes[0].centavos = lane;
                past.working.centavos = board;
            }
            let before = past.clone();
            assert_answer(past.take(&g(&code, 1), &[]), 18, 82);
            assert_eq!(past, before);
        }
    }
}

#[test]
fn run_takes_records_up_to_a_refusal() {
    let mut bytes = [a(), g(&p4_code(), 109), z(3, 109), a_of(2)].concat();
    let mut session = Session::new();
    let run = session.run(&bytes, false, &[]);
    assert_eq!((run.records, run.files, run.answer), (4, 1, Ok(())));
    assert_eq!(run.bytes, 600);
    let mut session = Session::new();
    bytes.extend_from_slice(&g(&p4_code(), 1)[..149]);
    let run = session.run(&bytes, false, &[]);
    assert_eq!((run.records, run.files, run.bytes), (4, 1, 600));
    assert_answer(run.answer, 1, 0);
    assert!(session.open);
    assert_eq!(session.board().centavos, 109);
    let run = Session::new().run(&[], false, &[]);
    assert_eq!((run.records, run.files, run.answer), (0, 0, Ok(())));
    assert_eq!(run.bytes, 0);
    let bytes = [a(), z(3, 0), z(2, 0)].concat();
    let run = Session::new().run(&bytes, false, &[]);
    assert_eq!((run.records, run.bytes), (1, 150));
    assert_answer(run.answer, 13, 2);
}

#[test]
fn issuers_differ_by_segment() {
    let mut session = Session::new();
    for record in [
        a(),
        g(&code_for(1, 3659), 1),
        g(&code_for(2, 3659), 2),
        g(&code_for(1, 3659), 4),
        z(5, 7),
    ] {
        assert_answer(session.take(&record, &[]), 0, 0);
    }
    let lanes = session.board().in_use();
    assert_eq!(lanes.len(), 2);
    let numbers = |lane: &Lane| (lane.payments, lane.centavos, lane.tariff);
    assert_eq!(numbers(&lanes[0]), (2, 5, 300));
    assert_eq!(numbers(&lanes[1]), (1, 2, 150));
}
