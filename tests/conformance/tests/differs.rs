//! A difference is found: one changed byte of a reply, a changed tariff, and a process that stops early.

use conformance::engine::{Batch, Engine};
use conformance::wire;
use reference::session::LANES;
use reference::Session;

/// Two barcodes of length 0 with empty lists, and the engine's replies to them.
fn batch() -> Batch {
    let mut reply = vec![0; 168];
    // refused 1 by the check, the decoder and the conversion, which does not change its buffer
    for answer in [0, 16, 104] {
        reply[answer] = 1;
    }
    reply[120..].fill(0xA5);
    Batch {
        requests: b"b\0\0b\0\0".to_vec(),
        expected: [reply.clone(), reply].concat(),
        starts: vec![(0, 0), (3, 168)],
    }
}

fn compare(batch: Batch) -> Result<(), String> {
    let mut engine = Engine::start();
    engine.send(batch);
    engine.finish()
}

#[test]
fn equal_replies_pass() {
    assert_eq!(compare(batch()), Ok(()));
}

#[test]
fn a_changed_byte_is_found() {
    for i in (0..336).step_by(37) {
        let mut other = batch();
        other.expected[i] ^= 1;
        let found = compare(other).expect_err("a difference");
        assert!(
            found.contains(&format!("byte Some({})", i % 168)),
            "{found}"
        );
    }
}

/// The length of a board: 64 lanes of five numbers, how many are in use, and three totals.
const BOARD: usize = 8 * (5 * LANES + 4);

/// A session that has another tariff in each lane and in the total of the board shown, and that board.
fn batch_of_board() -> Batch {
    let mut session = Session::new();
    for (lane, tariff) in session.shown.lanes.iter_mut().zip(1..) {
        lane.tariff = tariff << 32;
    }
    session.shown.tariff = u64::MAX;
    let mut requests = vec![b's'];
    wire::session(&mut requests, &session);
    let second = requests.len();
    requests.push(b'B');
    let mut expected = Vec::new();
    wire::board(&mut expected, &session.shown);
    assert_eq!(expected.len(), BOARD);
    Batch {
        requests,
        expected,
        starts: vec![(0, 0), (second, 0)],
    }
}

#[test]
fn tariffs_go_there_and_back() {
    assert_eq!(compare(batch_of_board()), Ok(()));
}

/// The tariff of the first lane, of the last one and of the total, each in its first and in its last byte.
#[test]
fn a_changed_tariff_is_found() {
    for tariff in [32, 40 * (LANES - 1) + 32, BOARD - 8] {
        for i in [tariff, tariff + 7] {
            let mut other = batch_of_board();
            other.expected[i] ^= 1;
            let found = compare(other).expect_err("a difference");
            assert!(found.contains(&format!("byte Some({i})")), "{found}");
        }
    }
}

#[test]
fn a_process_that_stops_is_found() {
    let mut other = batch();
    other.requests[3] = b'?';
    assert!(compare(other).is_err());
}
