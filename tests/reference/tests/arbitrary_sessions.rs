//! Sessions in arbitrary states against the naive one, which counts in 128 bits.

mod common;

use std::collections::BTreeMap;

use common::memories::{arbitrary_memory, arbitrary_opening, assert_rest_kept};
use common::naive::{NaiveFile, NaiveSession};
use common::{any_list, followed, g_tariff, numbered, with_bytes, z};
use reference::random::Random;
use reference::session::following;
use reference::{answer, days, Board, Issuer, Lane, Pair, Session};

const FILE_LIMIT: u64 = 99_999_999_999_999_999;
const E18: u64 = 1_000_000_000_000_000_000;

/// A number near a limit, or any.
fn edge(random: &mut Random) -> u64 {
    let limits = [0, 999_997, FILE_LIMIT, E18, u64::MAX, 1 << 32];
    let limit = limits[random.index(limits.len())];
    match random.below(4) {
        0 => random.bits(),
        1 => limit.saturating_sub(random.number(13)),
        2 => limit.saturating_add(random.number(13)),
        _ => limit,
    }
}

fn small_or_edge(random: &mut Random) -> u64 {
    if random.once_in(3) {
        edge(random)
    } else {
        random.number(6)
    }
}

/// Mostly 4 or 6, else any number.
fn arbitrary_version(random: &mut Random) -> u64 {
    match random.below(8) {
        0 => [0, 1, 3, 5, 7, 40, 46, 60, 77, u64::MAX][random.index(10)],
        1 => random.bits(),
        _ => days::version(random),
    }
}

fn arbitrary_board(random: &mut Random, few: &[Issuer]) -> Board {
    let mut board = Board {
        used: match random.below(4) {
            0 => 64,
            1 => 64 + random.index(3),
            2 => random.bits() as usize,
            _ => random.index(65),
        },
        payments: small_or_edge(random),
        centavos: small_or_edge(random),
        tariff: small_or_edge(random),
        ..Board::new()
    };
    for lane in &mut board.lanes {
        *lane = Lane {
            issuer: if random.once_in(8) {
                few[random.index(few.len())]
            } else {
                days::issuer(random)
            },
            payments: small_or_edge(random),
            centavos: small_or_edge(random),
            tariff: small_or_edge(random),
        };
    }
    board
}

fn arbitrary_session(random: &mut Random, few: &[Issuer], pairs: &[Pair]) -> Session {
    Session {
        open: !random.once_in(4),
        taken: if random.once_in(2) {
            edge(random)
        } else {
            random.below(5)
        },
        total: small_or_edge(random),
        version: arbitrary_version(random),
        lined: random.once_in(2),
        shown: arbitrary_board(random, few),
        working: arbitrary_board(random, few),
        opening: arbitrary_opening(random, pairs),
        memory: arbitrary_memory(random, pairs),
    }
}

/// A header, often of one of these pairs and with the number that follows.
fn any_header(random: &mut Random, session: &Session, pairs: &[Pair]) -> [u8; 150] {
    let pair = pairs[random.index(pairs.len())];
    let header = days::header_of(random, &pair).unwrap();
    let memory = &session.memory;
    let remembered = memory.in_use().iter().find(|one| one.is_same_pair(&pair));
    let next = remembered.and_then(|one| following(one.sequence));
    match (random.below(4), next) {
        (0, _) => days::header(random).unwrap(),
        (1 | 2, Some(number)) => numbered(header, number.min(999_999)),
        _ => header,
    }
}

/// A G or Z that is often accepted, or a header.
fn any_record(random: &mut Random, session: &Session, few: &[Issuer], pairs: &[Pair]) -> [u8; 150] {
    match random.below(8) {
        0 | 1 => any_header(random, session, pairs),
        2 | 3 => {
            let count = session.taken.saturating_add(2 - random.below(2));
            let total = session.total.saturating_sub(random.below(2));
            z(count.min(999_999), total.min(FILE_LIMIT))
        }
        _ => {
            let issuer = few[random.index(few.len())];
            let code = days::barcode_of(random, issuer).unwrap();
            let payment = g_tariff(&code, random.number(12), random.number(7));
            match random.below(4) {
                0 => with_bytes(payment, 117, &[random.one_of(b"06789:`fghij")]),
                1 => with_bytes(payment, 141, &[random.one_of(b"034567")]),
                _ => payment,
            }
        }
    }
}

/// What may follow a record: mostly nothing or its line end.
fn any_end(random: &mut Random) -> &'static [u8] {
    const ENDS: [&[u8]; 8] = [b"", b"", b"", b"\r\n", b"\r\n", b"\r", b"\n\r", b"\r\n\r"];
    ENDS[random.index(ENDS.len())]
}

/// What the naive board leaves out: `used` itself, and the lanes past it.
fn left_out(board: &Board) -> (usize, &[Lane]) {
    (board.used, &board.lanes[board.used.min(64)..])
}

/// What the naive session leaves out, after an accepted record with this letter.
fn assert_left_out(before: &Session, after: &Session, letter: u8) {
    let (shown, mut working) = match letter {
        b'A' => (before.shown, before.shown),
        b'G' => (before.shown, before.working),
        _ => (before.working, before.working),
    };
    // A G with a new issuer takes the next lane.
    working.used += after.working.in_use().len() - working.in_use().len();
    assert_eq!(left_out(&after.shown), left_out(&shown));
    assert_eq!(left_out(&after.working), left_out(&working));
    assert_rest_kept(&before.memory, &after.memory);
}

/// Rare states of the memory: no room for the pair of an accepted Z, and the pair of an accepted Z or A at two places
/// with two numbers, of which the first counts.
const RARE: [&str; 3] = ["Z without room", "Z, pair twice", "A, pair twice"];

/// The rare state that this answer depended on.
fn rare(before: &Session, record: &[u8], number: u64) -> Option<&'static str> {
    let file = match record[0] {
        b'A' => NaiveFile::of_header(record),
        _ => NaiveFile::of(&before.opening),
    };
    let places = before.memory.in_use().iter().map(NaiveFile::of);
    let same: Vec<NaiveFile> = places.filter(|one| one.pair == file.pair).collect();
    let differ = same.iter().any(|one| one.number != same[0].number);
    match (record[0], number) {
        (b'Z', 0) if same.is_empty() && before.memory.used >= 16 => Some(RARE[0]),
        (b'Z', 0) if differ => Some(RARE[1]),
        (b'A', 0) if differ => Some(RARE[2]),
        _ => None,
    }
}

/// What is counted of an answer: its number, and of 18, which has two places, the place too.
fn counted(answer: (u64, usize)) -> (u64, usize) {
    match answer {
        (18, place) => (18, place),
        (number, _) => (number, 0),
    }
}

#[test]
fn arbitrary_sessions_against_the_naive_one() {
    let mut random = Random::new(64);
    let few = days::issuers(&mut random, 6);
    let (mut seen, mut rares) = (BTreeMap::new(), BTreeMap::new());
    for _ in 0..40_000 {
        let pairs = days::pairs(&mut random, 3);
        let mut session = arbitrary_session(&mut random, &few, &pairs);
        let record = any_record(&mut random, &session, &few, &pairs);
        let before = session.clone();
        let record = followed(&record, any_end(&mut random));
        let agreed = any_list(&mut random, &few);
        let expected = NaiveSession::of(&session).take(&record, &agreed);
        let outcome = session.take(&record, &agreed);
        assert_eq!(answer(&outcome), expected.clone().err().unwrap_or((0, 0)));
        match expected {
            Ok(next) => {
                assert_eq!(NaiveSession::of(&session), next);
                assert_left_out(&before, &session, record[0]);
            }
            Err(_) => assert_eq!(session, before),
        }
        let number = answer(&outcome).0;
        *seen.entry(counted(answer(&outcome))).or_insert(0) += 1;
        *rares.entry(rare(&before, &record, number)).or_insert(0) += 1;
    }
    let numbers = [0, 1, 9, 10, 11, 12, 13, 14, 15, 16, 17, 22, 25, 26, 27];
    let sums = [(18, 82), (18, 94)];
    for wanted in numbers.map(|number| (number, 0)).into_iter().chain(sums) {
        assert!(seen.get(&wanted) > Some(&100), "{wanted:?} of {seen:?}");
    }
    for wanted in RARE {
        assert!(rares.get(&Some(wanted)) > Some(&30), "{rares:?}");
    }
}

#[test]
fn abandoning_against_the_naive_one() {
    let mut random = Random::new(65);
    let few = days::issuers(&mut random, 6);
    for _ in 0..2_000 {
        let pairs = days::pairs(&mut random, 3);
        let mut session = arbitrary_session(&mut random, &few, &pairs);
        let before = session.clone();
        let expected = NaiveSession::of(&session).abandoned();
        session.abandon();
        assert_eq!(NaiveSession::of(&session), expected);
        assert_eq!(
            (session.shown, session.memory),
            (before.shown, before.memory)
        );
        if before.open {
            assert_eq!(session.opening, Pair::new());
            assert_eq!(session.working, session.shown);
        } else {
            assert_eq!(session, before);
        }
    }
}
