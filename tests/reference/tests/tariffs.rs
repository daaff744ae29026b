//! Tariffs in the lanes: their sums, over exactly the accepted payments, taken from the bytes of the records.

mod common;

use std::collections::BTreeSet;

use common::steps::{assert_refused, assert_taken};
use common::{a, a_of, assert_answer, code_for, g_tariff, numbered, p4_code, with_bytes, z};
use reference::days::{self, Form};
use reference::random::Random;
use reference::session::following;
use reference::{Board, Session};

const MOST_TARIFF: u64 = 9_999_999;
const MOST_RECEIVED: u64 = 999_999_999_999;
const FILE_LIMIT: u64 = 99_999_999_999_999_999;
const E18: u64 = 1_000_000_000_000_000_000;

fn opened() -> Session {
    let mut session = Session::new();
    assert_answer(session.take(&a(), &[]), 0, 0);
    session
}

/// The number that these places of a record write.
fn number(record: &[u8], first: usize, last: usize) -> u64 {
    let text = std::str::from_utf8(&record[first - 1..last]).unwrap();
    text.parse().unwrap()
}

/// A lane's segment, number and tariff.
type Paid = (u64, u64, u64);

/// Each issuer of these payments with the sum of its tariffs, which are the bytes at places 94 to 100.
fn paid<'a>(payments: impl IntoIterator<Item = &'a [u8]>) -> Vec<Paid> {
    let mut sums: Vec<Paid> = Vec::new();
    for record in payments {
        let segment = number(record, 39, 39);
        let issuer = number(record, 53, if segment == 6 { 60 } else { 56 });
        let tariff = number(record, 94, 100);
        match sums
            .iter_mut()
            .find(|sum| (sum.0, sum.1) == (segment, issuer))
        {
            Some(sum) => sum.2 += tariff,
            None => sums.push((segment, issuer, tariff)),
        }
    }
    sums
}

/// The board must have these lanes, and their sum as its total.
#[track_caller]
fn assert_paid(board: &Board, expected: &[Paid]) {
    let lanes = board.in_use().iter();
    let lanes: Vec<Paid> = lanes
        .map(|lane| (lane.issuer.segment, lane.issuer.number, lane.tariff))
        .collect();
    assert_eq!(lanes, expected);
    assert_eq!(board.tariff, expected.iter().map(|sum| sum.2).sum::<u64>());
}

/// The records of a day, with the line ends that they have.
fn pieces(bytes: &[u8]) -> Vec<&[u8]> {
    let mut pieces = Vec::new();
    let mut rest = bytes;
    while !rest.is_empty() {
        let lined = rest.len() >= 152 && rest[150..152] == [13, 10];
        let (piece, after) = rest.split_at(if lined { 152 } else { rest.len().min(150) });
        pieces.push(piece);
        rest = after;
    }
    pieces
}

/// Whole days. With more than 64 issuers, a file is refused, and none of its payments counts.
#[test]
fn sums_of_random_days() {
    for seed in 0..60 {
        let mut random = Random::new(2100 + seed);
        let form = Form::ALL[seed as usize % 3];
        let issuers = random.index(71);
        let day = days::day_of(&mut random, issuers, 12, 40, form).unwrap();
        let mut session = Session::new();
        let run = session.run(&day.bytes, false, &[]);
        let (number, place) = if issuers > 64 { (17, 53) } else { (0, 0) };
        assert_answer(run.answer, number, place);
        let pieces = pieces(&day.bytes);
        let files = pieces.split_inclusive(|piece| piece[0] == b'Z');
        let accepted = files.take(run.files as usize).flatten().copied();
        let payments = accepted.filter(|piece| piece[0] == b'G');
        assert_paid(session.board(), &paid(payments));
    }
}

/// So that a mix-up shows: the tariffs of a day differ from each other and from the amounts, and so do the sums of its
/// lanes.
#[test]
fn random_days_have_varied_tariffs() {
    let day = days::day(&mut Random::new(2099), 64, 20, 100).unwrap();
    let pieces = pieces(&day.bytes);
    let payments = pieces.into_iter().filter(|piece| piece[0] == b'G');
    let payments: Vec<&[u8]> = payments.collect();
    let tariffs = payments.iter().map(|record| number(record, 94, 100));
    let differing: BTreeSet<u64> = tariffs.collect();
    assert!(differing.len() > payments.len() / 2, "{differing:?}");
    assert!(differing.contains(&0) && differing.last() > Some(&9_000_000));
    let sums: BTreeSet<u64> = paid(payments).iter().map(|sum| sum.2).collect();
    assert_eq!(sums.len(), 64);
    let lanes = day.lanes(20);
    assert!(lanes.iter().all(|lane| lane.tariff != lane.centavos));
}

/// The header with the number that follows in this session, another record as it is.
fn in_order(session: &Session, piece: &[u8]) -> Vec<u8> {
    let mut piece = piece.to_vec();
    if piece.len() >= 150 && piece[0] == b'A' {
        let mut known = session.memory.in_use().iter();
        let last = known.find(|pair| pair.bank == piece[42..45] && pair.agreement == piece[2..22]);
        if let Some(next) = last.and_then(|pair| following(pair.sequence)) {
            let header = piece[..150].try_into().unwrap();
            piece[..150].copy_from_slice(&numbered(header, next));
        }
    }
    piece
}

/// Damaged days, record by record: refused records and abandoned files in between. A payment counts if it was accepted,
/// and its file too.
#[test]
fn sums_of_damaged_days() {
    let mut random = Random::new(2200);
    let (mut refused, mut dropped, mut counted) = (0, 0, 0);
    for round in 0..200 {
        let (issuers, form) = (1 + random.index(70), Form::ALL[round % 3]);
        let mut day = days::day_of(&mut random, issuers, 8, 25, form).unwrap();
        days::disorder(&mut random, &mut day.bytes);
        let mut session = Session::new();
        let (mut shown, mut open): (Vec<Vec<u8>>, Vec<Vec<u8>>) = Default::default();
        for piece in pieces(&day.bytes) {
            let mut piece = in_order(&session, piece);
            if random.once_in(12) {
                days::damage(&mut random, &mut piece);
            }
            match (session.take(&piece, &[]).is_ok(), piece[0]) {
                (true, b'A') => assert!(open.is_empty()),
                (true, b'G') => open.push(piece),
                (true, _) => shown.append(&mut open),
                (false, b'Z') => {
                    session.abandon();
                    dropped += open.len();
                    open.clear();
                }
                (false, letter) => refused += usize::from(letter == b'G'),
            }
            assert_paid(session.board(), &paid(shown.iter().map(Vec::as_slice)));
            let both = shown.iter().chain(&open).map(Vec::as_slice);
            assert_paid(&session.working, &paid(both));
        }
        counted += shown.len();
    }
    let counts = [refused, dropped, counted];
    assert!(counts.iter().all(|&count| count > 1000), "{counts:?}");
}

/// 430 of the highest tariffs are past 2^32 centavos; 429 are not.
#[test]
fn past_2_to_the_32_in_one_lane() {
    let mut session = opened();
    let most = g_tariff(&p4_code(), 0, MOST_TARIFF);
    assert_taken(&mut session, &g_tariff(&code_for(2, 3_659), 0, 1));
    for count in 1..=430 {
        assert_taken(&mut session, &most);
        assert_eq!(session.working.lanes[1].tariff, count * MOST_TARIFF);
        assert_eq!(session.working.tariff, count * MOST_TARIFF + 1);
    }
    assert_taken(&mut session, &z(433, 0));
    let sum = 4_299_999_570;
    assert!(sum > 1 << 32 && sum - MOST_TARIFF < 1 << 32);
    assert_paid(session.board(), &[(2, 3_659, 1), (1, 3_659, sum)]);
    assert_eq!(session.board().centavos, 0);
}

/// Neither number enters the other, nor does a tariff enter the file's total.
#[test]
fn a_tariff_is_not_received() {
    let code = p4_code();
    for (received, tariff) in [(0, MOST_TARIFF), (MOST_RECEIVED, 0), (5, 7)] {
        let mut session = opened();
        assert_taken(&mut session, &g_tariff(&code, received, tariff));
        assert_eq!((session.taken, session.total), (1, received));
        if tariff > 0 {
            assert_refused(&mut session, &z(3, received + tariff), 14, 8);
            assert_refused(&mut session, &z(3, tariff), 14, 8);
        }
        assert_refused(&mut session, &z(4, received), 13, 2);
        assert_taken(&mut session, &z(3, received));
        let (board, lane) = (session.board(), session.board().lanes[0]);
        let numbers = (lane.payments, lane.centavos, lane.tariff);
        assert_eq!(numbers, (1, received, tariff));
        let totals = (board.payments, board.centavos, board.tariff);
        assert_eq!(totals, (1, received, tariff));
    }
}

/// The open file's limits know no tariff, and neither limit of centavos is one of tariffs.
#[test]
fn limits_that_know_no_tariff() {
    let code = p4_code();
    let mut full = opened();
    full.total = FILE_LIMIT;
    assert_taken(&mut full, &g_tariff(&code, 0, MOST_TARIFF));
    assert_eq!(full.total, FILE_LIMIT);
    assert_refused(&mut full, &g_tariff(&code, 1, 0), 16, 82);
    let mut many = opened();
    many.taken = 999_996;
    assert_taken(&mut many, &g_tariff(&code, 0, MOST_TARIFF));
    assert_refused(&mut many, &g_tariff(&code, 0, 0), 15, 1);
    assert_taken(&mut many, &z(999_999, 0));
    assert_eq!(many.board().tariff, MOST_TARIFF);
    let mut heavy = opened();
    heavy.working.centavos = E18;
    assert_taken(&mut heavy, &g_tariff(&code, 0, MOST_TARIFF));
    assert_refused(&mut heavy, &g_tariff(&code, 1, MOST_TARIFF), 18, 82);
    let mut dear = opened();
    dear.working.tariff = E18;
    assert_taken(&mut dear, &g_tariff(&code, MOST_RECEIVED, 0));
    assert_refused(&mut dear, &g_tariff(&code, MOST_RECEIVED, 1), 18, 94);
}

/// A refused payment's tariff and an abandoned file's are nowhere; an open file's are on the working board alone.
#[test]
fn tariffs_that_are_not_shown() {
    let (one, two) = (p4_code(), code_for(6, 33_041_260));
    let (first, other) = ((1, 3_659, 7), (6, 33_041_260, 40));
    let mut session = opened();
    assert_taken(&mut session, &g_tariff(&one, 1, 7));
    assert_paid(session.board(), &[]);
    let refused = g_tariff(&one, 1, 500);
    for (place, bytes, number, answered) in [
        (22, &b"20230229"[..], 11, 22),
        (93, b"x", 2, 93),
        (94, b"x", 2, 94),
        (100, b" ", 2, 100),
        (117, b"0", 12, 117),
        (142, b"x", 10, 142),
    ] {
        let record = with_bytes(refused, place, bytes);
        assert_refused(&mut session, &record, number, answered);
    }
    assert_paid(&session.working, &[first]);
    assert_refused(&mut session, &z(3, 8), 14, 8);
    assert_paid(session.board(), &[]);
    assert_taken(&mut session, &z(3, 1));
    assert_paid(session.board(), &[first]);
    let closed = session.clone();
    for record in [a_of(2), g_tariff(&one, 0, 3_000), g_tariff(&two, 0, 40)] {
        assert_taken(&mut session, &record);
    }
    assert_paid(session.board(), &[first]);
    assert_paid(&session.working, &[(1, 3_659, 3_007), other]);
    session.abandon();
    assert_eq!(session, closed);
    for record in [a_of(2), g_tariff(&two, 0, 40), z(3, 0)] {
        assert_taken(&mut session, &record);
    }
    assert_paid(session.board(), &[first, other]);
}
