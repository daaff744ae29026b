//! Sequence numbers of whole days: files that come twice, too early or too late, and days whose numbers are wrong on
//! purpose.

mod common;

use std::collections::BTreeMap;

use common::naive::{self, NaiveRun, NaiveSession};
use common::{a_nth, a_of, assert_answer, g, lined_all, p4_code, z};
use reference::days::{self, Form};
use reference::page::page_of;
use reference::random::Random;
use reference::{answer, Memory, RunResult, Session};

/// A day's bytes, of any form.
fn made(random: &mut Random, files: usize, round: usize) -> Vec<u8> {
    let issuers = random.index(20);
    let form = Form::ALL[round % 3];
    let day = days::day_of(random, issuers, files, 6, form).unwrap();
    day.bytes
}

/// A file of one payment with this header.
fn file(header: [u8; 150]) -> Vec<u8> {
    [header, g(&p4_code(), 5), z(3, 5)].concat()
}

/// The pieces that a run would cut, by the line ends alone.
fn pieces(bytes: &[u8]) -> Vec<&[u8]> {
    let mut pieces = Vec::new();
    let mut rest = bytes;
    while !rest.is_empty() {
        let lined = rest.get(150..152) == Some(b"\r\n");
        let (piece, after) = rest.split_at(rest.len().min(if lined { 152 } else { 150 }));
        pieces.push(piece);
        rest = after;
    }
    pieces
}

/// The files of a day, each in one piece.
fn files(bytes: &[u8]) -> Vec<Vec<u8>> {
    let mut files: Vec<Vec<u8>> = Vec::new();
    for piece in pieces(bytes) {
        if piece[0] == b'A' {
            files.push(Vec::new());
        }
        files.last_mut().expect("a header").extend_from_slice(piece);
    }
    files
}

/// A run that is refused at its first record, which must change nothing.
#[track_caller]
fn assert_refused(session: &mut Session, input: &[u8], number: u64, place: usize) {
    let before = session.clone();
    let run = session.run(input, false, &[]);
    assert_answer(run.answer, number, place);
    assert_eq!((run.records, run.files, run.bytes), (0, 0, 0));
    assert_eq!(*session, before);
}

#[track_caller]
fn assert_accepted(session: &mut Session, input: &[u8]) {
    let run = session.run(input, false, &[]);
    assert_eq!((run.answer, run.bytes), (Ok(()), input.len()));
}

#[test]
fn a_day_loaded_twice() {
    let mut random = Random::new(301);
    for round in 0..90 {
        let day = made(&mut random, 12, round);
        let mut session = Session::new();
        assert_accepted(&mut session, &day);
        assert_refused(&mut session, &day, 26, 74);
        for file in files(&day) {
            assert_refused(&mut session, &file, 26, 74);
        }
        // In one input: the page has the board of one day.
        let mut twice = Session::new();
        let run = twice.run(&[&day[..], &day].concat(), false, &[]);
        assert_answer(run.answer, 26, 74);
        assert_eq!((run.files, run.bytes), (12, day.len()));
        assert_eq!(twice, session);
    }
}

#[test]
fn the_page_of_a_file_loaded_twice() {
    let sums = "payments=1\ncentavos=5\ntariff=150\n";
    let board = format!("lanes=1\n{sums}lane=1\nissuer=1-3659\n{sums}");
    let twice = [file(a_of(41)), file(a_of(41))].concat();
    let expected = format!("answer=26\nplace=74\nrecord=3\nfiles=1\n{board}");
    assert_eq!(String::from_utf8(page_of(&twice)).unwrap(), expected);
    let ended = lined_all(&[a_of(41), g(&p4_code(), 5), z(3, 5)]);
    let twice = [file(a_of(41)), ended].concat();
    assert_eq!(String::from_utf8(page_of(&twice)).unwrap(), expected);
    let next = [file(a_of(41)), file(a_of(42))].concat();
    let page = String::from_utf8(page_of(&next)).unwrap();
    assert!(page.starts_with("answer=0\nplace=0\nrecord=6\nfiles=2\nlanes=1\npayments=2\n"));
}

/// A day goes on in the next one, where the numbers follow; a day of other pairs has no say.
#[test]
fn the_next_day() {
    let mut session = Session::new();
    let day = |numbers: &[(u64, u64)]| {
        let files = numbers.iter().map(|&(i, number)| file(a_nth(i, number)));
        files.collect::<Vec<_>>().concat()
    };
    assert_accepted(&mut session, &day(&[(1, 999_998), (2, 0), (1, 999_999)]));
    assert_accepted(&mut session, &day(&[(3, 7), (4, 7)]));
    assert_accepted(&mut session, &day(&[(2, 1), (1, 1), (3, 8), (1, 2)]));
    assert_refused(&mut session, &day(&[(4, 9)]), 26, 74);
    assert_accepted(&mut session, &day(&[(4, 8), (4, 9)]));
    assert_eq!(session.memory.used, 4);
}

/// A file of a day is left out: the next file of its pair is refused, and only then.
#[test]
fn a_file_left_out() {
    let mut random = Random::new(302);
    let mut gaps = 0;
    for round in 0..90 {
        let files = files(&made(&mut random, 12, round));
        let left_out = random.index(12);
        let pair = |i: usize| (&files[i][42..45], &files[i][2..22]);
        let is_of_pair = |i: &usize| pair(*i) == pair(left_out);
        let is_first = !(0..left_out).any(|i| is_of_pair(&i));
        let mut session = Session::new();
        for i in (0..12).filter(|&i| i != left_out) {
            // If it was its pair's first file, the next one may have any number.
            if !is_first && i > left_out && is_of_pair(&i) {
                assert_refused(&mut session, &files[i], 26, 74);
                gaps += 1;
            } else {
                assert_accepted(&mut session, &files[i]);
            }
        }
    }
    assert!(gaps > 100, "{gaps}");
}

/// Without its last Z a day's last file is open. It may be abandoned and loaded again.
#[test]
fn an_unfinished_file_comes_again() {
    let mut random = Random::new(303);
    for round in 0..60 {
        let day = made(&mut random, 6, round);
        let mut whole = Session::new();
        assert_accepted(&mut whole, &day);
        let all = pieces(&day);
        let last = files(&day).pop().expect("six files");
        let mut session = Session::new();
        assert_accepted(&mut session, &all[..all.len() - 1].concat());
        assert_answer(session.finish(), 19, 0);
        assert_refused(&mut session, &last, 9, 1);
        session.abandon();
        assert_accepted(&mut session, &last);
        assert_eq!(session, whole);
        assert_refused(&mut session, &last, 26, 74);
    }
}

/// Each file of a day alone is accepted by a fresh session, whose memory then has its pair.
#[test]
fn every_file_alone() {
    let mut random = Random::new(304);
    for round in 0..60 {
        for file in files(&made(&mut random, 8, round)) {
            let mut session = Session::new();
            assert_accepted(&mut session, &file);
            let mut memory = Memory::new();
            memory.used = 1;
            memory.pairs[0].bank.copy_from_slice(&file[42..45]);
            memory.pairs[0].agreement.copy_from_slice(&file[2..22]);
            let number = reference::digits::number(&file[73..79]);
            memory.pairs[0].sequence = number.expect("digits");
            assert_eq!(session.memory, memory);
        }
    }
}

/// What one take after the other leaves of an input, up to the first refusal.
fn taken(input: &[u8]) -> (Session, RunResult) {
    let mut session = Session::new();
    let mut result = session.run(b"", false, &[]);
    for piece in pieces(input) {
        result.answer = session.take(piece, &[]);
        if result.answer.is_err() {
            break;
        }
        result.records += 1;
        result.files += u64::from(piece[0] == b'Z');
        result.bytes += piece.len();
    }
    (session, result)
}

/// Days whose numbers are wrong on purpose: runs, takes and the naive run agree, and only 26 and 27 are given.
#[test]
fn misnumbered_days() {
    let mut random = Random::new(305);
    let mut seen = BTreeMap::new();
    for round in 0..1_500 {
        let count = random.index(30);
        let mut day = made(&mut random, count, round);
        for _ in 0..1 + random.below(3) {
            days::misnumber(&mut random, &mut day);
        }
        let mut session = Session::new();
        let run = session.run(&day, false, &[]);
        let expected = naive::run(&NaiveSession::default(), &day, false, &[]);
        assert_eq!(NaiveRun::of(&session, &run), expected);
        assert_eq!((session, run), taken(&day));
        assert_eq!(page_of(&day), naive::page(&day).into_bytes());
        *seen.entry(answer(&run.answer)).or_insert(0) += 1;
    }
    let numbers: Vec<naive::Answer> = seen.keys().copied().collect();
    assert_eq!(numbers, [(0, 0), (26, 74), (27, 3)]);
    assert!(seen.values().all(|&count| count > 150), "{seen:?}");
}

/// Days with wrong numbers and refused files left behind, piece by piece.
#[test]
fn the_rest_of_misnumbered_days() {
    let mut random = Random::new(306);
    let mut seen = BTreeMap::new();
    for round in 0..300 {
        let mut day = made(&mut random, 20, round);
        for _ in 0..1 + random.below(6) {
            days::misnumber(&mut random, &mut day);
        }
        let (mut session, mut naive) = (Session::new(), NaiveSession::default());
        for file in files(&day) {
            let run = session.run(&file, false, &[]);
            let expected = naive::run(&naive, &file, false, &[]);
            assert_eq!(NaiveRun::of(&session, &run), expected);
            naive = expected.session;
            *seen.entry(expected.answer).or_insert(0) += 1;
        }
    }
    let numbers: Vec<naive::Answer> = seen.keys().copied().collect();
    assert_eq!(numbers, [(0, 0), (26, 74), (27, 3)]);
    assert!(seen.values().all(|&count| count > 300), "{seen:?}");
}
