//! Days of lined and bare files, whole and damaged, against the naive rules.

mod common;

use std::collections::{BTreeMap, BTreeSet};

use common::assert_answer;
use common::naive::{self, NaiveRun, NaiveSession};
use reference::agreed::is_agreed;
use reference::days::{self, Day, Form};
use reference::page::page_of;
use reference::random::Random;
use reference::{answer, records, Record, Session};

fn made(seed: u64, form: Form) -> Day {
    days::day_of(&mut Random::new(seed), 20, 8, 20, form).unwrap()
}

/// From one seed, a bare and a lined day have the same records, and leave the same session.
#[test]
fn days_of_each_form() {
    for seed in 0..60 {
        let (bare, ended) = (made(seed, Form::Bare), made(seed, Form::Lined));
        assert_eq!(days::day(&mut Random::new(seed), 20, 8, 20).unwrap(), bare);
        let lines = bare.bytes.chunks(150).flat_map(|record| {
            let end: &[u8] = b"\r\n";
            record.iter().chain(end).copied()
        });
        assert_eq!(lines.collect::<Vec<u8>>(), ended.bytes);
        assert_eq!(bare.files, ended.files);
        let (mut session, mut same) = (Session::new(), Session::new());
        let run = session.run(&bare.bytes, false, &[]);
        let ran = same.run(&ended.bytes, false, &[]);
        assert_answer(run.answer, 0, 0);
        assert_eq!(
            (run.records, run.files, run.answer),
            (ran.records, ran.files, ran.answer)
        );
        assert_eq!(
            (run.bytes, ran.bytes),
            (bare.bytes.len(), ended.bytes.len())
        );
        assert_eq!(session, same);
        assert_eq!(page_of(&bare.bytes), page_of(&ended.bytes));
    }
}

#[test]
fn days_of_both_forms() {
    let mut lengths = BTreeSet::new();
    for seed in 0..60 {
        let day = made(seed, Form::Both);
        let mut session = Session::new();
        assert_answer(session.run(&day.bytes, false, &[]).answer, 0, 0);
        assert_eq!(session.board().in_use(), day.lanes(8));
        let payments: usize = day.files.iter().map(Vec::len).sum();
        let ends = day.bytes.len() - 150 * (payments + 16);
        let found = day.bytes.windows(2).filter(|pair| pair == b"\r\n").count();
        assert_eq!(ends, 2 * found);
        lengths.insert((ends == 0, ends == 2 * (payments + 16)));
    }
    assert!(lengths.contains(&(false, false)));
    let no_files = days::day_of(&mut Random::new(1), 5, 0, 5, Form::Lined);
    assert_eq!(no_files, Ok(Day::default()));
}

/// A day written under a list is accepted under it, and leaves the same session as under an empty list. Of its
/// payments, those of agreed issuers show a due date.
#[test]
fn days_under_lists() {
    let mut random = Random::new(94);
    let mut shown = [0; 2];
    for round in 0..90 {
        let issuers = days::issuers(&mut random, 20);
        let agreed = days::agreed(&mut random, &issuers);
        let form = Form::ALL[round % 3];
        let day = days::day_under(&mut random, &issuers, 8, 20, form, &agreed).unwrap();
        let (mut session, mut same) = (Session::new(), Session::new());
        let run = session.run(&day.bytes, false, &agreed);
        assert_answer(run.answer, 0, 0);
        assert_eq!(run, same.run(&day.bytes, false, &[]));
        assert_eq!(session, same);
        assert_eq!(session.board().in_use(), day.lanes(8));
        if form == Form::Bare {
            for record in day.bytes.chunks(150).filter(|record| record[0] == b'G') {
                let Ok(Record::G(decoded)) = records::decode(record, 6, &agreed) else {
                    panic!("accepted")
                };
                let listed = is_agreed(decoded.barcode.issuer(), &agreed);
                assert_eq!(decoded.barcode.due.is_some(), listed);
                shown[usize::from(listed)] += 1;
            }
        }
        let wrong = days::wrong_agreed(&mut random, &issuers);
        let refused = days::day_under(&mut random, &issuers, 8, 20, form, &wrong);
        assert_answer(refused, 25, 0);
    }
    assert!(shown.iter().all(|&count| count > 500), "{shown:?}");
}

/// Damages a day in one way or two.
fn damaged(random: &mut Random, mut bytes: Vec<u8>) -> Vec<u8> {
    for _ in 0..random.below(3) {
        match random.below(10) {
            0 => drop(days::damage(random, &mut bytes)),
            1 | 2 => days::disorder(random, &mut bytes),
            3 | 4 => days::misnumber(random, &mut bytes),
            _ => days::damage_line_end(random, &mut bytes),
        }
    }
    bytes
}

/// Runs with and without more to come, from one random cut to the next, against the naive run.
fn assert_runs(random: &mut Random, bytes: &[u8]) -> u64 {
    let mut session = Session::new();
    let mut naive = NaiveSession::default();
    let mut start = 0;
    loop {
        let end = (start + random.index(2000)).min(bytes.len());
        let more = end < bytes.len();
        let result = session.run(&bytes[start..end], more, &[]);
        let expected = naive::run(&naive, &bytes[start..end], more, &[]);
        assert_eq!(NaiveRun::of(&session, &result), expected);
        naive = expected.session;
        start += result.bytes;
        if !more || result.answer.is_err() {
            return answer(&result.answer).0;
        }
    }
}

#[test]
fn damaged_days_against_the_naive_run() {
    let mut random = Random::new(91);
    let mut seen = BTreeMap::new();
    for round in 0..900 {
        let form = Form::ALL[round % 3];
        let (issuers, files) = (random.index(20), random.index(6));
        let day = days::day_of(&mut random, issuers, files, 8, form).unwrap();
        let bytes = damaged(&mut random, day.bytes);
        let number = assert_runs(&mut random, &bytes);
        *seen.entry((round % 3, number)).or_insert(0) += 1;
        assert_eq!(page_of(&bytes), naive::page(&bytes).into_bytes());
    }
    for wanted in [
        (0, 0),
        (0, 1),
        (0, 9),
        (0, 22),
        (1, 0),
        (1, 1),
        (1, 9),
        (1, 22),
    ] {
        assert!(seen.get(&wanted) > Some(&5), "{wanted:?} of {seen:?}");
    }
}

/// Refused pieces are skipped, also those that a run would not cut: of any length, with any end.
#[test]
fn any_pieces_against_the_naive_session() {
    let mut random = Random::new(92);
    let mut seen = BTreeMap::new();
    for round in 0..150 {
        let day = days::day_of(&mut random, 20, 6, 10, Form::ALL[round % 3]).unwrap();
        let bytes = damaged(&mut random, day.bytes);
        let (mut session, mut naive) = (Session::new(), NaiveSession::default());
        let mut rest = &bytes[..];
        while !rest.is_empty() {
            let length = match random.below(20) {
                0 => 148 + random.index(7),
                _ if rest.get(150..152) == Some(b"\r\n") => 152,
                _ => 150,
            };
            let (piece, after) = rest.split_at(length.min(rest.len()));
            let before = session.clone();
            let outcome = session.take(piece, &[]);
            match naive.take(piece, &[]) {
                Ok(next) => {
                    assert_answer(outcome, 0, 0);
                    naive = next;
                    rest = after;
                }
                Err(refusal) => {
                    assert_eq!(answer(&outcome), refusal);
                    assert_eq!(session, before);
                    // Often the same bytes again, cut in another way.
                    if random.once_in(3) {
                        rest = after;
                    }
                }
            }
            assert_eq!(NaiveSession::of(&session), naive);
            *seen.entry(answer(&outcome).0).or_insert(0) += 1;
        }
    }
    for number in [0, 1, 9, 13, 22] {
        assert!(seen.get(&number) > Some(&50), "{number} of {seen:?}");
    }
}

/// Damage to line ends changes a few bytes at most, and always changes something.
#[test]
fn damage_to_line_ends() {
    let mut random = Random::new(93);
    let mut lengths = BTreeSet::new();
    let days = Form::ALL.map(|form| made(5, form).bytes);
    for round in 0..2_000 {
        let good = &days[round % 3];
        let mut bad = good.clone();
        days::damage_line_end(&mut random, &mut bad);
        assert_ne!(*good, bad);
        lengths.insert(bad.len() as i64 - good.len() as i64);
        let same = good.iter().zip(&bad).take_while(|(a, b)| a == b).count();
        let last = good.iter().rev().zip(bad.iter().rev());
        let same = same + last.take_while(|(a, b)| a == b).count();
        assert!(same + 2 >= good.len().min(bad.len()));
    }
    assert_eq!(lengths, BTreeSet::from([-2, -1, 0, 1, 2]));
    let mut nothing = Vec::new();
    days::damage_line_end(&mut random, &mut nothing);
    assert_eq!(nothing, b"\r\n");
}
