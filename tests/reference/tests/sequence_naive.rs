//! Sequence numbers against the naive rules: random steps with right and wrong numbers, and with more pairs than are
//! remembered.

mod common;

use std::collections::BTreeMap;

use common::memories::{arbitrary_memory, assert_rest_kept};
use common::naive::{self, NaiveFile, NaiveRun, NaiveSession};
use common::{followed, g, numbered, p4_code, z};
use reference::random::Random;
use reference::{answer, days, Pair, Session};

/// A session and the naive one beside it.
struct Both {
    session: Session,
    naive: NaiveSession,
    /// The answers that were given, with their number.
    seen: BTreeMap<naive::Answer, u64>,
}

impl Both {
    fn new() -> Both {
        Both {
            session: Session::new(),
            naive: NaiveSession::default(),
            seen: BTreeMap::new(),
        }
    }

    fn restart(&mut self, session: Session) {
        self.naive = NaiveSession::of(&session);
        self.session = session;
    }

    /// Both take a record: the answers and the sessions left are equal.
    fn take(&mut self, record: &[u8]) {
        let before = self.session.clone();
        let outcome = self.session.take(record, &[]);
        let given = match self.naive.take(record, &[]) {
            Ok(next) => {
                self.naive = next;
                assert_eq!(NaiveSession::of(&self.session), self.naive);
                assert_rest_kept(&before.memory, &self.session.memory);
                (0, 0)
            }
            Err(refusal) => {
                assert_eq!(self.session, before);
                refusal
            }
        };
        assert_eq!(answer(&outcome), given);
        *self.seen.entry(given).or_insert(0) += 1;
    }

    fn abandon(&mut self) {
        self.session.abandon();
        self.naive = self.naive.abandoned();
        assert_eq!(NaiveSession::of(&self.session), self.naive);
    }

    /// Both run over records.
    fn run(&mut self, input: &[u8]) {
        let result = self.session.run(input, false, &[]);
        let expected = naive::run(&self.naive, input, false, &[]);
        assert_eq!(NaiveRun::of(&self.session, &result), expected);
        *self.seen.entry(expected.answer).or_insert(0) += 1;
        self.naive = expected.session;
    }

    #[track_caller]
    fn assert_seen(&self, answers: &[naive::Answer], least: u64) {
        let seen = &self.seen;
        for wanted in answers {
            assert!(seen.get(wanted) > Some(&least), "{wanted:?} of {seen:?}");
        }
    }
}

/// A header of the pair, mostly with the number that follows.
fn header(random: &mut Random, naive: &NaiveSession, pair: &Pair) -> [u8; 150] {
    let header = days::header_of(random, pair).unwrap();
    let last = naive.history.last(&NaiveFile::of(pair).pair);
    let Some(last) = last.and_then(|last| u64::try_from(last).ok()) else {
        return header;
    };
    let number = match random.below(12) {
        0 => last,
        1 => last.saturating_add(2),
        2 => 0,
        3 => days::first_number(random),
        _ if last == 999_999 => 1,
        _ => last.saturating_add(1),
    };
    numbered(header, number.min(999_999))
}

/// A record that is mostly expected now.
fn record(random: &mut Random, naive: &NaiveSession, pairs: &[Pair]) -> [u8; 150] {
    let expected = !random.once_in(16);
    if naive.open == expected {
        let (count, total) = (naive.taken as u64 + 2, naive.total as u64);
        return match random.below(8) {
            0 => g(&p4_code(), random.below(3)),
            1 => z(count + 1, total),
            2 => z(count, total + 1),
            _ => z(count, total),
        };
    }
    let pair = pairs[random.index(pairs.len())];
    let mut header = header(random, naive, &pair);
    if random.once_in(16) {
        days::damage(random, &mut header);
    }
    header
}

/// The record as the open file's form has it, or at random for a header; now and then otherwise.
fn ended(random: &mut Random, naive: &NaiveSession, record: &[u8; 150]) -> Vec<u8> {
    let lined = if naive.open && !random.once_in(32) {
        naive.lined
    } else {
        random.once_in(2)
    };
    followed(record, if lined { b"\r\n" } else { b"" })
}

/// Most sessions have room for all pairs, or for nearly all.
fn some_pairs(random: &mut Random) -> Vec<Pair> {
    let count = match random.below(4) {
        0 => 1 + random.index(4),
        1 => 1 + random.index(16),
        _ => 16 + random.index(4),
    };
    days::pairs(random, count)
}

#[test]
fn steps_from_a_new_session() {
    let mut random = Random::new(401);
    let mut both = Both::new();
    let mut full = 0;
    for _ in 0..4_000 {
        both.restart(Session::new());
        let pairs = some_pairs(&mut random);
        for _ in 0..30 + random.index(240) {
            let record = record(&mut random, &both.naive, &pairs);
            let record = ended(&mut random, &both.naive, &record);
            both.take(&record);
            if random.once_in(32) {
                both.abandon();
            }
        }
        let memory = &both.session.memory;
        full += u64::from(memory.used == 16);
        // A session that has only taken records has no pair twice and no number past 999999.
        for (i, pair) in memory.in_use().iter().enumerate() {
            assert!(pair.sequence <= 999_999);
            assert!(!memory.pairs[..i].iter().any(|one| one.is_same_pair(pair)));
        }
        assert!(memory.pairs[memory.used..]
            .iter()
            .all(|pair| *pair == Pair::new()));
    }
    assert!(full > 500, "{full}");
    let answers = [
        (0, 0),
        (9, 1),
        (13, 2),
        (14, 8),
        (22, 151),
        (26, 74),
        (27, 3),
    ];
    both.assert_seen(&answers, 1_000);
}

#[test]
fn steps_from_arbitrary_memories() {
    let mut random = Random::new(402);
    let mut both = Both::new();
    for _ in 0..20_000 {
        let pairs = some_pairs(&mut random);
        both.restart(Session {
            memory: arbitrary_memory(&mut random, &pairs),
            ..Session::new()
        });
        for _ in 0..random.index(24) {
            let record = record(&mut random, &both.naive, &pairs);
            both.take(&record);
        }
    }
    both.assert_seen(&[(0, 0), (9, 1), (26, 74), (27, 3)], 1_000);
}

/// Runs over a few records each, in which the refused one is left behind.
#[test]
fn runs_of_some_records() {
    let mut random = Random::new(403);
    let mut both = Both::new();
    for _ in 0..1_000 {
        both.restart(Session::new());
        let pairs = some_pairs(&mut random);
        for _ in 0..60 {
            let mut ahead = both.naive.clone();
            let mut input = Vec::new();
            for _ in 0..1 + random.index(6) {
                let record = record(&mut random, &ahead, &pairs);
                let record = ended(&mut random, &ahead, &record);
                input.extend_from_slice(&record);
                ahead = ahead.take(&record, &[]).unwrap_or(ahead);
            }
            both.run(&input);
            if random.once_in(8) {
                both.abandon();
            }
        }
    }
    both.assert_seen(&[(0, 0), (9, 1), (26, 74), (27, 3)], 500);
}
