//! Days of random files, written by the writer and taken by a session.

mod common;

use std::collections::{BTreeMap, BTreeSet};

use common::assert_answer;
use common::naive::{NaiveBoard, NaiveSession};
use reference::days::{self, Day};
use reference::random::Random;
use reference::records;
use reference::{answer, Session};

/// How many files and records are accepted before a 65th issuer; `None` if there is no such issuer.
fn refused_at(day: &Day) -> Option<(usize, u64)> {
    let mut seen = Vec::new();
    let mut record = 0;
    for (files, payments) in day.files.iter().enumerate() {
        record += 1;
        for posted in payments {
            if !seen.contains(&posted.issuer) {
                seen.push(posted.issuer);
            }
            if seen.len() > 64 {
                return Some((files, record));
            }
            record += 1;
        }
        record += 1;
    }
    None
}

#[test]
fn days_with_0_to_70_issuers() {
    for issuers in 0..=70 {
        let mut random = Random::new(1000 + issuers as u64);
        for files in [1, 2, 9, 40] {
            let day = days::day(&mut random, issuers, files, 30).unwrap();
            let mut session = Session::new();
            let run = session.run(&day.bytes, false, &[]);
            let accepted = match refused_at(&day) {
                Some((accepted, record)) => {
                    assert!(issuers > 64);
                    assert_answer(run.answer, 17, 53);
                    assert_eq!((run.records, run.files), (record, accepted as u64));
                    session.abandon();
                    accepted
                }
                None => {
                    assert!(issuers <= 64);
                    assert_answer(run.answer, 0, 0);
                    assert_eq!(run.records, (day.bytes.len() / 150) as u64);
                    assert_eq!(session.board().used, issuers);
                    files
                }
            };
            assert_answer(session.finish(), 0, 0);
            let lanes = day.lanes(accepted);
            assert_eq!(session.board().in_use(), lanes);
            assert_eq!(
                session.board().payments,
                lanes.iter().map(|lane| lane.payments).sum::<u64>()
            );
            assert_eq!(
                session.board().centavos,
                lanes.iter().map(|lane| lane.centavos).sum::<u64>()
            );
            assert_eq!(
                session.board().tariff,
                lanes.iter().map(|lane| lane.tariff).sum::<u64>()
            );
        }
    }
}

#[test]
fn no_files_no_bytes() {
    let day = days::day(&mut Random::new(1), 5, 0, 5).unwrap();
    assert_eq!(day, Day::default());
}

/// The numbers of each pair follow each other. There is often one pair and sometimes 16, never more.
#[test]
fn sequence_numbers_follow_for_each_pair() {
    let mut counts = BTreeMap::new();
    let mut nexts = BTreeSet::new();
    for seed in 0..200 {
        let day = days::day(&mut Random::new(seed), 10, 200, 3).unwrap();
        let mut last: BTreeMap<Vec<u8>, u64> = BTreeMap::new();
        for record in day.bytes.chunks(150).filter(|record| record[0] == b'A') {
            let field = |row| records::field(record, 0, row, &[]).to_vec();
            let pair = [field(records::A_BANK), field(records::A_AGREEMENT)].concat();
            let number = reference::digits::number(&field(records::A_SEQUENCE)).unwrap();
            if let Some(before) = last.insert(pair, number) {
                assert_eq!(number, before % 999_999 + 1);
                nexts.insert((before, number));
            }
        }
        *counts.entry(last.len()).or_insert(0) += 1;
    }
    assert_eq!(
        counts.keys().copied().collect::<Vec<_>>(),
        Vec::from_iter(1..=16)
    );
    assert!(counts[&1] > 80 && counts[&16] > 10, "{counts:?}");
    for next in [(0, 1), (1, 2), (999_998, 999_999), (999_999, 1)] {
        assert!(nexts.contains(&next), "{next:?}");
    }
}

/// All pairs differ, some of them only in the bank or by a text at another place. Many agreements are blank, so equal
/// ones count only if they have a text.
#[test]
fn pairs_that_are_nearly_equal() {
    let mut random = Random::new(5);
    let mut near = [0; 3];
    for _ in 0..200 {
        let pairs = days::pairs(&mut random, 17);
        for i in 0..17 {
            for before in &pairs[..i] {
                let pair = &pairs[i];
                assert!(!pair.is_same_pair(before));
                let same_bank = pair.bank == before.bank;
                let same_agreement = pair.agreement == before.agreement;
                let text = pair.agreement.trim_ascii();
                let same_text = text == before.agreement.trim_ascii();
                near[0] += u64::from(same_agreement && !text.is_empty());
                near[1] += u64::from(same_bank && !same_text);
                near[2] += u64::from(same_bank && same_text);
            }
        }
    }
    assert!(near.iter().all(|&count| count > 200), "{near:?}");
}

/// The files of a day are of either version, and each has codes of its own version: under 06 all of them.
#[test]
fn days_mix_the_versions() {
    let day = days::day(&mut Random::new(3), 20, 200, 20).unwrap();
    let mut files: BTreeMap<u64, usize> = BTreeMap::new();
    let mut codes: BTreeSet<(u64, usize, u8)> = BTreeSet::new();
    let mut version = 0;
    for record in day.bytes.chunks(150) {
        match record[0] {
            b'A' => {
                version = u64::from(record[80] - b'0');
                *files.entry(version).or_default() += 1;
            }
            b'G' => codes.extend([117, 141].map(|place| (version, place, record[place - 1]))),
            _ => {}
        }
    }
    assert_eq!(files.keys().collect::<Vec<_>>(), [&4, &6]);
    assert!(files[&4] > 50 && files[&6] > 50, "{files:?}");
    let seen = |version, place| {
        let of_place = codes.range((version, place, 0)..=(version, place, 255));
        of_place.map(|code| code.2).collect::<Vec<u8>>()
    };
    assert_eq!(seen(4, 117), b"123456abcdef");
    assert_eq!(seen(6, 117), b"123456789abcdefghi");
    assert_eq!(seen(4, 141), b"123");
    assert_eq!(seen(6, 141), b"123456");
}

#[test]
fn generators_answer_any_version() {
    let mut random = Random::new(4);
    for version in [0, 5, 77, u64::MAX] {
        assert_answer(days::payment(&mut random, version), 10, 80);
    }
    let mut drawn: Vec<u64> = (0..100).map(|_| days::version(&mut random)).collect();
    drawn.sort_unstable();
    drawn.dedup();
    assert_eq!(drawn, [4, 6]);
}

#[test]
fn a_seed_decides_the_numbers() {
    // The published first numbers of splitmix64 from seed 0.
    let mut random = Random::new(0);
    assert_eq!(random.bits(), 0xE220_A839_7B1D_CDAF);
    assert_eq!(random.bits(), 0x6E78_9E6A_A1B9_65F4);
    assert_eq!(random.bits(), 0x06C4_5D18_8009_454F);
    let make = |seed| days::day(&mut Random::new(seed), 20, 10, 20).unwrap();
    assert_ne!(make(7), make(8));
}

#[test]
fn damage_changes_one_to_three_places() {
    let mut random = Random::new(9);
    for _ in 0..10_000 {
        let version = days::version(&mut random);
        let good = days::record(&mut random, version).unwrap();
        let mut bad = good;
        let places = days::damage(&mut random, &mut bad);
        let changed: Vec<usize> = (1..=150)
            .filter(|&place| good[place - 1] != bad[place - 1])
            .collect();
        assert_eq!(changed, places);
        assert!((1..=3).contains(&places.len()));
    }
    assert!(days::damage(&mut random, &mut []).is_empty());
    assert_eq!(days::damage(&mut random, &mut [7]), [1]);
    assert_eq!(days::swap(&mut random, &mut [7, 7, 7]), None);
    assert_eq!(days::swap(&mut random, &mut []), None);
    let mut pair = [1, 2];
    assert_eq!(days::swap(&mut random, &mut pair), Some(1));
    assert_eq!(pair, [2, 1]);
}

/// A day, mostly with damage, and with its records in order or not.
fn any_day(random: &mut Random, in_order: bool) -> Vec<u8> {
    let issuers = random.index(71);
    let files = 1 + random.index(8);
    let mut bytes = days::day(random, issuers, files, 25).unwrap().bytes;
    if !in_order {
        days::disorder(random, &mut bytes);
    }
    for _ in 0..random.below(4) {
        if !bytes.is_empty() {
            let records = bytes.len().div_ceil(150);
            let start = random.index(records) * 150;
            let end = bytes.len().min(start + 150);
            days::damage(random, &mut bytes[start..end]);
        }
    }
    bytes
}

/// Damaged days against the naive session. Refused records are skipped, and files are abandoned now and then; most
/// headers behind those get the number that follows.
#[test]
fn damaged_days_against_the_naive_session() {
    let mut random = Random::new(10);
    let mut numbers = BTreeMap::new();
    for round in 0..400 {
        let bytes = any_day(&mut random, round % 2 == 1);
        let mut session = Session::new();
        let mut naive = NaiveSession::default();
        for record in bytes.chunks(150) {
            let record = if random.once_in(8) {
                record.to_vec()
            } else {
                naive.history.in_order(record)
            };
            let before = session.clone();
            let outcome = session.take(&record, &[]);
            let expected = naive.take(&record, &[]);
            assert_eq!(answer(&outcome), expected.clone().err().unwrap_or((0, 0)));
            *numbers.entry(answer(&outcome).0).or_insert(0) += 1;
            match expected {
                Ok(next) => naive = next,
                Err(_) => assert_eq!(session, before),
            }
            assert_eq!(NaiveSession::of(&session), naive);
            if random.once_in(200) {
                session.abandon();
                naive = naive.abandoned();
                assert_eq!(NaiveSession::of(&session), naive);
            }
        }
        assert_answer(session.finish(), if naive.open { 19 } else { 0 }, 0);
        assert_eq!(NaiveBoard::of(session.board()), naive.shown);
    }
    for number in [0, 1, 2, 7, 8, 9, 10, 11, 12, 13, 14, 17, 26] {
        assert!(numbers.contains_key(&number), "{number} of {numbers:?}");
    }
}
