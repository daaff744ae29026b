//! Agreed issuers: the program against the naive version of its rules, under random lists, right and wrong.

mod common;

use std::collections::{BTreeMap, BTreeSet};

use common::naive::{self, NaiveRun, NaiveSession};
use common::{any_list, key_of};
use reference::agreed::{check, is_agreed};
use reference::days::{self, Form};
use reference::random::Random;
use reference::records::{self, TABLE};
use reference::{answer, barcode, line, Barcode, Issuer, Record, Session};

fn expected<T>(outcome: Result<T, naive::Answer>) -> naive::Answer {
    outcome.err().unwrap_or((0, 0))
}

/// The due date that is shown, as digits.
fn due(decoded: Barcode) -> Option<naive::Due> {
    decoded.due.map(|date| date.digits())
}

/// A barcode with or without a date, at times with digits that are nearly one.
fn any_code(random: &mut Random, issuer: Issuer) -> [u8; 44] {
    let code = days::barcode_of(random, issuer).unwrap();
    if !random.once_in(3) {
        return code;
    }
    let near = [b"20230229", b"22000101", b"18991231", b"20240431"];
    let mut free = barcode::free_field(&code, &[]).to_vec();
    free[..8].copy_from_slice(near[random.index(near.len())]);
    let mut built = [0; 44];
    barcode::build(issuer.segment, 8, 5, issuer.number, &free, &[], &mut built).unwrap();
    built
}

/// Every kind of right list and of wrong list is made.
#[test]
fn lists_are_right_or_wrong_as_told() {
    let mut random = Random::new(101);
    let (mut lengths, mut faults) = (BTreeSet::new(), BTreeSet::new());
    let mut agreed_ones = [0; 2];
    for _ in 0..20_000 {
        let issuers = days::issuers(&mut random, 3);
        let right = days::agreed(&mut random, &issuers);
        assert_eq!(
            (answer(&check(&right)), naive::list(&right)),
            ((0, 0), Ok(()))
        );
        lengths.insert(right.len());
        for &issuer in &issuers {
            agreed_ones[usize::from(is_agreed(issuer, &right))] += 1;
        }
        let wrong = days::wrong_agreed(&mut random, &issuers);
        assert_eq!(answer(&check(&wrong)), (25, 0));
        assert_eq!(naive::list(&wrong), Err((25, 0)));
        let different: BTreeSet<&u64> = wrong.iter().collect();
        faults.insert((wrong.len() > 64, different.len() < wrong.len()));
    }
    assert_eq!(lengths, (0..=64).collect());
    assert_eq!(faults.len(), 3, "too long, twice, or an entry: {faults:?}");
    assert!(
        agreed_ones.iter().all(|&count| count > 10_000),
        "{agreed_ones:?}"
    );
}

#[test]
fn any_numbers_in_a_list() {
    let mut random = Random::new(102);
    let mut right = 0;
    for _ in 0..100_000 {
        let entry = match random.below(3) {
            0 => random.bits() % 1_100_000_000,
            1 => random.below(12) * 100_000_000 + random.number(9),
            _ => random.number(19),
        };
        let list = [key_of(1, 5), entry];
        let outcome = naive::list(&list);
        assert_eq!(answer(&check(&list)), expected(outcome));
        right += usize::from(outcome.is_ok());
    }
    assert!((10_000..90_000).contains(&right), "{right}");
}

#[test]
fn barcodes_and_lines() {
    let mut random = Random::new(103);
    let mut seen = BTreeMap::new();
    for round in 0..80_000 {
        let issuer = days::issuer(&mut random);
        let mut code = any_code(&mut random, issuer);
        let mut typed = [0; 48];
        line::line_from_barcode(&code, &[], &mut typed).unwrap();
        if round % 4 == 0 {
            days::damage(&mut random, &mut code);
            days::swap(&mut random, &mut typed);
        }
        let agreed = any_list(&mut random, &[issuer]);
        let decoded = barcode::decode(&code, &agreed);
        let wanted = naive::barcode(&code, &agreed);
        assert_eq!(answer(&decoded), expected(wanted));
        assert_eq!(decoded.ok().map(due), wanted.ok());
        let free = barcode::free_field(&code, &agreed);
        assert_eq!(free.is_empty(), wanted.is_err());
        let mut written = [7; 48];
        let outcome = line::line_from_barcode(&code, &agreed, &mut written);
        assert_eq!(answer(&outcome), expected(wanted));
        assert_eq!(written == [7; 48], wanted.is_err());

        let decoded = line::decode(&typed, &agreed);
        let wanted = naive::typed_line(&typed, &agreed);
        assert_eq!(answer(&decoded), expected(wanted));
        assert_eq!(decoded.ok().map(due), wanted.ok());
        let mut read = [7; 44];
        let outcome = line::barcode_from_line(&typed, &agreed, &mut read);
        assert_eq!(answer(&outcome), expected(wanted));
        assert_eq!(read == [7; 44], wanted.is_err());
        *seen.entry(answer(&outcome)).or_insert(0) += 1;
    }
    for wanted in [(0, 0), (11, 21), (11, 26), (25, 0), (6, 24), (7, 4)] {
        assert!(seen.get(&wanted) > Some(&100), "{wanted:?} of {seen:?}");
    }
}

#[test]
fn the_builder() {
    let mut random = Random::new(104);
    let mut seen = BTreeMap::new();
    for _ in 0..80_000 {
        let issuer = days::issuer(&mut random);
        let agreed = any_list(&mut random, &[issuer]);
        let code = any_code(&mut random, issuer);
        let mut free = barcode::free_field(&code, &[]).to_vec();
        let mut fields = [issuer.segment, random.between(6, 9), 5, issuer.number];
        let mut length = 44;
        match random.below(16) {
            0 => length = random.index(45),
            1 => fields[0] = random.below(12),
            2 => fields[1] = random.below(12),
            3 => fields[2] = random.number(19),
            4 => fields[3] = random.number(10),
            5 => free.truncate(random.index(26)),
            6 => drop(days::damage(&mut random, &mut free)),
            _ => {}
        }
        let [segment, kind, value, number] = fields;
        let mut out = [7; 44];
        let room = &mut out[..length];
        let outcome = barcode::build(segment, kind, value, number, &free, &agreed, room);
        let wanted = naive::build(fields, &free, &agreed, length);
        *seen.entry(answer(&outcome).0).or_insert(0) += 1;
        assert_eq!(answer(&outcome), expected(wanted.clone()));
        assert_eq!(out.to_vec(), wanted.unwrap_or(vec![7; 44]));
    }
    for number in [0, 1, 2, 4, 5, 11, 21, 25] {
        assert!(seen.get(&number) > Some(&100), "{number} of {seen:?}");
    }
}

#[test]
fn records_alone() {
    let mut random = Random::new(105);
    let mut seen = BTreeMap::new();
    for round in 0..80_000 {
        let version = days::version(&mut random);
        let issuer = days::issuer(&mut random);
        let mut record = match round % 4 {
            0 => days::record(&mut random, version).unwrap(),
            _ => days::payment_under(&mut random, issuer, version, &[]).unwrap(),
        };
        if random.once_in(3) {
            days::damage(&mut random, &mut record);
        }
        let agreed = any_list(&mut random, &[issuer]);
        let outcome = records::decode(&record, version, &agreed);
        let wanted = naive::record(&record, version, b"AGZ", &agreed);
        assert_eq!(answer(&outcome), expected(wanted));
        if let Ok(Record::G(decoded)) = outcome {
            assert_eq!(
                Ok(due(decoded.barcode)),
                naive::due(&record[37..81], &agreed)
            );
        }
        let row = random.index(TABLE.len());
        let field = records::field(&record, version, row, &agreed);
        let shown = wanted.is_ok() && TABLE[row].letter == record[0];
        assert_eq!(field.is_empty(), !shown);
        let length = if record[0] == b'A' { 80 } else { 121 };
        let mut out = [7; 121];
        let outcome = records::join(&record, version, &agreed, &mut out[..length]);
        let wanted = naive::join(&record, version, &agreed, length);
        assert_eq!(answer(&outcome), expected(wanted.clone()));
        assert_eq!(out[..length], wanted.unwrap_or(vec![7; length]));
        *seen.entry(answer(&outcome)).or_insert(0) += 1;
    }
    for wanted in [(0, 0), (11, 57), (11, 61), (25, 0)] {
        assert!(seen.get(&wanted) > Some(&100), "{wanted:?} of {seen:?}");
    }
}

/// A day in which some payments have no date, damaged at times.
fn any_day(random: &mut Random, issuers: &[Issuer], round: usize) -> Vec<u8> {
    let form = Form::ALL[round % 3];
    let agreed = days::agreed(random, issuers);
    let lent: &[u64] = if random.once_in(2) { &agreed } else { &[] };
    let mut bytes = days::day_under(random, issuers, 4, 8, form, lent)
        .unwrap()
        .bytes;
    if random.once_in(4) {
        days::damage(random, &mut bytes);
    }
    bytes
}

/// Each record with a list of its own; after a refusal the same record again, with an empty list.
#[test]
fn sessions_with_a_list_for_each_record() {
    let mut random = Random::new(106);
    let mut seen = BTreeMap::new();
    for round in 0..400 {
        let issuers = days::issuers(&mut random, 4);
        let bytes = any_day(&mut random, &issuers, round);
        let (mut session, mut naive) = (Session::new(), NaiveSession::default());
        let mut rest = &bytes[..];
        while !rest.is_empty() {
            let ended = rest.get(150..152) == Some(b"\r\n");
            let length = rest.len().min(if ended { 152 } else { 150 });
            let (piece, after) = rest.split_at(length);
            for agreed in [any_list(&mut random, &issuers), Vec::new()] {
                let before = session.clone();
                let outcome = session.take(piece, &agreed);
                let wanted = naive.take(piece, &agreed);
                assert_eq!(answer(&outcome), expected(wanted.clone()));
                *seen.entry(answer(&outcome)).or_insert(0) += 1;
                match wanted {
                    Ok(next) => naive = next,
                    Err(_) => assert_eq!(session, before),
                }
                assert_eq!(NaiveSession::of(&session), naive);
                if outcome.is_ok() {
                    break;
                }
            }
            rest = after;
        }
    }
    for wanted in [(0, 0), (11, 57), (11, 61), (25, 0)] {
        assert!(seen.get(&wanted) > Some(&50), "{wanted:?} of {seen:?}");
    }
}

/// Runs with a list of their own, from one random cut to the next.
#[test]
fn runs_with_a_list_for_each() {
    let mut random = Random::new(107);
    let mut seen = BTreeMap::new();
    for round in 0..900 {
        let issuers = days::issuers(&mut random, 4);
        let bytes = any_day(&mut random, &issuers, round);
        let (mut session, mut naive) = (Session::new(), NaiveSession::default());
        let mut start = 0;
        for _ in 0..8 {
            let end = (start + random.index(2_000)).min(bytes.len());
            let agreed = any_list(&mut random, &issuers);
            let more = end < bytes.len();
            let result = session.run(&bytes[start..end], more, &agreed);
            let wanted = naive::run(&naive, &bytes[start..end], more, &agreed);
            assert_eq!(NaiveRun::of(&session, &result), wanted);
            *seen.entry(wanted.answer).or_insert(0) += 1;
            naive = wanted.session;
            start += result.bytes;
        }
    }
    for wanted in [(0, 0), (11, 57), (11, 61), (25, 0)] {
        assert!(seen.get(&wanted) > Some(&20), "{wanted:?} of {seen:?}");
    }
}
