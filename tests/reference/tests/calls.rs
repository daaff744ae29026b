//! Random calls of writers, against the rules of the record that each would write.

mod common;

use std::collections::BTreeMap;

use common::{any_list, assert_answer};
use reference::days;
use reference::random::Random;
use reference::{answer, Session, Stage, Writer};

/// Any calls of a new writer that is lent one list, refused calls among them, also some under a wrong list: a new
/// session that is lent the same list accepts the file that the writer closed.
#[test]
fn any_calls_of_a_writer() {
    let mut random = Random::new(11);
    let mut closed = BTreeMap::new();
    let mut refused = BTreeMap::new();
    for _ in 0..2_000 {
        let mut writer = Writer::new();
        let mut bytes = Vec::new();
        let issuers = days::issuers(&mut random, 6);
        let agreed = days::agreed(&mut random, &issuers);
        for _ in 0..random.below(60) {
            let mut out = [7; 154];
            // Mostly the length that is right.
            let length = match random.below(20) {
                0 => 148 + random.index(7),
                1..=9 if writer.stage == Stage::Fresh => 152,
                _ if writer.lined => 152,
                _ => 150,
            };
            let buffer = &mut out[..length];
            let before = writer.clone();
            let outcome = match random.below(30) {
                0..=5 => {
                    let mut fields = days::header_fields(&mut random);
                    if random.once_in(4) {
                        days::damage(&mut random, &mut fields);
                    }
                    writer.header(&fields, buffer)
                }
                6 => writer.trailer(buffer),
                _ => {
                    let issuer = issuers[random.index(issuers.len())];
                    let code = days::barcode_of(&mut random, issuer).unwrap();
                    let version = days::version(&mut random);
                    let mut fields = days::payment_fields(&mut random, &code, version);
                    if random.once_in(4) {
                        days::damage(&mut random, &mut fields);
                    }
                    let (received, tariff) = (random.number(13), random.number(8));
                    if random.once_in(8) {
                        let wrong = days::wrong_agreed(&mut random, &issuers);
                        writer.payment(&fields, received, tariff, &wrong, buffer)
                    } else {
                        writer.payment(&fields, received, tariff, &agreed, buffer)
                    }
                }
            };
            match outcome {
                Ok(()) => {
                    assert_eq!(length, if writer.lined { 152 } else { 150 });
                    bytes.extend_from_slice(&out[..length]);
                }
                Err(refusal) => {
                    assert_eq!((&writer, out), (&before, [7; 154]));
                    assert_ne!(refusal.number(), 22);
                    *refused.entry(refusal.number()).or_insert(0) += 1;
                }
            }
        }
        let mut session = Session::new();
        let run = session.run(&bytes, false, &agreed);
        assert_eq!(run.answer, Ok(()));
        assert_eq!(run.files, u64::from(writer.stage == Stage::Closed));
        assert_eq!(session.open, writer.stage == Stage::Open);
        assert_eq!(run.bytes, bytes.len());
        let kind = (writer.version, writer.lined);
        *closed.entry(kind).or_insert(0) += run.files;
        if session.open {
            assert_eq!(
                (session.taken, session.total, session.version),
                (writer.taken, writer.total, writer.version)
            );
            assert_eq!(session.lined, writer.lined);
        }
    }
    for kind in [(4, false), (4, true), (6, false), (6, true)] {
        assert!(closed[&kind] > 50, "{closed:?}");
    }
    assert!(refused[&11] > 1_000 && refused[&25] > 1_000, "{refused:?}");
}

/// The writer refuses a G that the naive check of the record refuses, with 21 in the turn of its field.
#[test]
fn writer_refuses_as_the_record_would() {
    let mut random = Random::new(12);
    for _ in 0..60_000 {
        let version = [4, 4, 6, 6, 77][random.index(5)];
        let mut writer = Writer {
            stage: Stage::Open,
            version,
            ..Writer::new()
        };
        let issuer = days::issuer(&mut random);
        let agreed = any_list(&mut random, &[issuer]);
        let code = days::barcode_of(&mut random, issuer).unwrap();
        let made = days::version(&mut random);
        let mut fields = days::payment_fields(&mut random, &code, made);
        if !random.once_in(8) {
            days::damage(&mut random, &mut fields);
        }
        let (received, tariff) = (random.number(14), random.number(9));
        let text = [
            b"G",
            &fields[..80],
            format!("{:012}", received % 1_000_000_000_000).as_bytes(),
            format!("{:07}", tariff % 10_000_000).as_bytes(),
            &fields[80..],
            &[b' '; 9],
        ]
        .concat();
        let mut refusals = Vec::new();
        if let Err((number, place)) = common::naive::record(&text, version, b"G", &agreed) {
            refusals.push((place, number));
        }
        if received >= 1_000_000_000_000 {
            refusals.push((82, 21));
        }
        if tariff >= 10_000_000 {
            refusals.push((94, 21));
        }
        refusals.sort_unstable();
        let (place, number) = refusals.first().copied().unwrap_or((0, 0));
        let mut out = [7; 150];
        let outcome = writer.payment(&fields, received, tariff, &agreed, &mut out);
        assert_answer(outcome, number, place);
        let written: &[u8] = if outcome.is_ok() { &text } else { &[7; 150] };
        assert_eq!(out, written);
        assert_eq!(writer.version, version);
    }
}

/// The writer refuses an A that the naive check of the record refuses.
#[test]
fn writer_refuses_headers_as_the_record_would() {
    let mut random = Random::new(13);
    let mut seen = BTreeMap::new();
    for _ in 0..60_000 {
        let mut fields = days::header_fields(&mut random);
        match random.below(8) {
            0 => {}
            1 | 2 => drop(days::damage(&mut random, &mut fields[77..])),
            _ => drop(days::damage(&mut random, &mut fields)),
        }
        let text = [
            b"A2",
            &fields[..79],
            b"C",
            &fields[79..],
            b"DIGO DE BARRAS ",
            &[b' '; 52],
        ]
        .concat();
        let mut writer = Writer::new();
        let mut out = [7; 150];
        let outcome = writer.header(&fields, &mut out);
        let expected = common::naive::record(&text, 0, b"A", &[])
            .err()
            .unwrap_or((0, 0));
        assert_eq!(answer(&outcome), expected);
        let written: &[u8] = if outcome.is_ok() { &text } else { &[7; 150] };
        assert_eq!(out, written);
        let version = match (outcome, fields[78]) {
            (Err(_), _) => 0,
            (Ok(()), last) => u64::from(last - b'0'),
        };
        assert_eq!(writer.version, version);
        *seen.entry((expected, version)).or_insert(0) += 1;
    }
    for wanted in [((0, 0), 4), ((0, 0), 6), ((10, 80), 0), ((10, 82), 0)] {
        assert!(seen.get(&wanted) > Some(&100), "{wanted:?} of {seen:?}");
    }
}
