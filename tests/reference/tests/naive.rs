//! The program against the naive version of its rules, on good and damaged bytes.

mod common;

use std::collections::BTreeSet;

use common::naive;
use reference::random::Random;
use reference::{answer, barcode, days, line, records, Modulus};

fn expected<T>(outcome: Result<T, naive::Answer>) -> naive::Answer {
    outcome.err().unwrap_or((0, 0))
}

/// A version that is told with a record: mostly this one, else the other or any number.
fn told(random: &mut Random, version: u64) -> u64 {
    match random.below(8) {
        0 => [0, 4, 5, 6, 7, 60, 77, u64::MAX][random.index(8)],
        1 => random.bits(),
        2 | 3 => days::version(random),
        _ => version,
    }
}

/// The field bytes of a record, in a buffer of an A, of a G or of any length.
fn assert_joined(random: &mut Random, record: &[u8], version: u64) {
    let length = match random.below(4) {
        0 => random.index(151),
        1 => 80,
        _ => 121,
    };
    let mut out = [7; 150];
    let outcome = records::join(record, version, &[], &mut out[..length]);
    let mut left = [7; 150];
    match naive::join(record, version, &[], length) {
        Ok(fields) => {
            assert_eq!(answer(&outcome), (0, 0));
            left[..length].copy_from_slice(&fields);
        }
        Err(refusal) => assert_eq!(answer(&outcome), refusal),
    }
    assert_eq!(out, left);
}

#[test]
fn barcodes() {
    let mut random = Random::new(21);
    for round in 0..200_000 {
        let mut code = days::barcode(&mut random).unwrap();
        match round % 4 {
            0 => {}
            1 => drop(days::swap(&mut random, &mut code)),
            _ => drop(days::damage(&mut random, &mut code)),
        }
        let outcome = barcode::decode(&code, &[]);
        assert_eq!(answer(&outcome), expected(naive::barcode(&code, &[])));
        let mut typed = [7; 48];
        let converted = line::line_from_barcode(&code, &[], &mut typed);
        assert_eq!(answer(&converted), answer(&outcome));
        if outcome.is_ok() {
            assert_eq!(expected(naive::typed_line(&typed, &[])), (0, 0));
        } else {
            assert_eq!(typed, [7; 48]);
            assert!(barcode::free_field(&code, &[]).is_empty());
        }
    }
}

#[test]
fn lines() {
    let mut random = Random::new(22);
    for round in 0..200_000 {
        let mut typed = days::line(&mut random).unwrap();
        match round % 4 {
            0 => {}
            1 => drop(days::swap(&mut random, &mut typed)),
            _ => drop(days::damage(&mut random, &mut typed)),
        }
        let outcome = line::decode(&typed, &[]);
        assert_eq!(answer(&outcome), expected(naive::typed_line(&typed, &[])));
        let mut code = [7; 44];
        let converted = line::barcode_from_line(&typed, &[], &mut code);
        assert_eq!(answer(&converted), answer(&outcome));
        match outcome {
            Ok(decoded) => assert_eq!(barcode::decode(&code, &[]), Ok(decoded)),
            Err(_) => assert_eq!(code, [7; 44]),
        }
    }
}

#[test]
fn any_digits_after_a_good_start() {
    let mut random = Random::new(23);
    for _ in 0..200_000 {
        let mut typed: [u8; 48] = std::array::from_fn(|_| random.digit());
        typed[0] = b'8';
        let outcome = line::decode(&typed, &[]);
        assert_eq!(answer(&outcome), expected(naive::typed_line(&typed, &[])));
        let outcome = barcode::decode(&typed[..44], &[]);
        assert_eq!(
            answer(&outcome),
            expected(naive::barcode(&typed[..44], &[]))
        );
    }
}

#[test]
fn records_alone() {
    let mut random = Random::new(24);
    let mut seen = BTreeSet::new();
    for round in 0..400_000 {
        let made = days::version(&mut random);
        let mut record = days::record(&mut random, made).unwrap();
        let version = told(&mut random, made);
        match round % 8 {
            0 => {}
            1 => drop(days::swap(&mut random, &mut record)),
            _ => drop(days::damage(&mut random, &mut record)),
        }
        let outcome = records::decode(&record, version, &[]);
        assert_eq!(
            answer(&outcome),
            expected(naive::record(&record, version, b"AGZ", &[]))
        );
        seen.insert(answer(&outcome).0);
        assert_joined(&mut random, &record, version);
    }
    for number in [0, 2, 3, 4, 5, 7, 8, 9, 10, 11, 12] {
        assert!(seen.contains(&number), "{number} of {seen:?}");
    }
}

#[test]
fn any_bytes_of_any_length() {
    let mut random = Random::new(25);
    for _ in 0..50_000 {
        let length = match random.below(4) {
            0 => 44,
            1 => 48,
            2 => 150,
            _ => random.index(200),
        };
        let mut bytes: Vec<u8> = (0..length).map(|_| random.byte()).collect();
        if let Some(first) = bytes.first_mut() {
            *first = random.one_of(b"8AGZ");
        }
        let version = told(&mut random, 4);
        assert_eq!(
            answer(&barcode::decode(&bytes, &[])),
            expected(naive::barcode(&bytes, &[]))
        );
        assert_eq!(
            answer(&line::decode(&bytes, &[])),
            expected(naive::typed_line(&bytes, &[]))
        );
        assert_eq!(
            answer(&records::decode(&bytes, version, &[])),
            expected(naive::record(&bytes, version, b"AGZ", &[]))
        );
        assert_joined(&mut random, &bytes, version);
    }
}

#[test]
fn every_byte_in_every_place_of_a_record() {
    let mut random = Random::new(26);
    for letter in 0..3 {
        for made in [4, 4, 6, 6] {
            let good = match letter {
                0 => days::header(&mut random).unwrap(),
                1 => days::payment(&mut random, made).unwrap(),
                _ => days::trailer(&mut random),
            };
            for place in 1..=150 {
                for byte in 0..=255 {
                    let record = common::with_byte(good, place, byte);
                    for version in [4, 6, 5] {
                        assert_eq!(
                            answer(&records::decode(&record, version, &[])),
                            expected(naive::record(&record, version, b"AGZ", &[]))
                        );
                    }
                }
            }
        }
    }
}

#[test]
fn checks() {
    let mut random = Random::new(27);
    for _ in 0..50_000 {
        let digits: Vec<u8> = (0..random.below(100)).map(|_| random.digit()).collect();
        for modulus in [Modulus::Ten, Modulus::Eleven] {
            let expected = naive::check(u128::from(modulus.number()), &digits);
            assert_eq!(modulus.check_digit(&digits).map(u128::from), Ok(expected));
        }
    }
}
