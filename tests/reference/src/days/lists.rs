//! Random lists of agreed issuers, right and wrong.

use super::{issuer, SEGMENTS};
use crate::agreed::{key, names_issuer, AGREED};
use crate::barcode::Issuer;
use crate::random::Random;

/// A random right list: some of these issuers and some others, in rising order, in falling order or in none. It is
/// sometimes empty and sometimes full.
pub fn agreed(random: &mut Random, issuers: &[Issuer]) -> Vec<u64> {
    let length = match random.below(8) {
        0 => 0,
        1 => AGREED,
        2 => 1,
        _ => random.index(AGREED + 1),
    };
    list_of(random, issuers, length)
}

/// A random wrong list: one of 65 or more entries, with an entry that names no issuer, or with an issuer twice.
pub fn wrong_agreed(random: &mut Random, issuers: &[Issuer]) -> Vec<u64> {
    match random.below(4) {
        0 => {
            let more = random.index(8) * random.index(8);
            list_of(random, issuers, AGREED + 1 + more)
        }
        1 => {
            let mut list = some_of(random, issuers, 2);
            let from = random.index(list.len());
            // The same entry again: next to it, at an end or anywhere.
            let to = match random.below(4) {
                0 => 0,
                1 => list.len() - 1,
                2 => (from + 1) % list.len(),
                _ => random.index(list.len()),
            };
            if from == to {
                list.insert(from, list[from]);
            } else {
                list[to] = list[from];
            }
            list
        }
        _ => {
            let mut list = some_of(random, issuers, 1);
            let i = random.index(list.len());
            list[i] = no_key(random);
            list
        }
    }
}

/// A right list of `least` to 63 entries, so that one more fits in.
fn some_of(random: &mut Random, issuers: &[Issuer], least: usize) -> Vec<u64> {
    let length = least + random.index(AGREED - least);
    list_of(random, issuers, length)
}

/// A list of `length` different issuers: as many of the given ones as chance has it, the rest any.
fn list_of(random: &mut Random, issuers: &[Issuer], length: usize) -> Vec<u64> {
    let mut list = Vec::new();
    // Every second given issuer, or all of them, as far as there is room.
    let all = random.once_in(2);
    for &issuer in issuers {
        let key = key(issuer);
        if list.len() < length && (all || random.once_in(2)) && !list.contains(&key) && key != 0 {
            list.push(key);
        }
    }
    while list.len() < length {
        let next = key(issuer(random));
        if !list.contains(&next) {
            list.push(next);
        }
    }
    order(random, &mut list);
    list
}

/// Puts a list in rising order, in falling order or in none.
fn order(random: &mut Random, list: &mut [u64]) {
    match random.below(4) {
        0 => list.sort_unstable(),
        1 => list.sort_unstable_by(|one, other| other.cmp(one)),
        _ => {
            for i in (1..list.len()).rev() {
                list.swap(i, random.index(i + 1));
            }
        }
    }
}

/// A number that names no issuer: 0, one of segment 0 or 8, one of a segment past 9, one whose number is too long for
/// its segment, or any.
fn no_key(random: &mut Random) -> u64 {
    const UNIT: u64 = 100_000_000;
    let segment = SEGMENTS[random.index(SEGMENTS.len())];
    let number = match random.below(8) {
        0 => 0,
        1 => random.below(10_000),
        2 => 8 * UNIT + random.below(10_000),
        3 => 10 * UNIT + random.below(10_000),
        4 => segment * UNIT + 10_000,
        5 => segment * UNIT + random.between(10_000, UNIT - 1),
        6 => u64::MAX - random.below(3),
        _ => random.bits(),
    };
    // In segment 6 a number of five to eight digits is one.
    if names_issuer(number) {
        return 0;
    }
    number
}
