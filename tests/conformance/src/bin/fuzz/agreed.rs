//! Lists of agreed issuers in inputs: where they are, and mutations of them.

use conformance::inputs::{self, Kind};
use conformance::{lists, wire};
use reference::agreed::key;
use reference::random::Random;
use reference::{days, Issuer, AGREED};

/// The most entries of a list in an input.
const MOST: usize = 255;

/// The list of an input without its first byte, and what follows it.
pub fn split(kind: Kind, input: &[u8]) -> (Vec<u64>, &[u8]) {
    let (list, rest) = input.split_at(inputs::list_length(kind, input));
    let entries = list.get(1..).unwrap_or_default().chunks_exact(8);
    let entries = entries.map(|entry| wire::number_at(entry, 0));
    (entries.collect(), rest)
}

/// An input of a kind with this list, if the kind has one.
pub fn input(kind: Kind, list: &[u64], rest: &[u8]) -> Vec<u8> {
    let mut input = vec![kind as u8];
    if kind.has_list() {
        wire::list(&mut input, list);
    }
    input.extend_from_slice(rest);
    input
}

/// Sometimes changes a list: empties it or fills it up, adds, drops, doubles or changes an entry, or takes another
/// list. The issuers are those of the input's barcodes.
pub fn mutate(random: &mut Random, list: &mut Vec<u64>, other: &[u64], issuers: &[Issuer]) {
    let here = random.index(list.len() + 1);
    match random.below(32) {
        0 | 1 => list.clear(),
        2..=5 => add(list, here, issuers.get(random.index(issuers.len()))),
        6 => add(list, here, Some(&days::issuer(random))),
        7 if here < list.len() => drop(list.remove(here)),
        8 if here < list.len() => list.insert(random.index(list.len() + 1), list[here]),
        9 if here < list.len() => change(random, &mut list[here]),
        10 => *list = other.to_vec(),
        11 => *list = lists::lent(random, issuers),
        12 => fill(random, list),
        _ => {}
    }
    list.truncate(MOST);
}

/// Adds an issuer, if there is one and the list does not have it.
fn add(list: &mut Vec<u64>, place: usize, issuer: Option<&Issuer>) {
    if let Some(&issuer) = issuer {
        if !list.contains(&key(issuer)) {
            list.insert(place, key(issuer));
        }
    }
}

/// Changes an entry to one next to it, of another segment, or to any number.
fn change(random: &mut Random, entry: &mut u64) {
    let by = [1, 10_000, 100_000_000, 1 << 32, 1 << 63][random.index(5)];
    *entry = match random.below(4) {
        0 => random.bits(),
        1 => entry.wrapping_sub(by),
        _ => entry.wrapping_add(by),
    };
}

/// Fills a list up to 63, 64 or 65 entries.
fn fill(random: &mut Random, list: &mut Vec<u64>) {
    let length = AGREED - 1 + random.index(3);
    while list.len() < length {
        let place = random.index(list.len() + 1);
        add(list, place, Some(&days::issuer(random)));
    }
}
