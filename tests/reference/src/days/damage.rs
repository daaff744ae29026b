//! Damage to valid bytes.

use crate::random::Random;
use crate::records::{LENGTH, LINE_END};

/// Bytes at the edges of the classes of docs/SPEC.md, "Words".
const EDGES: [u8; 19] = [
    0, 10, 31, 32, 47, 48, 57, 58, 64, 65, 71, 79, 90, 97, 126, 127, 159, 160, 211,
];

/// Changes the bytes at 1 to 3 places, fewer if there are fewer bytes, and returns the places.
pub fn damage(random: &mut Random, bytes: &mut [u8]) -> Vec<usize> {
    let count = random.between(1, 3).min(bytes.len() as u64) as usize;
    let mut places: Vec<usize> = Vec::new();
    while places.len() < count {
        let i = random.index(bytes.len());
        if !places.contains(&(i + 1)) {
            bytes[i] = other_byte(random, bytes[i]);
            places.push(i + 1);
        }
    }
    places.sort_unstable();
    places
}

/// Another byte than this one: mostly a digit, sometimes an edge of a class, sometimes any.
fn other_byte(random: &mut Random, byte: u8) -> u8 {
    let other = match random.below(8) {
        0..=4 => random.digit(),
        5 | 6 => random.one_of(&EDGES),
        _ => random.byte(),
    };
    // With its last bit flipped, a digit is still a digit.
    if other == byte {
        byte ^ 1
    } else {
        other
    }
}

/// Swaps two different neighbours and returns the place of the first; `None` if all bytes are equal.
pub fn swap(random: &mut Random, bytes: &mut [u8]) -> Option<usize> {
    let differ: Vec<usize> = (1..bytes.len())
        .filter(|&i| bytes[i - 1] != bytes[i])
        .collect();
    let &i = differ.get(random.index(differ.len()))?;
    bytes.swap(i - 1, i);
    Some(i)
}

/// The places between the records of a day, its start and its end among them: a record has its line end, if one follows
/// it, and a last piece shorter than a record is none.
pub(super) fn borders(bytes: &[u8]) -> Vec<usize> {
    let mut borders = vec![0];
    let mut next = LENGTH;
    while next <= bytes.len() {
        if bytes[next..].starts_with(LINE_END) {
            next += LINE_END.len();
        }
        borders.push(next);
        next += LENGTH;
    }
    borders
}

/// Changes the order of a day's records: drops one, doubles one, swaps one with the next, or cuts off the end.
pub fn disorder(random: &mut Random, bytes: &mut Vec<u8>) {
    let borders = borders(bytes);
    // A day of one record has two borders.
    if borders.len() < 3 {
        return;
    }
    let first = random.index(borders.len() - 2);
    let (start, next) = (borders[first], borders[first + 1]);
    match random.below(4) {
        0 => {
            bytes.drain(start..next);
        }
        1 => {
            let again = bytes[start..next].to_vec();
            bytes.splice(next..next, again);
        }
        2 => bytes[start..borders[first + 2]].rotate_left(next - start),
        _ => {
            let rest = bytes.len() - 1 - random.index(bytes.len());
            bytes.truncate(rest);
        }
    }
}

/// Damages a line end of a day, often the last: drops one of its bytes or both, swaps them, changes one, or adds a byte
/// or another line end. Or puts an empty line between files, at the end or behind any record; always that if the day
/// has no line end.
pub fn damage_line_end(random: &mut Random, bytes: &mut Vec<u8>) {
    let ends: Vec<usize> = (1..bytes.len())
        .filter(|&i| bytes[i - 1..=i] == *LINE_END)
        .map(|i| i - 1)
        .collect();
    let chosen = if random.once_in(4) {
        ends.last()
    } else {
        ends.get(random.index(ends.len()))
    };
    let Some(&end) = chosen else {
        return add_empty_line(random, bytes);
    };
    let one = end + random.index(2);
    match random.below(8) {
        0 => drop(bytes.remove(one)),
        1 => drop(bytes.drain(end..end + 2)),
        2 => bytes.swap(end, end + 1),
        3 => bytes[one] = other_byte(random, bytes[one]),
        4 => bytes.insert(one, random.one_of(b"\r\n 0AGZ")),
        5 => bytes.insert(end + 2, random.one_of(b"\r\n 0AGZ")),
        6 => drop(bytes.splice(end..end, *LINE_END)),
        _ => add_empty_line(random, bytes),
    }
}

/// Puts an empty line at the end, behind any record, before a header or behind one; behind a bare header it is a line
/// end.
fn add_empty_line(random: &mut Random, bytes: &mut Vec<u8>) {
    let borders = borders(bytes);
    let headers = borders.windows(2).filter(|around| bytes[around[0]] == b'A');
    let places = match random.below(4) {
        0 => vec![bytes.len()],
        1 => headers.map(|around| around[0]).collect(),
        2 => headers.map(|around| around[1]).collect(),
        _ => borders,
    };
    let place = places.get(random.index(places.len())).copied();
    let place = place.unwrap_or(bytes.len());
    bytes.splice(place..place, *LINE_END);
}
