//! Mutations of an input: of bytes, of ranges of bytes, and of its list, records, fields, pairs, sums and line ends.

use std::ops::Range;

use conformance::inputs::Kind;
use conformance::versions;
use reference::digits;
use reference::random::Random;
use reference::records::TABLE;

use crate::repair::repair;
use crate::{agreed, ends, pairs, places, sums};

/// The length of the longest input.
const MOST_BYTES: usize = 1 << 14;

/// Bytes at the edges of their classes.
const BYTES: &[u8] = b"\0\x01\n\r\x1f /09:@AGOZ[`az~\x7f\x80\x9f\xa0\xd3\xff";

/// Numbers at the edges of their widths and limits.
pub const EDGES: [u64; 39] = [
    0,
    1,
    2,
    4,
    6,
    9,
    10,
    12,
    16,
    28,
    29,
    30,
    31,
    63,
    64,
    65,
    150,
    152,
    1899,
    1900,
    2000,
    2100,
    2199,
    2200,
    9_999,
    10_000,
    999_997,
    999_998,
    999_999,
    9_999_999,
    99_999_999,
    1 << 32,
    (1 << 32) + 4,
    99_999_999_999,
    999_999_999_999,
    99_999_999_999_999_999,
    1_000_000_000_000_000_000,
    u64::MAX - 1,
    u64::MAX,
];

/// A number at an edge, next to one, somewhat below one, or any.
pub fn edge(random: &mut Random) -> u64 {
    let edge = EDGES[random.index(EDGES.len())];
    match random.below(8) {
        0 => random.bits(),
        1 => edge.wrapping_add(1),
        2 => edge.wrapping_sub(1),
        3 => edge.wrapping_sub(random.number(12)),
        _ => edge,
    }
}

/// A new input of a kind, from one input without its first byte and parts of another.
pub fn mutate(random: &mut Random, kind: Kind, one: &[u8], other: &[u8]) -> Vec<u8> {
    let (mut list, one) = agreed::split(kind, one);
    let (other_list, other) = agreed::split(kind, other);
    let mut bytes = one.to_vec();
    for _ in 0..1 << random.below(4) {
        match random.below(16) {
            0 => records(random, kind, &mut bytes, other),
            1 | 2 => field(random, kind, &mut bytes, other),
            3 | 4 => range(random, &mut bytes, other),
            5 | 6 => number(random, kind, &mut bytes),
            7 => date(random, kind, &mut bytes),
            8 => version(random, kind, &mut bytes),
            9 | 10 => form(random, kind, &mut bytes),
            11 if pairs::copy(random, kind, &mut bytes) => {}
            12 if sums::limit(random, kind, &mut bytes) => {}
            _ => byte(random, &mut bytes),
        }
    }
    if random.once_in(2) {
        repair(random, kind, &mut bytes);
    }
    bytes.truncate(MOST_BYTES);
    let issuers = places::issuers(kind, &bytes);
    agreed::mutate(random, &mut list, &other_list, &issuers);
    agreed::input(kind, &list, &bytes)
}

/// Changes one byte, or swaps two.
fn byte(random: &mut Random, bytes: &mut [u8]) {
    let i = random.index(bytes.len());
    let j = random.index(bytes.len());
    let Some(here) = bytes.get_mut(i) else {
        return;
    };
    match random.below(8) {
        0 => *here = random.byte(),
        1 | 2 => *here = random.one_of(BYTES),
        3 => *here = here.wrapping_add(1),
        4 => *here = here.wrapping_sub(1),
        5 => bytes.swap(i, j),
        6 => bytes[i.saturating_sub(1)..=i].rotate_left(1),
        _ => *here = random.digit(),
    }
}

/// A range of the bytes, mostly short.
fn part(random: &mut Random, bytes: &[u8]) -> std::ops::Range<usize> {
    let from = random.index(bytes.len());
    let most = [4, 16, 200][random.index(3)];
    from..bytes.len().min(from + 1 + random.index(most))
}

/// Drops, inserts, replaces, doubles or fills a range of bytes, or takes over the end of the other input.
fn range(random: &mut Random, bytes: &mut Vec<u8>, other: &[u8]) {
    let here = part(random, bytes);
    match random.below(6) {
        0 => drop(bytes.drain(here)),
        1 => drop(bytes.splice(here.start..here.start, other[part(random, other)].to_vec())),
        2 => drop(bytes.splice(here, other[part(random, other)].to_vec())),
        3 => {
            let again = bytes[here.clone()].to_vec();
            bytes.splice(here.start..here.start, again);
        }
        4 => {
            let rest = other.get(here.start..).unwrap_or_default();
            bytes.truncate(here.start);
            bytes.extend_from_slice(rest);
        }
        _ => bytes[here].fill(random.one_of(b"0099 \xff")),
    }
}

/// Replaces a number by one at an edge.
fn number(random: &mut Random, kind: Kind, bytes: &mut [u8]) {
    let places = places::numbers(kind, bytes);
    let place = places.get(random.index(places.len()));
    match place.and_then(|&place| bytes.get_mut(place..place + 8)) {
        Some(number) => number.copy_from_slice(&edge(random).to_le_bytes()),
        None => byte(random, bytes),
    }
}

/// Replaces a date by one at the end of a month, of a century or of the calendar, or just past it.
fn date(random: &mut Random, kind: Kind, bytes: &mut [u8]) {
    let mut one_of = |edges: &[u64]| edges[random.index(edges.len())];
    let year = one_of(&[1899, 1900, 2000, 2023, 2024, 2100, 2199, 2200]);
    let day = one_of(&[1, 100, 101, 131, 132, 228, 229, 230, 430, 431, 1231, 1301]);
    if kind == Kind::DateNumbers {
        let numbers = [year, day / 100, day % 100];
        for (to, number) in bytes.chunks_exact_mut(8).zip(numbers) {
            to.copy_from_slice(&number.to_le_bytes());
        }
        return;
    }
    if kind == Kind::Line {
        let mut date = [0; 8];
        digits::write(year * 10_000 + day, &mut date);
        let first = [19, 23][random.index(2)];
        return places::write_into_boxes(bytes, first, &date);
    }
    let places = places::dates(kind, bytes);
    let place = places.get(random.index(places.len()));
    match place.and_then(|&place| bytes.get_mut(place..place + 8)) {
        Some(date) => drop(digits::write(year * 10_000 + day, date)),
        None => byte(random, bytes),
    }
}

/// Replaces the version that is told, or the version or a code of a record, by one of either version or by none.
fn version(random: &mut Random, kind: Kind, bytes: &mut [u8]) {
    let told = places::version(kind, bytes).and_then(|place| bytes.get_mut(place..place + 8));
    match told {
        Some(told) if random.once_in(2) => {
            told.copy_from_slice(&versions::told(random).to_le_bytes());
        }
        _ => match record(random, kind, bytes) {
            Some(record) => versions::change(random, &mut bytes[record]),
            None => byte(random, bytes),
        },
    }
}

/// Damages a line end, changes the form of a file, or cuts runs elsewhere.
fn form(random: &mut Random, kind: Kind, bytes: &mut Vec<u8>) {
    if kind == Kind::Run && random.once_in(2) {
        ends::cut(random, bytes);
    } else if !ends::line_end(random, kind, bytes) {
        byte(random, bytes);
    }
}

/// The range of one of the records, if there are any.
fn record(random: &mut Random, kind: Kind, bytes: &[u8]) -> Option<Range<usize>> {
    let records = places::records(kind, bytes);
    records.get(random.index(records.len())).cloned()
}

/// Drops, doubles or moves a record, or inserts one of the other input.
fn records(random: &mut Random, kind: Kind, bytes: &mut Vec<u8>, other: &[u8]) {
    let before = match kind {
        Kind::Run => 0,
        _ if places::has_steps(kind) => 1,
        _ => return range(random, bytes, other),
    };
    let (Some(here), Some(there)) = (record(random, kind, bytes), record(random, kind, other))
    else {
        return;
    };
    let (start, end) = (here.start - before, here.end);
    match random.below(4) {
        0 => drop(bytes.drain(start..end)),
        1 => drop(bytes.splice(start..start, bytes[start..end].to_vec())),
        2 => drop(bytes.splice(
            start..start,
            other[there.start - before..there.end].to_vec(),
        )),
        _ => bytes[start..].rotate_left(end - start),
    }
}

/// Replaces a field of a record by that of another record, by a number at an edge, or by one repeated byte.
fn field(random: &mut Random, kind: Kind, bytes: &mut [u8], other: &[u8]) {
    let (Some(here), Some(there)) = (record(random, kind, bytes), record(random, kind, other))
    else {
        return byte(random, bytes);
    };
    let (here, there) = (here.start, there.start);
    let rows: Vec<_> = TABLE
        .iter()
        .filter(|row| row.letter == bytes[here])
        .collect();
    let Some(row) = rows.get(random.index(rows.len())) else {
        return byte(random, bytes);
    };
    let Some(field) = bytes.get_mut(here + row.first - 1..here + row.last) else {
        return;
    };
    match (
        random.below(4),
        other.get(there + row.first - 1..there + row.last),
    ) {
        (0 | 1, Some(others)) => field.copy_from_slice(others),
        (2, _) => field.fill(random.one_of(BYTES)),
        _ => drop(digits::write(edge(random), field)),
    }
}
