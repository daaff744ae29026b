//! Line ends in inputs: mutations that damage them, their repair, and mutations of where runs are cut.

use std::ops::Range;

use conformance::inputs::{self, Kind, CUT, FED};
use conformance::lines::{SIZES, WRONG_ENDS};
use reference::days;
use reference::random::Random;
use reference::records::{LENGTH, LINE_END};

use crate::places;

/// The most bytes that are taken for a damaged line end.
const MOST_END: usize = 4;

/// Damages a line end, or changes the form of a file: its state, or the buffers of its writer. False if the input has
/// none of these.
pub fn line_end(random: &mut Random, kind: Kind, bytes: &mut Vec<u8>) -> bool {
    match kind {
        Kind::Write => return buffer_size(random, bytes),
        Kind::Run if random.once_in(2) => {
            let mut day = bytes.split_off(places::runs_start(bytes));
            days::damage_line_end(random, &mut day);
            bytes.append(&mut day);
            return true;
        }
        Kind::ArbitrarySession if random.once_in(4) => {
            if let Some(flags) = bytes.first_mut() {
                *flags ^= 2;
            }
            return true;
        }
        Kind::Run | Kind::Take | Kind::ArbitrarySession => {}
        _ => return false,
    }
    let records = places::records(kind, bytes);
    let Some(record) = records.get(random.index(records.len())) else {
        return false;
    };
    let end = match random.below(4) {
        0 => WRONG_ENDS[random.index(WRONG_ENDS.len())],
        1 => b"",
        _ => LINE_END,
    };
    put(kind, bytes, record, end);
    true
}

/// Replaces what follows the 150 bytes of a record. One that is shorter stays as it is.
fn put(kind: Kind, bytes: &mut Vec<u8>, record: &Range<usize>, end: &[u8]) {
    let from = record.start + LENGTH;
    if record.end < from {
        return;
    }
    bytes.splice(from..record.end, end.iter().copied());
    if places::has_steps(kind) {
        let how = &mut bytes[record.start - 1];
        *how = *how % 8 + inputs::step(LENGTH + end.len());
    }
}

/// Changes the length of one of a writer's buffers, or makes all of them those of a lined or of a bare file.
fn buffer_size(random: &mut Random, bytes: &mut [u8]) -> bool {
    let sizes = places::buffer_sizes(bytes);
    let Some(&one) = sizes.get(random.index(sizes.len())) else {
        return false;
    };
    if random.once_in(2) {
        bytes[one] = random.one_of(&SIZES);
    } else {
        let all = random.one_of(&[150, 152]);
        sizes.iter().for_each(|&place| bytes[place] = all);
        bytes[0] = bytes[0] & !2 | (all - 150);
    }
    true
}

/// Makes every record end as the header of its file does. A header with a damaged line end gets a right one.
pub fn repair(kind: Kind, bytes: &mut Vec<u8>) {
    let records = match kind {
        Kind::Run => pieces(bytes),
        _ if places::has_steps(kind) => places::records(kind, bytes),
        _ => return,
    };
    let is_lined = |flags: &u8| flags & 2 != 0;
    let mut lined = kind == Kind::ArbitrarySession && bytes.first().is_some_and(is_lined);
    let mut ends = Vec::new();
    for record in &records {
        if bytes[record.start] == b'A' {
            lined = record.len() > LENGTH;
        }
        ends.push(if lined { LINE_END.as_slice() } else { b"" });
    }
    // From the last to the first: a repair moves what follows it.
    for (record, end) in records.iter().zip(ends).rev() {
        put(kind, bytes, record, end);
    }
}

/// The records of runs, with the few bytes that are between one and the letter of the next.
fn pieces(bytes: &[u8]) -> Vec<Range<usize>> {
    let mut pieces = Vec::new();
    let mut start = places::runs_start(bytes);
    while start < bytes.len() {
        let end = bytes.len().min(start + LENGTH);
        let after = &bytes[end..];
        let next = after.iter().take(MOST_END + 1);
        let letter = next.clone().position(|byte| b"AGZ".contains(byte));
        let few = match letter {
            Some(few) => few,
            None if after.len() <= MOST_END => after.len(),
            None => 0,
        };
        pieces.push(start..end + few);
        start = end + few;
    }
    pieces
}

/// Adds, drops or changes a cut of runs, or changes whether they are fed as a caller would.
pub fn cut(random: &mut Random, bytes: &mut Vec<u8>) {
    let Some(&first) = bytes.first() else {
        return;
    };
    let count = usize::from(first % 8);
    let place = 1 + CUT * random.index(count);
    let length = match random.below(4) {
        0 => random.below(5),
        1 => random.between(148, 154),
        2 => random.between(298, 306),
        _ => random.below(bytes.len() as u64),
    };
    let [low, high, ..] = length.to_le_bytes();
    let new = [random.below(8) as u8, low, high];
    match random.below(4) {
        0 => bytes[0] = first ^ FED,
        1 if count < 7 => {
            bytes[0] = first + 1;
            bytes.splice(1..1, new);
        }
        2 if count > 0 && place + CUT <= bytes.len() => {
            bytes[0] = first - 1;
            bytes.drain(place..place + CUT);
        }
        _ => {
            if let (Some(cut), true) = (bytes.get_mut(place..place + CUT), count > 0) {
                cut.copy_from_slice(&new);
            }
        }
    }
}
