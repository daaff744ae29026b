//! Days whose sequence numbers are wrong on purpose.

use std::ops::Range;

use super::damage::borders;
use super::pairs::{first_number, pairs};
use crate::digits;
use crate::random::Random;
use crate::session::{Pair, LAST_NUMBER, PAIRS};

/// Makes a day's sequence numbers wrong: repeats a whole file, leaves one out, or changes the order of two; changes the
/// number of a header, to 0 behind 999999 where it can; gives a file another pair; or adds files of up to 17 new pairs.
/// By chance the numbers may still follow. A day without files does not change.
pub fn misnumber(random: &mut Random, bytes: &mut Vec<u8>) {
    let files = files(bytes);
    let Some(file) = files.get(random.index(files.len())).cloned() else {
        return;
    };
    match random.below(8) {
        0 => repeat(random, bytes, file),
        1 => drop(bytes.drain(file)),
        2 => swap_files(random, bytes, &files),
        3 => set_zero(bytes, &files, file.start),
        4 => {
            let pair = pairs(random, 1)[0];
            set_pair(&mut bytes[file], &pair);
        }
        5 | 6 => add_pairs(random, bytes, &files),
        _ => change_number(random, &mut bytes[file]),
    }
}

/// The files of a day: each begins with an A and ends before the next, or with the day.
fn files(bytes: &[u8]) -> Vec<Range<usize>> {
    let borders = borders(bytes);
    let whole = borders.windows(2).map(|around| around[0]);
    let starts: Vec<usize> = whole.filter(|&start| bytes[start] == b'A').collect();
    let ends = starts.iter().skip(1).copied().chain([bytes.len()]);
    starts.iter().zip(ends).map(|(&a, b)| a..b).collect()
}

/// Puts the file again right behind itself or at the end.
fn repeat(random: &mut Random, bytes: &mut Vec<u8>, file: Range<usize>) {
    let again = bytes[file.clone()].to_vec();
    let place = if random.once_in(2) {
        file.end
    } else {
        bytes.len()
    };
    bytes.splice(place..place, again);
}

/// Swaps a file with the next one; does nothing if there is only one file.
fn swap_files(random: &mut Random, bytes: &mut [u8], files: &[Range<usize>]) {
    let i = random.index(files.len().saturating_sub(1));
    if let [one, next, ..] = &files[i..] {
        bytes[one.start..next.end].rotate_left(one.len());
    }
}

/// The bank and the agreement of the header at this place.
fn pair_at(bytes: &[u8], start: usize) -> (&[u8], &[u8]) {
    (
        &bytes[start + 42..start + 45],
        &bytes[start + 2..start + 22],
    )
}

fn number_at(bytes: &[u8], start: usize) -> Option<u64> {
    digits::number(&bytes[start + 73..start + 79])
}

/// Writes number 0 into a header before which its pair has 999999; into the given one if there is no such header.
fn set_zero(bytes: &mut [u8], files: &[Range<usize>], given: usize) {
    let starts: Vec<usize> = files.iter().map(|file| file.start).collect();
    let is_behind_last = |i: usize| {
        let pair = pair_at(bytes, starts[i]);
        let mut before = starts[..i].iter().rev();
        before
            .find(|&&start| pair_at(bytes, start) == pair)
            .is_some_and(|&start| number_at(bytes, start) == Some(LAST_NUMBER))
    };
    let found = (0..starts.len()).find(|&i| is_behind_last(i));
    let start = found.map_or(given, |i| starts[i]);
    bytes[start + 73..start + 79].fill(b'0');
}

/// Gives a header a number: mostly another one, and mostly one near its own.
fn change_number(random: &mut Random, header: &mut [u8]) {
    let number = number_at(header, 0).unwrap_or(0);
    let other = match random.below(4) {
        0 => number.saturating_sub(1 + random.below(3)),
        1 => first_number(random),
        _ => (number + 1 + random.below(3)) % (LAST_NUMBER + 1),
    };
    digits::write(other, &mut header[73..79]);
}

/// Gives a header the bank, the agreement and the number of a pair.
fn set_pair(header: &mut [u8], pair: &Pair) {
    header[2..22].copy_from_slice(&pair.agreement);
    header[42..45].copy_from_slice(&pair.bank);
    digits::write(pair.sequence, &mut header[73..79]);
}

/// Adds the shortest file again for each of up to 17 new pairs, before any file or at the end.
fn add_pairs(random: &mut Random, bytes: &mut Vec<u8>, files: &[Range<usize>]) {
    let Some(shortest) = files.iter().min_by_key(|file| file.len()).cloned() else {
        return;
    };
    let file = bytes[shortest].to_vec();
    let mut added = Vec::new();
    let count = 1 + random.index(PAIRS + 1);
    for pair in pairs(random, count) {
        let start = added.len();
        added.extend_from_slice(&file);
        set_pair(&mut added[start..], &pair);
    }
    let before = files.get(random.index(files.len() + 1));
    let place = before.map_or(bytes.len(), |file| file.start);
    bytes.splice(place..place, added);
}
