//! Memories of sequence numbers in random inputs: in arbitrary states, and headers of pairs that they have or not.

use std::ops::Range;

use reference::random::Random;
use reference::records::{A_AGREEMENT, A_BANK, A_SEQUENCE, LENGTH, TABLE};
use reference::session::{following, LAST_NUMBER, PAIRS};
use reference::{days, digits, Memory, Pair};

/// How many pairs may be in use, at the edges.
pub const USED: [usize; 6] = [0, 1, PAIRS - 1, PAIRS, PAIRS + 1, usize::MAX];

/// Numbers that may be remembered, at the edges. Past 999999 no header shows the next one; some of those have the low
/// digits, or the low bits, of a number that a header shows.
pub const NUMBERS: [u64; 9] = [
    0,
    1,
    LAST_NUMBER - 1,
    LAST_NUMBER,
    LAST_NUMBER + 1,
    2 * LAST_NUMBER + 1,
    (1 << 32) + 7,
    u64::MAX - 1,
    u64::MAX,
];

/// A number that may be remembered: mostly one that a header shows.
fn number(random: &mut Random) -> u64 {
    match random.below(8) {
        0..=2 => NUMBERS[random.index(NUMBERS.len())],
        3 => random.bits(),
        _ => days::first_number(random),
    }
}

/// A pair in an arbitrary state: one of these, zeros, any bytes, or else this one; with any number.
fn pair(random: &mut Random, these: &[Pair], this: Pair) -> Pair {
    let mut pair = match random.below(8) {
        0 => Pair::new(),
        1 => {
            let mut any = Pair::new();
            any.bank.fill_with(|| random.byte());
            any.agreement.fill_with(|| random.byte());
            any
        }
        2..=4 => *these.get(random.index(these.len())).unwrap_or(&this),
        _ => this,
    };
    pair.sequence = number(random);
    pair
}

/// A memory in an arbitrary state. Some of its pairs are there several times, some differ little.
pub fn memory(random: &mut Random) -> Memory {
    let mut memory = Memory::new();
    for (i, this) in days::pairs(random, PAIRS).into_iter().enumerate() {
        memory.pairs[i] = pair(random, &memory.pairs[..i], this);
    }
    memory.used = match random.below(4) {
        0 => random.index(PAIRS + 1),
        1 if random.once_in(4) => random.bits() as usize,
        _ => USED[random.index(USED.len())],
    };
    memory
}

/// What a session with this memory may have as the pair of its open file.
pub fn opening(random: &mut Random, memory: &Memory) -> Pair {
    let new = days::pairs(random, 1)[0];
    pair(random, &memory.pairs, new)
}

/// An A, mostly of one of the 16 pairs, in use or not, and mostly with its next number; else with a near one or any.
/// The pair may have bytes that no A has.
pub fn header(random: &mut Random, memory: &Memory) -> [u8; LENGTH] {
    let mut record = days::header(random).expect("a good header");
    if random.once_in(4) {
        return record;
    }
    let mut pair = memory.pairs[random.index(PAIRS)];
    let next = following(pair.sequence).unwrap_or(0);
    pair.sequence = match random.below(8) {
        0 => pair.sequence,
        1 => next.saturating_add(1),
        2 => days::first_number(random),
        3 => next % (LAST_NUMBER + 1),
        _ => next,
    };
    put(&mut record, &pair);
    record
}

/// The bytes of a field of an A.
fn field(row: usize) -> Range<usize> {
    TABLE[row].first - 1..TABLE[row].last
}

/// Writes a pair into an A, with its number if that has at most six digits.
pub fn put(record: &mut [u8; LENGTH], pair: &Pair) {
    record[field(A_BANK)].copy_from_slice(&pair.bank);
    record[field(A_AGREEMENT)].copy_from_slice(&pair.agreement);
    digits::write(pair.sequence, &mut record[field(A_SEQUENCE)]);
}

/// The pair of an A, with its number; with 0 if that is not in digits.
pub fn of(record: &[u8; LENGTH]) -> Pair {
    let mut pair = Pair::new();
    pair.bank.copy_from_slice(&record[field(A_BANK)]);
    pair.agreement.copy_from_slice(&record[field(A_AGREEMENT)]);
    pair.sequence = digits::number(&record[field(A_SEQUENCE)]).unwrap_or(0);
    pair
}
