//! Memories of sequence numbers in arbitrary states.

use reference::random::Random;
use reference::session::PAIRS;
use reference::{days, Memory, Pair};

/// A number near the last one, near 2^64 - 1, or any.
fn arbitrary_number(random: &mut Random) -> u64 {
    match random.below(8) {
        0 => u64::MAX - random.below(2),
        1 => 999_998 + random.below(4),
        2 => random.bits(),
        _ => days::first_number(random),
    }
}

/// One of these pairs, one of zeros or any bytes, or another pair.
fn arbitrary_pair(random: &mut Random, pairs: &[Pair]) -> Pair {
    let mut pair = match random.below(8) {
        0..=3 => pairs[random.index(pairs.len())],
        4 => Pair::new(),
        5 => Pair {
            bank: [random.byte(); 3],
            agreement: [random.byte(); 20],
            sequence: 0,
        },
        _ => days::pairs(random, 1)[0],
    };
    pair.sequence = arbitrary_number(random);
    pair
}

/// What a session may have as its open file.
pub fn arbitrary_opening(random: &mut Random, pairs: &[Pair]) -> Pair {
    if random.once_in(8) {
        Pair::new()
    } else {
        arbitrary_pair(random, pairs)
    }
}

/// A memory with some of these pairs, at times twice, and any number in use.
pub fn arbitrary_memory(random: &mut Random, pairs: &[Pair]) -> Memory {
    let mut memory = Memory::new();
    memory.used = match random.below(8) {
        0 | 1 => PAIRS,
        2 => PAIRS + 1 + random.index(3),
        3 => random.bits() as usize,
        4 => usize::MAX,
        _ => random.index(PAIRS + 1),
    };
    // Often few places have one of the pairs, so that they are not remembered.
    let few = random.once_in(2);
    for place in &mut memory.pairs {
        *place = if few && !random.once_in(16) {
            days::pairs(random, 1)[0]
        } else {
            arbitrary_pair(random, pairs)
        };
    }
    memory
}

/// The pairs in use that stand before already.
fn doubles(memory: &Memory) -> Vec<Pair> {
    let used = memory.in_use();
    let is_double = |i: usize| used[..i].iter().any(|one| one.is_same_pair(&used[i]));
    let places = (0..used.len()).filter(|&i| is_double(i));
    places.map(|i| used[i]).collect()
}

/// What the naive history leaves out must be as it was: the doubles, the places that are not in use, and `used` itself
/// but for the places newly taken.
#[track_caller]
pub fn assert_rest_kept(before: &Memory, after: &Memory) {
    let (were, are) = (before.in_use().len(), after.in_use().len());
    assert_eq!(after.used - before.used, are - were);
    assert_eq!(doubles(after), doubles(before));
    assert_eq!(after.pairs[are..], before.pairs[are..]);
}
