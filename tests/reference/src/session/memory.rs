//! The memory of sequence numbers: docs/SPEC.md, "Sequence numbers".

use crate::records::{A_AGREEMENT, A_BANK, A_SEQUENCE, LENGTH, TABLE};
use crate::refusal::{Reason, Refusal};

/// How many pairs of a bank and an agreement a session remembers.
pub const PAIRS: usize = 16;

/// The last sequence number: 1 follows it.
pub const LAST_NUMBER: u64 = 999_999;

/// A bank and an agreement, byte for byte as in a header, with the sequence number of a file of theirs.
#[derive(Clone, Copy, Debug, Default, PartialEq, Eq, Hash)]
pub struct Pair {
    pub bank: [u8; 3],
    pub agreement: [u8; 20],
    pub sequence: u64,
}

/// The pairs of accepted files in the order in which they were first accepted, each with its last number, and how many
/// of the 16 are in use.
#[derive(Clone, Copy, Debug, PartialEq, Eq, Hash)]
pub struct Memory {
    pub pairs: [Pair; PAIRS],
    pub used: usize,
}

/// The number that follows; `None` if it passes 2^64 - 1. Past 999999, as in an arbitrary state, no header shows it.
#[inline]
pub const fn following(number: u64) -> Option<u64> {
    match number {
        LAST_NUMBER => Some(1),
        _ => number.checked_add(1),
    }
}

impl Pair {
    /// Zero bytes and number 0.
    pub const fn new() -> Pair {
        Pair {
            bank: [0; 3],
            agreement: [0; 20],
            sequence: 0,
        }
    }

    /// The pair of an A, with this number.
    pub(super) fn of_header(header: &[u8; LENGTH], sequence: u64) -> Pair {
        let mut pair = Pair {
            sequence,
            ..Pair::new()
        };
        let (bank, agreement) = (TABLE[A_BANK], TABLE[A_AGREEMENT]);
        pair.bank
            .copy_from_slice(&header[bank.first - 1..bank.last]);
        pair.agreement
            .copy_from_slice(&header[agreement.first - 1..agreement.last]);
        pair
    }

    /// Whether both have the same bank and the same agreement, whatever their numbers are.
    #[inline]
    pub fn is_same_pair(&self, other: &Pair) -> bool {
        self.bank == other.bank && self.agreement == other.agreement
    }
}

impl Default for Memory {
    fn default() -> Self {
        Memory::new()
    }
}

impl Memory {
    /// The memory of a new session: no pair is in use.
    pub const fn new() -> Memory {
        Memory {
            pairs: [Pair::new(); PAIRS],
            used: 0,
        }
    }

    /// The pairs in use: the first `used` of the 16.
    #[inline]
    pub fn in_use(&self) -> &[Pair] {
        &self.pairs[..self.used.min(PAIRS)]
    }

    /// Where the pair is remembered; the first place if it is there twice, as in an arbitrary state.
    fn position(&self, pair: &Pair) -> Option<usize> {
        self.in_use().iter().position(|one| one.is_same_pair(pair))
    }

    /// 26 at 74 if the pair is remembered and its number does not follow; 27 at 3 if it is not remembered and 16 are.
    pub(super) fn check(&self, pair: &Pair) -> Result<(), Refusal> {
        match self.position(pair) {
            Some(i) if following(self.pairs[i].sequence) != Some(pair.sequence) => {
                Err(Reason::NotFollowing.at(TABLE[A_SEQUENCE].first))
            }
            None if self.used >= PAIRS => Err(Reason::PairsFull.at(TABLE[A_AGREEMENT].first)),
            _ => Ok(()),
        }
    }

    /// Remembers the number of an accepted file. A new pair takes the next place; nothing changes if there is none, as
    /// in an arbitrary state.
    pub(super) fn remember(&mut self, pair: &Pair) {
        match self.position(pair) {
            Some(i) => self.pairs[i].sequence = pair.sequence,
            None if self.used < PAIRS => {
                self.pairs[self.used] = *pair;
                self.used += 1;
            }
            None => {}
        }
    }
}
