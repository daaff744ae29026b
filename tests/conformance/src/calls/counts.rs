//! What the inputs of a run reached.

use std::collections::{BTreeMap, BTreeSet};

use reference::{Refusal, Session};

use super::cases::{self, Case};
use crate::engine::Batch;
use crate::wire;

/// The letters of requests whose reply starts with an answer.
const ANSWERED: &[u8] = b"blrjcutRehgzp";

/// How many inputs were compared, how often each number was answered, which answers, a number and a place, requests of
/// each letter had, and how often they met each case of a payment at the limit of tariffs.
#[derive(Clone, Default)]
pub struct Counts {
    pub inputs: u64,
    pub answers: BTreeMap<u64, u64>,
    pub by_letter: BTreeSet<(u8, [u64; 2])>,
    pub cases: BTreeMap<(u8, Case), u64>,
}

impl Counts {
    /// Counts the answers that a batch expects.
    pub(super) fn count(&mut self, batch: &Batch) {
        for &(request, reply) in &batch.starts {
            let letter = batch.requests[request];
            if ANSWERED.contains(&letter) {
                let number = wire::number_at(&batch.expected, reply);
                let place = wire::number_at(&batch.expected, reply + 8);
                *self.answers.entry(number).or_insert(0) += 1;
                self.by_letter.insert((letter, [number, place]));
            }
        }
    }

    /// Counts the cases of a call that took records: it left these bytes, and was answered this.
    pub(super) fn count_cases(
        &mut self,
        letter: u8,
        sessions: [&Session; 2],
        rest: &[u8],
        answer: Result<(), Refusal>,
    ) {
        for case in cases::of(sessions, rest, answer) {
            *self.cases.entry((letter, case)).or_insert(0) += 1;
        }
    }

    pub fn add(&mut self, more: &Counts) {
        self.inputs += more.inputs;
        for (&number, &count) in &more.answers {
            *self.answers.entry(number).or_insert(0) += count;
        }
        self.by_letter.extend(&more.by_letter);
        for (&case, &count) in &more.cases {
            *self.cases.entry(case).or_insert(0) += count;
        }
    }
}
