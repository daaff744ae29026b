//! The inputs that are kept because they reached code that none before them reached.

use std::fmt;

use conformance::inputs::Kind;
use reference::random::Random;

/// The inputs of one kind, and what they reached. Each kind has its own, because all kinds reach the same checks.
#[derive(Default)]
struct OfKind {
    inputs: Vec<Vec<u8>>,
    /// For each counter, a bit for each power of two that its counts reached.
    reached: Vec<u64>,
    /// The cost of its inputs so far, in bytes.
    cost: usize,
}

/// The cost of an input besides its length, in bytes.
const COST_OF_INPUT: usize = 100;

pub struct Corpus {
    kinds: [OfKind; Kind::ALL.len()],
    compared: usize,
}

impl Corpus {
    pub fn new() -> Corpus {
        Corpus {
            kinds: Kind::ALL.map(|_| OfKind::default()),
            compared: 0,
        }
    }

    /// Keeps an input if its counts are new for its kind.
    pub fn keep(&mut self, input: &[u8], counts: &[u64]) {
        self.compared += 1;
        let of_kind = &mut self.kinds[Kind::of(input) as usize];
        of_kind.cost += input.len() + COST_OF_INPUT;
        of_kind.reached.resize(counts.len(), 0);
        let mut new = false;
        for (reached, count) in of_kind.reached.iter_mut().zip(counts) {
            let power = count.checked_ilog2().map_or(0, |power| 1 << power);
            new |= *reached | power != *reached;
            *reached |= power;
        }
        if new {
            of_kind.inputs.push(input.to_vec());
        }
    }

    /// The kind of the next input: the one with the least cost so far, so that every kind gets as much time.
    pub fn kind(&self) -> Kind {
        let cost = |kind: &Kind| self.kinds[*kind as usize].cost;
        Kind::ALL.into_iter().min_by_key(cost).unwrap_or(Kind::Line)
    }

    /// An input of a kind, without its first byte: any, or one of the latest.
    pub fn choose(&self, random: &mut Random, kind: Kind) -> &[u8] {
        let inputs = &self.kinds[kind as usize].inputs;
        let from = if random.once_in(2) {
            inputs.len().saturating_sub(16)
        } else {
            0
        };
        inputs
            .get(from + random.index(inputs.len() - from))
            .map_or(&[], |input| &input[1..])
    }

    /// How many counters were reached, of how many.
    fn reached(&self) -> (usize, usize) {
        let all = |of_kind: &OfKind| of_kind.reached.len();
        let count = self.kinds.iter().map(all).max().unwrap_or(0);
        let is_reached = |i: &usize| {
            let by = |of_kind: &OfKind| of_kind.reached.get(*i).is_some_and(|&powers| powers != 0);
            self.kinds.iter().any(by)
        };
        ((0..count).filter(is_reached).count(), count)
    }
}

impl fmt::Display for Corpus {
    fn fmt(&self, f: &mut fmt::Formatter) -> fmt::Result {
        let (reached, counters) = self.reached();
        let kept: usize = self.kinds.iter().map(|of_kind| of_kind.inputs.len()).sum();
        write!(
            f,
            "{} inputs, {reached} of {counters} counters reached, {kept} inputs kept",
            self.compared
        )
    }
}
