//! `fuzz SECONDS`: compares the engine with the reference program on inputs that the coverage of the reference program
//! guides. An input that reaches code that none before it reached is kept and mutated again. `CONFORMANCE_SEED=7` gives
//! other inputs.

mod agreed;
mod corpus;
mod coverage;
mod ends;
mod mutate;
mod pairs;
mod places;
mod repair;
mod seeds;
mod sums;

use std::env;
use std::panic::{catch_unwind, AssertUnwindSafe};
use std::process::ExitCode;
use std::time::{Duration, Instant};

use conformance::calls::Calls;
use conformance::found;
use conformance::inputs;
use reference::random::Random;

use corpus::Corpus;

/// How many inputs are compared before their outcomes are awaited.
const ROUND: usize = 1 << 14;

/// An input on which the engine differs, and how it does.
struct Difference {
    input: Vec<u8>,
    how: String,
}

/// Compares the inputs that `next` returns, or returns one that differs. The corpus keeps those with new counts.
fn compare(
    corpus: &mut Corpus,
    mut next: impl FnMut(&Corpus) -> Option<Vec<u8>>,
) -> Result<(), Difference> {
    let mut calls = Calls::new();
    let mut compared = Vec::new();
    while let Some(input) = next(corpus) {
        coverage::clear();
        // The reference program is total, so a panic is a failure too.
        if catch_unwind(AssertUnwindSafe(|| inputs::compare(&mut calls, &input))).is_err() {
            let how = "the reference program panics".to_string();
            return Err(Difference { input, how });
        }
        corpus.keep(&input, &coverage::counts());
        compared.push(input);
    }
    match calls.finish() {
        Ok(_) => Ok(()),
        Err(how) => Err(narrow(&compared, how)),
    }
}

fn outcome(inputs: &[Vec<u8>]) -> Result<(), String> {
    let mut calls = Calls::new();
    for input in inputs {
        inputs::compare(&mut calls, input);
    }
    calls.finish().map(|_| ())
}

/// The input that differs: halves are compared again until one input is left.
fn narrow(mut inputs: &[Vec<u8>], mut how: String) -> Difference {
    while inputs.len() > 1 {
        let (left, right) = inputs.split_at(inputs.len() / 2);
        inputs = right;
        if let Err(difference) = outcome(left) {
            (inputs, how) = (left, difference);
        }
    }
    Difference {
        input: inputs.concat(),
        how,
    }
}

fn fuzz(corpus: &mut Corpus, random: &mut Random, until: Instant) -> Result<(), Difference> {
    let mut seeds = seeds::seeds(random).expect("samples").into_iter();
    compare(corpus, |_| seeds.next())?;
    while Instant::now() < until {
        let mut left = ROUND;
        compare(corpus, |corpus| {
            left = left.checked_sub(1)?;
            let kind = corpus.kind();
            let one = corpus.choose(random, kind);
            let other = corpus.choose(random, kind);
            Some(mutate::mutate(random, kind, one, other))
        })?;
    }
    Ok(())
}

fn main() -> ExitCode {
    let number = |text: String| {
        text.parse()
            .unwrap_or_else(|_| panic!("not a number: {text}"))
    };
    let seconds = env::args().nth(1).map_or(60, number);
    let seed = env::var("CONFORMANCE_SEED").map_or(1, number);
    let start = Instant::now();
    let mut corpus = Corpus::new();
    let until = start + Duration::from_secs(seconds);
    let outcome = fuzz(&mut corpus, &mut Random::new(seed), until);
    println!("{corpus}, in {:.0} s", start.elapsed().as_secs_f64());
    let Err(Difference { input, how }) = outcome else {
        println!("engine and reference program are equal on each");
        return ExitCode::SUCCESS;
    };
    eprintln!("fuzz: {how}\ninput: {}", found::hex(&input));
    match found::keep(&input) {
        Ok(name) => eprintln!("fuzz: written to {name}"),
        Err(error) => eprintln!("fuzz: the input could not be written: {error}"),
    }
    ExitCode::FAILURE
}
