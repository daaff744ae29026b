//! Compares the engine with the reference program on every family of inputs, and prints how many were equal.
//!
//! `CONFORMANCE_TIMES=20` compares twenty times as many random inputs, `CONFORMANCE_SEED=7` other ones.

use std::env;
use std::process::ExitCode;
use std::sync::Mutex;
use std::thread;
use std::time::Instant;

use conformance::calls::cases::Case;
use conformance::calls::{Calls, Counts, LISTED};
use conformance::families::{Family, ALL};
use reference::random::Random;
use reference::records::{A_AGREEMENT, A_SEQUENCE, G_RECEIVED, G_TARIFF, TABLE};
use reference::Reason::{self, BoardTotal, NotFollowing, PairsFull};

/// Fewer inputs than this are a failure.
const LEAST_INPUTS: u64 = 5_000_000;

/// Fewer payments than this in a case at the limit of tariffs, taken alone or in runs, are a failure.
const LEAST_OF_CASE: u64 = 100;

/// A number of the environment, or the default if it is not set.
fn variable(name: &str, default: u64) -> u64 {
    match env::var(name) {
        Ok(text) => text
            .parse()
            .unwrap_or_else(|_| panic!("{name} is not a number: {text}")),
        Err(_) => default,
    }
}

/// Compares the inputs of a family.
fn compare(family: &Family, seed: u64, times: u64) -> Result<Counts, String> {
    let start = Instant::now();
    let mut calls = Calls::new();
    (family.compare)(&mut calls, &mut Random::new(seed), times);
    let counts = calls
        .finish()
        .map_err(|difference| format!("{}: {difference}", family.name))?;
    let seconds = start.elapsed().as_secs_f64();
    println!("{:>9} {} ({seconds:.1} s)", counts.inputs, family.name);
    Ok(counts)
}

/// Compares all families, two at a time: the engine takes most of the time, and two of them use two processors.
fn compare_all(seed: u64, times: u64) -> Result<Counts, String> {
    let left = Mutex::new(ALL.iter().zip(seed..));
    let work = || -> Result<Counts, String> {
        let mut all = Counts::default();
        loop {
            let next = left.lock().expect("no family panicked").next();
            let Some((family, seed)) = next else {
                return Ok(all);
            };
            all.add(&compare(family, seed, times)?);
        }
    };
    thread::scope(|scope| {
        let mut all = Counts::default();
        for worker in [scope.spawn(work), scope.spawn(work)] {
            all.add(&worker.join().expect("a worker ends")?);
        }
        Ok(all)
    })
}

/// The letters of the requests that take records: alone or in a run.
const TAKING: [u8; 2] = *b"tR";

/// The answers that requests of a letter must get, by number and place: those about agreed issuers, about sequence
/// numbers, and about the sums of the board.
fn expected() -> Vec<(u8, [u64; 2])> {
    let mut expected = Vec::new();
    for (letter, places) in LISTED {
        expected.push((letter, [Reason::WrongList.number(), 0]));
        for &place in places {
            expected.push((letter, [Reason::NoDate.number(), place]));
        }
    }
    for letter in TAKING {
        for (reason, row) in [
            (NotFollowing, A_SEQUENCE),
            (PairsFull, A_AGREEMENT),
            (BoardTotal, G_RECEIVED),
            (BoardTotal, G_TARIFF),
        ] {
            expected.push((letter, [reason.number(), TABLE[row].first as u64]));
        }
    }
    expected
}

/// What is missing: inputs, an answer that no input got or no request of a letter, or payments at the limit of tariffs.
fn missing(counts: &Counts) -> Option<String> {
    if counts.inputs < LEAST_INPUTS {
        return Some(format!("only {} inputs", counts.inputs));
    }
    let mut numbers = Reason::ALL.iter().map(|reason| reason.number()).chain([0]);
    if let Some(unseen) = numbers.find(|number| !counts.answers.contains_key(number)) {
        return Some(format!("no input was answered {unseen}"));
    }
    let unseen = |expected: &(u8, [u64; 2])| !counts.by_letter.contains(expected);
    if let Some((letter, [number, place])) = expected().into_iter().find(unseen) {
        let letter = letter as char;
        return Some(format!(
            "no request '{letter}' was answered {number} at {place}"
        ));
    }
    missing_case(counts)
}

/// A case of a payment at the limit of tariffs that too few requests of a letter met.
fn missing_case(counts: &Counts) -> Option<String> {
    for letter in TAKING {
        for case in Case::ALL {
            let met = counts.cases.get(&(letter, case)).copied().unwrap_or(0);
            if met < LEAST_OF_CASE {
                let letter = letter as char;
                return Some(format!("only {met} requests '{letter}' met {case:?}"));
            }
        }
    }
    None
}

fn main() -> ExitCode {
    let times = variable("CONFORMANCE_TIMES", 1);
    let seed = variable("CONFORMANCE_SEED", 1);
    let outcome = compare_all(seed, times).and_then(|counts| match missing(&counts) {
        Some(missing) => Err(missing),
        None => Ok(counts),
    });
    match outcome {
        Ok(counts) => {
            println!(
                "{:>9} inputs in all: engine and reference program are equal on each. Answers by number: {:?}",
                counts.inputs, counts.answers
            );
            ExitCode::SUCCESS
        }
        Err(failure) => {
            eprintln!("conformance: {failure}");
            ExitCode::FAILURE
        }
    }
}
