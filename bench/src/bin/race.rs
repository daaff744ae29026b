//! `race ROUNDS INPUT PROGRAM..`: runs the programs in turn, ROUNDS times, with INPUT as standard input and without
//! output. It prints one line for each program: the least time in nanoseconds and the peak memory in KiB, which is at
//! least that of this program. A PROGRAM may have arguments, separated by blanks.

use std::error::Error;
use std::fs::File;
use std::process::{Command, Stdio};
use std::time::Instant;

/// The C library's `struct rusage` on 64-bit Linux.
#[repr(C)]
#[derive(Default)]
struct Usage {
    times: [i64; 4],
    peak: i64,
    others: [i64; 13],
}

extern "C" {
    fn wait4(process: i32, status: *mut i32, options: i32, usage: *mut Usage) -> i32;
}

fn main() -> Result<(), Box<dyn Error>> {
    let words: Vec<String> = std::env::args().skip(1).collect();
    let [rounds, input, programs @ ..] = &words[..] else {
        return Err("race ROUNDS INPUT PROGRAM..".into());
    };
    let mut least_and_peak = vec![(u128::MAX, 0); programs.len()];
    for _ in 0..rounds.parse()? {
        for (program, (least, peak)) in programs.iter().zip(&mut least_and_peak) {
            let (time, memory) = run(program, File::open(input)?)?;
            *least = time.min(*least);
            *peak = memory.max(*peak);
        }
    }
    for (time, memory) in least_and_peak {
        println!("{time} {memory}");
    }
    Ok(())
}

fn run(program: &str, input: File) -> Result<(u128, i64), Box<dyn Error>> {
    let words: Vec<&str> = program.split_whitespace().collect();
    let start = Instant::now();
    let child = Command::new(words[0])
        .args(&words[1..])
        .stdin(input)
        .stdout(Stdio::null())
        .spawn()?;
    let mut usage = Usage::default();
    let mut status = 0;
    // The standard library's wait does not return the memory.
    let waited = unsafe { wait4(child.id() as i32, &mut status, 0, &mut usage) };
    let time = start.elapsed().as_nanos();
    if waited < 0 || status != 0 {
        return Err(format!("{program}: status {status}").into());
    }
    Ok((time, usage.peak))
}
