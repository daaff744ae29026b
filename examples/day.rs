//! Takes the return files of standard input and prints the page, as quadro does.
//!
//!     cargo run -p hollytrot --example day < FILE
//!
//! If the input is refused, it says why on standard error and fails. The page shows no due dates, so the list is empty.

use std::error::Error;
use std::io::{self, Read, Write};
use std::process::ExitCode;

use hollytrot::{page, Agreed, Session};

/// How many bytes are read at a time. Any number would do.
const PART: u64 = 65536;

fn main() -> ExitCode {
    match run() {
        Ok(()) => ExitCode::SUCCESS,
        Err(error) => {
            eprintln!("day: {error}");
            ExitCode::FAILURE
        }
    }
}

fn run() -> Result<(), Box<dyn Error>> {
    let mut input = io::stdin().lock();
    let agreed = Agreed::none();
    let mut session = Session::new();
    let (mut records, mut files) = (0, 0);
    // what was read and not taken yet
    let mut bytes = Vec::new();

    let answer = loop {
        let ended = input.by_ref().take(PART).read_to_end(&mut bytes)? == 0;
        let result = if ended {
            session.run(&bytes, &agreed)
        } else {
            session.run_part(&bytes, &agreed)
        };
        records += result.records;
        files += result.files;
        if ended || result.answer.is_err() {
            break result.answer.and_then(|()| session.finish());
        }
        bytes.drain(..result.bytes);
    };

    let mut out = io::stdout().lock();
    out.write_all(&page(answer, records, files, session.board()))?;
    out.flush()?;
    Ok(answer?)
}
