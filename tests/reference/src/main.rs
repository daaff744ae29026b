//! Reads return files from standard input and prints the page: docs/SPEC.md, "The program quadro".

use std::io::{self, Write};
use std::process::ExitCode;

fn main() -> ExitCode {
    match run() {
        Ok(()) => ExitCode::SUCCESS,
        Err(error) => {
            // If standard error is closed too, there is nowhere left to report to.
            let _ = writeln!(io::stderr(), "reference: {error}");
            ExitCode::FAILURE
        }
    }
}

fn run() -> io::Result<()> {
    let page = reference::page::read_page(io::stdin().lock())?;
    let mut out = io::stdout().lock();
    out.write_all(&page)?;
    out.flush()
}
