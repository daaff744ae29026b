//! quadro as a process, for the tests that run it.

use std::env;
use std::io::{self, Write};
use std::process::{Command, Output, Stdio};

use conformance::engine::{program, root};

/// The command that runs quadro; or the program of this machine that `CONFORMANCE_QUADRO` names, to try the tests of
/// pages with another one.
pub fn command() -> Command {
    match env::var_os("CONFORMANCE_QUADRO") {
        Some(other) => Command::new(root().join(other)),
        None => program("target/bin/quadro"),
    }
}

/// quadro with this standard input and pipes for its output.
pub fn quadro(stdin: impl Into<Stdio>) -> Command {
    let mut command = command();
    command
        .stdin(stdin)
        .stdout(Stdio::piped())
        .stderr(Stdio::piped());
    command
}

/// The output of quadro for the input that `feed` writes to its pipe.
pub fn output_of(feed: impl FnOnce(&mut dyn Write) -> io::Result<()>) -> Output {
    let mut child = quadro(Stdio::piped()).spawn().expect("quadro starts");
    // quadro stops reading at a refused record, so this may fail.
    let _ = feed(&mut child.stdin.take().unwrap());
    child.wait_with_output().expect("quadro ends")
}

#[track_caller]
pub fn assert_page(output: &Output, page: &[u8]) {
    assert!(output.status.success(), "{}", output.status);
    assert_eq!(output.stderr.escape_ascii().to_string(), "");
    assert_eq!(
        output.stdout.escape_ascii().to_string(),
        page.escape_ascii().to_string()
    );
}
