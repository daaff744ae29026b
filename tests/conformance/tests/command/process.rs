//! The command hollytrot as a process, for the tests that run it.

use std::env;
use std::ffi::OsStr;
use std::io::{self, Write};
use std::process::{Command, Output, Stdio};
use std::thread;

use conformance::engine::{program, root};

use crate::json::parse;

/// The formats of `board`; none is quadro's page.
pub const FORMATS: [&[&str]; 5] = [&[], &["--json"], &["--csv"], &["--reais"], &["--html"]];

/// An accepted line and an accepted barcode.
pub const LINE: &str = "816100000123345636592015909010000000000000000000";
pub const CODE: &str = "81610000012345636592019090100000000000000000";

/// The command with these words, pipes for its output and no input, in English whatever this machine's language is; or
/// the program of this machine that `CONFORMANCE_COMMAND` names, to try the tests with another one.
pub fn hollytrot<Word: AsRef<OsStr>>(words: impl IntoIterator<Item = Word>) -> Command {
    let mut command = match env::var_os("CONFORMANCE_COMMAND") {
        Some(other) => Command::new(root().join(other)),
        None => program("build/c/hollytrot"),
    };
    command
        .args(words)
        .env("LC_ALL", "C")
        .env_remove("LC_MESSAGES")
        .env_remove("LANG")
        .stdin(Stdio::null())
        .stdout(Stdio::piped())
        .stderr(Stdio::piped());
    command
}

/// What a command does with the input that `feed` writes to its pipe, while its output is read.
pub fn output_of(
    command: &mut Command,
    feed: impl FnOnce(&mut dyn Write) -> io::Result<()> + Send,
) -> Output {
    let mut child = command
        .stdin(Stdio::piped())
        .spawn()
        .expect("the command starts");
    let mut stdin = child.stdin.take().expect("a pipe");
    thread::scope(|scope| {
        scope.spawn(move || {
            // The command stops reading at a refused record, so this may fail.
            let _ = feed(&mut stdin);
        });
        child.wait_with_output().expect("the command ends")
    })
}

/// Standard output, standard error and the exit status must be these.
#[track_caller]
pub fn assert_output(output: &Output, stdout: &[u8], stderr: &str, status: i32) {
    assert_same(&output.stderr, stderr.as_bytes());
    assert_same(&output.stdout, stdout);
    assert_eq!(output.status.code(), Some(status), "{}", output.status);
}

/// Texts must be equal; the message has both from the line on in which they first differ.
#[track_caller]
fn assert_same(found: &[u8], expected: &[u8]) {
    if found != expected {
        let same = found.iter().zip(expected).take_while(|(a, b)| a == b);
        let before = &found[..same.count()];
        let lines = before.iter().rposition(|&byte| byte == b'\n');
        let start = lines.map_or(0, |end| end + 1);
        let rest = |text: &[u8]| text[start..].iter().take(400).copied().collect::<Vec<u8>>();
        panic!(
            "found {}\nnot {}",
            rest(found).escape_ascii(),
            rest(expected).escape_ascii()
        );
    }
}

/// The same command, started by a shell with this redirection.
pub fn redirected(command: &Command, redirection: &str) -> Command {
    by_shell(command, &format!("exec \"$@\" {redirection}"))
}

/// The same command, started by these lines of a shell, which have it in `$@`.
pub fn by_shell(command: &Command, lines: &str) -> Command {
    let mut shell = Command::new("sh");
    shell.args(["-c", lines, "sh"]);
    shell.arg(command.get_program()).args(command.get_args());
    for (name, value) in command.get_envs() {
        match value {
            Some(value) => shell.env(name, value),
            None => shell.env_remove(name),
        };
    }
    shell
        .stdin(Stdio::null())
        .stdout(Stdio::piped())
        .stderr(Stdio::piped());
    shell
}

/// Status 2, one line on standard error about this, and no board: nothing on standard output, but for JSON that is not
/// whole.
#[track_caller]
pub fn assert_failed(output: &Output, what: &str) {
    let error = String::from_utf8_lossy(&output.stderr);
    assert_eq!(output.status.code(), Some(2), "{error}");
    assert!(
        error.starts_with(&format!("hollytrot: {what}: ")),
        "{error}"
    );
    assert_eq!(error.find('\n'), Some(error.len() - 1), "{error}");
    let printed = String::from_utf8_lossy(&output.stdout);
    assert!(printed.is_empty() || printed.starts_with('{'), "{printed}");
    assert!(parse(&printed).is_err(), "{printed}");
}
