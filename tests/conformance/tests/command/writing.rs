//! Faults of writing: standard output that is full, closed or without a reader is status 2, whatever else there is to
//! say.

use std::fs::{self, File};
use std::io::{self, Read};

use reference::days;
use reference::page::page_of;
use reference::random::Random;

use crate::folder::Folder;
use crate::process::{assert_failed, assert_output, by_shell, hollytrot, redirected, CODE, LINE};

/// Everything that prints something, with files of the folder.
const PRINTING: [&[&str]; 15] = [
    &["board", "day.ret"],
    &["board", "--json", "day.ret"],
    &["board", "--csv", "day.ret"],
    &["board", "--reais", "day.ret"],
    &["board", "--html", "day.ret"],
    &["board", "cut.ret"],
    &["board", "--json", "cut.ret"],
    &["board", "--json", "--keep-going", "cut.ret", "day.ret"],
    &["board", "--html", "cut.ret"],
    &["line", LINE],
    &["line", "1", LINE],
    &["code", CODE],
    &["--version"],
    &["--help"],
    &["board", "--help"],
];

/// Standard output that is closed, full, without a reader or a file at the limit of its size is 2 in each case, also
/// where something is refused and where standard error is closed too. A file that is read is not written.
#[test]
fn standard_output_fails() -> io::Result<()> {
    let folder = Folder::new("standard_output_fails");
    let bytes = days::day(&mut Random::new(1), 5, 2, 9).expect("a good day");
    let cut = &bytes.bytes[..450];
    folder.write(b"day.ret", &bytes.bytes);
    folder.write(b"cut.ret", cut);
    for words in PRINTING {
        let command = hollytrot(words);
        for errors in ["", " 2>&-"] {
            let closed = redirected(&command, &format!(">&-{errors}"));
            let mut full = redirected(&command, errors);
            full.stdout(File::options().write(true).open("/dev/full")?);
            let mut unread = redirected(&command, errors);
            unread.stdout(io::pipe()?.1);
            let limited = format!("ulimit -f 0; exec \"$@\" >limited{errors}");
            let limited = by_shell(&command, &limited);
            for mut command in [closed, full, unread, limited] {
                let output = folder.of(&mut command).output()?;
                let error = String::from_utf8_lossy(&output.stderr);
                assert_eq!(output.status.code(), Some(2), "{words:?}{errors}: {error}");
                let last = error.lines().last().unwrap_or_default();
                let said = last.starts_with("hollytrot: standard output: ");
                assert_eq!(said, errors.is_empty(), "{words:?}{errors}: {error}");
            }
        }
    }
    assert_eq!(fs::read(folder.path.join("day.ret"))?, bytes.bytes);
    assert_eq!(fs::read(folder.path.join("cut.ret"))?, cut);
    Ok(())
}

/// A board that is longer than any buffer, of which the reader takes a part only.
#[test]
fn a_reader_that_stops() -> io::Result<()> {
    let folder = Folder::new("a_reader_that_stops");
    let bytes = days::day(&mut Random::new(1), 5, 3000, 1).expect("a good day");
    folder.write(b"day.ret", &bytes.bytes);
    let mut child = folder
        .of(&mut hollytrot(["board", "--json", "day.ret"]))
        .spawn()?;
    child
        .stdout
        .take()
        .expect("a pipe")
        .read_exact(&mut [0; 9])?;
    assert_failed(&child.wait_with_output()?, "standard output");
    Ok(())
}

/// With standard input and standard error closed, files are read as always: none of them gets their numbers.
#[test]
fn closed_descriptors_that_are_not_needed() -> io::Result<()> {
    let folder = Folder::new("closed_descriptors_that_are_not_needed");
    let bytes = days::day(&mut Random::new(1), 5, 2, 9).expect("a good day");
    folder.write(b"day.ret", &bytes.bytes);
    let command = hollytrot(["board", "day.ret"]);
    for closed in ["<&-", "2>&-", "<&- 2>&-"] {
        let output = folder.of(&mut redirected(&command, closed)).output()?;
        assert_output(&output, &page_of(&bytes.bytes), "", 0);
    }
    Ok(())
}
