//! Faults of reading: the exit status is 2, a line on standard error says why, and nothing is printed that could be
//! taken for a board.

use std::fs::{self, File};
use std::io::{self, Seek, SeekFrom, Write};
use std::os::fd::OwnedFd;
use std::os::unix::net::UnixStream;
use std::process::{Command, Stdio};

use conformance::engine::root;
use reference::days;
use reference::page::page_of;
use reference::random::Random;

use crate::folder::Folder;
use crate::process::{
    assert_failed, assert_output, hollytrot, output_of, redirected, CODE, FORMATS, LINE,
};

fn board(format: &[&str]) -> Command {
    let mut command = hollytrot(["board"]);
    command.args(format);
    command
}

#[test]
fn standard_input_closed() {
    for format in FORMATS {
        let output = redirected(&board(format), "<&-").output();
        assert_failed(&output.expect("its end"), "standard input");
        // Standard error is closed too: the status is all that is left.
        let output = redirected(&board(format), "<&- 2>&-").output();
        assert_eq!(output.expect("its end").status.code(), Some(2));
    }
    for subcommand in ["line", "code"] {
        let output = redirected(&hollytrot([subcommand]), "<&-").output();
        assert_failed(&output.expect("its end"), "standard input");
    }
}

/// The file of names stays open while the inputs are read: it is not taken for standard input.
#[test]
fn standard_input_closed_beside_names() {
    let folder = Folder::new("standard_input_closed_beside_names");
    folder.write(b"names", b"1-3659\tOne\n");
    for words in [&["--names", "names"][..], &["--names=names", "-"]] {
        let command = board(&[&["--reais"], words].concat());
        let output = folder.of(&mut redirected(&command, "<&-")).output();
        assert_failed(&output.expect("its end"), "standard input");
    }
}

/// A refusal behind the failure does not hide it.
#[test]
fn standard_input_closed_beside_refusals() {
    for subcommand in ["line", "code"] {
        for words in [["1", "-"], ["-", "1"]] {
            let mut command = hollytrot([subcommand]);
            let output = redirected(command.args(words), "<&-").output();
            assert_eq!(output.expect("its end").status.code(), Some(2));
        }
    }
}

#[test]
fn standard_input_a_directory() {
    for words in [
        &["board"][..],
        &["board", "--json"],
        &["line"],
        &["code", "-"],
    ] {
        let folder = File::open(root()).expect("a directory");
        let output = hollytrot(words).stdin(folder).output();
        assert_failed(&output.expect("its end"), "standard input");
    }
}

/// Files that are directories: an input, the names, the list of agreed issuers.
#[test]
fn files_that_are_directories() {
    let folder = Folder::new("files_that_are_directories");
    let bytes = days::day(&mut Random::new(1), 5, 2, 9).expect("a good day");
    folder.write(b"day.ret", &bytes.bytes);
    for words in [
        &["board", "."][..],
        &["board", "day.ret", "."],
        &["board", "--keep-going", ".", "day.ret"],
        &["board", "--reais", "--names", ".", "day.ret"],
        &["board", "--html", "--names", ".", "day.ret"],
        &["board", "--agreed", ".", "day.ret"],
        &["line", "--agreed", ".", LINE],
        &["code", "--agreed", ".", CODE],
    ] {
        let output = folder.of(&mut hollytrot(words)).output();
        assert_failed(&output.expect("its end"), ".");
    }
}

/// Missing files, in front of others and behind them. A missing file of names is noticed before an input is read.
#[test]
fn files_that_are_missing() {
    let folder = Folder::new("files_that_are_missing");
    let bytes = days::day(&mut Random::new(1), 5, 2, 9).expect("a good day");
    folder.write(b"day.ret", &bytes.bytes);
    for format in FORMATS {
        for files in [&["no"][..], &["no", "day.ret"], &["day.ret", "no"]] {
            let output = folder.of(board(format).args(files)).output();
            assert_failed(&output.expect("its end"), "no");
            let output = folder
                .of(board(format).args(files).arg("--keep-going"))
                .output();
            assert_failed(&output.expect("its end"), "no");
        }
        let agreed = folder
            .of(board(format).args(["--agreed", "no", "day.ret"]))
            .output();
        assert_failed(&agreed.expect("its end"), "no");
    }
    // Standard input is open and stays so: the command does not wait for it.
    let mut child = hollytrot(["board", "--reais", "--names", "no"])
        .stdin(Stdio::piped())
        .spawn()
        .expect("the command starts");
    let stdin = child.stdin.take();
    assert_failed(&child.wait_with_output().expect("its end"), "no");
    drop(stdin);
}

/// The end of a mapping in this process's memory, behind which a read fails.
fn memory_that_ends() -> File {
    let maps = fs::read_to_string("/proc/self/maps").expect("its memory");
    let bound = |line: &str| {
        let (from, rest) = line.split_once('-')?;
        let (to, rest) = rest.split_once(' ')?;
        let number = |text| u64::from_str_radix(text, 16).ok();
        Some((number(from)?, number(to)?, rest.starts_with('r')))
    };
    let all: Vec<_> = maps.lines().filter_map(bound).collect();
    let last = all
        .windows(2)
        .find(|two| two[0].2 && two[0].1 < two[1].0)
        .expect("memory with a gap after it");
    let mut memory = File::open("/proc/self/mem").expect("its memory");
    memory
        .seek(SeekFrom::Start(last[0].1 - 300))
        .expect("an end");
    memory
}

#[test]
fn a_read_error_after_some_bytes() {
    for format in FORMATS {
        let output = board(format).stdin(memory_that_ends()).output();
        assert_failed(&output.expect("its end"), "standard input");
    }
    for subcommand in ["line", "code"] {
        let output = hollytrot([subcommand]).stdin(memory_that_ends()).output();
        let output = output.expect("its end");
        let error = String::from_utf8_lossy(&output.stderr);
        assert_eq!(output.status.code(), Some(2));
        assert!(error.contains("hollytrot: standard input: "), "{error}");
    }
}

/// A connection that fails after records were taken: it is reset because it was closed with unread bytes.
#[test]
fn a_read_error_after_records() -> io::Result<()> {
    let bytes = days::day(&mut Random::new(1), 40, 30, 600)
        .expect("a good day")
        .bytes;
    assert!(bytes.len() > 1 << 20);
    for format in FORMATS {
        let (mut sender, mut receiver) = UnixStream::pair()?;
        receiver.write_all(b"unread")?;
        let child = board(format).stdin(OwnedFd::from(receiver)).spawn()?;
        sender.write_all(&bytes)?;
        drop(sender);
        assert_failed(&child.wait_with_output()?, "standard input");
    }
    Ok(())
}

/// The same connection, closed in the normal way, and a pipe by its path.
#[test]
fn connections_and_pipes_in_place_of_files() -> io::Result<()> {
    let bytes = days::day(&mut Random::new(1), 40, 30, 600)
        .expect("a good day")
        .bytes;
    let (mut sender, receiver) = UnixStream::pair()?;
    let child = board(&[]).stdin(OwnedFd::from(receiver)).spawn()?;
    sender.write_all(&bytes)?;
    drop(sender);
    assert_output(&child.wait_with_output()?, &page_of(&bytes), "", 0);
    let mut command = hollytrot(["board", "/dev/stdin"]);
    let output = output_of(&mut command, |stdin| stdin.write_all(&bytes));
    assert_output(&output, &page_of(&bytes), "", 0);
    Ok(())
}
