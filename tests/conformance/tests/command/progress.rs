//! Progress of a long reading: a line on standard error that is written over and erased, only if that is a terminal.

use std::fs::{self, File};
use std::io::{self, Write};
use std::os::unix::fs::OpenOptionsExt;
use std::path::Path;
use std::process::{Child, Command, Stdio};
use std::thread;
use std::time::Duration;

use reference::days;
use reference::page::page_of;
use reference::random::Random;

use crate::folder::Folder;
use crate::process::{assert_output, hollytrot, output_of};

/// A day of more than seven parts of this length.
fn long_day() -> Vec<u8> {
    let day = days::day(&mut Random::new(1), 40, 8, 4000).expect("a good day");
    assert!(day.bytes.len() > 7 * PART);
    day.bytes
}

/// More than the command reads at a time.
const PART: usize = 300_000;

/// Writes six parts and the rest, in more than four seconds.
fn feed_slowly(out: &mut dyn Write, bytes: &[u8]) -> io::Result<()> {
    for part in bytes[..6 * PART].chunks(PART) {
        out.write_all(part)?;
        thread::sleep(Duration::from_millis(750));
    }
    out.write_all(&bytes[6 * PART..])
}

/// The end of a named pipe to write to, when the process below `child` reads it; `None` if the child ends before.
fn writer_of(fifo: &Path, child: &mut Child) -> Option<File> {
    const O_NONBLOCK: i32 = 0o4000;
    let mut options = File::options();
    options.write(true).custom_flags(O_NONBLOCK);
    loop {
        // Without a reader this fails at once, where it would else wait for one.
        if let Ok(_first) = options.open(fifo) {
            return Some(options.custom_flags(0).open(fifo).expect("a reader"));
        }
        if child.try_wait().expect("its state").is_some() {
            return None;
        }
        thread::sleep(Duration::from_millis(10));
    }
}

/// What the command shows on a terminal while it reads these bytes slowly; `None` if this machine has no program that
/// makes a terminal, or cannot make one. Its standard output goes to the file `page`.
fn shown_on_terminal(folder: &Folder, bytes: &[u8]) -> Option<String> {
    let fifo = folder.path.join("slow");
    let made = Command::new("mkfifo").arg(&fifo).status();
    assert!(made.expect("mkfifo").success());
    let command = hollytrot(["board", "slow"]);
    let words: Vec<_> = [command.get_program()]
        .into_iter()
        .chain(command.get_args())
        .collect();
    let mut script = Command::new("script");
    script.args(["-qec", r#"exec "$W0" "$W1" $W2 $W3 >page"#, "/dev/null"]);
    for i in 0..4 {
        let word = words.get(i).copied().unwrap_or_default();
        script.env(format!("W{i}"), word);
    }
    let child = folder
        .of(&mut script)
        .env("LC_ALL", "C")
        .stdin(Stdio::null())
        .stdout(Stdio::piped())
        .spawn();
    if matches!(&child, Err(error) if error.kind() == io::ErrorKind::NotFound) {
        return None;
    }
    let mut child = child.expect("script starts");
    let mut pipe = writer_of(&fifo, &mut child)?;
    feed_slowly(&mut pipe, bytes).expect("all of it is read");
    drop(pipe);
    let output = child.wait_with_output().expect("its end");
    assert!(output.status.success(), "{}", output.status);
    Some(String::from_utf8(output.stdout).expect("UTF-8"))
}

#[track_caller]
fn assert_progress(shown: &str, bytes: usize) {
    let lines: Vec<&str> = shown.split('\r').collect();
    let [.., before, erased, ""] = lines[..] else {
        panic!("nothing shown: {shown:?}");
    };
    assert!(before.starts_with("slow: ") && before.ends_with(" s"));
    assert_eq!(erased, " ".repeat(before.len()));
    for line in lines.iter().filter(|line| line.starts_with("slow")) {
        let number = |text: &str| text.replace(',', "").parse::<usize>().expect("a number");
        let words: Vec<&str> = line.split(' ').collect();
        let [_, read, "bytes,", records, "records,", seconds, "s"] = words[..] else {
            panic!("no progress: {line:?}");
        };
        assert!(number(read) > 0 && number(read) <= bytes);
        assert_eq!(number(read), 150 * number(records));
        assert!((3..60).contains(&number(seconds)), "{line:?}");
    }
}

#[test]
fn progress() {
    let folder = Folder::new("progress");
    let bytes = long_day();
    thread::scope(|scope| {
        // Standard error is a pipe: nothing is shown.
        scope.spawn(|| {
            let mut command = hollytrot(["board"]);
            let output = output_of(&mut command, |stdin| feed_slowly(stdin, &bytes));
            assert_output(&output, &page_of(&bytes), "", 0);
        });
        let Some(shown) = shown_on_terminal(&folder, &bytes) else {
            eprintln!(
                "progress on a terminal is not tested: there is no `script`, or it makes none"
            );
            return;
        };
        assert_progress(&shown, bytes.len());
        let page = fs::read(folder.path.join("page")).expect("a page");
        assert_eq!(page, page_of(&bytes));
    });
}
