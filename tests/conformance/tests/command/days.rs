//! The command's subcommand `board`: its page is the reference program's, a refusal is one line on standard error with
//! the record and the byte, and the exit status tells them apart.

use std::thread;
use std::time::Duration;

use conformance::lines;
use reference::days;
use reference::page::page_of;
use reference::random::Random;

use crate::expected::Expected;
use crate::folder::Folder;
use crate::process::{assert_output, hollytrot, output_of};
use crate::random_day::{change, day};

/// The name of standard input in a refusal's line.
const STANDARD_INPUT: &str = "standard input";

/// The command with this input on standard input prints what the reference program says.
#[track_caller]
fn assert_board(bytes: &[u8]) {
    let expected = Expected::of(&[bytes], false, &[]);
    let page = page_of(bytes);
    assert_eq!(expected.page(), page);
    let output = output_of(&mut hollytrot(["board"]), |stdin| stdin.write_all(bytes));
    let lines = expected.lines(&[STANDARD_INPUT], false);
    assert_output(&output, &page, &lines, expected.status());
}

/// Every second of the 600 days.
fn boards(first: u64) {
    for i in (first..600).step_by(2) {
        assert_board(&day(i));
    }
}

#[test]
fn boards_of_days() {
    boards(0);
}

#[test]
fn boards_of_other_days() {
    boards(1);
}

/// Days of some megabytes, which no buffer of the command holds: unchanged, or damaged in their last quarter.
#[test]
fn boards_of_long_days() {
    let mut late = 0;
    for i in 0..10 {
        let random = &mut Random::new(i);
        let form = lines::form(random);
        let mut bytes = days::day_of(random, 60, 12, 3000, form)
            .expect("a good day")
            .bytes;
        if i > 1 {
            let start = bytes.len() * 3 / 4;
            days::damage(random, &mut bytes[start..]);
        }
        assert_board(&bytes);
        let expected = Expected::of(&[&bytes], false, &[]);
        late += usize::from(expected.first().is_some_and(|at| at.byte > 1_000_000));
    }
    assert!(late > 4, "{late}");
}

/// A pipe that stalls and delivers single bytes.
#[test]
fn a_slow_pipe() {
    let bytes = day(3);
    let expected = Expected::of(&[&bytes], false, &[]);
    let output = output_of(&mut hollytrot(["board", "-"]), |stdin| {
        for (i, byte) in bytes.iter().enumerate() {
            stdin.write_all(&[*byte])?;
            if i % 150 == 77 {
                thread::sleep(Duration::from_millis(20));
            }
        }
        Ok(())
    });
    let lines = expected.lines(&[STANDARD_INPUT], false);
    assert_output(&output, &page_of(&bytes), &lines, expected.status());
}

/// Runs the command on these inputs, each a file of its own, one of them sometimes standard input, and compares all
/// that it says with what is expected. Words are options.
#[track_caller]
fn assert_boards(
    folder: &Folder,
    random: &mut Random,
    words: &[&str],
    inputs: &[&[u8]],
) -> Expected {
    let keep_going = words.contains(&"--keep-going");
    let expected = Expected::of(inputs, keep_going, &[]);
    let mut names: Vec<String> = (0..inputs.len()).map(|i| format!("{i}.ret")).collect();
    for (name, bytes) in names.iter().zip(inputs) {
        folder.write(name.as_bytes(), bytes);
    }
    let mut command = hollytrot(words);
    let piped = match random.below(2) {
        0 => random.index(inputs.len()),
        _ => inputs.len(),
    };
    for (i, name) in names.iter_mut().enumerate() {
        command.arg(if i == piped { "-" } else { name.as_str() });
        if i == piped {
            *name = STANDARD_INPUT.to_string();
        }
    }
    let stdin = inputs.get(piped).copied().unwrap_or_default();
    let output = output_of(folder.of(&mut command), |pipe| pipe.write_all(stdin));
    let names: Vec<&str> = names.iter().map(String::as_str).collect();
    let lines = expected.lines(&names, keep_going);
    assert_output(&output, &expected.page(), &lines, expected.status());
    expected
}

/// The page of a day that comes in several files is that of the whole day, if each but the last ends where a return
/// file ends. Some parts are empty.
#[test]
fn days_in_several_files() {
    let folder = Folder::new("days_in_several_files");
    for i in 0..120 {
        let random = &mut Random::new(i);
        let bytes = day(i);
        let files = &Expected::of(&[&bytes], false, &[]).inputs[0].files;
        let mut inputs: Vec<&[u8]> = Vec::new();
        let mut start = 0;
        for &(_, end) in files {
            while random.once_in(2) {
                inputs.push(&bytes[start..end]);
                start = end;
            }
        }
        inputs.push(&bytes[start..]);
        let expected = assert_boards(&folder, random, &["board"], &inputs);
        assert_eq!(expected.page(), page_of(&bytes));
    }
}

/// A return file that one input begins and the next one ends is refused 19: each input has an end of its own. So is a
/// record that is cut there: 1.
#[test]
fn a_return_file_in_two_files() {
    let folder = Folder::new("a_return_file_in_two_files");
    let random = &mut Random::new(7);
    let bytes = days::day(random, 3, 1, 9).expect("a good day").bytes;
    for (end, number) in [(150, 19), (450, 19), (299, 1), (1, 1), (0, 9)] {
        let inputs = [&bytes[..end], &bytes[end.max(150)..]];
        let expected = assert_boards(&folder, random, &["board"], &inputs);
        assert_eq!(expected.answer().0, number);
    }
}

/// Under --keep-going a damaged input is set aside from its open return file on, and the next one is taken up: also
/// many damaged ones, and files of a pair whose earlier file was set aside.
#[test]
fn damaged_files_set_aside() {
    let folder = Folder::new("damaged_files_set_aside");
    let (mut refused, mut kept) = (0, 0);
    for i in 0..150 {
        let random = &mut Random::new(i);
        let (issuers, form) = (random.index(40), lines::form(random));
        let day = days::day_of(random, issuers, 8, 12, form).expect("a good day");
        let files = &Expected::of(&[&day.bytes], false, &[]).inputs[0].files;
        // Inputs of one to three return files each, of which some are damaged.
        let mut inputs: Vec<Vec<u8>> = Vec::new();
        let mut rest = &files[..];
        while !rest.is_empty() {
            let (some, others) = rest.split_at(rest.len().min(1 + random.index(3)));
            let mut bytes = day.bytes[some[0].0..some[some.len() - 1].1].to_vec();
            if random.once_in(3) {
                change(random, &mut bytes);
            }
            inputs.push(bytes);
            rest = others;
        }
        let inputs: Vec<&[u8]> = inputs.iter().map(Vec::as_slice).collect();
        let words = ["board", "--keep-going"];
        let expected = assert_boards(&folder, random, &words, &inputs);
        let count = expected
            .inputs
            .iter()
            .filter(|input| input.refused.is_some());
        refused += count.count();
        kept += expected.session.board().payments;
    }
    assert!(
        refused > 100 && kept > 1000,
        "{refused} refused, {kept} kept"
    );
}
