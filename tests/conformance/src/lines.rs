//! The forms of files in random inputs: lined and bare days, damaged line ends, and days cut anywhere into runs.

use std::ops::Range;

use reference::days::Form;
use reference::random::Random;
use reference::records::{LENGTH, LINE_END};
use reference::{RunResult, Stage};

use crate::calls::Calls;
use crate::lists;

/// What may follow a record in place of CR and LF: less, other bytes, or more.
pub const WRONG_ENDS: [&[u8]; 16] = [
    b"",
    b"\r",
    b"\n",
    b"\n\r",
    b"\r\r",
    b"\n\n",
    b"  ",
    b"00",
    b"\0\0",
    b"\r\x0b",
    b"\x0c\n",
    b"\x8d\x8a",
    b"\r\n\r",
    b"\r\n\n",
    b" \r\n",
    b"\r\n\r\n",
];

/// The lengths of a writer's buffer at the edges: only 150 and 152 may be right.
pub const SIZES: [u8; 6] = [0, 149, 150, 151, 152, 153];

/// A form for a day's files.
pub fn form(random: &mut Random) -> Form {
    Form::ALL[random.index(Form::ALL.len())]
}

/// The range of each record of a day, with the line end that follows it. The last may be shorter.
pub fn records(bytes: &[u8]) -> Vec<Range<usize>> {
    let mut ranges = Vec::new();
    let mut start = 0;
    while start < bytes.len() {
        let mut end = bytes.len().min(start + LENGTH);
        if bytes[end..].starts_with(LINE_END) {
            end += LINE_END.len();
        }
        ranges.push(start..end);
        start = end;
    }
    ranges
}

/// What follows each record of a lined file, or of a bare one.
pub fn end(lined: bool) -> &'static [u8] {
    if lined {
        LINE_END
    } else {
        b""
    }
}

/// A record with what follows it in a lined or a bare file; sometimes with what follows it in the other, or with a
/// damaged line end.
pub fn with_end(random: &mut Random, record: &[u8; LENGTH], lined: bool) -> Vec<u8> {
    let other = random.once_in(8);
    let end = if random.once_in(8) {
        WRONG_ENDS[random.index(WRONG_ENDS.len())]
    } else {
        end(lined != other)
    };
    [record, end].concat()
}

/// The length of a writer's buffer: mostly that of its file's form; before the header, that of either form.
pub fn buffer_size(random: &mut Random, calls: &Calls) -> u8 {
    let lined = match calls.writer().stage {
        Stage::Fresh => random.once_in(2),
        _ => calls.writer().lined,
    };
    match random.below(16) {
        0 => random.byte(),
        1 | 2 => random.one_of(&SIZES),
        _ if lined => 152,
        _ => 150,
    }
}

/// Where the pieces of so many bytes end, the last of them at their end: after a few bytes, about one record, or many.
pub fn cuts(random: &mut Random, length: usize) -> Vec<usize> {
    let mut ends = Vec::new();
    let mut end = 0;
    while end < length {
        end += match random.below(8) {
            0 => 1 + random.index(4),
            1 | 2 => 148 + random.index(7),
            3 | 4 => 1 + random.index(600),
            _ => 1 + random.index(6000),
        };
        ends.push(end.min(length));
    }
    ends
}

/// Runs over the bytes in one call; then from the same session in pieces that end here, where the bytes that a call
/// leaves are put in front of the next piece. All calls have the same list, and both must come to the same end, which
/// is returned. Every reply of the engine is compared with the reference program's, so this holds of the engine too.
pub fn feed(calls: &mut Calls, bytes: &[u8], ends: &[usize], agreed: &[u64]) -> RunResult {
    let before = calls.session().clone();
    let whole = calls.run(bytes, false, agreed);
    let after = calls.session().clone();
    calls.set_session(&before);
    let mut fed = calls.run(b"", true, agreed);
    for &end in ends {
        if fed.answer.is_ok() {
            fed = sum(fed, calls.run(&bytes[fed.bytes..end], true, agreed));
        }
    }
    if fed.answer.is_ok() {
        fed = sum(fed, calls.run(&bytes[fed.bytes..], false, agreed));
    }
    assert_eq!(fed, whole);
    assert!(*calls.session() == after);
    whole
}

/// The result of two runs, of which the second goes on where the first stopped.
fn sum(first: RunResult, second: RunResult) -> RunResult {
    RunResult {
        records: first.records + second.records,
        files: first.files + second.files,
        answer: second.answer,
        bytes: first.bytes + second.bytes,
    }
}

/// Runs over pieces of the bytes that are cut anywhere, with more to come or not, whatever follows. The bytes that a
/// call leaves are put in front of the next piece, or sometimes dropped. A refusal may be the end. Some pieces have
/// another list.
pub fn run_pieces(calls: &mut Calls, random: &mut Random, bytes: &[u8], agreed: &[u64]) {
    let mut start = 0;
    for end in cuts(random, bytes.len()) {
        let list = lists::sometimes_other(random, agreed);
        let result = calls.run(&bytes[start..end], random.once_in(2), &list);
        if result.answer.is_err() && random.once_in(2) {
            break;
        }
        start = if random.once_in(8) {
            end
        } else {
            start + result.bytes
        };
    }
}
