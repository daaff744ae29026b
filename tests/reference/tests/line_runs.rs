//! Lined and bare files in one input: how a run cuts its pieces, and how an input is fed in parts. Each choice has an
//! input that tells it from another reading.

mod common;

use std::fs;
use std::path::Path;

use common::{a, a06, a_of, assert_answer, followed, g, lined, lined_all, naive, numbered};
use common::{p4_code, z};
use reference::page::page_of;
use reference::{Reading, RunResult, Session};

fn good() -> [u8; 150] {
    g(&p4_code(), 5)
}

/// A bare file with this sequence number.
fn bare(number: u64) -> Vec<u8> {
    [a_of(number), good(), z(3, 5)].concat()
}

/// The same file, lined.
fn ended(number: u64) -> Vec<u8> {
    lined_all(&[a_of(number), good(), z(3, 5)])
}

/// One run over the whole input: how many records and files it accepts, the answer, and the bytes of those records. The
/// naive run and the page agree with it.
#[track_caller]
fn assert_run(input: &[u8], records: u64, files: u64, answer: (u64, usize), bytes: usize) {
    let mut session = Session::new();
    let run = session.run(input, false, &[]);
    assert_eq!(
        (run.records, run.files, run.bytes),
        (records, files, bytes),
        "{:?}",
        run.answer
    );
    assert_answer(run.answer, answer.0, answer.1);
    let expected = naive::run(&naive::NaiveSession::default(), input, false, &[]);
    assert_eq!(naive::NaiveSession::of(&session), expected.session);
    assert_eq!(page_of(input), naive::page(input).into_bytes());
}

#[test]
fn lined_and_bare_files_in_turn() {
    assert_run(b"", 0, 0, (0, 0), 0);
    assert_run(&ended(1), 3, 1, (0, 0), 456);
    for input in [
        [bare(1), ended(2), bare(3), ended(4)],
        [ended(1), bare(2), ended(3), bare(4)],
        [ended(1), ended(2), bare(3), bare(4)],
    ] {
        assert_run(&input.concat(), 12, 4, (0, 0), 1812);
    }
    let newer = lined_all(&[numbered(a06(), 2), good(), z(3, 5)]);
    assert_run(&[bare(1), newer].concat(), 6, 2, (0, 0), 906);
}

#[test]
fn a_header_and_a_lone_cr() {
    assert_run(&followed(&a(), b"\r"), 1, 0, (1, 0), 150);
    assert_run(&followed(&a(), b"\n"), 1, 0, (1, 0), 150);
    assert_run(&followed(&a(), b"\r\n"), 1, 0, (0, 0), 152);
    assert_run(&followed(&a(), b"\r\n\r"), 1, 0, (1, 0), 152);
    let mut session = Session::new();
    session.run(&followed(&a(), b"\r"), false, &[]);
    assert!(session.open && !session.lined);
}

#[test]
fn empty_lines() {
    // Between two files, each lined or bare, and one too many at the end.
    for first in [ended(1), bare(1)] {
        for next in [ended(2), bare(2)] {
            let input = [&first[..], b"\r\n", &next].concat();
            assert_run(&input, 3, 1, (9, 1), first.len());
        }
        let input = [&first[..], b"\r\n"].concat();
        assert_run(&input, 3, 1, (1, 0), first.len());
    }
    // Before a file, and within one.
    let file = ended(1);
    assert_run(&[b"\r\n", &file[..]].concat(), 0, 0, (9, 1), 0);
    let input = [&file[..152], b"\r\n", &file[152..]].concat();
    assert_run(&input, 1, 0, (9, 1), 152);
    assert_run(b"\r\n", 0, 0, (1, 0), 0);
}

#[test]
fn a_lined_header_with_bare_records() {
    let header = lined(&a());
    let input = [&header[..], &good(), &z(3, 5)].concat();
    assert_run(&input, 1, 0, (22, 151), 152);
    assert_run(&[&header[..], &z(2, 0)].concat(), 1, 0, (22, 151), 152);
    // Its other checks come first: a trailer with a wrong count.
    assert_run(&[&header[..], &z(3, 0)].concat(), 1, 0, (13, 2), 152);
    // LF alone, CR alone, the two turned.
    for end in [&b"\n"[..], b"\r", b"\n\r"] {
        let input = [&header[..], &good(), end, &z(3, 5), end].concat();
        assert_run(&input, 1, 0, (22, 151), 152);
    }
}

#[test]
fn a_bare_header_with_lined_records() {
    let input = [&a()[..], &lined(&good()), &lined(&z(3, 5))].concat();
    assert_run(&input, 2, 0, (9, 1), 300);
    let input = [&a()[..], &lined(&z(2, 0))].concat();
    assert_run(&input, 2, 1, (1, 0), 300);
}

#[test]
fn a_header_followed_by_cr_and_another_byte() {
    for other in *b"\r\0 \x0bGZA" {
        let input = [&followed(&a(), &[13, other])[..], &good(), &z(3, 5)].concat();
        assert_run(&input, 1, 0, (9, 1), 150);
        assert_run(&input[..299], 1, 0, (1, 0), 150);
    }
    // LF and CR.
    let input = [&followed(&a(), b"\n\r")[..], &good()].concat();
    assert_run(&input, 1, 0, (9, 1), 150);
}

#[test]
fn the_last_line_end_is_missing() {
    let ended = ended(1);
    assert_run(&ended[..455], 2, 0, (22, 151), 304);
    assert_run(&ended[..454], 2, 0, (22, 151), 304);
    assert_run(&ended[..453], 2, 0, (1, 0), 304);
    assert_run(&ended[..304], 2, 0, (0, 0), 304);
    assert_run(&ended[..303], 1, 0, (22, 151), 152);
    let input = [&ended[..455], b" "].concat();
    assert_run(&input, 2, 0, (22, 151), 304);
}

/// A bare header followed by a record that begins with CR and LF is read as a lined one.
#[test]
fn a_next_record_that_begins_with_a_line_end() {
    let input = [&a()[..], b"\r\n", &good()[2..]].concat();
    assert_run(&input, 1, 0, (1, 0), 152);
    // In an open bare file nothing is looked for.
    let input = [&a()[..], &good(), b"\r\n", &z(3, 5)[2..]].concat();
    assert_run(&input, 2, 0, (9, 1), 300);
}

/// Where there is more, nothing is taken once fewer than 152 bytes are left, whatever they are.
#[test]
fn with_more_to_come() {
    let (bare, ended) = (bare(1), ended(1));
    for input in [&ended[..], &bare, &[b'x'; 456], &[13; 456]] {
        for length in 0..152 {
            let mut session = Session::new();
            let run = session.run(&input[..length], true, &[]);
            assert_eq!((run.records, run.files, run.bytes), (0, 0, 0));
            assert_eq!((session, run.answer), (Session::new(), Ok(())));
        }
    }
    for input in [[b'x'; 152], [13; 152]] {
        let run = Session::new().run(&input, true, &[]);
        assert_answer(run.answer, 9, 1);
        assert_eq!(run.bytes, 0);
    }
    for (input, length) in [(&ended, 152), (&bare, 150)] {
        for end in 0..=input.len() {
            let run = Session::new().run(&input[..end], true, &[]);
            let mut taken = 0;
            while end - taken >= 152 {
                taken += length;
            }
            assert_eq!((run.bytes, run.answer), (taken, Ok(())));
            assert_eq!(run.records, (taken / length) as u64);
        }
    }
}

/// In an arbitrary state a closed session may be lined: that is not asked when the next piece is cut.
#[test]
fn arbitrary_closed_sessions() {
    for input in inputs() {
        for more in [false, true] {
            let mut session = Session {
                lined: true,
                ..Session::new()
            };
            let mut same = Session::new();
            let run = session.run(&input, more, &[]);
            assert_eq!(run, same.run(&input, more, &[]));
            // Only an accepted header replaces it.
            same.lined |= run.records == 0;
            assert_eq!(session, same);
        }
    }
}

/// The input in parts that end at these places, with the rest carried over; at last a run over the rest alone.
fn fed(input: &[u8], cuts: &[usize]) -> (Session, RunResult) {
    let mut session = Session::new();
    let mut sum = Session::new().run(b"", false, &[]);
    let parts = cuts.iter().map(|&cut| (cut, true));
    for (end, more) in parts.chain([(input.len(), true), (input.len(), false)]) {
        let run = session.run(&input[sum.bytes..end], more, &[]);
        sum.records += run.records;
        sum.files += run.files;
        sum.bytes += run.bytes;
        sum.answer = run.answer;
        if sum.answer.is_err() {
            break;
        }
        assert!(end - sum.bytes < 152);
    }
    (session, sum)
}

fn in_one_run(input: &[u8]) -> (Session, RunResult) {
    let mut session = Session::new();
    let run = session.run(input, false, &[]);
    (session, run)
}

/// Small inputs of each form, good and refused.
fn inputs() -> Vec<Vec<u8>> {
    let (next_bare, next_ended) = (bare(2), ended(2));
    let (bare, ended) = (bare(1), ended(1));
    vec![
        bare.clone(),
        ended.clone(),
        [&bare[..], &next_ended].concat(),
        [&ended[..], &next_bare].concat(),
        [&ended[..], b"\r\n"].concat(),
        [&ended[..], b"\r\n", &next_ended].concat(),
        ended[..455].to_vec(),
        ended[..454].to_vec(),
        [&lined(&a())[..], &good(), &z(3, 5)].concat(),
        [&a()[..], &ended[152..]].concat(),
        followed(&a(), b"\r"),
        [&followed(&a(), b"\r ")[..], &good()].concat(),
        [&bare[..], &next_ended[..152]].concat(),
        [&bare[..], &next_ended[..151]].concat(),
    ]
}

#[test]
fn feeding_is_one_run() {
    for input in inputs() {
        let whole = in_one_run(&input);
        for cut in 0..=input.len() {
            assert_eq!(fed(&input, &[cut]), whole);
            let mut reading = Reading::new();
            reading.take(&input[..cut]);
            assert!(reading.rest.len() < 152);
            reading.take(&input[cut..]);
            assert!(reading.rest.len() < 152);
            assert_eq!(reading.page(), page_of(&input));
        }
        for length in 1..=input.len() {
            let cuts: Vec<usize> = (0..input.len()).step_by(length).collect();
            assert_eq!(fed(&input, &cuts), whole);
        }
    }
}

/// Every pair of cuts of two empty files, one of each form.
#[test]
fn feeding_in_three_parts_is_one_run() {
    let (first, next) = ([a(), z(2, 0)], [a_of(2), z(2, 0)]);
    for input in [
        [first.concat(), lined_all(&next)].concat(),
        [lined_all(&first), next.concat()].concat(),
    ] {
        let whole = in_one_run(&input);
        assert_eq!((whole.1.files, whole.1.bytes), (2, 604));
        for second in 0..=input.len() {
            for first in (0..=second).filter(|first| first % 3 == second % 3 || *first > 140) {
                assert_eq!(fed(&input, &[first, second]), whole);
            }
        }
    }
}

/// Each day in samples/ has the same page with a line end behind each whole record.
#[test]
fn lined_samples_have_the_same_pages() {
    let samples = Path::new(env!("CARGO_MANIFEST_DIR")).join("../../samples");
    for name in ["day", "issuers_65", "no_trailer", "truncated", "wrong_byte"] {
        let day = fs::read(samples.join(name).with_extension("ret")).unwrap();
        let page = fs::read(samples.join(name).with_extension("page")).unwrap();
        let mut input = Vec::new();
        for record in day.chunks(150) {
            input.extend_from_slice(record);
            if record.len() == 150 {
                input.extend_from_slice(b"\r\n");
            }
        }
        assert_eq!(page_of(&input), page, "{name}");
    }
}
