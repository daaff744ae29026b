//! The program that prints the page, and how it reads its input.

mod common;

use std::fs::File;
use std::io::{self, Read, Write};
use std::process::{Command, Output, Stdio};

use common::{a, a_of, code_for, g_tariff, naive, p4_code, z};
use reference::days::{self, Form};
use reference::page::{page_of, read_page};
use reference::random::Random;
use reference::Reading;

const SAMPLE: &str = "\
answer=0
place=0
record=3
files=1
lanes=1
payments=1
centavos=109
tariff=0
lane=1
issuer=1-3659
payments=1
centavos=109
tariff=0
";

/// The worked input, whose payment has tariff 0.
fn sample() -> Vec<u8> {
    [a(), g_tariff(&p4_code(), 109, 0), z(3, 109)].concat()
}

fn run(input: &[u8]) -> Output {
    let mut child = Command::new(env!("CARGO_BIN_EXE_reference"))
        .stdin(Stdio::piped())
        .stdout(Stdio::piped())
        .stderr(Stdio::piped())
        .spawn()
        .expect("started");
    // The program may stop before the end of its input, so this may fail.
    let mut stdin = child.stdin.take().expect("a pipe");
    let _ = stdin.write_all(input);
    drop(stdin);
    child.wait_with_output().expect("ended")
}

#[test]
fn the_sample_page() {
    assert_eq!(&sample()[231..250], b"0000000001090000000");
    assert_eq!(&sample()[300..324], b"Z00000300000000000000109");
    assert_eq!(page_of(&sample()), SAMPLE.as_bytes());
    let output = run(&sample());
    assert_eq!(output.stdout, SAMPLE.as_bytes());
    assert!(output.stderr.is_empty());
    assert!(output.status.success());
}

#[test]
fn the_program_prints_the_page_of_any_input() {
    let mut random = Random::new(31);
    for round in 0..40 {
        let issuers = random.index(71);
        let form = Form::ALL[round % 3];
        let mut day = days::day_of(&mut random, issuers, 6, 40, form).unwrap();
        if round % 4 == 1 {
            days::damage_line_end(&mut random, &mut day.bytes);
        }
        if round % 2 == 0 {
            days::damage(&mut random, &mut day.bytes);
        }
        if round % 5 == 0 {
            days::disorder(&mut random, &mut day.bytes);
        }
        let output = run(&day.bytes);
        assert_eq!(
            String::from_utf8(output.stdout).unwrap(),
            naive::page(&day.bytes)
        );
        assert!(output.status.success());
    }
    let zeros = "record=0\nfiles=0\nlanes=0\npayments=0\ncentavos=0\ntariff=0\n";
    assert_eq!(
        run(b"").stdout,
        format!("answer=0\nplace=0\n{zeros}").as_bytes()
    );
    assert_eq!(
        run(b"\n").stdout,
        format!("answer=1\nplace=0\n{zeros}").as_bytes()
    );
}

/// An input of several pieces, with the refusal in a later one.
#[test]
fn many_pieces() {
    let mut input = a().to_vec();
    let payment = g_tariff(&code_for(6, 7), 2, 3);
    for _ in 0..10_000 {
        input.extend_from_slice(&payment);
    }
    input.extend_from_slice(&z(10_002, 20_000));
    let good = input.clone();
    input.extend_from_slice(&a_of(2));
    input.extend_from_slice(&payment);
    let text = |input: &[u8]| String::from_utf8(run(input).stdout).unwrap();
    let sums = "payments=10000\ncentavos=20000\ntariff=30000\n";
    let board = format!("lanes=1\n{sums}lane=1\nissuer=6-00000007\n{sums}");
    assert_eq!(
        text(&good),
        format!("answer=0\nplace=0\nrecord=10002\nfiles=1\n{board}")
    );
    assert_eq!(
        text(&input),
        format!("answer=19\nplace=0\nrecord=10004\nfiles=1\n{board}")
    );
    input.extend_from_slice(&payment[..149]);
    assert_eq!(
        text(&input),
        format!("answer=1\nplace=0\nrecord=10004\nfiles=1\n{board}")
    );
}

/// A reader that returns a few bytes at a time, as a pipe may.
struct Trickle<'a> {
    rest: &'a [u8],
    random: Random,
}

impl Read for Trickle<'_> {
    fn read(&mut self, out: &mut [u8]) -> io::Result<usize> {
        if self.random.once_in(5) {
            return Err(io::ErrorKind::Interrupted.into());
        }
        let count = (1 + self.random.index(400))
            .min(self.rest.len())
            .min(out.len());
        out[..count].copy_from_slice(&self.rest[..count]);
        self.rest = &self.rest[count..];
        Ok(count)
    }
}

#[test]
fn pieces_do_not_matter() {
    let mut random = Random::new(32);
    for seed in 0..30 {
        let form = Form::ALL[seed as usize % 3];
        let day = days::day_of(&mut random, 30, 20, 40, form).unwrap();
        let cut = day.bytes.len() - random.index(200);
        let bytes = &day.bytes[..cut];
        let expected = naive::page(bytes).into_bytes();
        assert_eq!(page_of(bytes), expected);
        let input = Trickle {
            rest: bytes,
            random: Random::new(seed),
        };
        assert_eq!(read_page(input).unwrap(), expected);
        for length in [150 * 7, 1, 7, 149, 150, 151, 152, 153, 1000] {
            let mut reading = Reading::new();
            for piece in bytes.chunks(length) {
                reading.take(piece);
                assert!(reading.rest.len() < 152);
            }
            assert_eq!(reading.page(), expected);
            reading.end();
            assert!(reading.rest.is_empty());
            assert_eq!(reading.page(), expected);
        }
    }
}

#[test]
fn it_stops_at_the_first_refusal() {
    // An endless input.
    let page = read_page(io::repeat(b'x')).unwrap();
    let zeros = "record=0\nfiles=0\nlanes=0\npayments=0\ncentavos=0\ntariff=0\n";
    assert_eq!(
        String::from_utf8(page).unwrap(),
        format!("answer=9\nplace=1\n{zeros}")
    );
    let mut reading = Reading::new();
    reading.take(&[b'x'; 152]);
    assert!(reading.outcome.is_err() && reading.rest.is_empty());
    let refused = reading.clone();
    reading.take(&sample());
    reading.end();
    assert_eq!(reading, refused);
}

/// A reader that returns good bytes, then fails.
struct Failing(bool);

impl Read for Failing {
    fn read(&mut self, out: &mut [u8]) -> io::Result<usize> {
        if self.0 {
            return Err(io::Error::other("connection lost"));
        }
        self.0 = true;
        let bytes = sample();
        out[..bytes.len()].copy_from_slice(&bytes);
        Ok(bytes.len())
    }
}

#[test]
fn a_failed_read_gives_no_page() {
    assert!(read_page(Failing(false)).is_err());
    // Reading a directory fails.
    let output = Command::new(env!("CARGO_BIN_EXE_reference"))
        .stdin(Stdio::from(File::open("/").expect("a directory")))
        .output()
        .expect("ran");
    assert!(output.stdout.is_empty());
    assert!(!output.stderr.is_empty());
    assert!(!output.status.success());
}
