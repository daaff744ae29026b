//! Long inputs: ten million payments through a pipe, and other inputs without an end in sight. The memory of the
//! command does not grow with them.
//!
//! On another processor than x86-64 the command runs under an emulator, whose memory cannot be told from the command's:
//! there the inputs are fifty times shorter, and the memory is not measured.

use std::fs;
use std::io::{self, BufWriter, Write};
use std::process::{Command, Output, Stdio};
use std::thread;

use conformance::engine::program;
use reference::page::page;
use reference::random::Random;
use reference::{days, Board, Session, Writer};

use crate::folder::Folder;
use crate::json::{parse, Value};
use crate::process::{assert_output, hollytrot};

/// The most memory that the command may have had, in KiB.
const MOST_MEMORY: u64 = 16 * 1024;

const NATIVE: bool = cfg!(target_arch = "x86_64");

/// Files of 50,000 payments.
const FILES: u64 = if NATIVE { 200 } else { 4 };
const PAYMENTS: u64 = 50_000;

/// What a command does with the input that `feed` writes to its pipe. At the end of the input, before it is closed, the
/// most memory that the command has had so far is below the limit.
fn measured(
    command: &mut Command,
    feed: impl FnOnce(&mut dyn Write) -> io::Result<()> + Send,
) -> Output {
    let mut child = command
        .stdin(Stdio::piped())
        .stdout(Stdio::piped())
        .stderr(Stdio::piped())
        .spawn()
        .expect("a command");
    let status = format!("/proc/{}/status", child.id());
    let mut stdin = BufWriter::new(child.stdin.take().expect("a pipe"));
    thread::scope(|scope| {
        scope.spawn(move || {
            let fed = feed(&mut stdin).and_then(|()| stdin.flush());
            fed.expect("all of the input is read");
            let status = fs::read_to_string(status).expect("its memory");
            let most = status.lines().find_map(|line| line.strip_prefix("VmHWM:"));
            let most = most.and_then(|most| most.trim_end_matches("kB").trim().parse().ok());
            let most: u64 = most.expect("its most memory");
            assert!(most < MOST_MEMORY || !NATIVE, "{most} KiB");
        });
        child.wait_with_output().expect("its end")
    })
}

/// A file of so many payments of 16 issuers, with number 1.
fn file(payments: u64) -> Vec<u8> {
    let random = &mut Random::new(payments);
    let issuers = days::issuers(random, 16);
    let mut writer = Writer::new();
    let mut bytes = vec![0; 150 * (payments as usize + 2)];
    let mut records = bytes.chunks_exact_mut(150);
    let mut next = || records.next().expect("a buffer for each record");
    let header = days::header_fields(random);
    writer.header(&header, next()).expect("a good header");
    for _ in 0..payments {
        let issuer = issuers[random.index(16)];
        let code = days::barcode_of(random, issuer).expect("a good barcode");
        let fields = days::payment_fields(random, &code, writer.version);
        let (received, tariff) = (random.number(10), random.number(7));
        writer
            .payment(&fields, received, tariff, &[], next())
            .expect("a good payment");
    }
    writer.trailer(next()).expect("a good trailer");
    set_number(&mut bytes, 1);
    bytes
}

fn set_number(file: &mut [u8], number: u64) {
    file[73..79].copy_from_slice(format!("{number:06}").as_bytes());
}

/// Writes a file so many times, each time with the next number.
fn write_files(out: &mut dyn Write, mut file: Vec<u8>, times: u64) -> io::Result<()> {
    for number in 1..=times {
        set_number(&mut file, number);
        out.write_all(&file)?;
    }
    Ok(())
}

/// The board of a file that is there so many times.
fn board_of(file: &[u8], times: u64) -> Board {
    let mut session = Session::new();
    let run = session.run(file, false, &[]);
    assert_eq!((run.answer, run.files), (Ok(()), 1));
    let mut board = session.shown;
    for lane in &mut board.lanes {
        lane.payments *= times;
        lane.centavos *= times;
        lane.tariff *= times;
    }
    board.payments *= times;
    board.centavos *= times;
    board.tariff *= times;
    board
}

/// Ten million payments: the page is that of quadro, and has the sums of one file so many times.
#[test]
fn ten_million_payments() {
    let file = file(PAYMENTS);
    let records = FILES * (PAYMENTS + 2);
    let expected = page(0, 0, records, FILES, &board_of(&file, FILES));
    let run = |command: &mut Command| {
        let output = measured(command, |pipe| write_files(pipe, file.clone(), FILES));
        assert_output(&output, &expected, "", 0);
    };
    thread::scope(|scope| {
        scope.spawn(|| run(&mut hollytrot(["board"])));
        run(&mut program("target/bin/quadro"));
    });
}

/// --json lists as many return files as there are: here without a payment.
#[test]
fn many_files_in_json() {
    let count = 5_000 * if NATIVE { 50 } else { 1 };
    let file = file(0);
    let output = measured(&mut hollytrot(["board", "--json"]), |pipe| {
        write_files(pipe, file, count)
    });
    assert_eq!(output.status.code(), Some(0));
    let Ok(Value::Object(members)) = parse(&String::from_utf8_lossy(&output.stdout)) else {
        panic!("no JSON");
    };
    let listed = output.stdout.split(|&byte| byte == b'\n');
    let listed = listed.filter(|line| line.starts_with(b"        {\"bank\": "));
    assert_eq!(listed.count() as u64, count);
    assert_eq!(members[5], ("files".to_string(), Value::Number(count)));
}

/// Nobody reads what --json prints: the reading ends, although there is more to read.
#[test]
fn a_reader_that_is_gone() -> io::Result<()> {
    let mut child = hollytrot(["board", "--json"])
        .stdin(Stdio::piped())
        .stdout(io::pipe()?.1)
        .spawn()?;
    let mut stdin = child.stdin.take().expect("a pipe");
    assert!(write_files(&mut stdin, file(0), 900_000).is_err());
    assert_eq!(child.wait()?.code(), Some(2));
    Ok(())
}

/// Only the names of issuers on the board are kept, and only the start of a line.
#[test]
fn many_names() {
    let folder = Folder::new("many_names");
    folder.write(b"day.ret", &file(20));
    let mut command = hollytrot(["board", "--reais", "--names", "-", "day.ret"]);
    let times = 10_000 * if NATIVE { 50 } else { 1 };
    let output = measured(folder.of(&mut command), |pipe| {
        let long = vec![b'x'; 20 * times];
        pipe.write_all(&[b"1-0000\t", &long[..], b"\n# ", &long, b"\n"].concat())?;
        (0..times).try_for_each(|i| writeln!(pipe, "6-{i:08}\tName {i}"))
    });
    assert_eq!(String::from_utf8_lossy(&output.stderr), "");
    assert_eq!(output.status.code(), Some(0));
}

/// Typed lines without an end.
#[test]
fn many_slips() {
    let times = 4_000 * if NATIVE { 50 } else { 1 };
    let output = measured(&mut hollytrot(["line"]), |pipe| {
        let line = days::line(&mut Random::new(1)).expect("a good line");
        let pair = [&line[..], b"\n8\n"].concat();
        (0..times).try_for_each(|_| pipe.write_all(&pair))
    });
    let count = |text: &[u8]| text.iter().filter(|&&byte| byte == b'\n').count();
    assert_eq!(count(&output.stdout), times);
    assert_eq!(count(&output.stderr), times);
    assert_eq!(output.status.code(), Some(1));
}
