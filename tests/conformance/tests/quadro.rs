//! `quadro` as a process: its pages are those of the reference program, and if reading or writing fails it neither
//! crashes nor prints anything that looks like a page.

mod common;

use std::fs::File;
use std::io::{self, Read, Seek, SeekFrom, Write};
use std::os::fd::OwnedFd;
use std::os::unix::net::UnixStream;
use std::os::unix::process::ExitStatusExt;
use std::process::{Command, Output, Stdio};
use std::thread;
use std::time::Duration;

use common::{assert_page, command, output_of, quadro};
use conformance::engine::root;
use conformance::{lines, versions};
use reference::days;
use reference::page::page_of;
use reference::random::Random;
use reference::records::LENGTH;
use reference::{Issuer, Writer};

/// The signal of a write to a pipe that has no reader.
const SIGPIPE: i32 = 13;

/// There must be an error message and no page.
#[track_caller]
fn assert_error(output: &Output) {
    assert!(output.status.success(), "{}", output.status);
    assert_eq!(output.stdout, b"");
    assert!(
        output.stderr.starts_with(b"quadro: standard "),
        "{:?}",
        output.stderr
    );
}

/// quadro, started by a shell with this redirection.
fn redirected(redirection: &str) -> Command {
    let quadro = command();
    let mut shell = Command::new("sh");
    shell.args(["-c", &format!("exec \"$@\" {redirection}"), "sh"]);
    shell.arg(quadro.get_program()).args(quadro.get_args());
    shell
}

/// A day of 0 to 70 issuers, bare, lined or both: unchanged, damaged, out of order, with other versions or codes, with
/// a damaged line end, or with wrong sequence numbers. Every tenth is longer than one buffer of quadro.
fn day(i: u64) -> Vec<u8> {
    let random = &mut Random::new(i);
    let (files, most) = if i.is_multiple_of(10) {
        (6, 400)
    } else {
        (random.index(5), random.index(30))
    };
    let issuers = random.index(71);
    let form = lines::form(random);
    let mut bytes = days::day_of(random, issuers, files, most, form)
        .expect("a good day")
        .bytes;
    match random.below(6) {
        0 => drop(days::damage(random, &mut bytes)),
        1 => days::disorder(random, &mut bytes),
        2 => versions::change_day(random, &mut bytes),
        3 => days::damage_line_end(random, &mut bytes),
        4 => days::misnumber(random, &mut bytes),
        _ => {}
    }
    bytes
}

/// Every second of the 600 days.
fn pages(first: u64) {
    for i in (first..600).step_by(2) {
        let bytes = day(i);
        assert_page(
            &output_of(|stdin| stdin.write_all(&bytes)),
            &page_of(&bytes),
        );
    }
}

#[test]
fn pages_of_days() {
    pages(0);
}

#[test]
fn pages_of_other_days() {
    pages(1);
}

/// A file of payments: segment and number of the issuer, centavos received, tariff.
fn file_of(payments: &[[u64; 4]]) -> Vec<u8> {
    let random = &mut Random::new(2);
    let mut writer = Writer::new();
    let mut bytes = vec![0; LENGTH * (payments.len() + 2)];
    let mut records = bytes.chunks_exact_mut(LENGTH);
    let mut next = || records.next().expect("a buffer for each record");
    writer
        .header(&days::header_fields(random), next())
        .expect("a good header");
    for &[segment, number, received, tariff] in payments {
        let code = days::barcode_of(random, Issuer { segment, number }).expect("a good barcode");
        let fields = days::payment_fields(random, &code, writer.version);
        writer
            .payment(&fields, received, tariff, &[], next())
            .expect("a good payment");
    }
    writer.trailer(next()).expect("a good trailer");
    bytes
}

/// The whole page, spelled out: the tariffs are behind the centavos.
#[test]
fn a_page_with_tariffs() {
    let bytes = file_of(&[
        [2, 42, 100, 9_999_999],
        [6, 7, 0, 0],
        [2, 42, 999_999_999_999, 1],
        [1, 3_659, 25, 150],
    ]);
    let output = output_of(|stdin| stdin.write_all(&bytes));
    let page = "\
        answer=0\nplace=0\nrecord=6\nfiles=1\nlanes=3\n\
        payments=4\ncentavos=1000000000124\ntariff=10000150\n\
        lane=1\nissuer=2-0042\npayments=2\ncentavos=1000000000099\ntariff=10000000\n\
        lane=2\nissuer=6-00000007\npayments=1\ncentavos=0\ntariff=0\n\
        lane=3\nissuer=1-3659\npayments=1\ncentavos=25\ntariff=150\n";
    assert_page(&output, page.as_bytes());
    assert_page(&output, &page_of(&bytes));
}

#[test]
fn a_pipe_that_stalls_and_delivers_single_bytes() {
    let bytes = day(3);
    let output = output_of(|stdin| {
        for (i, byte) in bytes.iter().enumerate() {
            stdin.write_all(&[*byte])?;
            if i % 150 == 77 {
                thread::sleep(Duration::from_millis(20));
            }
        }
        Ok(())
    });
    assert_page(&output, &page_of(&bytes));
}

#[test]
fn standard_input_closed() {
    assert_error(&redirected("<&-").output().expect("quadro ends"));
}

#[test]
fn standard_input_a_directory() {
    let folder = File::open(root()).expect("a directory");
    assert_error(&quadro(folder).output().expect("quadro ends"));
}

/// quadro reads the memory of this process: past the end of a mapping the read fails.
#[test]
fn a_read_error_after_some_bytes() {
    let mut maps = String::new();
    File::open("/proc/self/maps")
        .and_then(|mut maps_| maps_.read_to_string(&mut maps))
        .expect("its memory");
    let bound = |line: &str| {
        let (from, rest) = line.split_once('-')?;
        let (to, rest) = rest.split_once(' ')?;
        let number = |text| u64::from_str_radix(text, 16).ok();
        Some((number(from)?, number(to)?, rest.starts_with('r')))
    };
    let all: Vec<_> = maps.lines().filter_map(bound).collect();
    let last = all
        .windows(2)
        .find(|two| two[0].2 && two[0].1 < two[1].0)
        .expect("memory with a gap after it");
    let mut memory = File::open("/proc/self/mem").expect("its memory");
    memory
        .seek(SeekFrom::Start(last[0].1 - 300))
        .expect("an end");
    assert_error(&quadro(memory).output().expect("quadro ends"));
}

/// A connection that fails after records were taken: it is reset because it was closed with unread bytes.
#[test]
fn a_read_error_after_records() -> io::Result<()> {
    let bytes = days::day(&mut Random::new(1), 40, 12, 400)
        .expect("a good day")
        .bytes;
    assert!(bytes.len() > 3 * 65_536);
    let (mut sender, mut receiver) = UnixStream::pair()?;
    receiver.write_all(b"unread")?;
    let child = quadro(OwnedFd::from(receiver)).spawn()?;
    sender.write_all(&bytes[..2 * 65_536])?;
    drop(sender);
    assert_error(&child.wait_with_output()?);
    Ok(())
}

/// The same connection, closed in the normal way.
#[test]
fn a_connection_in_place_of_a_file() -> io::Result<()> {
    let bytes = day(4);
    let (mut sender, receiver) = UnixStream::pair()?;
    let child = quadro(OwnedFd::from(receiver)).spawn()?;
    sender.write_all(&bytes)?;
    drop(sender);
    assert_page(&child.wait_with_output()?, &page_of(&bytes));
    Ok(())
}

#[test]
fn standard_output_full() {
    let full = File::options()
        .write(true)
        .open("/dev/full")
        .expect("the full device");
    assert_error(
        &quadro(Stdio::null())
            .stdout(full)
            .output()
            .expect("quadro ends"),
    );
}

#[test]
fn standard_output_closed() {
    assert_error(
        &redirected(">&-")
            .stdin(Stdio::null())
            .output()
            .expect("quadro ends"),
    );
}

/// Nobody reads the page: quadro ends as every program does that writes to such a pipe.
#[test]
fn standard_output_without_a_reader() {
    let mut child = quadro(Stdio::piped()).spawn().expect("quadro starts");
    drop(child.stdout.take());
    drop(child.stdin.take());
    let output = child.wait_with_output().expect("quadro ends");
    let decoded = output.stderr.starts_with(b"quadro: standard output");
    assert!(
        decoded || output.status.signal() == Some(SIGPIPE),
        "{output:?}"
    );
}
