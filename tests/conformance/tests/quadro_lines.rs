//! quadro on lined and bare files around the end of its buffer: what is left there is put in front of what is read
//! next, so a record and its line end may come in two buffers. The pages are those of the reference program.
//!
//! All records, with and without line ends, have an even number of bytes, and so has the buffer: in accepted files a
//! full buffer ends behind an even number of bytes of a record. If quadro did not fill its buffer, it could end behind
//! an odd number; so pipes deliver odd numbers of bytes, and inputs end at odd places.

mod common;

use std::thread;
use std::time::Duration;

use common::{assert_page, output_of};
use conformance::{lines, memories};
use reference::days::{self, Form};
use reference::page::page_of;
use reference::random::Random;
use reference::session::following;
use reference::{Issuer, Writer};

/// The length of quadro's buffer.
const BUFFER: usize = 65_536;

/// A file of so many records, A and Z included.
fn file(random: &mut Random, records: usize, lined: bool) -> Vec<u8> {
    let size = if lined { 152 } else { 150 };
    let mut bytes = vec![0; records * size];
    let mut buffers = bytes.chunks_exact_mut(size);
    let mut next = || buffers.next().expect("a buffer for each record");
    let mut writer = Writer::new();
    writer
        .header(&days::header_fields(random), next())
        .expect("a good header");
    for _ in 2..records {
        let issuer = Issuer {
            segment: 1 + random.below(7),
            number: 42,
        };
        let code = days::barcode_of(random, issuer).expect("a good barcode");
        let fields = days::payment_fields(random, &code, writer.version);
        writer
            .payment(&fields, random.number(10), random.number(7), &[], next())
            .expect("a good payment");
    }
    writer.trailer(next()).expect("a good trailer");
    bytes
}

/// A bare file and a lined one, in either order, which together have so many bytes: an even number of some thousands.
fn two_files(random: &mut Random, length: usize) -> Vec<u8> {
    // 150 bare + 152 lined = length, so half of it leaves the remainder `lined` when it is divided by 75.
    let half = length / 2;
    let lined = half % 75 + 75;
    let bare = (half - 76 * lined) / 75;
    let mut files = [file(random, bare, false), file(random, lined, true)];
    if random.once_in(2) {
        files.reverse();
    }
    let bytes = files.concat();
    assert_eq!(bytes.len(), length);
    bytes
}

/// Gives the files of a day one pair and numbers that follow: a session refuses the 17th pair.
fn number(random: &mut Random, bytes: &mut [u8]) {
    let mut pair = days::pairs(random, 1)[0];
    for record in lines::records(bytes) {
        let header = bytes[record].first_chunk_mut();
        if let Some(header) = header.filter(|header| header[0] == b'A') {
            memories::put(header, &pair);
            pair.sequence = following(pair.sequence).expect("a number of six digits");
        }
    }
}

#[track_caller]
fn assert_same_page(bytes: &[u8]) {
    let output = output_of(|stdin| stdin.write_all(bytes));
    assert_page(&output, &page_of(bytes));
}

/// The same, of a day that is accepted.
#[track_caller]
fn assert_accepted(bytes: &[u8]) {
    assert!(page_of(bytes).starts_with(b"answer=0\n"));
    assert_same_page(bytes);
}

/// The first buffer ends behind each even number of bytes of a header and its line end, and of the record that follows.
/// More files follow, which are longer than a second buffer.
fn headers_at_the_end(lined: bool) {
    for inside in (0..=308).step_by(2) {
        let random = &mut Random::new(inside as u64);
        let mut bytes = two_files(random, BUFFER - inside);
        bytes.extend(file(random, 5, lined));
        bytes.extend(two_files(random, BUFFER + 152));
        assert_accepted(&bytes);
    }
}

#[test]
fn lined_headers_at_the_end_of_a_buffer() {
    headers_at_the_end(true);
}

#[test]
fn bare_headers_at_the_end_of_a_buffer() {
    headers_at_the_end(false);
}

/// A day of many buffers, each of which ends inside a header: behind each even number of its bytes, 2 to 150. Such a
/// header is left whole for the next buffer, which so ends a buffer's length behind the start of the header.
#[test]
fn a_header_at_the_end_of_every_buffer() {
    let random = &mut Random::new(5);
    let mut bytes = Vec::new();
    for inside in (2..=150).step_by(2) {
        bytes.extend(two_files(random, BUFFER - inside));
    }
    bytes.extend(file(random, 3, true));
    number(random, &mut bytes);
    assert_accepted(&bytes);
}

/// The same, with a damaged line end in the file at the end of the buffer.
#[test]
fn damaged_line_ends_at_the_end_of_a_buffer() {
    for inside in (0..=308).step_by(2) {
        let random = &mut Random::new(1000 + inside as u64);
        let mut bytes = two_files(random, BUFFER - inside);
        let lined = !random.once_in(4);
        let records = 2 + random.index(3);
        let mut damaged = file(random, records, lined);
        days::damage_line_end(random, &mut damaged);
        bytes.extend(damaged);
        bytes.extend(file(random, 3, !lined));
        assert_same_page(&bytes);
    }
}

/// The input ends at each place around the end of the buffer.
fn inputs_that_end(lined: bool) {
    let random = &mut Random::new(7);
    let bytes = file(random, 440, lined);
    for length in BUFFER - 156..=BUFFER + 156 {
        assert_same_page(&bytes[..length]);
    }
}

#[test]
fn lined_inputs_that_end_around_the_end_of_a_buffer() {
    inputs_that_end(true);
}

#[test]
fn bare_inputs_that_end_around_the_end_of_a_buffer() {
    inputs_that_end(false);
}

/// A whole day ends at each even place around the end of the buffer.
#[test]
fn days_that_end_around_the_end_of_a_buffer() {
    for length in (BUFFER - 156..=BUFFER + 156).step_by(2) {
        assert_accepted(&two_files(&mut Random::new(length as u64), length));
    }
}

/// The inputs that docs/DECISIONS.md, "Line ends", and docs/REFUSALS.md, "A file with other line ends", name: number,
/// place and accepted records, as the pages say them.
#[test]
fn inputs_that_the_pages_name() {
    let lined = file(&mut Random::new(11), 3, true);
    let records: Vec<&[u8]> = lined.chunks(152).map(|record| &record[..150]).collect();
    let [a, g, z] = records[..] else {
        panic!("three records")
    };
    let bare = records.concat();
    for (input, number, place, records) in [
        ([a, b"\r"].concat(), 1, 0, 1),
        ([a, b"\rG", g, z].concat(), 9, 1, 1),
        ([a, b"\n", g, b"\n", z, b"\n"].concat(), 9, 1, 1),
        ([a, b"\r\n", g, z].concat(), 22, 151, 1),
        ([a, b"\r\n", g, b" \r\n", z, b"\r\n"].concat(), 22, 151, 1),
        ([a, g, b"\r\n", z, b"\r\n"].concat(), 9, 1, 2),
        (lined[..454].to_vec(), 22, 151, 2),
        ([&lined[..454], &lined].concat(), 22, 151, 2),
        ([&lined[..], b"\r\n", &lined].concat(), 9, 1, 3),
        ([&bare[..], b"\n", &bare].concat(), 9, 1, 3),
        ([&bare[..], b"\n"].concat(), 1, 0, 3),
        ([&bare[..], b"\r\n"].concat(), 1, 0, 3),
        ([&bare[..], b"\x1a"].concat(), 1, 0, 3),
        ([&bare[..], &[0; 149]].concat(), 1, 0, 3),
        ([&bare[..], &[0; 150]].concat(), 9, 1, 3),
        ([&lined[..], b"\n"].concat(), 1, 0, 3),
        ([&lined[..], b"\r\n"].concat(), 1, 0, 3),
        ([&lined[..], b"\x1a"].concat(), 1, 0, 3),
        ([&b"\r\n"[..], &lined].concat(), 9, 1, 0),
        ([&b"\xef\xbb\xbf"[..], &bare].concat(), 9, 1, 0),
    ] {
        let output = output_of(|stdin| stdin.write_all(&input));
        let start = format!("answer={number}\nplace={place}\nrecord={records}\n");
        assert!(
            output.stdout.starts_with(start.as_bytes()),
            "{start}{}",
            output.stdout.escape_ascii()
        );
        assert_page(&output, &page_of(&input));
    }
}

/// Pipes that deliver other numbers of bytes than quadro asks for.
#[test]
fn pipes_of_other_sizes() {
    for (i, size) in [3, 149, 151, 153, 1021, 4095, 30_001, 65_535, 65_537]
        .into_iter()
        .enumerate()
    {
        let random = &mut Random::new(i as u64);
        let bytes = days::day_of(random, 9, 8, 200, Form::Both)
            .expect("a good day")
            .bytes;
        let output = output_of(|stdin| {
            for piece in bytes.chunks(size) {
                stdin.write_all(piece)?;
            }
            Ok(())
        });
        assert_page(&output, &page_of(&bytes));
    }
}

/// A pipe that stalls inside each line end of a small day, and on both sides of it.
#[test]
fn a_pipe_that_stalls_inside_line_ends() {
    let bytes = file(&mut Random::new(3), 6, true);
    let output = output_of(|stdin| {
        for (i, byte) in bytes.iter().enumerate() {
            stdin.write_all(&[*byte])?;
            if i % 152 >= 149 {
                thread::sleep(Duration::from_millis(20));
            }
        }
        Ok(())
    });
    assert_page(&output, &page_of(&bytes));
}
