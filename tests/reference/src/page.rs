//! The page: docs/SPEC.md, "Page" and "The program quadro".

use std::io::{self, Read, Write};
use std::mem;

use crate::refusal::{answer, Refusal};
use crate::session::{Board, Lane, Session, Tally};

/// How many bytes are read at a time, at most. Any number would do.
const PIECE: usize = 1 << 19;

/// The page: key=value lines, each ended by a newline. The number and the place of the answer may be any numbers.
pub fn page(number: u64, place: u64, records: u64, files: u64, board: &Board) -> Vec<u8> {
    let lanes = board.in_use();
    let mut text = Vec::new();
    line(&mut text, "answer", number);
    line(&mut text, "place", place);
    line(&mut text, "record", records);
    line(&mut text, "files", files);
    line(&mut text, "lanes", lanes.len() as u64);
    tally_lines(&mut text, board.totals());
    for (i, lane) in lanes.iter().enumerate() {
        line(&mut text, "lane", i as u64 + 1);
        issuer_line(&mut text, lane);
        tally_lines(&mut text, lane.tally());
    }
    text
}

fn line(text: &mut Vec<u8>, key: &str, number: u64) {
    // Writing into a vector cannot fail.
    let _ = writeln!(text, "{key}={number}");
}

/// The segment, a hyphen, and the issuer's number with its leading zeros.
fn issuer_line(text: &mut Vec<u8>, lane: &Lane) {
    let width = lane.issuer.width();
    let _ = writeln!(
        text,
        "issuer={}-{:0width$}",
        lane.issuer.segment, lane.issuer.number
    );
}

/// The three numbers of a lane or of the totals.
fn tally_lines(text: &mut Vec<u8>, tally: Tally) {
    line(text, "payments", tally.payments);
    line(text, "centavos", tally.centavos);
    line(text, "tariff", tally.tariff);
}

/// A session that takes an input piece by piece, with the counts that the page has. Pieces may be of any length: the
/// rest that was read but not taken yet, at most 151 bytes, is kept for the next one. After a refusal it is empty.
#[derive(Clone, Debug, PartialEq, Eq)]
pub struct Reading {
    pub session: Session,
    pub records: u64,
    pub files: u64,
    pub outcome: Result<(), Refusal>,
    pub rest: Vec<u8>,
}

impl Default for Reading {
    fn default() -> Self {
        Reading::new()
    }
}

impl Reading {
    /// A fresh session that has read nothing.
    pub const fn new() -> Reading {
        Reading {
            session: Session::new(),
            records: 0,
            files: 0,
            outcome: Ok(()),
            rest: Vec::new(),
        }
    }

    /// Takes the records of the rest and a piece behind it, up to the first refusal; nothing after a refusal. More may
    /// follow, so the last bytes become the rest.
    pub fn take(&mut self, piece: &[u8]) {
        if self.outcome.is_ok() {
            let mut bytes = mem::take(&mut self.rest);
            bytes.extend_from_slice(piece);
            let taken = self.run(&bytes, true);
            if self.outcome.is_ok() {
                bytes.drain(..taken);
                self.rest = bytes;
            }
        }
    }

    /// Takes the rest: the input has ended.
    pub fn end(&mut self) {
        if self.outcome.is_ok() {
            let rest = mem::take(&mut self.rest);
            self.run(&rest, false);
        }
    }

    /// The page of an input that ends here, with the first refusal or else the answer of `finish`. It changes nothing.
    pub fn page(&self) -> Vec<u8> {
        let mut ended = self.clone();
        ended.end();
        let (number, place) = answer(&ended.outcome.and_then(|()| ended.session.finish()));
        let board = ended.session.board();
        page(number, place as u64, ended.records, ended.files, board)
    }

    /// Takes records and counts them; returns how many bytes they had.
    fn run(&mut self, bytes: &[u8], more: bool) -> usize {
        // The page shows no due date, so no issuer need be agreed.
        let result = self.session.run(bytes, more, &[]);
        self.records = self.records.saturating_add(result.records);
        self.files = self.files.saturating_add(result.files);
        self.outcome = result.answer;
        result.bytes
    }
}

/// The page of a whole input.
pub fn page_of(input: &[u8]) -> Vec<u8> {
    let mut reading = Reading::new();
    reading.run(input, false);
    reading.page()
}

/// The page of an input, which is read in pieces, as they come, to its end or to the first refusal. There is no page if
/// a read fails.
pub fn read_page(mut input: impl Read) -> io::Result<Vec<u8>> {
    let mut reading = Reading::new();
    let mut piece = vec![0; PIECE];
    while reading.outcome.is_ok() {
        match input.read(&mut piece) {
            Ok(0) => break,
            Ok(count) => reading.take(&piece[..count]),
            Err(error) if error.kind() == io::ErrorKind::Interrupted => {}
            Err(error) => return Err(error),
        }
    }
    Ok(reading.page())
}
