//! Sessions: docs/SPEC.md, "Sessions", "Sequence numbers" and "Limits".

mod board;
mod memory;

pub(crate) use board::Tally;
pub use board::{Board, Lane, LANES, MOST_BOARD_TOTAL};
pub use memory::{following, Memory, Pair, LAST_NUMBER, PAIRS};

use crate::agreed;
use crate::records::{self, Payment, Trailer, LENGTH, LINED, LINE_END};
use crate::refusal::{Reason, Refusal};

/// The most payments of a file.
pub const MOST_PAYMENTS: u64 = 999_997;

/// The most centavos of a file, 17 digits.
pub const MOST_FILE_TOTAL: u64 = 99_999_999_999_999_999;

/// The sum, or 16 at 82 if it is past the file's limit. The writer uses it too.
#[inline(always)]
pub(crate) fn file_sum(before: u64, more: u64) -> Result<u64, Refusal> {
    let sum = before.saturating_add(more);
    if sum > MOST_FILE_TOTAL {
        return Err(Reason::FileTotal.at(82));
    }
    Ok(sum)
}

/// 15 at 1 if the file has as many payments as a file can have. The writer uses it too.
#[inline(always)]
pub(crate) fn check_payment_count(taken: u64) -> Result<(), Refusal> {
    if taken >= MOST_PAYMENTS {
        return Err(Reason::TooManyPayments.at(1));
    }
    Ok(())
}

/// The result of taking many records: how many records and files were accepted, the first refusal, and how many bytes
/// the accepted records had, line ends included.
#[derive(Clone, Copy, Debug, PartialEq, Eq)]
pub struct RunResult {
    pub records: u64,
    pub files: u64,
    pub answer: Result<(), Refusal>,
    pub bytes: usize,
}

/// A session. While no file is open, `taken`, `total` and `version` are 0, `lined` is false, `working` equals `shown`
/// and `opening` is zeros, except in an arbitrary state.
#[derive(Clone, Debug, PartialEq, Eq, Hash)]
pub struct Session {
    /// Whether a file is open.
    pub open: bool,
    /// The payments of the open file.
    pub taken: u64,
    /// The centavos of those payments.
    pub total: u64,
    /// The version that the open file's header names, 4 or 6.
    pub version: u64,
    /// Whether the open file is lined: CR and LF follow its header, and must follow each of its records.
    pub lined: bool,
    /// The board shown, which has accepted files only.
    pub shown: Board,
    /// The working board, which has the open file's payments too.
    pub working: Board,
    /// The bank, the agreement and the sequence number of the open file.
    pub opening: Pair,
    /// The last number of each bank and agreement, which has accepted files only.
    pub memory: Memory,
}

impl Default for Session {
    fn default() -> Self {
        Session::new()
    }
}

impl Session {
    /// A new session: no file is open, the board is empty, and no sequence number is remembered.
    pub const fn new() -> Session {
        Session {
            open: false,
            taken: 0,
            total: 0,
            version: 0,
            lined: false,
            shown: Board::new(),
            working: Board::new(),
            opening: Pair::new(),
            memory: Memory::new(),
        }
    }

    /// Takes one record, in a lined file with its line end. Order: 25; 1, 9; for G 10 at 80 if the version, in an
    /// arbitrary state, is neither 4 nor 6; the fields; then for A 26, 27, for Z 13, 14, and for G 15, 16, 17, 18 at
    /// 82, 18 at 94; last 22. A refusal changes nothing. The list is not kept: the next record may come with another
    /// one.
    pub fn take(&mut self, record: &[u8], agreed: &[u64]) -> Result<(), Refusal> {
        agreed::check(agreed)?;
        self.take_one(record, agreed)
    }

    /// Takes one record. The list is already judged.
    #[inline(always)]
    fn take_one(&mut self, record: &[u8], agreed: &[u64]) -> Result<(), Refusal> {
        let (record, end) = self.split(record)?;
        match (record[0], self.open) {
            (b'A', false) => {
                let header = records::header(record)?;
                let opening = Pair::of_header(record, header.sequence);
                self.memory.check(&opening)?;
                self.begin(header.version, end == LINE_END, opening);
                Ok(())
            }
            (b'G', true) => {
                let codes = records::codes(self.version)?;
                let payment = records::payment(record, codes, agreed)?;
                self.post(&payment, end)
            }
            (b'Z', true) => {
                let trailer = records::trailer(record)?;
                self.accept(&trailer, end)
            }
            _ => Err(Reason::Unexpected.at(1)),
        }
    }

    /// Takes consecutive records up to the first refusal. Where more bytes are to come, nothing is taken once fewer
    /// than 152 are left: a line end may be among those to come. Else the last piece may be shorter than a record, and
    /// is one of the wrong length. The list is judged once, before all else: under a wrong one nothing is taken.
    pub fn run(&mut self, bytes: &[u8], more: bool, agreed: &[u64]) -> RunResult {
        let least = if more { LINED } else { 1 };
        let mut result = RunResult {
            records: 0,
            files: 0,
            answer: agreed::check(agreed),
            bytes: 0,
        };
        if result.answer.is_err() {
            return result;
        }
        let mut rest = bytes;
        while rest.len() >= least {
            let (piece, after) = rest.split_at(self.piece_length(rest));
            result.answer = self.take_one(piece, agreed);
            if result.answer.is_err() {
                break;
            }
            result.records += 1;
            // An accepted Z is an accepted file.
            result.files += u64::from(piece[0] == b'Z');
            result.bytes += piece.len();
            rest = after;
        }
        result
    }

    /// The length of the next piece of these bytes. The form of the open file decides; while none is open, whether CR
    /// and LF follow the first 150 bytes. The last piece may be shorter.
    #[inline(always)]
    fn piece_length(&self, bytes: &[u8]) -> usize {
        let lined = if self.open {
            self.lined
        } else {
            bytes.get(LENGTH..LINED) == Some(LINE_END.as_slice())
        };
        bytes.len().min(if lined { LINED } else { LENGTH })
    }

    /// The 150 bytes of a record and what follows them; 1 for a length that is not right in this state. Where A is
    /// expected, the line end is part of the length, and `lined` is not asked.
    #[inline(always)]
    fn split<'a>(&self, record: &'a [u8]) -> Result<(&'a [u8; LENGTH], &'a [u8]), Refusal> {
        let wrong = Reason::Length.at(0);
        let (record, end) = record.split_first_chunk().ok_or(wrong)?;
        let right = match (self.open, self.lined) {
            (false, _) => end.is_empty() || end == LINE_END,
            (true, false) => end.is_empty(),
            (true, true) => end.len() <= LINE_END.len(),
        };
        if right {
            Ok((record, end))
        } else {
            Err(wrong)
        }
    }

    /// Drops the open file, whose number is not remembered; does nothing if none is open.
    pub fn abandon(&mut self) {
        if self.open {
            self.close();
        }
    }

    /// 19 if a file is open. It changes nothing.
    pub fn finish(&self) -> Result<(), Refusal> {
        if self.open {
            return Err(Reason::FileOpen.at(0));
        }
        Ok(())
    }

    /// The board shown, which has accepted files only.
    pub const fn board(&self) -> &Board {
        &self.shown
    }

    /// Opens a file of this version, form, pair and number: the working board starts as the board shown.
    fn begin(&mut self, version: u64, lined: bool, opening: Pair) {
        self.open = true;
        self.taken = 0;
        self.total = 0;
        self.version = version;
        self.lined = lined;
        self.working = self.shown;
        self.opening = opening;
    }

    /// 22 at 151 if the open file is lined and this, which follows one of its records, is not its line end.
    #[inline(always)]
    fn check_end(&self, end: &[u8]) -> Result<(), Refusal> {
        if self.lined && end != LINE_END {
            return Err(Reason::NoLineEnd.at(LENGTH + 1));
        }
        Ok(())
    }

    /// Adds a payment, and what follows it, to the open file: 15, 16, 17, 18 at 82, 18 at 94, 22.
    #[inline(always)]
    fn post(&mut self, payment: &Payment, end: &[u8]) -> Result<(), Refusal> {
        check_payment_count(self.taken)?;
        let total = file_sum(self.total, payment.received)?;
        let posting = self.working.posting(payment)?;
        self.check_end(end)?;
        self.working.post(posting);
        self.total = total;
        // No overflow: `taken` is below 999,997 here.
        self.taken += 1;
        Ok(())
    }

    /// Accepts the open file, and remembers its number, if the trailer has its count and total and, in a lined file,
    /// its line end: 13, 14, 22.
    fn accept(&mut self, trailer: &Trailer, end: &[u8]) -> Result<(), Refusal> {
        // In an arbitrary state the sum may pass 2^64; then no trailer has this count.
        if self.taken.checked_add(2) != Some(trailer.count) {
            return Err(Reason::TrailerCount.at(2));
        }
        if self.total != trailer.total {
            return Err(Reason::TrailerTotal.at(8));
        }
        self.check_end(end)?;
        self.shown = self.working;
        self.memory.remember(&self.opening);
        self.close();
        Ok(())
    }

    /// The closed state, which depends on the board shown and the memory alone.
    fn close(&mut self) {
        self.open = false;
        self.taken = 0;
        self.total = 0;
        self.version = 0;
        self.lined = false;
        self.working = self.shown;
        self.opening = Pair::new();
    }
}
