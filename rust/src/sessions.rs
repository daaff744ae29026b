//! Sessions, the board and the page: docs/SPEC.md, "Sessions", "Board" and "Page".

use crate::raw;
use crate::{Agreed, Issuer, Pair, Refusal};

/// How many lanes a board has.
pub const LANES: usize = 64;

/// The length of the page's buffer; no page is longer.
const PAGE: usize = 10657;

/// The sums of a lane, or of a board.
#[repr(C)]
#[derive(Clone, Copy, Debug, PartialEq, Eq, Hash)]
pub struct Tally {
    /// How many payments.
    pub payments: u64,
    /// The centavos they received.
    pub centavos: u64,
    /// The banks' tariffs for them, in centavos: places 94 to 100 of their records.
    pub tariff: u64,
}

/// An issuer and its sums.
#[repr(C)]
#[derive(Clone, Copy, Debug, PartialEq, Eq, Hash)]
pub struct Lane {
    pub issuer: Issuer,
    pub tally: Tally,
}

/// A board: its lanes in the order in which issuers first appeared, and the sums over them.
#[repr(C)]
#[derive(Clone, Copy, Debug, PartialEq, Eq, Hash)]
pub struct Board {
    lanes: [Lane; LANES],
    used: usize,
    total: Tally,
}

impl Board {
    /// The lanes in use.
    pub fn lanes(&self) -> &[Lane] {
        &self.lanes[..self.used]
    }

    /// The sums over the lanes.
    pub fn total(&self) -> Tally {
        self.total
    }

    /// An issuer's lane.
    pub fn lane(&self, issuer: Issuer) -> Option<&Lane> {
        self.lanes().iter().find(|lane| lane.issuer == issuer)
    }
}

/// The limits of every session, by [`Session::limits`]. A number exactly at a limit is accepted.
#[repr(C)]
#[derive(Clone, Copy, Debug, PartialEq, Eq, Hash)]
#[non_exhaustive]
pub struct Limits {
    /// The lanes of a board.
    pub lanes: usize,
    /// The bytes of a record.
    pub record_length: usize,
    /// The most payments of a file.
    pub payments: u64,
    /// The most centavos of a file.
    pub file_total: u64,
    /// The most that the payments, the centavos or the tariffs of a board may reach. Past it a payment is refused 18,
    /// at 82 or, if only tariffs would pass it, at 94.
    pub board_total: u64,
    /// The most pairs of a bank and an agreement that a session remembers.
    pub pairs: usize,
}

/// Takes the records of return files of either version, which each file's header names. The payments of a file appear
/// on the board together, when its trailer is accepted.
///
/// A file is bare, with nothing between its records, or lined, with CR and LF behind each of them, the last included:
/// its header decides, and the files of one input may differ.
///
/// A file that is loaded twice is taken once. A session remembers the number of the last accepted file of each pair of
/// bank and agreement, and refuses 26 a header of that pair whose number is not the next: one more, or 1 behind 999999.
/// The first file of a pair may have any number. At most [`PAIRS`](crate::PAIRS) pairs are remembered, and the header
/// of another one is refused 27. [`remembered`](Self::remembered) shows them, and
/// [`with_remembered`](Self::with_remembered) begins the next day with them.
#[derive(Clone, Debug, PartialEq, Eq)]
pub struct Session(Box<raw::Session>);

/// The result of taking many records, up to the first refusal.
#[derive(Clone, Copy, Debug, PartialEq, Eq)]
#[must_use = "it has the refusal, and what was left of the bytes"]
pub struct RunResult {
    /// The first refusal, if there is one.
    pub answer: Result<(), Refusal>,
    /// Records accepted.
    pub records: u64,
    /// Files accepted.
    pub files: u64,
    /// The bytes of the records accepted, CR and LF included: what follows them was not taken.
    pub bytes: usize,
}

impl Default for Session {
    fn default() -> Self {
        Session::new()
    }
}

impl Session {
    /// The limits that the library checks; they are the same for every session.
    pub fn limits() -> Limits {
        // SAFETY: the call has no arguments.
        unsafe { raw::hollytrot_session_limits() }
    }

    /// A session with no file open, an empty board and no number remembered. One that knows which files were accepted
    /// the day before is made by [`with_remembered`](Self::with_remembered).
    pub fn new() -> Session {
        // SAFETY: the call has no arguments.
        Session(Box::new(unsafe { raw::hollytrot_session_new() }))
    }

    /// Takes one record; a refusal does not change the session. A header of 150 bytes opens a bare file; with CR and
    /// LF, 152 bytes, it opens a lined one, and every record of it is passed with CR and LF. One that is right but for
    /// them is refused 22; in a bare file a record with them is refused 1.
    pub fn take(&mut self, record: &[u8], agreed: &Agreed) -> Result<(), Refusal> {
        let (start, length) = (record.as_ptr(), record.len());
        let (keys, count) = agreed.as_raw();
        // SAFETY: pointers and lengths are those of slices, and the session came from the engine.
        let result = unsafe { raw::hollytrot_session_take(*self.0, start, length, keys, count) };
        *self.0 = result.session;
        result.answer.to_result()
    }

    /// Takes consecutive records up to the first that is refused; those before it remain accepted. The input ends with
    /// these bytes: a rest that is no record is refused, and a header at their very end, without CR and LF, opens a
    /// bare file. If more of the input may follow, use [`run_part`](Self::run_part).
    ///
    /// ```
    /// use hollytrot::{Agreed, Session, Writer};
    ///
    /// let header = b"AGREEMENT           COMPANY             237BANK                2023123100432104O";
    /// let mut writer = Writer::lined();
    /// let mut input = writer.header(header)?;
    /// input.extend(writer.trailer()?);
    ///
    /// let mut session = Session::new();
    /// let result = session.run(&input, &Agreed::none());
    /// assert_eq!((result.answer, result.records, result.bytes), (Ok(()), 2, 2 * 152));
    /// session.finish()?;
    /// # Ok::<(), hollytrot::Refusal>(())
    /// ```
    pub fn run(&mut self, bytes: &[u8], agreed: &Agreed) -> RunResult {
        self.run_bytes(bytes, false, agreed)
    }

    /// As [`run`](Self::run), for a part of an input, split anywhere, when more of it may follow. Fewer than 152 bytes
    /// at the end are not taken: they may be a part of a record, or a header whose CR and LF are still to come. This
    /// rest, all behind [`RunResult::bytes`], goes in front of the next part; at the end of the input `run` takes it.
    ///
    /// ```
    /// # fn take_all(mut input: impl std::io::Read) -> Result<hollytrot::Session, Box<dyn std::error::Error>> {
    /// use std::io::Read;
    ///
    /// let agreed = hollytrot::Agreed::none();
    /// let mut session = hollytrot::Session::new();
    /// let mut bytes = Vec::new();
    /// while input.by_ref().take(65536).read_to_end(&mut bytes)? > 0 {
    ///     let result = session.run_part(&bytes, &agreed);
    ///     result.answer?;
    ///     bytes.drain(..result.bytes);
    /// }
    /// session.run(&bytes, &agreed).answer?;
    /// session.finish()?;
    /// # Ok(session)
    /// # }
    /// ```
    pub fn run_part(&mut self, bytes: &[u8], agreed: &Agreed) -> RunResult {
        self.run_bytes(bytes, true, agreed)
    }

    fn run_bytes(&mut self, bytes: &[u8], more: bool, agreed: &Agreed) -> RunResult {
        let (start, length) = (bytes.as_ptr(), bytes.len());
        let (keys, count) = agreed.as_raw();
        // SAFETY: pointers and lengths are those of slices, and the session came from the engine.
        let result =
            unsafe { raw::hollytrot_session_run(*self.0, start, length, more, keys, count) };
        *self.0 = result.session;
        RunResult {
            answer: result.answer.to_result(),
            records: result.records,
            files: result.files,
            bytes: result.bytes,
        }
    }

    /// Whether a lined file is open. [`take`](Self::take) then expects CR and LF behind each record.
    pub fn is_lined(&self) -> bool {
        self.0.file.lined
    }

    /// Drops the open file, whose number is not remembered and may come again; does nothing if none is open.
    pub fn abandon(&mut self) {
        // SAFETY: the session came from the engine.
        *self.0 = unsafe { raw::hollytrot_session_abandon(*self.0) };
    }

    /// The end of the input: refused if a file is open. It knows nothing of bytes that [`run_part`](Self::run_part)
    /// left: run those first.
    pub fn finish(&self) -> Result<(), Refusal> {
        // SAFETY: the session came from the engine.
        unsafe { raw::hollytrot_session_finish(*self.0) }
            .answer
            .to_result()
    }

    /// The board shown, which has accepted files only.
    pub fn board(&self) -> &Board {
        &self.0.shown
    }

    /// The pairs of bank and agreement of accepted files, each with its last number, in the order in which each was
    /// first accepted. An open file is not among them: its number is remembered when its trailer is accepted.
    pub fn remembered(&self) -> &[Pair] {
        let memory = &self.0.memory;
        &memory.pairs[..memory.used]
    }
}

/// The page: an answer, the records and files accepted, then the board.
pub fn page(answer: Result<(), Refusal>, records: u64, files: u64, board: &Board) -> Vec<u8> {
    let mut out = vec![0; PAGE];
    let answer = raw::Answer::from_result(answer);
    // SAFETY: pointer and length are those of `out`, which nothing else refers to.
    let result =
        unsafe { raw::hollytrot_page(answer, records, files, *board, out.as_mut_ptr(), PAGE) };
    out.truncate(result.length);
    out
}
