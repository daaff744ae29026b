//! Each call goes to the engine as a request, and to the reference program, whose outcome is the expected reply.

pub mod cases;
mod counts;
mod states;

use reference::{agreed, barcode, line, records, Date, Issuer, Modulus, Refusal, Session, Writer};

use crate::engine::{Batch, Engine};
use crate::wire;

pub use counts::Counts;

/// A batch is sent when it has this many bytes of requests and replies.
const BATCH: usize = 1 << 18;

/// Every byte of a call's output buffer before the call.
const FILL: u8 = 0xA5;

/// The length of the page's buffer.
pub const PAGE: usize = 10657;

/// The length of the largest buffer that `serve.c` lends for a page.
pub const MOST_PAGE: usize = 11_000;

/// The rows of a record that are compared: those of the table, and two past it.
const ROWS: [usize; 30] = {
    let mut rows = [usize::MAX; 30];
    let mut i = 0;
    while i < 29 {
        rows[i] = i;
        i += 1;
    }
    rows
};

/// The letters of requests that have an answer and a list of agreed issuers, and the places where they may be refused
/// for a missing due date.
pub const LISTED: [(u8, &[u64]); 9] = [
    (b'b', &[20, 24]),
    (b'l', &[21, 26]),
    (b'c', &[20, 21, 24, 26]),
    (b'u', &[20, 24]),
    (b'r', &[57, 61]),
    (b'j', &[57, 61]),
    (b't', &[57, 61]),
    (b'R', &[57, 61]),
    (b'g', &[57, 61]),
];

/// A conversion of bytes into an output buffer.
#[derive(Clone, Copy)]
pub enum Conversion {
    LineToBarcode,
    LineFromBarcode,
}

/// The engine and the reference program, called with the same inputs.
pub struct Calls {
    engine: Engine,
    batch: Batch,
    session: Session,
    writer: Writer,
    /// The number of the writer's stage in the engine, where every number past 1 means closed.
    stage: u64,
    counts: Counts,
}

impl Default for Calls {
    fn default() -> Self {
        Calls::new()
    }
}

impl Calls {
    pub fn new() -> Calls {
        Calls {
            engine: Engine::start(),
            batch: Batch::default(),
            session: Session::new(),
            writer: Writer::new(),
            stage: 0,
            counts: Counts::default(),
        }
    }

    /// Waits for all replies: how many inputs were equal, or the first difference.
    pub fn finish(mut self) -> Result<Counts, String> {
        self.send();
        self.engine.finish()?;
        Ok(self.counts)
    }

    fn send(&mut self) {
        let batch = std::mem::take(&mut self.batch);
        self.counts.count(&batch);
        self.engine.send(batch);
    }

    /// Starts a request with its letter. The caller adds the rest of the request, and the expected reply.
    fn call(&mut self, letter: u8) -> (&mut Vec<u8>, &mut Vec<u8>) {
        if self.batch.requests.len() + self.batch.expected.len() > BATCH {
            self.send();
        }
        self.counts.inputs += 1;
        let batch = &mut self.batch;
        batch
            .starts
            .push((batch.requests.len(), batch.expected.len()));
        batch.requests.push(letter);
        (&mut batch.requests, &mut batch.expected)
    }

    pub fn barcode(&mut self, code: &[u8], agreed: &[u64]) {
        let (request, reply) = self.call(b'b');
        put(request, code);
        wire::list(request, agreed);
        let decoded = barcode::decode(code, agreed);
        wire::answer(reply, &decoded);
        wire::decoded(reply, &decoded);
        wire::part(reply, code, barcode::free_field(code, agreed));
        answer_and_buffer(reply, 48, |out| line::line_from_barcode(code, agreed, out));
    }

    pub fn line(&mut self, typed: &[u8], agreed: &[u64]) {
        let (request, reply) = self.call(b'l');
        put(request, typed);
        wire::list(request, agreed);
        let decoded = line::decode(typed, agreed);
        wire::answer(reply, &decoded);
        wire::decoded(reply, &decoded);
        answer_and_buffer(reply, 44, |out| line::barcode_from_line(typed, agreed, out));
    }

    /// A record, told to be of a file of this version: any number.
    pub fn record(&mut self, record: &[u8], version: u64, agreed: &[u64]) {
        let (request, reply) = self.call(b'r');
        put(request, record);
        wire::number(request, version);
        wire::list(request, agreed);
        let decoded = records::decode(record, version, agreed);
        wire::answer(reply, &decoded);
        wire::record(reply, &decoded);
        answer_and_buffer(reply, fields_length(record), |out| {
            records::join(record, version, agreed, out)
        });
    }

    /// The field of every row of [`ROWS`].
    pub fn fields(&mut self, record: &[u8], version: u64, agreed: &[u64]) {
        let (request, reply) = self.call(b'f');
        put(request, record);
        wire::number(request, version);
        wire::list(request, agreed);
        for row in ROWS {
            wire::part(reply, record, records::field(record, version, row, agreed));
        }
    }

    /// The field bytes of a record, into a buffer of any length.
    pub fn join(&mut self, record: &[u8], version: u64, agreed: &[u64], out_length: u8) {
        let (request, reply) = self.call(b'j');
        request.push(out_length);
        put(request, record);
        wire::number(request, version);
        wire::list(request, agreed);
        answer_and_buffer(reply, out_length.into(), |out| {
            records::join(record, version, agreed, out)
        });
    }

    pub fn convert(
        &mut self,
        conversion: Conversion,
        bytes: &[u8],
        agreed: &[u64],
        out_length: u8,
    ) {
        let (request, reply) = self.call(b'c');
        request.extend_from_slice(&[conversion as u8, out_length]);
        put(request, bytes);
        wire::list(request, agreed);
        answer_and_buffer(reply, out_length.into(), |out| match conversion {
            Conversion::LineToBarcode => line::barcode_from_line(bytes, agreed, out),
            Conversion::LineFromBarcode => line::line_from_barcode(bytes, agreed, out),
        });
    }

    pub fn build(
        &mut self,
        [segment, issuer, kind, value]: [u64; 4],
        free: &[u8],
        agreed: &[u64],
        out_length: u8,
    ) {
        let (request, reply) = self.call(b'u');
        wire::numbers(request, &[segment, issuer, kind, value]);
        request.push(out_length);
        put(request, free);
        wire::list(request, agreed);
        answer_and_buffer(reply, out_length.into(), |out| {
            barcode::build(segment, kind, value, issuer, free, agreed, out)
        });
    }

    /// The key of an issuer, or of two numbers that are none.
    pub fn issuer_key(&mut self, segment: u64, number: u64) {
        let (request, reply) = self.call(b'k');
        wire::numbers(request, &[segment, number]);
        wire::number(reply, agreed::key(Issuer { segment, number }));
    }

    pub fn date(&mut self, bytes: &[u8]) {
        let (request, reply) = self.call(b'd');
        put(request, bytes);
        wire::date(reply, Date::read(bytes).ok());
    }

    /// Whether three numbers are a date. In the reference program a year has 16 bits, a month and a day 8.
    pub fn is_date(&mut self, year: u64, month: u64, day: u64) {
        let (request, reply) = self.call(b'D');
        wire::numbers(request, &[year, month, day]);
        let date = (|| {
            Date::new(
                year.try_into().ok()?,
                month.try_into().ok()?,
                day.try_into().ok()?,
            )
        })();
        wire::number(reply, u64::from(date.is_some()));
    }

    /// The check digits of digits under both moduli.
    pub fn check_digits(&mut self, digits: &[u8]) {
        let (request, reply) = self.call(b'm');
        put(request, digits);
        for modulus in [Modulus::Ten, Modulus::Eleven] {
            wire::number(reply, modulus.check_digit(digits).expect("digits"));
        }
    }
}

/// How many field bytes the record has: those of an A, or of a G for everything else.
pub fn fields_length(record: &[u8]) -> usize {
    match record.first() {
        Some(b'A') => records::HEADER_FIELDS,
        _ => records::PAYMENT_FIELDS,
    }
}

/// Adds a length of one byte, then the bytes.
fn put(request: &mut Vec<u8>, bytes: &[u8]) {
    request.push(bytes.len().try_into().expect("at most 255 bytes"));
    request.extend_from_slice(bytes);
}

/// Adds the answer of a call that has an output buffer, then the buffer after the call.
fn answer_and_buffer(
    reply: &mut Vec<u8>,
    out_length: usize,
    call: impl FnOnce(&mut [u8]) -> Result<(), Refusal>,
) {
    let mut buffer = [FILL; 256];
    let out = &mut buffer[..out_length];
    let outcome = call(out);
    wire::answer(reply, &outcome);
    reply.extend_from_slice(out);
}
