//! The fuzzer's inputs. Any bytes are an input: the first says which calls are made, then there is a list of agreed
//! issuers if they have one, and the rest are their other arguments.

mod rest;

use reference::records::LENGTH;
use reference::Session;

use crate::calls::{Calls, Conversion, MOST_PAGE, PAGE};
use crate::lines;

pub use rest::Rest;

/// How many bytes a cut of runs has.
pub const CUT: usize = 3;

/// How many bytes a pair has: its bank, its agreement and its number.
pub const PAIR: usize = 3 + 20 + 8;

/// If the first byte of runs is at least this, they are fed as a caller would.
pub const FED: u8 = 128;

/// Which calls an input makes.
#[derive(Clone, Copy, Debug, PartialEq, Eq)]
pub enum Kind {
    Line,
    Barcode,
    Date,
    DateNumbers,
    CheckDigits,
    Build,
    Record,
    Convert,
    Run,
    Take,
    ArbitrarySession,
    Page,
    Write,
}

impl Kind {
    pub const ALL: [Kind; 13] = [
        Kind::Line,
        Kind::Barcode,
        Kind::Date,
        Kind::DateNumbers,
        Kind::CheckDigits,
        Kind::Build,
        Kind::Record,
        Kind::Convert,
        Kind::Run,
        Kind::Take,
        Kind::ArbitrarySession,
        Kind::Page,
        Kind::Write,
    ];

    pub fn of(input: &[u8]) -> Kind {
        let first = input.first().copied().unwrap_or(0);
        Kind::ALL[usize::from(first) % Kind::ALL.len()]
    }

    /// Whether its calls have a list of agreed issuers.
    pub fn has_list(self) -> bool {
        !matches!(
            self,
            Kind::Date | Kind::DateNumbers | Kind::CheckDigits | Kind::Page
        )
    }
}

/// How many bytes of an input without its first byte are the list: one that says how many entries it has, then eight
/// for each. Past the end of the input the entries are 0.
pub fn list_length(kind: Kind, rest: &[u8]) -> usize {
    match rest.first() {
        Some(&count) if kind.has_list() => rest.len().min(1 + 8 * usize::from(count)),
        _ => 0,
    }
}

/// Makes the calls of an input. They do not depend on the inputs before it.
pub fn compare(calls: &mut Calls, input: &[u8]) {
    let mut rest = Rest(input.get(1..).unwrap_or_default());
    let kind = Kind::of(input);
    let agreed = if kind.has_list() {
        rest.list()
    } else {
        Vec::new()
    };
    let agreed = &agreed[..];
    match kind {
        Kind::Line => calls.line(rest.short(), agreed),
        Kind::Barcode => calls.barcode(rest.short(), agreed),
        Kind::Date => calls.date(rest.short()),
        Kind::DateNumbers => calls.is_date(rest.number(), rest.number(), rest.number()),
        Kind::CheckDigits => calls.check_digits(&digits(rest.short())),
        Kind::Build => {
            let numbers = [(); 4].map(|()| rest.number());
            let out_length = rest.byte();
            calls.build(numbers, rest.short(), agreed, out_length);
            calls.issuer_key(numbers[0], numbers[1]);
        }
        Kind::Record => {
            let version = rest.number();
            let record = rest.short();
            calls.record(record, version, agreed);
            calls.fields(record, version, agreed);
        }
        Kind::Convert => convert(calls, &mut rest, agreed),
        Kind::Run => run(calls, &mut rest, agreed),
        Kind::Take => {
            calls.new_session();
            take(calls, &mut rest, usize::MAX, agreed);
        }
        Kind::ArbitrarySession => arbitrary_session(calls, &mut rest, agreed),
        Kind::Page => page(calls, &mut rest),
        Kind::Write => write(calls, &mut rest, agreed),
    }
}

/// The bytes with a digit in place of every other byte: check digits are of digits only.
fn digits(bytes: &[u8]) -> Vec<u8> {
    let digit = |&byte: &u8| match byte {
        b'0'..=b'9' => byte,
        other => b'0' + other % 10,
    };
    bytes.iter().map(digit).collect()
}

/// A conversion, or the field bytes of a record, which is told a version. The second byte is the buffer's length.
fn convert(calls: &mut Calls, rest: &mut Rest, agreed: &[u64]) {
    let (which, out_length) = (rest.byte(), rest.byte());
    match which % 3 {
        0 => calls.convert(Conversion::LineToBarcode, rest.short(), agreed, out_length),
        1 => calls.convert(
            Conversion::LineFromBarcode,
            rest.short(),
            agreed,
            out_length,
        ),
        _ => {
            let version = rest.number();
            calls.join(rest.short(), version, agreed, out_length);
        }
    }
}

/// Where the bytes of runs start, by the first byte: behind it and its cuts.
pub fn runs_start(first: u8) -> usize {
    1 + CUT * usize::from(first % 8)
}

/// Runs of a new session. The first byte says how many cuts there are, and whether the bytes are fed as a caller would,
/// which must come to the same end as one run. Each cut has a byte that says whether more bytes are to come, whether
/// those that the run left are dropped and whether its list is empty instead, and a length in two bytes.
fn run(calls: &mut Calls, rest: &mut Rest, agreed: &[u64]) {
    calls.new_session();
    let first = rest.byte();
    let mut cuts = Vec::new();
    for cut in rest.bytes(runs_start(first) - 1).chunks_exact(CUT) {
        cuts.push((cut[0], usize::from(u16::from_le_bytes([cut[1], cut[2]]))));
    }
    let bytes = rest.0;
    let (mut start, mut end) = (0, 0);
    let mut ends = Vec::new();
    for (how, length) in cuts {
        end = bytes.len().min(end + length);
        ends.push(end);
        if first < FED {
            let list = if how & 4 == 0 { agreed } else { &[] };
            let result = calls.run(&bytes[start..end], how % 2 == 1, list);
            start = if how & 2 == 0 {
                start + result.bytes
            } else {
                end
            };
        }
    }
    if first < FED {
        calls.run(&bytes[start..], false, agreed);
    } else {
        lines::feed(calls, bytes, &ends, agreed);
    }
    calls.finish_session();
}

/// The length of the record behind this byte of a step.
pub fn step_length(how: u8) -> usize {
    match how / 8 {
        0 => LENGTH,
        other => 134 + usize::from(other),
    }
}

/// The byte of a step whose record has this length, 135 to 165, and which makes no other call.
pub fn step(length: usize) -> u8 {
    match length {
        LENGTH => 0,
        other => 8 * (other - 134) as u8,
    }
}

/// Takes at most `most` records one by one. The byte before each says its length, if it is not 150, and which call is
/// made first, or that it is a run or has an empty list instead.
fn take(calls: &mut Calls, rest: &mut Rest, most: usize, agreed: &[u64]) {
    for _ in 0..most {
        if rest.0.is_empty() {
            break;
        }
        let how = rest.byte();
        match how % 8 {
            1 => calls.abandon(),
            2 => calls.finish_session(),
            3 => calls.board(),
            _ => {}
        }
        let record = rest.bytes(step_length(how));
        match how % 8 {
            4 | 5 => drop(calls.run(record, how % 8 == 5, agreed)),
            6 => drop(calls.take(record, &[])),
            _ => drop(calls.take(record, agreed)),
        }
    }
    calls.finish_session();
}

/// A session in an arbitrary state: whether its file is open and whether it is lined, its numbers, then up to four
/// records, then its boards, the pair of its file and its memory.
fn arbitrary_session(calls: &mut Calls, rest: &mut Rest, agreed: &[u64]) {
    let mut session = Session::new();
    let flags = rest.byte();
    session.open = flags & 1 != 0;
    session.lined = flags & 2 != 0;
    session.taken = rest.number();
    session.total = rest.number();
    session.version = rest.number();
    let records = usize::from(rest.byte() % 5);
    let mut steps = Rest(rest.0);
    for _ in 0..records {
        let how = rest.byte();
        rest.bytes(step_length(how));
    }
    steps.0 = &steps.0[..steps.0.len() - rest.0.len()];
    session.shown = rest.board();
    session.working = rest.board();
    session.opening = rest.pair();
    session.memory = rest.memory();
    calls.set_session(&session);
    take(calls, &mut steps, records, agreed);
}

/// The page of a board in an arbitrary state.
fn page(calls: &mut Calls, rest: &mut Rest) {
    let [number, place, records, files] = [(); 4].map(|()| rest.number());
    let out_length = match rest.number() as usize {
        0 => PAGE,
        other => other % (MOST_PAGE + 1),
    };
    let mut session = Session::new();
    session.shown = rest.board();
    calls.set_session(&session);
    calls.page(number, place, records, files, out_length);
}

/// The calls of a new writer, or of one in an arbitrary state, lined or bare. A payment may have an empty list instead.
fn write(calls: &mut Calls, rest: &mut Rest, agreed: &[u64]) {
    let flags = rest.byte();
    if flags & 1 != 0 {
        calls.set_writer([(); 4].map(|()| rest.number()), flags & 2 != 0);
    } else {
        calls.new_writer();
    }
    while !rest.0.is_empty() {
        let (which, out_length) = (rest.byte(), rest.byte());
        match which % 3 {
            0 => calls.header(rest.counted(), out_length),
            1 => {
                let (received, tariff) = (rest.number(), rest.number());
                let list = if which / 3 % 2 == 0 { agreed } else { &[] };
                calls.payment(rest.counted(), received, tariff, list, out_length);
            }
            _ => calls.trailer(out_length),
        }
    }
}
