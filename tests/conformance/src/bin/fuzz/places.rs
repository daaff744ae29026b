//! Where an input without its first byte and its list has records, dates of eight digits, numbers of eight bytes,
//! pairs, and lengths of buffers; and which issuers its barcodes have.

use std::ops::Range;

use conformance::inputs::{self, Kind, PAIR};
use conformance::{lines, wire};
use reference::records::{Content, G_BARCODE, PAYMENT_FIELDS, TABLE};
use reference::session::{LANES, PAIRS};
use reference::{barcode, Issuer};

/// Where the field bytes of a payment have its barcode.
pub const GIVEN_BARCODE: usize = 36;

/// How many bytes a board has before its lanes: four numbers, and how many lanes follow.
const BOARD: usize = 4 * 8 + 1;

/// How many bytes a lane has: five numbers.
const LANE: usize = 5 * 8;

/// Whether records have a byte before them that says how long they are.
pub fn has_steps(kind: Kind) -> bool {
    matches!(kind, Kind::Take | Kind::ArbitrarySession)
}

/// The ranges of records, with what follows them: in runs their line ends, in steps what their lengths say. The last
/// may be shorter.
pub fn records(kind: Kind, rest: &[u8]) -> Vec<Range<usize>> {
    let all = rest.len();
    match kind {
        Kind::Record if all > 8 => vec![8..all],
        Kind::Convert if all > 10 => vec![10..all],
        Kind::Run => {
            let start = runs_start(rest);
            let moved = |record: Range<usize>| start + record.start..start + record.end;
            lines::records(&rest[start..])
                .into_iter()
                .map(moved)
                .collect()
        }
        Kind::Take => steps(rest, 0, usize::MAX),
        Kind::ArbitrarySession => steps(rest, 26, arbitrary_steps(rest)),
        _ => Vec::new(),
    }
}

/// Where the bytes of runs start.
pub fn runs_start(rest: &[u8]) -> usize {
    let first = rest.first().copied().unwrap_or(0);
    inputs::runs_start(first).min(rest.len())
}

/// How many records a session in an arbitrary state takes.
fn arbitrary_steps(rest: &[u8]) -> usize {
    rest.get(25).map_or(0, |count| usize::from(count % 5))
}

/// The records of at most so many steps, the first of which starts here.
fn steps(rest: &[u8], first: usize, most: usize) -> Vec<Range<usize>> {
    let mut records: Vec<Range<usize>> = Vec::new();
    let mut next = first;
    while next + 1 < rest.len() && records.len() < most {
        let end = next + 1 + inputs::step_length(rest[next]);
        records.push(next + 1..end.min(rest.len()));
        next = end;
    }
    records
}

/// Where dates start, including the due dates that barcodes may have. Some may be past the end.
pub fn dates(kind: Kind, rest: &[u8]) -> Vec<usize> {
    match kind {
        Kind::Date => vec![0],
        Kind::Barcode => vec![19, 23],
        Kind::Build => vec![33],
        Kind::Write => {
            let dates = [20, 28, GIVEN_BARCODE + 19, GIVEN_BARCODE + 23];
            let of_payment = |fields: usize| dates.map(|date| fields + date);
            payments(rest).into_iter().flat_map(of_payment).collect()
        }
        _ => {
            let of_record = |record: Range<usize>| {
                let place = record.start;
                let rows = TABLE.iter().filter(move |row| row.letter == rest[place]);
                rows.flat_map(move |row| match row.content {
                    Content::Date => vec![place + row.first - 1],
                    Content::Barcode => vec![place + row.first + 18, place + row.first + 22],
                    _ => Vec::new(),
                })
            };
            records(kind, rest)
                .into_iter()
                .flat_map(of_record)
                .collect()
        }
    }
}

/// Where numbers start. Some may be past the end.
pub fn numbers(kind: Kind, rest: &[u8]) -> Vec<usize> {
    match kind {
        Kind::DateNumbers => vec![0, 8, 16],
        Kind::Build => vec![0, 8, 16, 24],
        Kind::Record | Kind::Convert => version(kind, rest).into_iter().collect(),
        Kind::Write => vec![1, 9, 17, 25],
        Kind::Page => {
            let mut places = vec![0, 8, 16, 24, 32];
            board(rest, 40, &mut places);
            places
        }
        Kind::ArbitrarySession => {
            let mut places = vec![1, 9, 17];
            let opening = boards(rest, &mut places);
            places.push(opening + PAIR);
            places.extend(pairs(rest).iter().map(|pair| pair + PAIR - 8));
            places
        }
        _ => Vec::new(),
    }
}

/// Where the pairs of a session in an arbitrary state start: those of its memory, then that of its file. Some may be
/// past the end.
pub fn pairs(rest: &[u8]) -> Vec<usize> {
    let opening = boards(rest, &mut Vec::new());
    let given = opening + PAIR + 8;
    let count = rest.get(given).map_or(0, |&count| count.into());
    let memory = (0..PAIRS.min(count)).map(|i| given + 1 + PAIR * i);
    memory.chain([opening]).collect()
}

/// Where the version starts that is told with a record, or that the file of a session or writer in an arbitrary state
/// has. It is one of the numbers.
pub fn version(kind: Kind, rest: &[u8]) -> Option<usize> {
    let first = rest.first()?;
    match kind {
        Kind::Record => Some(0),
        Kind::Convert if first % 3 == 2 => Some(2),
        Kind::ArbitrarySession => Some(17),
        Kind::Write if first % 2 == 1 => Some(25),
        _ => None,
    }
}

/// Where a writer's calls have the lengths of their buffers.
pub fn buffer_sizes(rest: &[u8]) -> Vec<usize> {
    let sizes = writer_calls(rest).into_iter().map(|call| call + 1);
    sizes.collect()
}

/// Where the field bytes of a writer's payments start. Those of another length are left out.
pub fn payments(rest: &[u8]) -> Vec<usize> {
    let fields = |call: usize| {
        let is_payment = rest[call] % 3 == 1 && *rest.get(call + 18)? == PAYMENT_FIELDS as u8;
        let fields = call + 19;
        (is_payment && fields + PAYMENT_FIELDS <= rest.len()).then_some(fields)
    };
    writer_calls(rest).into_iter().filter_map(fields).collect()
}

/// Where a writer's calls start.
fn writer_calls(rest: &[u8]) -> Vec<usize> {
    let mut calls = Vec::new();
    let is_arbitrary = rest.first().is_some_and(|flags| flags % 2 == 1);
    let mut next = if is_arbitrary { 33 } else { 1 };
    while next + 1 < rest.len() {
        calls.push(next);
        let counted = |place: usize| place + 1 + rest.get(place).map_or(0, |&n| usize::from(n));
        next = match rest[next] % 3 {
            0 => counted(next + 2),
            1 => counted(next + 18),
            _ => next + 2,
        };
    }
    calls
}

/// The issuers of the barcodes that are accepted under an empty list, each once.
pub fn issuers(kind: Kind, rest: &[u8]) -> Vec<Issuer> {
    let mut issuers: Vec<Issuer> = Vec::new();
    for code in barcodes(kind, rest) {
        if let Ok(fields) = barcode::decode(&code, &[]) {
            if !issuers.contains(&fields.issuer()) {
                issuers.push(fields.issuer());
            }
        }
    }
    issuers
}

/// What may be a barcode: of a line, in payments, and built.
fn barcodes(kind: Kind, rest: &[u8]) -> Vec<Vec<u8>> {
    match kind {
        Kind::Line => vec![without_checks(rest)],
        Kind::Barcode => vec![rest.to_vec()],
        Kind::Convert if rest.len() == 2 + 48 => vec![without_checks(&rest[2..])],
        Kind::Convert if rest.len() == 2 + 44 => vec![rest[2..].to_vec()],
        Kind::Build => built(rest).into_iter().collect(),
        Kind::Write => {
            let code = |fields: usize| rest[fields + GIVEN_BARCODE..][..44].to_vec();
            payments(rest).into_iter().map(code).collect()
        }
        _ => {
            let field = TABLE[G_BARCODE].first - 1..TABLE[G_BARCODE].last;
            let code = |record| rest.get::<Range<usize>>(record)?.get(field.clone());
            let codes = records(kind, rest).into_iter().filter_map(code);
            codes.map(<[u8]>::to_vec).collect()
        }
    }
}

/// The digits of a line's boxes.
pub fn without_checks(line: &[u8]) -> Vec<u8> {
    let boxes = line.chunks(12).flat_map(|of| &of[..of.len().min(11)]);
    boxes.copied().collect()
}

/// Writes digits of a barcode, from this index on, into the boxes of its line, as far as there are boxes.
pub fn write_into_boxes(line: &mut [u8], first: usize, digits: &[u8]) {
    for (i, &digit) in (first..).zip(digits) {
        if let Some(byte) = line.get_mut(i + i / 11) {
            *byte = digit;
        }
    }
}

/// The barcode that is built, if one is.
fn built(rest: &[u8]) -> Option<Vec<u8>> {
    let number = |i: usize| Some(wire::number_at(rest.get(8 * i..8 * i + 8)?, 0));
    let [segment, issuer, kind, value] = [number(0)?, number(1)?, number(2)?, number(3)?];
    let mut code = [0; 44];
    let built = barcode::build(
        segment,
        kind,
        value,
        issuer,
        rest.get(33..)?,
        &[],
        &mut code,
    );
    built.ok().map(|()| code.to_vec())
}

/// Adds where the numbers of the boards of a session in an arbitrary state start, and returns where the boards end.
fn boards(rest: &[u8], places: &mut Vec<usize>) -> usize {
    let working = board(rest, shown(rest), places);
    board(rest, working, places)
}

/// Where the board shown of a session in an arbitrary state starts.
fn shown(rest: &[u8]) -> usize {
    let records = steps(rest, 26, arbitrary_steps(rest));
    records.last().map_or(26, |last| last.end)
}

/// Adds where the numbers of a board and of its lanes start, and returns where the board ends.
fn board(rest: &[u8], first: usize, places: &mut Vec<usize>) -> usize {
    let lanes = lanes(rest, first);
    places.extend((first..first + BOARD - 1).step_by(8));
    places.extend(lanes.clone().step_by(8));
    lanes.end
}

/// Where the lanes of the board are that starts here.
fn lanes(rest: &[u8], first: usize) -> Range<usize> {
    let count = rest.get(first + BOARD - 1).map_or(0, |&count| count.into());
    first + BOARD..first + BOARD + LANE * LANES.min(count)
}

/// Where the payments, centavos and tariff of the working board of a session in an arbitrary state start: of its total,
/// then of each of its lanes. Some may be past the end.
pub fn tallies(rest: &[u8]) -> Vec<usize> {
    let working = board(rest, shown(rest), &mut Vec::new());
    let of_lanes = lanes(rest, working).step_by(LANE).map(|lane| lane + 16);
    [working + 8].into_iter().chain(of_lanes).collect()
}
