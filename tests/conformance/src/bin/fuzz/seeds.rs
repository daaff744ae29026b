//! The first inputs of each kind: the samples, and random valid ones.

use std::ops::Range;
use std::{fs, io};

use conformance::engine::root;
use conformance::inputs::{self, Kind, FED};
use conformance::{lines, lists, memories, wire};
use reference::random::Random;
use reference::records::LENGTH;
use reference::session::{LANES, MOST_BOARD_TOTAL, PAIRS};
use reference::{days, Issuer, Refusal, Writer};

use crate::mutate::EDGES;
use crate::{agreed, places};

/// How many random inputs of each kind there are.
const EACH: usize = 8;

/// Every sample, in one run and record by record, and random inputs of each kind.
pub fn seeds(random: &mut Random) -> io::Result<Vec<Vec<u8>>> {
    let mut seeds = Vec::new();
    for entry in fs::read_dir(root().join("samples"))? {
        let path = entry?.path();
        if path.extension().is_some_and(|name| name == "ret") {
            let day = fs::read(path)?;
            let runs = [vec![0], day.clone()].concat();
            seeds.push(agreed::input(Kind::Run, &[], &runs));
            seeds.push(agreed::input(Kind::Take, &[], &steps(&day)));
        }
    }
    // A folder has no order of its own.
    seeds.sort();
    for kind in Kind::ALL {
        for turn in 0..EACH {
            // Where the reference program refuses to build the input, there is none.
            if let Ok(rest) = valid(random, kind, turn) {
                let list = list(random, kind, turn, &rest);
                seeds.push(agreed::input(kind, &list, &rest));
            }
        }
    }
    Ok(seeds)
}

/// A right list for an input, by the turn: the empty one, or one that has issuers of the input.
fn list(random: &mut Random, kind: Kind, turn: usize, rest: &[u8]) -> Vec<u64> {
    let issuers = places::issuers(kind, rest);
    match turn {
        0..4 => Vec::new(),
        4 | 5 => days::agreed(random, &issuers),
        _ => lists::only(&issuers),
    }
}

/// An input of a kind that is valid under an empty list, without its first byte and its list. The turn chooses among
/// records, conversions, days, sessions and writers.
fn valid(random: &mut Random, kind: Kind, turn: usize) -> Result<Vec<u8>, Refusal> {
    Ok(match kind {
        Kind::Line => days::line(random)?.to_vec(),
        Kind::Barcode => days::barcode(random)?.to_vec(),
        Kind::Date => days::date(random).digits().to_vec(),
        Kind::DateNumbers => {
            let date = days::date(random);
            numbers([date.year().into(), date.month().into(), date.day().into()])
        }
        Kind::CheckDigits => days::line(random)?.to_vec(),
        Kind::Build => {
            let issuer = days::issuer(random);
            let kind = random.between(6, 9);
            let free = reference::barcode::free_length(issuer.segment);
            let mut rest = numbers([issuer.segment, issuer.number, kind, random.number(11)]);
            rest.push(44);
            rest.extend((0..free).map(|_| random.digit()));
            rest
        }
        Kind::Record => record(random, turn)?,
        Kind::Convert => match turn % 4 {
            0 => [&[0, 44], days::line(random)?.as_slice()].concat(),
            1 => [&[1, 48], days::barcode(random)?.as_slice()].concat(),
            2 => [vec![2, 80], record(random, 0)?].concat(),
            _ => [vec![2, 121], record(random, 1)?].concat(),
        },
        Kind::Run => runs(random, turn)?,
        Kind::Take => steps(&day(random, turn)?),
        Kind::ArbitrarySession => session(random, turn.is_multiple_of(2))?,
        Kind::Page => {
            let mut rest = numbers([random.number(2), random.number(3)]);
            rest.extend(numbers([random.number(19), random.number(19), 0]));
            let issuer = days::issuer(random);
            rest.extend(board(random, issuer));
            rest
        }
        Kind::Write => file(random, turn.is_multiple_of(2))?,
    })
}

fn numbers<const N: usize>(numbers: [u64; N]) -> Vec<u8> {
    numbers.iter().flat_map(|n| n.to_le_bytes()).collect()
}

/// The version that is told, then an A, a G of this version, or a Z, by the turn.
fn record(random: &mut Random, turn: usize) -> Result<Vec<u8>, Refusal> {
    let version = days::version(random);
    let record = match turn % 3 {
        0 => days::header(random)?,
        1 => days::payment(random, version)?,
        _ => days::trailer(random),
    };
    Ok([numbers([version]), record.to_vec()].concat())
}

/// A session in an arbitrary state: with a file open, of which it takes a payment and a trailer, or with none open, of
/// which it takes a header and a trailer.
pub fn session(random: &mut Random, open: bool) -> Result<Vec<u8>, Refusal> {
    let lined = random.once_in(2);
    let mut rest = vec![u8::from(open) + 2 * u8::from(lined)];
    let version = days::version(random);
    rest.extend(numbers([random.number(6), random.number(17), version]));
    let memory = memories::memory(random);
    let issuer = days::issuer(random);
    let first = if open {
        days::payment_under(random, issuer, version, &[])?
    } else {
        memories::header(random, &memory)
    };
    rest.push(2);
    for record in [first, days::trailer(random)] {
        rest.extend(steps(&[&record, lines::end(lined)].concat()));
    }
    rest.extend(board(random, issuer));
    rest.extend(board(random, issuer));
    wire::pair(&mut rest, &memories::opening(random, &memory));
    wire::number(&mut rest, memory.used as u64);
    rest.push(PAIRS as u8);
    for pair in &memory.pairs {
        wire::pair(&mut rest, pair);
    }
    Ok(rest)
}

/// A day of bare files, of lined files, or of both; or, at the last turn, of more pairs than a session remembers.
fn day(random: &mut Random, turn: usize) -> Result<Vec<u8>, Refusal> {
    if turn == EACH - 1 {
        return many_pairs(random);
    }
    let (issuers, files) = (random.index(8), random.index(4));
    let form = lines::form(random);
    Ok(days::day_of(random, issuers, files, 4, form)?.bytes)
}

/// Empty files of one pair more than a session remembers.
fn many_pairs(random: &mut Random) -> Result<Vec<u8>, Refusal> {
    let mut day = Vec::new();
    let mut record = [0; LENGTH];
    for pair in days::pairs(random, PAIRS + 1) {
        let mut writer = Writer::new();
        writer.header(&days::header_fields_of(random, &pair), &mut record)?;
        day.extend(record);
        writer.trailer(&mut record)?;
        day.extend(record);
    }
    Ok(day)
}

/// A day in runs that are cut at up to three places, fed as a caller would or not.
fn runs(random: &mut Random, turn: usize) -> Result<Vec<u8>, Refusal> {
    let day = day(random, turn)?;
    let cuts = random.below(4) as u8;
    let mut rest = vec![cuts + random.one_of(&[0, FED])];
    for _ in 0..cuts {
        let length = random.index(day.len() + 1) as u16;
        rest.push(random.below(4) as u8);
        rest.extend(length.to_le_bytes());
    }
    rest.extend(day);
    Ok(rest)
}

/// Records to be taken one by one, each with its line end if it has one, with no other call between them.
fn steps(bytes: &[u8]) -> Vec<u8> {
    let step = |record: Range<usize>| {
        let how = inputs::step(record.len().max(LENGTH));
        [&[how], &bytes[record]].concat()
    };
    lines::records(bytes).into_iter().flat_map(step).collect()
}

/// A board with numbers at the edges, or with tariffs near the limit while its other sums are far from it; its first
/// lane has this issuer.
fn board(random: &mut Random, first: Issuer) -> Vec<u8> {
    let lanes = [0, 1, 3, LANES][random.index(4)];
    let near = random.once_in(2);
    let mut tally = || {
        if near {
            let tariff = MOST_BOARD_TOTAL - random.number(7);
            return numbers([random.number(17), random.number(17), tariff]);
        }
        numbers([(); 3].map(|()| EDGES[random.index(EDGES.len())]))
    };
    let mut board = numbers([lanes as u64]);
    board.extend(tally());
    board.push(lanes as u8);
    for lane in 0..lanes as u64 {
        board.extend(numbers([first.segment, first.number + lane]));
        board.extend(tally());
    }
    board
}

/// The calls that write a lined or a bare file, by a new writer or by one whose file is open already, which refuses the
/// header.
fn file(random: &mut Random, new: bool) -> Result<Vec<u8>, Refusal> {
    let size = random.one_of(&[150, 152]);
    let mut rest = vec![u8::from(!new) + (size - 150)];
    let header = days::header_fields(random);
    // The last digit of the version, which has two.
    let version = u64::from(header[78] - b'0');
    if !new {
        rest.extend(numbers([1, random.number(6), random.number(17), version]));
    }
    rest.extend([0, size, header.len() as u8]);
    rest.extend(header);
    for _ in 0..random.index(3) {
        let code = days::barcode(random)?;
        let fields = days::payment_fields(random, &code, version);
        rest.extend([1, size]);
        rest.extend(numbers([random.number(12), random.number(7)]));
        rest.push(fields.len() as u8);
        rest.extend(fields);
    }
    rest.extend([2, size]);
    Ok(rest)
}
