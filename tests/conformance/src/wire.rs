//! The replies of `serve.c`, from the reference program's outcomes: little-endian numbers of eight bytes, bools of one,
//! and the bytes of pairs, in the order of the structs in hollytrot.h. Requests have lists of agreed issuers too.

use reference::{
    Barcode, Board, Date, Header, Pair, Payment, Record, Refusal, Session, Trailer, Writer,
};

pub fn number(reply: &mut Vec<u8>, n: u64) {
    reply.extend_from_slice(&n.to_le_bytes());
}

pub fn numbers(reply: &mut Vec<u8>, all: &[u64]) {
    for &n in all {
        number(reply, n);
    }
}

/// A list of agreed issuers: how many there are, in one byte, then a number for each.
pub fn list(request: &mut Vec<u8>, agreed: &[u64]) {
    request.push(agreed.len().try_into().expect("at most 255 entries"));
    numbers(request, agreed);
}

/// A bool is one byte.
pub fn flag(reply: &mut Vec<u8>, flag: bool) {
    reply.push(flag.into());
}

/// The number that starts at this index.
pub fn number_at(reply: &[u8], index: usize) -> u64 {
    let bytes = reply[index..index + 8].try_into();
    u64::from_le_bytes(bytes.expect("eight bytes"))
}

pub fn answer<T>(reply: &mut Vec<u8>, outcome: &Result<T, Refusal>) {
    let (n, place) = reference::answer(outcome);
    numbers(reply, &[n, place as u64]);
}

/// A part of the whole bytes: the empty one is 0 and 0.
pub fn part(reply: &mut Vec<u8>, whole: &[u8], part: &[u8]) {
    let from = if part.is_empty() {
        0
    } else {
        part.as_ptr() as usize - whole.as_ptr() as usize
    };
    numbers(reply, &[from as u64, part.len() as u64]);
}

pub fn date(reply: &mut Vec<u8>, date: Option<Date>) {
    match date {
        Some(d) => numbers(
            reply,
            &[
                u64::from(d.year()),
                u64::from(d.month()),
                u64::from(d.day()),
            ],
        ),
        None => numbers(reply, &[0; 3]),
    }
}

pub fn fields(reply: &mut Vec<u8>, fields: Option<&Barcode>) {
    match fields {
        Some(b) => {
            numbers(reply, &[b.kind, b.value, b.segment, b.issuer]);
            date(reply, b.due);
        }
        None => numbers(reply, &[0; 7]),
    }
}

pub fn decoded(reply: &mut Vec<u8>, outcome: &Result<Barcode, Refusal>) {
    answer(reply, outcome);
    fields(reply, outcome.as_ref().ok());
}

fn header(reply: &mut Vec<u8>, header: Option<&Header>) {
    match header {
        Some(h) => {
            number(reply, h.bank);
            date(reply, Some(h.date));
            numbers(reply, &[h.sequence, h.version]);
        }
        None => numbers(reply, &[0; 6]),
    }
}

fn payment(reply: &mut Vec<u8>, payment: Option<&Payment>) {
    match payment {
        Some(p) => {
            date(reply, Some(p.paid));
            date(reply, Some(p.credited));
            fields(reply, Some(&p.barcode));
            numbers(reply, &[p.received, p.tariff, p.number]);
        }
        None => numbers(reply, &[0; 16]),
    }
}

fn trailer(reply: &mut Vec<u8>, trailer: Option<&Trailer>) {
    let (count, total) = trailer.map_or((0, 0), |t| (t.count, t.total));
    numbers(reply, &[count, total]);
}

pub fn record(reply: &mut Vec<u8>, outcome: &Result<Record, Refusal>) {
    answer(reply, outcome);
    let (letter, a, g, z) = match outcome {
        Ok(Record::A(a)) => (b'A', Some(a), None, None),
        Ok(Record::G(g)) => (b'G', None, Some(g), None),
        Ok(Record::Z(z)) => (b'Z', None, None, Some(z)),
        Err(_) => (0, None, None, None),
    };
    number(reply, u64::from(letter));
    header(reply, a);
    payment(reply, g);
    trailer(reply, z);
}

pub fn board(reply: &mut Vec<u8>, board: &Board) {
    for lane in &board.lanes {
        numbers(reply, &[lane.issuer.segment, lane.issuer.number]);
        numbers(reply, &[lane.payments, lane.centavos, lane.tariff]);
    }
    number(reply, board.used as u64);
    numbers(reply, &[board.payments, board.centavos, board.tariff]);
}

/// The file of a session or of a writer.
fn file(reply: &mut Vec<u8>, figures: [u64; 3], lined: bool) {
    numbers(reply, &figures);
    flag(reply, lined);
}

pub fn pair(reply: &mut Vec<u8>, pair: &Pair) {
    reply.extend_from_slice(&pair.bank);
    reply.extend_from_slice(&pair.agreement);
    number(reply, pair.sequence);
}

pub fn session(reply: &mut Vec<u8>, session: &Session) {
    board(reply, &session.shown);
    board(reply, &session.working);
    flag(reply, session.open);
    let figures = [session.taken, session.total, session.version];
    file(reply, figures, session.lined);
    pair(reply, &session.opening);
    for one in &session.memory.pairs {
        pair(reply, one);
    }
    number(reply, session.memory.used as u64);
}

/// A writer whose stage has this number.
pub fn writer(reply: &mut Vec<u8>, stage: u64, writer: &Writer) {
    number(reply, stage);
    let figures = [writer.taken, writer.total, writer.version];
    file(reply, figures, writer.lined);
}
