//! `operations NAME ROUNDS <DAY`: one operation of the reference program on every record of a file, lined or bare,
//! ROUNDS times. It prints a sum of decoded numbers. operations.c does the same with the engine and prints the same
//! sum. No issuer is agreed, except in `run-64-agreed`: a run with a full list, on a file with due dates.

use std::error::Error;
use std::hint::black_box;
use std::io::{self, Read};

use reference::agreed::{self, AGREED};
use reference::records::{self, HEADER_FIELDS, LENGTH, LINED, LINE_END, PAYMENT_FIELDS};
use reference::{barcode, digits, line, Issuer, Record, Refusal, Session, Writer};

/// The operations' inputs, prepared before the rounds.
struct Inputs {
    day: Vec<u8>,
    /// The bytes of each record, CR and LF included if the file is lined.
    step: usize,
    codes: Vec<[u8; 44]>,
    lines: Vec<[u8; 48]>,
    header: [u8; HEADER_FIELDS],
    /// The version that the file's A names.
    version: u64,
    payments: Vec<([u8; PAYMENT_FIELDS], u64, u64)>,
    written: Vec<u8>,
    /// A full list of agreed issuers.
    agreed: Vec<u64>,
}

/// The issuers of the barcodes, in the order in which they appear and as far as there is room, then others of segment
/// 9. They are spread: the first is at index 0, the next at 37, 10, 47, ..
fn full_list(codes: &[[u8; 44]]) -> Result<Vec<u64>, Refusal> {
    let mut keys = Vec::new();
    for code in codes {
        keys.push(agreed::key(barcode::decode(code, &[])?.issuer()));
    }
    keys.extend(
        (0..)
            .take(2 * AGREED)
            .map(|number| agreed::key(Issuer { segment: 9, number })),
    );
    let mut found: Vec<u64> = Vec::new();
    for key in keys {
        if found.len() < AGREED && !found.contains(&key) {
            found.push(key);
        }
    }
    let mut list = vec![0; AGREED];
    for (i, key) in found.into_iter().enumerate() {
        list[37 * i % AGREED] = key;
    }
    Ok(list)
}

fn inputs(day: Vec<u8>) -> Result<Inputs, Refusal> {
    let lined = day.get(LENGTH..LINED) == Some(LINE_END.as_slice());
    let mut inputs = Inputs {
        written: vec![0; day.len()],
        day,
        step: if lined { LINED } else { LENGTH },
        codes: Vec::new(),
        lines: Vec::new(),
        header: [0; HEADER_FIELDS],
        version: 0,
        payments: Vec::new(),
        agreed: Vec::new(),
    };
    let count = inputs.day.len() / inputs.step;
    if let Record::A(header) = records::decode(&inputs.day[..LENGTH], 0, &[])? {
        inputs.version = header.version;
    }
    records::join(
        &inputs.day[..LENGTH],
        inputs.version,
        &[],
        &mut inputs.header,
    )?;
    for g in inputs.day.chunks(inputs.step).take(count - 1).skip(1) {
        let mut code = [0; 44];
        code.copy_from_slice(&g[37..81]);
        let mut typed = [0; 48];
        line::line_from_barcode(&code, &[], &mut typed)?;
        let mut fields = [0; PAYMENT_FIELDS];
        records::join(&g[..LENGTH], inputs.version, &[], &mut fields)?;
        let amount = |part| digits::number(part).unwrap_or(0);
        inputs.codes.push(code);
        inputs.lines.push(typed);
        inputs
            .payments
            .push((fields, amount(&g[81..93]), amount(&g[93..100])));
    }
    inputs.agreed = full_list(&inputs.codes)?;
    Ok(inputs)
}

/// The three totals of the board shown.
fn sum_of_board(session: &Session) -> u64 {
    let board = session.board();
    board.payments + board.centavos + board.tariff
}

/// The totals after a run over the day.
fn run(day: &[u8], agreed: &[u64]) -> Result<u64, Refusal> {
    let mut session = Session::new();
    session.run(black_box(day), false, agreed).answer?;
    Ok(sum_of_board(&session))
}

fn round(name: &str, inputs: &mut Inputs) -> Result<u64, Box<dyn Error>> {
    let sum_of_fields = |fields: barcode::Barcode| {
        fields.value + fields.issuer + fields.due.map_or(0, |due| due.day().into())
    };
    let mut sum = 0;
    match name {
        "barcode" => {
            for code in &inputs.codes {
                sum += sum_of_fields(barcode::decode(black_box(code), &[])?);
            }
        }
        "line" => {
            for typed in &inputs.lines {
                sum += sum_of_fields(line::decode(black_box(typed), &[])?);
            }
        }
        "record" => {
            for record in inputs.day.chunks(inputs.step) {
                sum += match records::decode(black_box(&record[..LENGTH]), inputs.version, &[])? {
                    Record::A(a) => a.sequence,
                    Record::G(g) => g.received + g.tariff + g.number,
                    Record::Z(z) => z.count + z.total,
                };
            }
        }
        "take" => {
            let mut session = Session::new();
            for record in inputs.day.chunks(inputs.step) {
                session.take(black_box(record), &[])?;
            }
            sum += sum_of_board(&session);
        }
        "run" => sum += run(&inputs.day, &[])?,
        "run-64-agreed" => sum += run(&inputs.day, &inputs.agreed)?,
        "write" => {
            let mut writer = Writer::new();
            let mut out = inputs.written.chunks_mut(inputs.step);
            let mut next = || out.next().ok_or("the buffer is too short");
            writer.header(black_box(&inputs.header), next()?)?;
            for (fields, received, tariff) in &inputs.payments {
                writer.payment(black_box(fields), *received, *tariff, &[], next()?)?;
            }
            writer.trailer(next()?)?;
            sum += writer.total;
        }
        _ => return Err("no such operation".into()),
    }
    Ok(sum)
}

fn main() -> Result<(), Box<dyn Error>> {
    let words: Vec<String> = std::env::args().skip(1).collect();
    let [name, rounds] = &words[..] else {
        return Err("operations NAME ROUNDS".into());
    };
    let mut day = Vec::new();
    io::stdin().lock().read_to_end(&mut day)?;
    let mut inputs = inputs(day)?;
    let mut sum = 0;
    for _ in 0..rounds.parse()? {
        sum += round(name, &mut inputs)?;
    }
    if name == "write" && inputs.written != inputs.day {
        return Err("the file written is not the day".into());
    }
    println!("{sum}");
    Ok(())
}
