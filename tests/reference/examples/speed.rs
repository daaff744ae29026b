//! How fast a session takes records, and lines and barcodes are decoded and converted, with an empty list of agreed
//! issuers and with a full one: `cargo run --release -p reference --example speed`.

use std::hint::black_box;
use std::time::Instant;

use reference::agreed::key;
use reference::days::{self, Day, Form};
use reference::random::Random;
use reference::{barcode, line, Issuer, Refusal, Session, AGREED};

fn main() -> Result<(), Refusal> {
    for form in Form::ALL {
        println!("{form:?} files");
        for issuers in [1, 8, 64] {
            session(issuers, 20, 10_000, form)?;
        }
        session(64, 20_000, 10, form)?;
    }
    println!("Bare files, 64 agreed issuers");
    for issuers in [1, 8, 64] {
        session_of_agreed(issuers)?;
    }
    codes()
}

fn session(issuers: usize, files: usize, most: usize, form: Form) -> Result<(), Refusal> {
    let day = days::day_of(&mut Random::new(1), issuers, files, most, form)?;
    run(&day, issuers, &[])
}

/// A day whose issuers are the last of a full list, so that the list is scanned to its end.
fn session_of_agreed(issuers: usize) -> Result<(), Refusal> {
    let mut random = Random::new(1);
    let all = days::issuers(&mut random, AGREED);
    let agreed: Vec<u64> = all.iter().map(|&issuer| key(issuer)).collect();
    let last = &all[AGREED - issuers..];
    let day = days::day_under(&mut random, last, 20, 10_000, Form::Bare, &agreed)?;
    run(&day, issuers, &agreed)
}

fn run(day: &Day, issuers: usize, agreed: &[u64]) -> Result<(), Refusal> {
    let files = day.files.len();
    let mut records = 0;
    let mut best = f64::MAX;
    for _ in 0..20 {
        let mut session = Session::new();
        let start = Instant::now();
        let result = session.run(black_box(&day.bytes), false, black_box(agreed));
        best = best.min(start.elapsed().as_secs_f64());
        result.answer?;
        records = result.records;
        black_box(&session);
    }
    println!(
        "{issuers:2} issuers, {files:5} files, {records:6} records: {:6.1} ns a record, {:5.2} GB/s",
        best * 1e9 / records as f64,
        day.bytes.len() as f64 / best / 1e9
    );
    Ok(())
}

fn codes() -> Result<(), Refusal> {
    let mut random = Random::new(2);
    let lines: Vec<[u8; 48]> = (0..100_000)
        .map(|_| days::line(&mut random))
        .collect::<Result<_, _>>()?;
    show_codes("empty list", &lines, &[])?;
    let issuers: Vec<Issuer> = days::issuers(&mut random, AGREED);
    let agreed: Vec<u64> = issuers.iter().map(|&issuer| key(issuer)).collect();
    let lines: Vec<[u8; 48]> = (0..100_000)
        .map(|i| days::line_under(&mut random, issuers[i % AGREED], &agreed))
        .collect::<Result<_, _>>()?;
    show_codes("64 agreed issuers", &lines, &agreed)
}

/// Converts and decodes lines that this list accepts.
fn show_codes(title: &str, lines: &[[u8; 48]], agreed: &[u64]) -> Result<(), Refusal> {
    println!("{title}");
    let agreed = black_box(agreed);
    let mut code = [0; 44];
    let mut built = Vec::new();
    let start = Instant::now();
    for typed in lines {
        line::barcode_from_line(black_box(typed), agreed, &mut code)?;
        built.push(code);
    }
    show("barcode from line", start, lines.len());
    let start = Instant::now();
    for typed in lines {
        black_box(line::decode(black_box(typed), agreed)?);
    }
    show("line decoded", start, lines.len());
    let start = Instant::now();
    for code in &built {
        black_box(barcode::decode(black_box(code), agreed)?);
    }
    show("barcode decoded", start, lines.len());
    let mut typed = [0; 48];
    let start = Instant::now();
    for code in &built {
        line::line_from_barcode(black_box(code), agreed, &mut typed)?;
        black_box(&typed);
    }
    show("line from barcode", start, lines.len());
    Ok(())
}

fn show(what: &str, start: Instant, count: usize) {
    let each = start.elapsed().as_secs_f64() * 1e9 / count as f64;
    println!("{what}: {each:.1} ns");
}
