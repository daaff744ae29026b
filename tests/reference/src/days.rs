//! Random valid lines, barcodes, records and whole days, and damage to them, for tests. No rule is defined here.

mod damage;
mod files;
mod lists;
mod pairs;
mod wrong_numbers;

pub use damage::{damage, damage_line_end, disorder, swap};
pub use files::{day, day_of, day_under, Day, Form, Posted};
pub use lists::{agreed, wrong_agreed};
pub use pairs::{first_number, header_fields_of, header_of, pairs};
pub use wrong_numbers::misnumber;

use crate::agreed::is_agreed;
use crate::barcode::{self, Issuer};
use crate::dates::{days_in, Date};
use crate::digits;
use crate::line;
use crate::random::Random;
use crate::records::{HEADER_FIELDS, PAYMENT_FIELDS};
use crate::refusal::Refusal;
use crate::writer::{Stage, Writer};

/// Every segment.
pub const SEGMENTS: [u64; 8] = [1, 2, 3, 4, 5, 6, 7, 9];

/// A random date; often the last day of a month.
pub fn date(random: &mut Random) -> Date {
    const FIRST: Date = match Date::new(1900, 1, 1) {
        Some(date) => date,
        None => unreachable!(),
    };
    let year = random.between(1900, 2199) as u16;
    let month = random.between(1, 12) as u8;
    let last = days_in(year, month);
    let day = if random.once_in(4) {
        last
    } else {
        random.between(1, u64::from(last)) as u8
    };
    // The three numbers are always a date; the default is never used.
    Date::new(year, month, day).unwrap_or(FIRST)
}

/// A random issuer.
pub fn issuer(random: &mut Random) -> Issuer {
    let segment = SEGMENTS[random.index(SEGMENTS.len())];
    let bound = if segment == 6 { 100_000_000 } else { 10_000 };
    Issuer {
        segment,
        number: random.below(bound),
    }
}

/// `count` different issuers, but at most 10,000.
pub fn issuers(random: &mut Random, count: usize) -> Vec<Issuer> {
    let mut found: Vec<Issuer> = Vec::new();
    for _ in 0..count.min(10_000) {
        let mut next = issuer(random);
        while found.contains(&next) {
            next = issuer(random);
        }
        found.push(next);
    }
    found
}

/// A random barcode of an issuer, of any kind, with or without a date in the free field.
pub fn barcode_of(random: &mut Random, issuer: Issuer) -> Result<[u8; 44], Refusal> {
    barcode_under(random, issuer, &[])
}

/// A random barcode of an issuer that this list does not refuse: an agreed issuer always has a date. From equal seeds,
/// another issuer has the same barcode under every right list. A wrong list is refused.
pub fn barcode_under(
    random: &mut Random,
    issuer: Issuer,
    agreed: &[u64],
) -> Result<[u8; 44], Refusal> {
    let kind = random.between(6, 9);
    let value = random.number(11);
    let mut free = [b'0'; 25];
    free.fill_with(|| random.digit());
    if random.once_in(2) || is_agreed(issuer, agreed) {
        free[..8].copy_from_slice(&date(random).digits());
    }
    let mut code = [b'0'; 44];
    barcode::build(
        issuer.segment,
        kind,
        value,
        issuer.number,
        &free[..barcode::free_length(issuer.segment)],
        agreed,
        &mut code,
    )?;
    Ok(code)
}

/// A random barcode.
pub fn barcode(random: &mut Random) -> Result<[u8; 44], Refusal> {
    let issuer = issuer(random);
    barcode_of(random, issuer)
}

/// A random typed line.
pub fn line(random: &mut Random) -> Result<[u8; 48], Refusal> {
    let mut typed = [b'0'; 48];
    line::line_from_barcode(&barcode(random)?, &[], &mut typed)?;
    Ok(typed)
}

/// A random typed line of an issuer that this list does not refuse.
pub fn line_under(
    random: &mut Random,
    issuer: Issuer,
    agreed: &[u64],
) -> Result<[u8; 48], Refusal> {
    let mut typed = [b'0'; 48];
    let code = barcode_under(random, issuer, agreed)?;
    line::line_from_barcode(&code, agreed, &mut typed)?;
    Ok(typed)
}

/// Fills a text field with blanks, with letters and digits, or with any text bytes.
pub fn text(random: &mut Random, field: &mut [u8]) {
    match random.below(4) {
        0 => field.fill(b' '),
        1 => field.fill_with(|| random.one_of(b"ABCDEFGHIJ 0123456789")),
        _ => field.fill_with(|| any_text(random)),
    }
}

fn any_text(random: &mut Random) -> u8 {
    match random.below(95 + 96) {
        low if low < 95 => 32 + low as u8,
        high => 160 + (high - 95) as u8,
    }
}

fn digit_field(random: &mut Random, field: &mut [u8]) {
    field.fill_with(|| random.digit());
}

/// A random version, 4 or 6.
pub fn version(random: &mut Random) -> u64 {
    if random.once_in(2) {
        4
    } else {
        6
    }
}

/// The field bytes of a random A, of either version.
pub fn header_fields(random: &mut Random) -> [u8; HEADER_FIELDS] {
    let mut fields = [b' '; HEADER_FIELDS];
    text(random, &mut fields[..20]);
    text(random, &mut fields[20..40]);
    digit_field(random, &mut fields[40..43]);
    text(random, &mut fields[43..63]);
    fields[63..71].copy_from_slice(&date(random).digits());
    digit_field(random, &mut fields[71..77]);
    digits::write(version(random), &mut fields[77..79]);
    fields[79] = random.one_of(&[79, 211]);
    fields
}

/// The captures and the payment forms of version 6, or else of version 4.
const fn codes(version: u64) -> (&'static [u8], &'static [u8]) {
    match version {
        6 => (b"123456789abcdefghi", b"123456"),
        _ => (b"123456abcdef", b"123"),
    }
}

/// The field bytes of a random G with this barcode, in a file of this version. A version other than 4 and 6 gives the
/// codes of 4.
pub fn payment_fields(random: &mut Random, code: &[u8; 44], version: u64) -> [u8; PAYMENT_FIELDS] {
    let (captures, forms) = codes(version);
    let mut fields = [b' '; PAYMENT_FIELDS];
    text(random, &mut fields[..20]);
    fields[20..28].copy_from_slice(&date(random).digits());
    fields[28..36].copy_from_slice(&date(random).digits());
    fields[36..80].copy_from_slice(code);
    digit_field(random, &mut fields[80..88]);
    text(random, &mut fields[88..96]);
    fields[96] = random.one_of(captures);
    text(random, &mut fields[97..120]);
    fields[120] = random.one_of(forms);
    fields
}

/// A random A, of either version.
pub fn header(random: &mut Random) -> Result<[u8; 150], Refusal> {
    let mut out = [b' '; 150];
    Writer::new().header(&header_fields(random), &mut out)?;
    Ok(out)
}

/// A random G of a file of this version, with amounts of any width. A version other than 4 and 6 is refused.
pub fn payment(random: &mut Random, version: u64) -> Result<[u8; 150], Refusal> {
    let issuer = issuer(random);
    payment_under(random, issuer, version, &[])
}

/// Such a G of an issuer that this list does not refuse.
pub fn payment_under(
    random: &mut Random,
    issuer: Issuer,
    version: u64,
    agreed: &[u64],
) -> Result<[u8; 150], Refusal> {
    let code = barcode_under(random, issuer, agreed)?;
    let mut out = [b' '; 150];
    let mut writer = Writer {
        stage: Stage::Open,
        version,
        ..Writer::new()
    };
    writer.payment(
        &payment_fields(random, &code, version),
        random.number(12),
        random.number(7),
        agreed,
        &mut out,
    )?;
    Ok(out)
}

/// A random Z, which is accepted as a single record but almost never by a session.
pub fn trailer(random: &mut Random) -> [u8; 150] {
    let mut out = [b' '; 150];
    out[0] = b'Z';
    digits::write(random.number(6), &mut out[1..7]);
    digits::write(random.number(17), &mut out[7..24]);
    out
}

/// A random A of either version, G of this version, or Z.
pub fn record(random: &mut Random, version: u64) -> Result<[u8; 150], Refusal> {
    match random.below(3) {
        0 => header(random),
        1 => payment(random, version),
        _ => Ok(trailer(random)),
    }
}
