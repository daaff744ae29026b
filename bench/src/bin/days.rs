//! `days ISSUERS PAYMENTS [lined | 06 | due]`: writes a day of PAYMENTS payments to standard output, in files of at
//! most 50,000, each of a random one of ISSUERS issuers. A longer day of as many issuers starts with the same payments.
//! All files have version 04, one bank and agreement, and numbers that follow. So that new figures compare with old
//! ones, the days are the same bytes as before there was a version 06; only the bank, agreement and number of each
//! further file were others. A lined day has the same records, with CR and LF behind each. The files of a 06 day have
//! version 06, and their payments any of its codes. The barcodes of a due day all have a due date, so that its issuers,
//! at most 64, may be agreed ones.

use std::error::Error;
use std::io::{self, BufWriter, Write};

use reference::agreed::key;
use reference::days;
use reference::random::Random;
use reference::records::{HEADER_FIELDS, LENGTH, LINED};
use reference::session::following;
use reference::{digits, Writer};

/// Small enough that no day here passes the limit of a file or of the board.
const AMOUNT_DIGITS: u32 = 10;

const PAYMENTS_IN_FILE: u64 = 50_000;

/// The field bytes of a random A of this version. `days::header_fields` would draw the version, and then every later
/// byte of the day would be another one.
fn header_fields(random: &mut Random, version: &[u8; 2]) -> [u8; HEADER_FIELDS] {
    let mut fields = [b' '; HEADER_FIELDS];
    days::text(random, &mut fields[..20]);
    days::text(random, &mut fields[20..40]);
    fields[40..43].fill_with(|| random.digit());
    days::text(random, &mut fields[43..63]);
    fields[63..71].copy_from_slice(&days::date(random).digits());
    fields[71..77].fill_with(|| random.digit());
    fields[77..79].copy_from_slice(version);
    fields[79] = random.one_of(&[79, 211]);
    fields
}

/// The field bytes of the next A: if there is one before it, with the agreement and the bank of that one, and its next
/// number. It is then the one before.
fn next_header(
    random: &mut Random,
    version: &[u8; 2],
    before: &mut Option<[u8; HEADER_FIELDS]>,
) -> [u8; HEADER_FIELDS] {
    let mut fields = header_fields(random, version);
    if let Some(before) = before {
        fields[..20].copy_from_slice(&before[..20]);
        fields[40..43].copy_from_slice(&before[40..43]);
        let next = digits::number(&before[71..77]).and_then(following);
        digits::write(next.unwrap_or(0), &mut fields[71..77]);
    }
    *before = Some(fields);
    fields
}

fn main() -> Result<(), Box<dyn Error>> {
    let words: Vec<String> = std::env::args().skip(1).collect();
    let words: Vec<&str> = words.iter().map(String::as_str).collect();
    let (issuers, payments, form) = match words[..] {
        [issuers, payments] => (issuers, payments, ""),
        [issuers, payments, form @ ("lined" | "06" | "due")] => (issuers, payments, form),
        _ => return Err("days ISSUERS PAYMENTS [lined | 06 | due]".into()),
    };
    let size = if form == "lined" { LINED } else { LENGTH };
    let version = if form == "06" { b"06" } else { b"04" };
    let (issuers, payments): (u64, u64) = (issuers.parse()?, payments.parse()?);
    let random = &mut Random::new(issuers);
    let issuers = days::issuers(random, issuers as usize);
    let agreed: Vec<u64> = match form {
        "due" => issuers.iter().map(|&issuer| key(issuer)).collect(),
        _ => Vec::new(),
    };
    let mut out = BufWriter::with_capacity(1 << 20, io::stdout().lock());
    let mut record = vec![0; size];
    let mut left = payments;
    let mut before = None;
    while left > 0 {
        let mut writer = Writer::new();
        writer.header(&next_header(random, version, &mut before), &mut record)?;
        out.write_all(&record)?;
        for _ in 0..left.min(PAYMENTS_IN_FILE) {
            let issuer = issuers[random.index(issuers.len())];
            let code = days::barcode_under(random, issuer, &agreed)?;
            let fields = days::payment_fields(random, &code, writer.version);
            let received = random.number(AMOUNT_DIGITS);
            let tariff = random.number(7);
            writer.payment(&fields, received, tariff, &agreed, &mut record)?;
            out.write_all(&record)?;
        }
        writer.trailer(&mut record)?;
        out.write_all(&record)?;
        left -= left.min(PAYMENTS_IN_FILE);
    }
    Ok(out.flush()?)
}
