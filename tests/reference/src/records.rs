//! Single records, A, G and Z: docs/SPEC.md, "Records" and "Field bytes".

mod fields;
mod table;
mod versions;

pub use table::*;
pub(crate) use versions::{codes, Codes};

use crate::agreed;
use crate::barcode::Barcode;
use crate::dates::Date;
use crate::digits;
use crate::refusal::{Reason, Refusal};
use fields::{barcode, capture, date, fixed, form, number, service, text, version};

pub const LENGTH: usize = 150;

/// The bytes that follow every record of a lined file: CR and LF.
pub const LINE_END: &[u8; 2] = &[13, 10];

/// The length of a record with its line end.
pub const LINED: usize = LENGTH + LINE_END.len();

/// The lengths of the field bytes of an A and of a G.
pub const HEADER_FIELDS: usize = 80;
pub const PAYMENT_FIELDS: usize = 121;

/// The numbers and the date of an A. The version is 4 or 6.
#[derive(Clone, Copy, Debug, PartialEq, Eq, Hash)]
pub struct Header {
    pub bank: u64,
    pub date: Date,
    pub sequence: u64,
    pub version: u64,
}

/// The numbers, dates and codes of a G.
#[derive(Clone, Copy, Debug, PartialEq, Eq, Hash)]
pub struct Payment {
    pub paid: Date,
    pub credited: Date,
    pub barcode: Barcode,
    pub received: u64,
    pub tariff: u64,
    pub number: u64,
    pub capture: u8,
    pub form: u8,
}

/// The numbers of a Z.
#[derive(Clone, Copy, Debug, PartialEq, Eq, Hash)]
pub struct Trailer {
    pub count: u64,
    pub total: u64,
}

/// A decoded record.
#[derive(Clone, Copy, Debug, PartialEq, Eq, Hash)]
pub enum Record {
    A(Header),
    G(Payment),
    Z(Trailer),
}

/// Decodes a record. The version is that of the file; only a G has use for it and for the list. Order: 25, 1, 9, for a
/// G 10 at 80 if the version is neither 4 nor 6, then the fields from left to right.
pub fn decode(record: &[u8], version: u64, agreed: &[u64]) -> Result<Record, Refusal> {
    agreed::check(agreed)?;
    let record = require_length(record)?;
    match record[0] {
        b'A' => header(record).map(Record::A),
        b'G' => payment(record, codes(version)?, agreed).map(Record::G),
        b'Z' => trailer(record).map(Record::Z),
        _ => Err(Reason::Unexpected.at(1)),
    }
}

/// The field of a row, as a part of the record. The empty slice if the record is refused under this version and this
/// list, or the list is, and for a row of another letter or past the table.
pub fn field<'a>(record: &'a [u8], version: u64, row: usize, agreed: &[u64]) -> &'a [u8] {
    let Some(row) = TABLE.get(row) else {
        return &[];
    };
    if decode(record, version, agreed).is_err() || record[0] != row.letter {
        return &[];
    }
    &record[row.first - 1..row.last]
}

/// Writes the field bytes of an A (80) or a G (121), which the writer takes for the same record. Order: 25, 1 for the
/// record, 9 (a Z has no field bytes), 1 for `out`, for a G 10 at 80 if the version is neither 4 nor 6, then the
/// record's fields. A refusal does not change `out`.
pub fn join(record: &[u8], version: u64, agreed: &[u64], out: &mut [u8]) -> Result<(), Refusal> {
    agreed::check(agreed)?;
    let record = require_length(record)?;
    match record[0] {
        b'A' => {
            let out = out.try_into().map_err(|_| Reason::Length.at(0))?;
            header(record)?;
            join_header(record, out);
        }
        b'G' => {
            let out = out.try_into().map_err(|_| Reason::Length.at(0))?;
            payment(record, codes(version)?, agreed)?;
            join_payment(record, out);
        }
        _ => return Err(Reason::Unexpected.at(1)),
    }
    Ok(())
}

/// Places 3 to 81, then the second byte of the service field.
fn join_header(record: &[u8; LENGTH], out: &mut [u8; HEADER_FIELDS]) {
    out[..79].copy_from_slice(&record[2..81]);
    out[79] = record[82];
}

/// Places 2 to 81, then 101 to 141: all but the two amounts between them.
fn join_payment(record: &[u8; LENGTH], out: &mut [u8; PAYMENT_FIELDS]) {
    out[..80].copy_from_slice(&record[1..81]);
    out[80..].copy_from_slice(&record[100..141]);
}

/// The A of these field bytes, not yet checked.
pub(crate) fn header_from_fields(fields: &[u8; HEADER_FIELDS]) -> [u8; LENGTH] {
    let mut record = [b' '; LENGTH];
    record[..2].copy_from_slice(b"A2");
    record[2..81].copy_from_slice(&fields[..79]);
    record[81..98].copy_from_slice(SERVICE_PLAIN);
    record[82] = fields[79];
    record
}

/// The G of these field bytes, with amounts of zero, not yet checked.
pub(crate) fn payment_from_fields(fields: &[u8; PAYMENT_FIELDS]) -> [u8; LENGTH] {
    let mut record = [b' '; LENGTH];
    record[0] = b'G';
    record[1..81].copy_from_slice(&fields[..80]);
    record[81..100].fill(b'0');
    record[100..141].copy_from_slice(&fields[80..]);
    record
}

/// Writes a number into the field of a row; false, and nothing is written, if it is too wide.
pub(crate) fn write_number<const ROW: usize>(record: &mut [u8; LENGTH], number: u64) -> bool {
    digits::write(number, &mut record[TABLE[ROW].first - 1..TABLE[ROW].last])
}

/// 1 for a length other than 150.
#[inline(always)]
pub(crate) fn require_length(record: &[u8]) -> Result<&[u8; LENGTH], Refusal> {
    record.try_into().map_err(|_| Reason::Length.at(0))
}

/// The fields of an A, whose letter is already checked.
#[inline(always)]
pub(crate) fn header(record: &[u8; LENGTH]) -> Result<Header, Refusal> {
    fixed::<A_RETURN>(record)?;
    text::<A_AGREEMENT>(record)?;
    text::<A_COMPANY>(record)?;
    let bank = number::<A_BANK>(record)?;
    text::<A_BANK_NAME>(record)?;
    let date = date::<A_DATE>(record)?;
    let sequence = number::<A_SEQUENCE>(record)?;
    let version = version(record)?;
    service(record)?;
    fixed::<A_BLANK>(record)?;
    Ok(Header {
        bank,
        date,
        sequence,
        version,
    })
}

/// The fields of a G, whose letter is already checked, with the codes of its file's version. The list is already
/// judged.
#[inline(always)]
pub(crate) fn payment(
    record: &[u8; LENGTH],
    codes: Codes,
    agreed: &[u64],
) -> Result<Payment, Refusal> {
    text::<G_ACCOUNT>(record)?;
    let paid = date::<G_PAID>(record)?;
    let credited = date::<G_CREDITED>(record)?;
    let barcode = barcode(record, agreed)?;
    let received = number::<G_RECEIVED>(record)?;
    let tariff = number::<G_TARIFF>(record)?;
    let number = number::<G_NUMBER>(record)?;
    text::<G_BRANCH>(record)?;
    let capture = capture(record, codes)?;
    text::<G_AUTHENTICATION>(record)?;
    let form = form(record, codes)?;
    fixed::<G_BLANK>(record)?;
    Ok(Payment {
        paid,
        credited,
        barcode,
        received,
        tariff,
        number,
        capture,
        form,
    })
}

/// The fields of a Z, whose letter is already checked.
#[inline(always)]
pub(crate) fn trailer(record: &[u8; LENGTH]) -> Result<Trailer, Refusal> {
    let count = number::<Z_COUNT>(record)?;
    let total = number::<Z_TOTAL>(record)?;
    fixed::<Z_BLANK>(record)?;
    Ok(Trailer { count, total })
}
