//! Single records of a return file: docs/SPEC.md, "Records" and "Field bytes". A record is [`RECORD`](crate::RECORD)
//! bytes long: of one that CR and LF follow, pass the first 150.

use crate::raw;
use crate::{Agreed, Date, Fields, Refusal};

/// A version of the layout. The header of a file names it, and it decides which captures and payment forms the payments
/// of the file may have. Later versions of the specification may add versions.
#[derive(Clone, Copy, Debug, PartialEq, Eq, Hash)]
#[non_exhaustive]
pub enum Version {
    /// `04` in the header: captures `1` to `6` and `a` to `f`, payment forms `1` to `3`.
    Four = 4,
    /// `06` in the header: captures `1` to `9` and `a` to `i`, payment forms `1` to `6`.
    Six = 6,
}

impl Version {
    /// The version as a number, 4 or 6.
    pub const fn number(self) -> u64 {
        self as u64
    }

    /// The version with this number; `None` if there is none.
    pub const fn from_number(number: u64) -> Option<Version> {
        match number {
            4 => Some(Version::Four),
            6 => Some(Version::Six),
            _ => None,
        }
    }
}

/// The values of an A.
#[derive(Clone, Copy, Debug, PartialEq, Eq, Hash)]
pub struct Header {
    pub bank: u64,
    pub date: Date,
    pub sequence: u64,
    /// The version of the file: pass it to the functions here with each payment of the file.
    pub version: Version,
}

/// The values of a G: the payment date and the credit date, the barcode, and `received` and `tariff` in centavos.
#[derive(Clone, Copy, Debug, PartialEq, Eq, Hash)]
pub struct Payment {
    pub paid: Date,
    pub credited: Date,
    pub barcode: Fields,
    pub received: u64,
    pub tariff: u64,
    pub number: u64,
}

/// The values of a Z: the count of all records of the file, header and trailer included, and the centavos of its
/// payments.
#[derive(Clone, Copy, Debug, PartialEq, Eq, Hash)]
pub struct Trailer {
    pub count: u64,
    pub total: u64,
}

/// A decoded record.
#[derive(Clone, Copy, Debug, PartialEq, Eq, Hash)]
pub enum Record {
    Header(Header),
    Payment(Payment),
    Trailer(Trailer),
}

/// A row of the table of fields, which names a field of an A, G or Z. Rows 0 to 10 are those of A, 11 to 23 of G, 24 to
/// 27 of Z.
#[derive(Clone, Copy, Debug, PartialEq, Eq, Hash)]
pub struct Row(pub usize);

impl Row {
    pub const AGREEMENT: Row = Row(2);
    pub const COMPANY: Row = Row(3);
    pub const BANK: Row = Row(4);
    pub const BANK_NAME: Row = Row(5);
    pub const DATE: Row = Row(6);
    pub const SEQUENCE: Row = Row(7);
    pub const VERSION: Row = Row(8);
    pub const SERVICE: Row = Row(9);
    pub const ACCOUNT: Row = Row(12);
    pub const PAID: Row = Row(13);
    pub const CREDITED: Row = Row(14);
    pub const BARCODE: Row = Row(15);
    pub const RECEIVED: Row = Row(16);
    pub const TARIFF: Row = Row(17);
    pub const NUMBER: Row = Row(18);
    pub const BRANCH: Row = Row(19);
    pub const CAPTURE: Row = Row(20);
    pub const AUTHENTICATION: Row = Row(21);
    pub const FORM: Row = Row(22);
    pub const COUNT: Row = Row(25);
    pub const TOTAL: Row = Row(26);
}

/// Accepted, or the first refusal of the record, as one of a file of this version. Neither the order of records nor any
/// sum is checked, nor what follows the record: to check a file, run a [`Session`](crate::Session) over it. For an A or
/// a Z the version does not matter.
pub fn check(bytes: &[u8], version: Version, agreed: &Agreed) -> Result<(), Refusal> {
    let (start, length) = (bytes.as_ptr(), bytes.len());
    let (keys, count) = agreed.as_raw();
    // SAFETY: pointers and lengths are those of slices.
    unsafe { raw::hollytrot_record_check(start, length, version.number(), keys, count) }.to_result()
}

/// The values of an accepted record of a file of this version. For an A or a Z the version does not matter: decode a
/// file's header with either one, and its payments with [`Header::version`].
pub fn decode(bytes: &[u8], version: Version, agreed: &Agreed) -> Result<Record, Refusal> {
    let (start, length) = (bytes.as_ptr(), bytes.len());
    let (keys, count) = agreed.as_raw();
    // SAFETY: pointers and lengths are those of slices.
    let decoded =
        unsafe { raw::hollytrot_record_decode(start, length, version.number(), keys, count) };
    decoded.answer.to_result()?;
    Ok(match decoded.letter as u8 {
        b'A' => Record::Header(Header {
            bank: decoded.header.bank,
            date: date(decoded.header.date),
            sequence: decoded.header.sequence,
            version: Version::from_number(decoded.header.version)
                .expect("a version in an accepted header"),
        }),
        b'G' => Record::Payment(Payment {
            paid: date(decoded.payment.paid),
            credited: date(decoded.payment.credited),
            barcode: Fields::from_raw(decoded.payment.barcode),
            received: decoded.payment.received,
            tariff: decoded.payment.tariff,
            number: decoded.payment.number,
        }),
        _ => Record::Trailer(Trailer {
            count: decoded.trailer.count,
            total: decoded.trailer.total,
        }),
    })
}

/// A date of an accepted record, which always has its dates.
fn date(date: raw::Date) -> Date {
    Date::from_raw(date).expect("a date in an accepted record")
}

/// The field of a row, as a part of an accepted record of a file of this version. The empty slice if the record is
/// refused, and for a row of another letter or past the table. For an A or a Z the version does not matter.
pub fn field<'a>(bytes: &'a [u8], version: Version, row: Row, agreed: &Agreed) -> &'a [u8] {
    let (start, length) = (bytes.as_ptr(), bytes.len());
    let (keys, count) = agreed.as_raw();
    // SAFETY: pointers and lengths are those of slices.
    let part =
        unsafe { raw::hollytrot_record_field(start, length, version.number(), row.0, keys, count) };
    &bytes[part.from..part.from + part.length]
}

/// The field bytes of an accepted A: what [`Writer::header`](crate::Writer::header) takes for the same record. A G is
/// refused 1, for the length of its field bytes, and a Z 9 at 1.
pub fn header_fields(bytes: &[u8]) -> Result<[u8; 80], Refusal> {
    // An A depends neither on the version nor on a right list, and a G is refused for the length of the buffer before
    // its version and its barcode are read.
    join(bytes, Version::Four, &Agreed::none())
}

/// The field bytes of an accepted G of a file of this version: what [`Writer::payment`](crate::Writer::payment) takes
/// for the same record. An A is refused 1, for the length of its field bytes, and a Z 9 at 1.
pub fn payment_fields(
    bytes: &[u8],
    version: Version,
    agreed: &Agreed,
) -> Result<[u8; 121], Refusal> {
    join(bytes, version, agreed)
}

fn join<const N: usize>(
    bytes: &[u8],
    version: Version,
    agreed: &Agreed,
) -> Result<[u8; N], Refusal> {
    let mut out = [0; N];
    let (start, length) = (bytes.as_ptr(), bytes.len());
    let (keys, count) = agreed.as_raw();
    let version = version.number();
    // SAFETY: pointers and lengths are those of slices, and `out` overlaps no other.
    unsafe { raw::hollytrot_record_join(start, length, version, keys, count, out.as_mut_ptr(), N) }
        .to_result()?;
    Ok(out)
}
