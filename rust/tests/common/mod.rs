//! What the tests share: an empty list, a refusal, and the field bytes of a header and of a payment.

// No test file uses all of this module.
#![allow(dead_code)]

use hollytrot::{barcode, Agreed, Issuer, Reason, Refusal};

pub const HEADER: &[u8; 80] =
    b"AGREEMENT           COMPANY             237BANK                2023123100432104O";

/// The same with another sequence number.
pub fn header_numbered(number: u64) -> [u8; 80] {
    let mut fields = *HEADER;
    fields[71..77].copy_from_slice(format!("{number:06}").as_bytes());
    fields
}

/// No agreed issuers.
pub static NONE: Agreed = Agreed::none();

/// The issuer of [`code`].
pub const ISSUER: Issuer = Issuer {
    segment: 6,
    number: 12_345_678,
};

pub fn refused(reason: Reason, place: usize) -> Refusal {
    Refusal { reason, place }
}

/// A barcode of segment 6, where issuer and free field have other widths than elsewhere. Its free field starts with a
/// date.
pub fn code() -> [u8; 44] {
    let free = b"202402291234567890123";
    barcode::build(ISSUER, 8, 98_765_432_109, free, &NONE).expect("good fields")
}

pub fn payment_of(code: &[u8]) -> [u8; 121] {
    let mut fields = [b' '; 121];
    fields[20..36].copy_from_slice(b"2024010220240304");
    fields[36..80].copy_from_slice(code);
    fields[80..88].copy_from_slice(b"00056789");
    fields[96] = b'a';
    fields[120] = b'2';
    fields
}
