//! What the tests share: records that are spelled out, not made by the writer.

// No test file uses all of this module.
#![allow(dead_code, unused_imports)]

pub mod memories;
pub mod naive;
pub mod steps;

use reference::random::Random;
use reference::{answer, days, line, records, Issuer, Memory, Pair, Record, Refusal};

/// The typed line of P4, without blanks.
pub const P4: &[u8; 48] = b"817700000000010936599702411310797039001433708318";

pub const DATE: &str = "20240131";

/// The barcode of P4.
pub fn p4_code() -> [u8; 44] {
    barcode_of_line(P4)
}

pub fn barcode_of_line(typed: &[u8]) -> [u8; 44] {
    let mut code = [0; 44];
    line::barcode_from_line(typed, &[], &mut code).expect("a good line");
    code
}

/// A header of version 04, spelled out.
pub fn a() -> [u8; 150] {
    let text = format!(
        "A2{:<20}{:<20}{:03}{:<20}{DATE}{:06}04CODIGO DE BARRAS {:52}",
        "AGREEMENT", "COMPANY", 341, "BANK", 1, ""
    );
    text.as_bytes().try_into().expect("150 bytes")
}

/// The same header of version 06.
pub fn a06() -> [u8; 150] {
    with_bytes(a(), 80, b"06")
}

/// The header with another sequence number.
pub fn numbered(header: [u8; 150], number: u64) -> [u8; 150] {
    with_bytes(header, 74, format!("{number:06}").as_bytes())
}

/// The header `a`, which has number 1, with this number.
pub fn a_of(number: u64) -> [u8; 150] {
    numbered(a(), number)
}

/// The same header of this bank and agreement.
pub fn a_by(bank: &[u8; 3], agreement: &[u8; 20], number: u64) -> [u8; 150] {
    with_bytes(with_bytes(a_of(number), 43, bank), 3, agreement)
}

/// The same header of the i-th of many pairs, by bank 001 and so on.
pub fn a_nth(i: u64, number: u64) -> [u8; 150] {
    with_bytes(a_of(number), 43, format!("{i:03}").as_bytes())
}

/// What a new session remembers of one accepted file with the header `a`, or `a06`.
pub fn memory_of_a() -> Memory {
    let mut memory = Memory::new();
    memory.pairs[0] = Pair {
        bank: *b"341",
        agreement: *b"AGREEMENT           ",
        sequence: 1,
    };
    memory.used = 1;
    memory
}

/// A payment of a barcode with tariff 150, spelled out. Its codes are of both versions.
pub fn g(code: &[u8; 44], received: u64) -> [u8; 150] {
    g_tariff(code, received, 150)
}

/// The same payment with this tariff.
pub fn g_tariff(code: &[u8; 44], received: u64, tariff: u64) -> [u8; 150] {
    let code = String::from_utf8(code.to_vec()).expect("digits");
    let text = format!(
        "G{:<20}{DATE}{DATE}{code}{received:012}{tariff:07}{:08}{:<8}a{:<23}2{:9}",
        "ACCOUNT", 1, "BRANCH", "AUTHENTICATION", ""
    );
    text.as_bytes().try_into().expect("150 bytes")
}

/// A trailer, spelled out.
pub fn z(count: u64, total: u64) -> [u8; 150] {
    let text = format!("Z{count:06}{total:017}{:126}", "");
    text.as_bytes().try_into().expect("150 bytes")
}

/// The field bytes of the header `a`.
pub fn header_fields() -> [u8; 80] {
    let mut fields = [0; 80];
    records::join(&a(), 4, &[], &mut fields).expect("a good header");
    fields
}

/// The field bytes of a payment of P4.
pub fn payment_fields() -> [u8; 121] {
    let mut fields = [0; 121];
    records::join(&g(&p4_code(), 0), 4, &[], &mut fields).expect("a good payment");
    fields
}

/// The record with its line end.
pub fn lined(record: &[u8; 150]) -> [u8; 152] {
    let mut bytes = [13; 152];
    bytes[..150].copy_from_slice(record);
    bytes[151] = 10;
    bytes
}

/// The record with any bytes behind it.
pub fn followed(record: &[u8; 150], end: &[u8]) -> Vec<u8> {
    [&record[..], end].concat()
}

/// The records with a line end behind each.
pub fn lined_all(records: &[[u8; 150]]) -> Vec<u8> {
    records.iter().flat_map(lined).collect()
}

/// The record with other bytes from a place on.
pub fn with_bytes(mut record: [u8; 150], place: usize, bytes: &[u8]) -> [u8; 150] {
    record[place - 1..place - 1 + bytes.len()].copy_from_slice(bytes);
    record
}

/// The bytes with another byte at a place.
pub fn with_byte<const N: usize>(mut bytes: [u8; N], place: usize, byte: u8) -> [u8; N] {
    bytes[place - 1] = byte;
    bytes
}

/// The barcode of an issuer in kind 6, without value.
pub fn code_for(segment: u64, number: u64) -> [u8; 44] {
    let mut code = [0; 44];
    let free = vec![b'0'; reference::barcode::free_length(segment)];
    reference::barcode::build(segment, 6, 0, number, &free, &[], &mut code).expect("good fields");
    code
}

/// The barcode of an issuer in kind 6, without value, whose free field begins with these digits.
pub fn code_due(segment: u64, number: u64, first: &[u8; 8]) -> [u8; 44] {
    let mut code = [0; 44];
    let mut free = vec![b'0'; reference::barcode::free_length(segment)];
    free[..8].copy_from_slice(first);
    reference::barcode::build(segment, 6, 0, number, &free, &[], &mut code).expect("good fields");
    code
}

/// The key of an issuer.
pub fn key_of(segment: u64, number: u64) -> u64 {
    reference::agreed::key(Issuer { segment, number })
}

/// A right list of this length, in rising order.
pub fn rising(length: u64) -> Vec<u64> {
    (0..length).map(|number| key_of(3, number * 7)).collect()
}

/// A random list, mostly a right one, with these issuers or without them.
pub fn any_list(random: &mut Random, issuers: &[Issuer]) -> Vec<u64> {
    match random.below(8) {
        0 => days::wrong_agreed(random, issuers),
        1 => Vec::new(),
        _ => days::agreed(random, issuers),
    }
}

/// Wrong lists: of 65 entries, with an entry that names no issuer, with an issuer twice.
pub const WRONG: [&[u64]; 7] = [
    &SIXTY_FIVE,
    &[0],
    &[3_659],
    &[800_003_659],
    &[100_003_659, 200_010_000],
    &[100_003_659, 200_000_001, 100_003_659],
    &[u64::MAX],
];

/// 65 issuers.
const SIXTY_FIVE: [u64; 65] = {
    let mut list = [0; 65];
    let mut i = 0;
    while i < 65 {
        list[i] = 100_003_600 + i as u64;
        i += 1;
    }
    list
};

/// Decodes a record that both versions decode alike.
#[track_caller]
pub fn decode(record: &[u8]) -> Result<Record, Refusal> {
    let outcome = records::decode(record, 4, &[]);
    assert_eq!(records::decode(record, 6, &[]), outcome);
    outcome
}

/// The outcome must have this answer.
#[track_caller]
pub fn assert_answer<T>(outcome: Result<T, Refusal>, number: u64, place: usize) {
    assert_eq!(answer(&outcome), (number, place));
}
