//! The versions of the layout in random inputs: which version is told with a record, and records that have the codes of
//! the other version.

use reference::random::Random;
use reference::records::{A_VERSION, G_CAPTURE, G_FORM, LENGTH, TABLE};
use reference::{days, digits};

use crate::lines;

/// Numbers that are no version. Some are next to a version, the byte of its digit, or equal to it in the low bits.
pub const OTHERS: [u64; 11] = [
    0,
    3,
    5,
    7,
    52,
    54,
    77,
    (1 << 8) + 6,
    (1 << 32) + 4,
    (1 << 63) + 6,
    u64::MAX,
];

/// The captures and payment forms at the edges of both versions, and the bytes next to them.
const CAPTURES: &[u8] = b"016789:`afghij";
const FORMS: &[u8] = b"0134567";

/// A version as a caller may tell it: mostly 4 or 6.
pub fn told(random: &mut Random) -> u64 {
    match random.below(8) {
        0 => OTHERS[random.index(OTHERS.len())],
        1 if random.once_in(8) => random.bits(),
        _ => days::version(random),
    }
}

/// The version that a record is made under, 4 or 6: mostly the one that is told.
pub fn made(random: &mut Random, told: u64) -> u64 {
    let is_version = told == 4 || told == 6;
    if is_version && !random.once_in(4) {
        told
    } else {
        days::version(random)
    }
}

/// A random A of this version, 4 or 6.
pub fn header(random: &mut Random, version: u64) -> [u8; LENGTH] {
    let mut record = days::header(random).expect("a good header");
    let field = TABLE[A_VERSION];
    digits::write(version, &mut record[field.first - 1..field.last]);
    record
}

/// Changes the version of an A, or the capture or the payment form of a G, to one of either version or to a byte next
/// to them. It may be the same as before. A Z and other bytes do not change.
pub fn change(random: &mut Random, record: &mut [u8]) {
    let row = match record.first() {
        Some(b'A') => A_VERSION,
        Some(b'G') if random.once_in(2) => G_CAPTURE,
        Some(b'G') => G_FORM,
        _ => return,
    };
    let Some(field) = record.get_mut(TABLE[row].first - 1..TABLE[row].last) else {
        return;
    };
    match row {
        A_VERSION if random.once_in(4) => drop(digits::write(random.below(10), field)),
        A_VERSION => drop(digits::write(days::version(random), field)),
        G_CAPTURE => field[0] = random.one_of(CAPTURES),
        _ => field[0] = random.one_of(FORMS),
    }
}

/// Changes one to three records of a day.
pub fn change_day(random: &mut Random, bytes: &mut [u8]) {
    let records = lines::records(bytes);
    for _ in 0..random.between(1, 3) {
        if let Some(record) = records.get(random.index(records.len())) {
            change(random, &mut bytes[record.clone()]);
        }
    }
}
