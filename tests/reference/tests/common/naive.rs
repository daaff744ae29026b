//! A naive version of the same rules, which does nothing for speed: numbers have 128 bits and boards are vectors. The
//! program is compared with it.

mod lists;
mod numbers;
mod sessions;

pub use lists::*;
pub use numbers::*;
pub use sessions::*;

pub type Answer = (u64, usize);
type Outcome<T> = Result<T, Answer>;

pub fn is_digit(byte: u8) -> bool {
    (48..=57).contains(&byte)
}

pub fn is_text(byte: u8) -> bool {
    (32..=126).contains(&byte) || (160..=255).contains(&byte)
}

pub fn number(bytes: &[u8]) -> u128 {
    bytes.iter().fold(0, |n, b| n * 10 + u128::from(*b) - 48)
}

pub fn is_date(bytes: &[u8]) -> bool {
    let (year, month, day) = (
        number(&bytes[..4]),
        number(&bytes[4..6]),
        number(&bytes[6..8]),
    );
    let leap = if year % 100 == 0 {
        year % 400 == 0
    } else {
        year % 4 == 0
    };
    let last = match month {
        2 => 28 + u128::from(leap),
        4 | 6 | 9 | 11 => 30,
        _ => 31,
    };
    (1900..=2199).contains(&year) && (1..=12).contains(&month) && (1..=last).contains(&day)
}

/// The check of digits under modulo 10 or 11.
pub fn check(modulus: u128, digits: &[u8]) -> u128 {
    let mut weight = 2;
    let mut sum = 0;
    for byte in digits.iter().rev() {
        let product = weight * u128::from(*byte - 48);
        if modulus == 10 {
            sum += product / 10 + product % 10;
            weight = if weight == 2 { 1 } else { 2 };
        } else {
            sum += product;
            weight = if weight == 9 { 2 } else { weight + 1 };
        }
    }
    match (modulus, sum % modulus) {
        (_, 0) => 0,
        (11, 1) => 0,
        (_, rest) => modulus - rest,
    }
}

fn modulus(kind: u8) -> u128 {
    if kind == b'6' || kind == b'7' {
        10
    } else {
        11
    }
}

fn start(bytes: &[u8]) -> Outcome<()> {
    for (i, byte) in bytes.iter().enumerate() {
        if !is_digit(*byte) {
            return Err((2, i + 1));
        }
    }
    if bytes[0] != b'8' {
        return Err((3, 1));
    }
    if bytes[1] == b'0' || bytes[1] == b'8' {
        return Err((4, 2));
    }
    if bytes[2] < b'6' {
        return Err((5, 3));
    }
    Ok(())
}

fn general(code: &[u8]) -> Outcome<()> {
    let rest = [&code[..3], &code[4..]].concat();
    if number(&code[3..4]) != check(modulus(code[2]), &rest) {
        return Err((7, 4));
    }
    Ok(())
}

/// The due date that a barcode shows.
pub fn barcode(code: &[u8], agreed: &[u64]) -> Outcome<Option<Due>> {
    list(agreed)?;
    if code.len() != 44 {
        return Err((1, 0));
    }
    start(code)?;
    general(code)?;
    due(code, agreed)
}

/// The due date that a typed line shows.
pub fn typed_line(line: &[u8], agreed: &[u64]) -> Outcome<Option<Due>> {
    list(agreed)?;
    if line.len() != 48 {
        return Err((1, 0));
    }
    start(line)?;
    let mut code = Vec::new();
    for typed in line.chunks(12) {
        code.extend_from_slice(&typed[..11]);
    }
    for (i, typed) in line.chunks(12).enumerate() {
        if number(&typed[11..]) != check(modulus(line[2]), &typed[..11]) {
            return Err((6, (i + 1) * 12));
        }
    }
    general(&code)?;
    // The places of the line's digits that are no checks: the barcode's places, one by one.
    let places: Vec<usize> = (1..=48).filter(|place| place % 12 != 0).collect();
    due(&code, agreed).map_err(|(number, place)| (number, places[place - 1]))
}

/// First place, last place and content: t text, n number, d date, b barcode, c capture, f payment form, v version,
/// s service, _ blanks, or a fixed string after =.
const A: &[(usize, usize, &str)] = &[
    (2, 2, "=2"),
    (3, 22, "t"),
    (23, 42, "t"),
    (43, 45, "n"),
    (46, 65, "t"),
    (66, 73, "d"),
    (74, 79, "n"),
    (80, 81, "v"),
    (82, 98, "s"),
    (99, 150, "_"),
];
const G: &[(usize, usize, &str)] = &[
    (2, 21, "t"),
    (22, 29, "d"),
    (30, 37, "d"),
    (38, 81, "b"),
    (82, 93, "n"),
    (94, 100, "n"),
    (101, 108, "n"),
    (109, 116, "t"),
    (117, 117, "c"),
    (118, 140, "t"),
    (141, 141, "f"),
    (142, 150, "_"),
];
const Z: &[(usize, usize, &str)] = &[(2, 7, "n"), (8, 24, "n"), (25, 150, "_")];

/// The captures and the payment forms: each byte with the first version that has it.
const CAPTURES: &[(&[u8], u64)] = &[(b"123456", 4), (b"789", 6), (b"abcdef", 4), (b"ghi", 6)];
const FORMS: &[(&[u8], u64)] = &[(b"123", 4), (b"456", 6)];

fn is_code(codes: &[(&[u8], u64)], byte: u8, version: u64) -> bool {
    codes
        .iter()
        .any(|(bytes, since)| bytes.contains(&byte) && *since <= version)
}

fn field(first: usize, bytes: &[u8], content: &str, version: u64, agreed: &[u64]) -> Outcome<()> {
    let no = |number: u64, bad: &dyn Fn(u8) -> bool| match bytes.iter().position(|byte| bad(*byte))
    {
        Some(i) => Err((number, first + i)),
        None => Ok(()),
    };
    let or = |good: bool, number: u64| if good { Ok(()) } else { Err((number, first)) };
    match content {
        "t" => no(8, &|byte| !is_text(byte)),
        "n" => no(2, &|byte| !is_digit(byte)),
        "d" => {
            no(2, &|byte| !is_digit(byte))?;
            or(is_date(bytes), 11)
        }
        "b" => match barcode(bytes, agreed) {
            Ok(_) => Ok(()),
            Err((number, place)) => Err((number, first + place - 1)),
        },
        "c" => or(is_code(CAPTURES, bytes[0], version), 12),
        "f" => or(is_code(FORMS, bytes[0], version), 12),
        "v" => or(bytes[0] == 48 && (bytes[1] == 52 || bytes[1] == 54), 10),
        "s" => {
            let rest = bytes[0] == b'C' && &bytes[2..] == b"DIGO DE BARRAS ";
            or(rest && (bytes[1] == 79 || bytes[1] == 211), 10)
        }
        "_" => or(bytes.iter().all(|byte| *byte == 32), 10),
        fixed => or(bytes == &fixed.as_bytes()[1..], 10),
    }
}

/// A single record, whose letter must be one of those allowed, in a file of this version.
pub fn record(bytes: &[u8], version: u64, allowed: &[u8], agreed: &[u64]) -> Outcome<()> {
    list(agreed)?;
    if bytes.len() != 150 {
        return Err((1, 0));
    }
    if !allowed.contains(&bytes[0]) {
        return Err((9, 1));
    }
    if bytes[0] == b'G' && version != 4 && version != 6 {
        return Err((10, 80));
    }
    let rows = match bytes[0] {
        b'A' => A,
        b'G' => G,
        _ => Z,
    };
    for (first, last, content) in rows {
        field(*first, &bytes[first - 1..*last], content, version, agreed)?;
    }
    Ok(())
}

/// The field bytes of an A or a G in a file of this version, for a buffer of this length.
pub fn join(bytes: &[u8], version: u64, agreed: &[u64], length: usize) -> Outcome<Vec<u8>> {
    list(agreed)?;
    if bytes.len() != 150 {
        return Err((1, 0));
    }
    let fields = match bytes[0] {
        b'A' => [&bytes[2..79], &bytes[79..81], &bytes[82..83]].concat(),
        b'G' => [&bytes[1..81], &bytes[100..141]].concat(),
        _ => return Err((9, 1)),
    };
    if length != fields.len() {
        return Err((1, 0));
    }
    record(bytes, version, b"AG", agreed)?;
    Ok(fields)
}
