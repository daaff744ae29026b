//! Lists of agreed issuers, due dates and the builder by the naive rules.

use std::collections::BTreeSet;

use super::{barcode, check, is_date, is_digit, modulus, Outcome};

/// Eight digits that are a due date.
pub type Due = [u8; 8];

/// 25 for a wrong list. The decimal digits of a key are the segment and eight digits of the number.
pub fn list(agreed: &[u64]) -> Outcome<()> {
    let mut texts = BTreeSet::new();
    for entry in agreed {
        let text = entry.to_string();
        let named = text.len() == 9
            && "12345679".contains(&text[..1])
            && (text.starts_with('6') || &text[1..5] == "0000");
        if !named || !texts.insert(text) {
            return Err((25, 0));
        }
    }
    if texts.len() > 64 {
        return Err((25, 0));
    }
    Ok(())
}

/// Whether the issuer of a barcode of digits is in a list.
pub fn is_listed(code: &[u8], agreed: &[u64]) -> bool {
    let text = match code[1] {
        b'6' => [&code[1..2], &code[15..23]].concat(),
        _ => [&code[1..2], b"0000", &code[15..19]].concat(),
    };
    agreed
        .iter()
        .any(|entry| entry.to_string().into_bytes() == text)
}

/// The due date shown for a barcode of digits, or 11 at its place there.
pub fn due(code: &[u8], agreed: &[u64]) -> Outcome<Option<Due>> {
    let place = if code[1] == b'6' { 24 } else { 20 };
    let digits: Due = code[place - 1..place + 7].try_into().expect("eight");
    match (is_listed(code, agreed), is_date(&digits)) {
        (false, _) => Ok(None),
        (true, true) => Ok(Some(digits)),
        (true, false) => Err((11, place)),
    }
}

/// The barcode that is built from fields in a buffer of this length.
pub fn build(
    [segment, kind, value, issuer]: [u64; 4],
    free: &[u8],
    agreed: &[u64],
    length: usize,
) -> Outcome<Vec<u8>> {
    list(agreed)?;
    let wide = if segment == 6 { 8 } else { 4 };
    let (value, issuer) = (format!("{value:011}"), format!("{issuer:0wide$}"));
    if length != 44 {
        return Err((1, 0));
    }
    if segment == 0 || segment == 8 || segment > 9 {
        return Err((4, 2));
    }
    if !(6..=9).contains(&kind) {
        return Err((5, 3));
    }
    if wide + free.len() != 29 {
        return Err((1, 0));
    }
    if value.len() > 11 {
        return Err((21, 5));
    }
    if issuer.len() > wide {
        return Err((21, 16));
    }
    if let Some(i) = free.iter().position(|byte| !is_digit(*byte)) {
        return Err((2, 16 + wide + i));
    }
    let start = format!("8{segment}{kind}");
    let rest = [start.as_bytes(), value.as_bytes(), issuer.as_bytes(), free].concat();
    let digit = check(modulus(rest[2]), &rest).to_string();
    let code = [&rest[..3], digit.as_bytes(), &rest[3..]].concat();
    barcode(&code, agreed).map(|_| code)
}
