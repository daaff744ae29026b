//! The typed line of 48 digits: docs/SPEC.md, "Typed line".

use crate::agreed;
use crate::barcode::{self, Barcode};
use crate::checks::Modulus;
use crate::refusal::{Reason, Refusal};

pub const LENGTH: usize = 48;

/// How many digits a box has with its check, and without.
const BOX: usize = 12;
const BOX_DIGITS: usize = 11;

/// Decodes a typed line. Order: 25, 1, 2, 3, 4, 5, 6, 7, 11; places are those of the line.
pub fn decode(line: &[u8], agreed: &[u64]) -> Result<Barcode, Refusal> {
    agreed::check(agreed)?;
    let code = accepted_barcode(require_length(line)?)?;
    let due = barcode::due_date(&code, agreed, line_place)?;
    Ok(barcode::accepted_fields(&code, due))
}

/// Writes the typed line of a barcode: 25, 1 if either length is wrong, then the barcode's refusals. A refusal does not
/// change `line`.
pub fn line_from_barcode(code: &[u8], agreed: &[u64], line: &mut [u8]) -> Result<(), Refusal> {
    agreed::check(agreed)?;
    let code = barcode::require_length(code)?;
    let line: &mut [u8; LENGTH] = line.try_into().map_err(|_| Reason::Length.at(0))?;
    barcode::check_digits(code, 0)?;
    let modulus = barcode::check_first_three(code, 0)?;
    barcode::check_general(code, modulus, 0)?;
    barcode::due_date(code, agreed, |place| place)?;
    for (digits, typed) in boxes(code).zip(line.chunks_exact_mut(BOX)) {
        typed[..BOX_DIGITS].copy_from_slice(digits);
        // A check is one digit, so the cast loses nothing.
        typed[BOX_DIGITS] = b'0' + modulus.box_check(digits) as u8;
    }
    Ok(())
}

/// Writes the barcode of a typed line: 25, 1 if either length is wrong, then the line's refusals. A refusal does not
/// change `code`.
pub fn barcode_from_line(line: &[u8], agreed: &[u64], code: &mut [u8]) -> Result<(), Refusal> {
    agreed::check(agreed)?;
    let line = require_length(line)?;
    let code: &mut [u8; barcode::LENGTH] = code.try_into().map_err(|_| Reason::Length.at(0))?;
    let accepted = accepted_barcode(line)?;
    barcode::due_date(&accepted, agreed, line_place)?;
    *code = accepted;
    Ok(())
}

fn require_length(line: &[u8]) -> Result<&[u8; LENGTH], Refusal> {
    line.try_into().map_err(|_| Reason::Length.at(0))
}

/// The place in a line of a place in its barcode: each box before it adds its check.
const fn line_place(place: usize) -> usize {
    place + (place - 1) / BOX_DIGITS
}

/// The barcode of a line: 2, 3, 4, 5, 6, 7. The first four places of a line are those of its barcode, so the places of
/// their refusals are the same. The due date is not asked here.
#[inline(always)]
fn accepted_barcode(line: &[u8; LENGTH]) -> Result<[u8; barcode::LENGTH], Refusal> {
    barcode::check_digits(line, 0)?;
    // The line's third digit names the modulus of all five checks.
    let modulus = barcode::check_first_three(line, 0)?;
    check_boxes(line, modulus)?;
    let code = without_checks(line);
    barcode::check_general(&code, modulus, 0)?;
    Ok(code)
}

/// 6 at the check of the first wrong box.
fn check_boxes(line: &[u8; LENGTH], modulus: Modulus) -> Result<(), Refusal> {
    let (typed, _) = line.as_chunks::<BOX>();
    for (i, typed) in typed.iter().enumerate() {
        let [digits @ .., check] = typed;
        if u64::from(check - b'0') != modulus.box_check(digits) {
            return Err(Reason::BoxCheck.at(BOX * (i + 1)));
        }
    }
    Ok(())
}

/// The four boxes of eleven digits of a barcode.
fn boxes(code: &[u8; barcode::LENGTH]) -> impl Iterator<Item = &[u8; BOX_DIGITS]> {
    code.as_chunks().0.iter()
}

/// The line's digits without places 12, 24, 36 and 48.
fn without_checks(line: &[u8; LENGTH]) -> [u8; barcode::LENGTH] {
    let mut code = [b'0'; barcode::LENGTH];
    for (typed, digits) in line
        .chunks_exact(BOX)
        .zip(code.chunks_exact_mut(BOX_DIGITS))
    {
        digits.copy_from_slice(&typed[..BOX_DIGITS]);
    }
    code
}
