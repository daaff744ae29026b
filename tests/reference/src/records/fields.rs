//! The fields of a record: one function for each kind of content.

use super::table::*;
use super::versions::{self, Codes};
use super::LENGTH;
use crate::barcode::{self, Barcode};
use crate::dates::Date;
use crate::digits;
use crate::refusal::{Reason, Refusal};

/// The bytes of a row. The row is a constant, so its places are known when this is compiled.
#[inline(always)]
fn bytes<const ROW: usize>(record: &[u8; LENGTH]) -> &[u8] {
    &record[TABLE[ROW].first - 1..TABLE[ROW].last]
}

/// A fixed field: only 10, at its first place.
#[inline(always)]
pub(super) fn fixed<const ROW: usize>(record: &[u8; LENGTH]) -> Result<(), Refusal> {
    let wanted = const {
        match TABLE[ROW].content {
            Content::Fixed(wanted) => wanted,
            _ => panic!("this row is not a fixed field"),
        }
    };
    if bytes::<ROW>(record) != wanted {
        return Err(Reason::Fixed.at(TABLE[ROW].first));
    }
    Ok(())
}

/// The service field, in either spelling: only 10, at its first place.
#[inline(always)]
pub(super) fn service(record: &[u8; LENGTH]) -> Result<(), Refusal> {
    let field = bytes::<A_SERVICE>(record);
    if field != SERVICE_PLAIN && field != SERVICE_ACCENTED {
        return Err(Reason::Fixed.at(TABLE[A_SERVICE].first));
    }
    Ok(())
}

/// The version of an A, as a number: only 10, at its first place.
#[inline(always)]
pub(super) fn version(record: &[u8; LENGTH]) -> Result<u64, Refusal> {
    match bytes::<A_VERSION>(record) {
        b"04" => Ok(4),
        b"06" => Ok(6),
        _ => Err(versions::unknown()),
    }
}

/// A text field: 8 at the first byte that is not a text byte.
#[inline(always)]
pub(super) fn text<const ROW: usize>(record: &[u8; LENGTH]) -> Result<(), Refusal> {
    const { assert!(matches!(TABLE[ROW].content, Content::Text)) };
    let field = bytes::<ROW>(record);
    if digits::all_text(field) {
        return Ok(());
    }
    Err(no_text(field, TABLE[ROW].first))
}

#[cold]
#[inline(never)]
fn no_text(field: &[u8], first: usize) -> Refusal {
    let text = field.iter().take_while(|&&byte| digits::is_text(byte));
    Reason::NoText.at(first + text.count())
}

/// A digit or money field of at most 17 digits: 2 at the first byte that is not a digit.
#[inline(always)]
pub(super) fn number<const ROW: usize>(record: &[u8; LENGTH]) -> Result<u64, Refusal> {
    const {
        assert!(matches!(
            TABLE[ROW].content,
            Content::Digits | Content::Money
        ));
        assert!(TABLE[ROW].last - TABLE[ROW].first < 17);
    };
    let field = bytes::<ROW>(record);
    barcode::check_digits(field, TABLE[ROW].first - 1)?;
    Ok(digits::value(field))
}

/// A date: 2 at the first byte that is not a digit, then 11 at the first place.
#[inline(always)]
pub(super) fn date<const ROW: usize>(record: &[u8; LENGTH]) -> Result<Date, Refusal> {
    const { assert!(matches!(TABLE[ROW].content, Content::Date)) };
    let field = bytes::<ROW>(record);
    barcode::check_digits(field, TABLE[ROW].first - 1)?;
    let date = field.try_into().ok().and_then(Date::from_digits);
    date.ok_or(Reason::NoDate.at(TABLE[ROW].first))
}

/// The barcode of a G; its refusals have places of the record.
#[inline(always)]
pub(super) fn barcode(record: &[u8; LENGTH], agreed: &[u64]) -> Result<Barcode, Refusal> {
    let before = TABLE[G_BARCODE].first - 1;
    let code = barcode::require_length(bytes::<G_BARCODE>(record))?;
    barcode::decode_within(code, before, agreed)
}

/// Capture: only 12.
#[inline(always)]
pub(super) fn capture(record: &[u8; LENGTH], codes: Codes) -> Result<u8, Refusal> {
    let place = TABLE[G_CAPTURE].first;
    let capture = record[place - 1];
    if !codes.has_capture(capture) {
        return Err(Reason::UnknownCode.at(place));
    }
    Ok(capture)
}

/// Payment form: only 12.
#[inline(always)]
pub(super) fn form(record: &[u8; LENGTH], codes: Codes) -> Result<u8, Refusal> {
    let place = TABLE[G_FORM].first;
    let form = record[place - 1];
    if !codes.has_form(form) {
        return Err(Reason::UnknownCode.at(place));
    }
    Ok(form)
}
