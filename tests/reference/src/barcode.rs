//! The collection barcode of 44 digits: docs/SPEC.md, "Barcode" and "Builder".

use crate::agreed;
use crate::checks::Modulus;
use crate::dates::Date;
use crate::digits;
use crate::refusal::{Reason, Refusal};

pub const LENGTH: usize = 44;

/// Place of the product; the segment, the kind and the general check follow.
const PRODUCT: usize = 1;
const SEGMENT: usize = 2;
const KIND: usize = 3;
const GENERAL_CHECK: usize = 4;
const VALUE: usize = 5;
const ISSUER: usize = 16;

/// An issuer: the segment together with its number. Number 3659 in segments 1 and 2 is two issuers.
#[derive(Clone, Copy, Debug, Default, PartialEq, Eq, PartialOrd, Ord, Hash)]
pub struct Issuer {
    pub segment: u64,
    pub number: u64,
}

impl Issuer {
    /// How many digits the number has: 8 in segment 6, else 4.
    #[inline]
    pub const fn width(self) -> usize {
        issuer_width(self.segment)
    }

    /// Whether the segment is 1 to 7 or 9, and the number has at most 4 digits, in segment 6 at most 8.
    #[inline]
    pub const fn is_issuer(self) -> bool {
        let bound = if self.segment == 6 {
            100_000_000
        } else {
            10_000
        };
        is_segment(self.segment) && self.number < bound
    }
}

/// The fields of a barcode or a typed line. The due date is that of an agreed issuer; another issuer has none.
#[derive(Clone, Copy, Debug, PartialEq, Eq, Hash)]
pub struct Barcode {
    pub segment: u64,
    pub kind: u64,
    pub value: u64,
    pub issuer: u64,
    pub due: Option<Date>,
}

impl Barcode {
    /// The issuer with its segment.
    #[inline]
    pub const fn issuer(&self) -> Issuer {
        Issuer {
            segment: self.segment,
            number: self.issuer,
        }
    }
}

/// Whether the number is a segment: 1 to 7 or 9.
#[inline]
const fn is_segment(segment: u64) -> bool {
    matches!(segment, 1..=7 | 9)
}

/// How many digits an issuer's number has in a segment.
#[inline]
pub const fn issuer_width(segment: u64) -> usize {
    if segment == 6 {
        8
    } else {
        4
    }
}

/// The place of the free field's first digit in a segment.
#[inline]
pub const fn free_place(segment: u64) -> usize {
    ISSUER + issuer_width(segment)
}

/// The length of the free field in a segment: 25, in segment 6 21.
#[inline]
pub const fn free_length(segment: u64) -> usize {
    LENGTH + 1 - free_place(segment)
}

/// Decodes a barcode. Order: 25, 1, 2, 3, 4, 5, 7, 11.
pub fn decode(barcode: &[u8], agreed: &[u64]) -> Result<Barcode, Refusal> {
    agreed::check(agreed)?;
    decode_within(require_length(barcode)?, 0, agreed)
}

/// The free field, as a part of the barcode; the empty slice if the barcode or the list is refused.
pub fn free_field<'a>(barcode: &'a [u8], agreed: &[u64]) -> &'a [u8] {
    match decode(barcode, agreed) {
        Ok(decoded) => &barcode[free_place(decoded.segment) - 1..],
        Err(_) => &[],
    }
}

/// Builds a barcode from its fields. Order: 25, 1 for `out`, 4, 5, 1 for the free field, 21 for the value, 21 for the
/// issuer, 2, 11. A refusal does not change `out`.
pub fn build(
    segment: u64,
    kind: u64,
    value: u64,
    issuer: u64,
    free: &[u8],
    agreed: &[u64],
    out: &mut [u8],
) -> Result<(), Refusal> {
    agreed::check(agreed)?;
    let out: &mut [u8; LENGTH] = out.try_into().map_err(|_| Reason::Length.at(0))?;
    check_segment(segment, 0)?;
    let modulus = check_kind(kind, 0)?;
    if free.len() != free_length(segment) {
        return Err(Reason::Length.at(0));
    }
    let mut built = [b'0'; LENGTH];
    // Segment and kind are single digits here, so the casts lose nothing.
    built[PRODUCT - 1] = b'8';
    built[SEGMENT - 1] = b'0' + segment as u8;
    built[KIND - 1] = b'0' + kind as u8;
    if !digits::write(value, &mut built[VALUE - 1..ISSUER - 1]) {
        return Err(Reason::WideNumber.at(VALUE));
    }
    let first_free = free_place(segment);
    if !digits::write(issuer, &mut built[ISSUER - 1..first_free - 1]) {
        return Err(Reason::WideNumber.at(ISSUER));
    }
    built[first_free - 1..].copy_from_slice(free);
    check_digits(&built, 0)?;
    due_date(&built, agreed, |place| place)?;
    // A check is one digit, so the cast loses nothing.
    built[GENERAL_CHECK - 1] = b'0' + modulus.general_check(&built) as u8;
    *out = built;
    Ok(())
}

/// 1 for a length other than 44.
pub(crate) fn require_length(barcode: &[u8]) -> Result<&[u8; LENGTH], Refusal> {
    barcode.try_into().map_err(|_| Reason::Length.at(0))
}

/// Decodes a barcode that has `before` places before it: 37 inside a G.
#[inline(always)]
pub(crate) fn decode_within(
    barcode: &[u8; LENGTH],
    before: usize,
    agreed: &[u64],
) -> Result<Barcode, Refusal> {
    check_digits(barcode, before)?;
    let modulus = check_first_three(barcode, before)?;
    check_general(barcode, modulus, before)?;
    let due = due_date(barcode, agreed, |place| before + place)?;
    Ok(accepted_fields(barcode, due))
}

/// 2 at the first byte that is not a digit.
#[inline(always)]
pub(crate) fn check_digits(bytes: &[u8], before: usize) -> Result<(), Refusal> {
    if digits::all_digits(bytes) {
        return Ok(());
    }
    Err(no_digit(bytes, before))
}

/// The refusal for bytes that are not all digits.
#[cold]
#[inline(never)]
fn no_digit(bytes: &[u8], before: usize) -> Refusal {
    let i = bytes.iter().take_while(|&&byte| digits::is_digit(byte));
    Reason::NoDigit.at(before + i.count() + 1)
}

/// 3, 4, 5 for the first three digits of a barcode or typed line; returns the modulus that the third one names.
#[inline(always)]
pub(crate) fn check_first_three(digits: &[u8], before: usize) -> Result<Modulus, Refusal> {
    if digits[PRODUCT - 1] != b'8' {
        return Err(Reason::Product.at(before + PRODUCT));
    }
    check_segment(u64::from(digits[SEGMENT - 1] - b'0'), before)?;
    check_kind(u64::from(digits[KIND - 1] - b'0'), before)
}

#[inline(always)]
fn check_segment(segment: u64, before: usize) -> Result<(), Refusal> {
    if !is_segment(segment) {
        return Err(Reason::Segment.at(before + SEGMENT));
    }
    Ok(())
}

#[inline(always)]
fn check_kind(kind: u64, before: usize) -> Result<Modulus, Refusal> {
    Modulus::from_kind(kind).ok_or(Reason::Kind.at(before + KIND))
}

/// 7 if the general check is wrong.
#[inline(always)]
pub(crate) fn check_general(
    barcode: &[u8; LENGTH],
    modulus: Modulus,
    before: usize,
) -> Result<(), Refusal> {
    let given = u64::from(barcode[GENERAL_CHECK - 1] - b'0');
    if given != modulus.general_check(barcode) {
        return Err(Reason::GeneralCheck.at(before + GENERAL_CHECK));
    }
    Ok(())
}

/// The fields of an accepted barcode with this due date.
#[inline(always)]
pub(crate) fn accepted_fields(barcode: &[u8; LENGTH], due: Option<Date>) -> Barcode {
    let Issuer { segment, number } = issuer_of(barcode);
    Barcode {
        segment,
        kind: u64::from(barcode[KIND - 1] - b'0'),
        value: digits::value(&barcode[VALUE - 1..ISSUER - 1]),
        issuer: number,
        due,
    }
}

/// The issuer of a barcode of digits.
#[inline(always)]
fn issuer_of(barcode: &[u8; LENGTH]) -> Issuer {
    let segment = u64::from(barcode[SEGMENT - 1] - b'0');
    // Each branch has constant places, so neither reads at a computed one.
    let number = match segment {
        6 => digits::value(&barcode[15..23]),
        _ => digits::value(&barcode[15..19]),
    };
    Issuer { segment, number }
}

/// The due date of a barcode of digits: the date of the free field's first eight digits if the issuer is agreed, else
/// none. 11 if an agreed issuer has no date there; `shown` gives the place to show for the free field's first one. The
/// list is already judged.
#[inline(always)]
pub(crate) fn due_date(
    barcode: &[u8; LENGTH],
    agreed: &[u64],
    shown: impl FnOnce(usize) -> usize,
) -> Result<Option<Date>, Refusal> {
    if agreed.is_empty() {
        return Ok(None);
    }
    listed_due_date(barcode, agreed, shown)
}

/// The due date under a list that is not empty. It is not inlined, so that an empty list costs one comparison.
#[inline(never)]
fn listed_due_date(
    barcode: &[u8; LENGTH],
    agreed: &[u64],
    shown: impl FnOnce(usize) -> usize,
) -> Result<Option<Date>, Refusal> {
    let issuer = issuer_of(barcode);
    if !agreed::is_agreed(issuer, agreed) {
        return Ok(None);
    }
    let place = free_place(issuer.segment);
    let first_eight = barcode[place - 1..].first_chunk();
    match first_eight.and_then(Date::from_digits) {
        None => Err(Reason::NoDate.at(shown(place))),
        due => Ok(due),
    }
}
