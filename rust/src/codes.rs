//! Barcodes, typed lines, dates and check digits.

use std::fmt;

use crate::raw;
use crate::Refusal;

/// An issuer is the segment together with its number: 3659 in segments 1 and 2 is two issuers.
#[repr(C)]
#[derive(Clone, Copy, Debug, PartialEq, Eq, Hash, PartialOrd, Ord)]
pub struct Issuer {
    pub segment: u64,
    pub number: u64,
}

/// A date of the years 1900 to 2199. A value of this type is always a date of the calendar.
#[derive(Clone, Copy, Debug, PartialEq, Eq, Hash, PartialOrd, Ord)]
pub struct Date {
    year: u16,
    month: u8,
    day: u8,
}

impl Date {
    /// The date of these numbers; `None` if they are not a date.
    pub fn new(year: u16, month: u8, day: u8) -> Option<Date> {
        let date = raw::Date {
            year: year.into(),
            month: month.into(),
            day: day.into(),
        };
        // SAFETY: the engine accepts any three numbers.
        unsafe { raw::hollytrot_date_check(date) }.then_some(Date { year, month, day })
    }

    /// The date of eight digits, YYYYMMDD; `None` if they are not a date.
    pub fn read(digits: &[u8]) -> Option<Date> {
        // SAFETY: pointer and length are those of a slice.
        Date::from_raw(unsafe { raw::hollytrot_date_read(digits.as_ptr(), digits.len()) })
    }

    /// The engine's date; `None` for its three zeros. Every other date of the engine is one of the calendar, so the
    /// casts lose nothing.
    pub(crate) fn from_raw(date: raw::Date) -> Option<Date> {
        (date.year != 0).then_some(Date {
            year: date.year as u16,
            month: date.month as u8,
            day: date.day as u8,
        })
    }

    pub const fn year(self) -> u16 {
        self.year
    }

    pub const fn month(self) -> u8 {
        self.month
    }

    pub const fn day(self) -> u8 {
        self.day
    }
}

impl fmt::Display for Date {
    /// As `2000-02-29`.
    fn fmt(&self, f: &mut fmt::Formatter<'_>) -> fmt::Result {
        write!(f, "{:04}-{:02}-{:02}", self.year, self.month, self.day)
    }
}

/// The fields of a barcode or a typed line. The value is in centavos for kinds 6 and 8, else a reference quantity.
#[derive(Clone, Copy, Debug, PartialEq, Eq, Hash)]
pub struct Fields {
    pub kind: u64,
    pub value: u64,
    pub issuer: Issuer,
    /// The due date of an [`Agreed`](crate::Agreed) issuer; `None` for every other one.
    pub due: Option<Date>,
}

impl Fields {
    pub(crate) fn from_raw(fields: raw::Fields) -> Fields {
        Fields {
            kind: fields.kind,
            value: fields.value,
            issuer: fields.issuer,
            due: Date::from_raw(fields.due),
        }
    }

    fn from_decoded(decoded: raw::Decoded) -> Result<Fields, Refusal> {
        decoded.answer.to_result()?;
        Ok(Fields::from_raw(decoded.fields))
    }
}

/// The two moduli of check digits.
#[derive(Clone, Copy, Debug, PartialEq, Eq, Hash)]
pub enum Modulus {
    Ten,
    Eleven,
}

/// The check digit, 0 to 9, of any number of digits. A byte that is not a digit counts as 0.
pub fn check_digit(modulus: Modulus, digits: &[u8]) -> u8 {
    let (bytes, length) = (digits.as_ptr(), digits.len());
    // SAFETY: pointer and length are those of a slice.
    let check = unsafe {
        match modulus {
            Modulus::Ten => raw::hollytrot_check_ten(bytes, length),
            Modulus::Eleven => raw::hollytrot_check_eleven(bytes, length),
        }
    };
    check as u8
}

/// The barcode of 44 digits: docs/SPEC.md, "Barcode" and "Builder".
pub mod barcode {
    use super::{Fields, Issuer};
    use crate::raw;
    use crate::{Agreed, Refusal};

    /// Accepted, or the barcode's first refusal.
    pub fn check(code: &[u8], agreed: &Agreed) -> Result<(), Refusal> {
        let (keys, count) = agreed.as_raw();
        // SAFETY: pointers and lengths are those of slices.
        unsafe { raw::hollytrot_barcode_check(code.as_ptr(), code.len(), keys, count) }.to_result()
    }

    /// The fields of an accepted barcode.
    pub fn decode(code: &[u8], agreed: &Agreed) -> Result<Fields, Refusal> {
        let (keys, count) = agreed.as_raw();
        // SAFETY: pointers and lengths are those of slices.
        Fields::from_decoded(unsafe {
            raw::hollytrot_barcode_decode(code.as_ptr(), code.len(), keys, count)
        })
    }

    /// The free field as a part of the barcode, 25 bytes or 21; the empty slice if the barcode is refused.
    pub fn free_field<'a>(code: &'a [u8], agreed: &Agreed) -> &'a [u8] {
        let (keys, count) = agreed.as_raw();
        // SAFETY: pointers and lengths are those of slices.
        let part =
            unsafe { raw::hollytrot_barcode_free_field(code.as_ptr(), code.len(), keys, count) };
        &code[part.from..part.from + part.length]
    }

    /// Builds a barcode from its fields and the digits of the free field: 25, in segment 6 21.
    pub fn build(
        issuer: Issuer,
        kind: u64,
        value: u64,
        free: &[u8],
        agreed: &Agreed,
    ) -> Result<[u8; 44], Refusal> {
        let mut out = [0; 44];
        let (bytes, length) = (free.as_ptr(), free.len());
        let (keys, count) = agreed.as_raw();
        // SAFETY: pointers and lengths are those of slices, and `out` overlaps no other.
        let answer = unsafe {
            raw::hollytrot_barcode_build(
                issuer,
                kind,
                value,
                bytes,
                length,
                keys,
                count,
                out.as_mut_ptr(),
                out.len(),
            )
        };
        answer.to_result()?;
        Ok(out)
    }
}

/// The typed line of 48 digits, without blanks: docs/SPEC.md, "Typed line".
pub mod line {
    use super::Fields;
    use crate::raw;
    use crate::{Agreed, Refusal};

    /// Accepted, or the line's first refusal.
    pub fn check(typed: &[u8], agreed: &Agreed) -> Result<(), Refusal> {
        let (keys, count) = agreed.as_raw();
        // SAFETY: pointers and lengths are those of slices.
        unsafe { raw::hollytrot_line_check(typed.as_ptr(), typed.len(), keys, count) }.to_result()
    }

    /// The fields of an accepted line. For its free field, convert it to a barcode.
    pub fn decode(typed: &[u8], agreed: &Agreed) -> Result<Fields, Refusal> {
        let (keys, count) = agreed.as_raw();
        // SAFETY: pointers and lengths are those of slices.
        Fields::from_decoded(unsafe {
            raw::hollytrot_line_decode(typed.as_ptr(), typed.len(), keys, count)
        })
    }

    /// The barcode of a line.
    pub fn to_barcode(typed: &[u8], agreed: &Agreed) -> Result<[u8; 44], Refusal> {
        let mut out = [0; 44];
        let (bytes, length) = (typed.as_ptr(), typed.len());
        let (keys, count) = agreed.as_raw();
        let (start, size) = (out.as_mut_ptr(), out.len());
        // SAFETY: pointers and lengths are those of slices, and `out` overlaps no other.
        unsafe { raw::hollytrot_line_to_barcode(bytes, length, keys, count, start, size) }
            .to_result()?;
        Ok(out)
    }

    /// The line of a barcode.
    pub fn from_barcode(code: &[u8], agreed: &Agreed) -> Result<[u8; 48], Refusal> {
        let mut out = [0; 48];
        let (bytes, length) = (code.as_ptr(), code.len());
        let (keys, count) = agreed.as_raw();
        let (start, size) = (out.as_mut_ptr(), out.len());
        // SAFETY: pointers and lengths are those of slices, and `out` overlaps no other.
        unsafe { raw::hollytrot_line_from_barcode(bytes, length, keys, count, start, size) }
            .to_result()?;
        Ok(out)
    }
}
