//! Dates of the Gregorian calendar, years 1900 to 2199: docs/SPEC.md, "Dates".

use crate::digits;
use crate::refusal::{Reason, Refusal};

pub const FIRST_YEAR: u16 = 1900;
pub const LAST_YEAR: u16 = 2199;

/// A date. Its parts are private, so every value is a date of the calendar.
#[derive(Clone, Copy, Debug, PartialEq, Eq, PartialOrd, Ord, Hash)]
pub struct Date {
    year: u16,
    month: u8,
    day: u8,
}

/// Whether the year is a leap year.
#[inline]
pub const fn is_leap(year: u16) -> bool {
    year.is_multiple_of(4) && (!year.is_multiple_of(100) || year.is_multiple_of(400))
}

/// The days of the months 1 to 12 in a common year; there is no month 0.
const DAYS: [u8; 13] = [0, 31, 28, 31, 30, 31, 30, 31, 31, 30, 31, 30, 31];

/// The days of a month; 0 for a month outside 1 to 12.
#[inline]
pub const fn days_in(year: u16, month: u8) -> u8 {
    if month > 12 {
        return 0;
    }
    // A table and not a match: the branches of a match would be mispredicted, as months come in no order.
    let leap_day = (month == 2) & is_leap(year);
    DAYS[month as usize] + leap_day as u8
}

impl Date {
    /// The date of these numbers, if they are one.
    #[inline(always)]
    pub const fn new(year: u16, month: u8, day: u8) -> Option<Date> {
        if year < FIRST_YEAR || year > LAST_YEAR || day < 1 || day > days_in(year, month) {
            return None;
        }
        Some(Date { year, month, day })
    }

    /// Reads YYYYMMDD: 1 for a length other than 8, then 2 at the byte, then 11 at 1.
    pub fn read(bytes: &[u8]) -> Result<Date, Refusal> {
        let digits: &[u8; 8] = bytes.try_into().map_err(|_| Reason::Length.at(0))?;
        if let Some(i) = digits.iter().position(|&byte| !digits::is_digit(byte)) {
            return Err(Reason::NoDigit.at(i + 1));
        }
        Date::from_digits(digits).ok_or(Reason::NoDate.at(1))
    }

    /// The date of eight bytes that are digits, if they are one.
    #[inline(always)]
    pub(crate) fn from_digits(digits: &[u8; 8]) -> Option<Date> {
        // The parts are at most 9999 and 99, so the casts lose nothing.
        let year = digits::value(&digits[..4]) as u16;
        let month = digits::value(&digits[4..6]) as u8;
        let day = digits::value(&digits[6..]) as u8;
        Date::new(year, month, day)
    }

    pub const fn year(self) -> u16 {
        self.year
    }

    pub const fn month(self) -> u8 {
        self.month
    }

    pub const fn day(self) -> u8 {
        self.day
    }

    /// The date as YYYYMMDD.
    pub fn digits(self) -> [u8; 8] {
        let mut out = [b'0'; 8];
        digits::write(u64::from(self.year), &mut out[..4]);
        digits::write(u64::from(self.month), &mut out[4..6]);
        digits::write(u64::from(self.day), &mut out[6..]);
        out
    }
}
