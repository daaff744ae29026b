//! The two versions of the layout, 04 and 06: which codes a G may have under each. Their places are the same.

use super::table::{A_VERSION, TABLE};
use crate::refusal::{Reason, Refusal};

/// The codes of a version, which are consecutive bytes: how many captures there are from `1` on, with as many from `a`
/// on, and how many payment forms from `1` on.
#[derive(Clone, Copy)]
pub(crate) struct Codes {
    captures: u8,
    forms: u8,
}

/// Captures `1` to `6` and `a` to `f`, payment forms `1` to `3`.
const CODES_04: Codes = Codes {
    captures: 6,
    forms: 3,
};

/// Captures `1` to `9` and `a` to `i`, payment forms `1` to `6`.
const CODES_06: Codes = Codes {
    captures: 9,
    forms: 6,
};

/// The codes of a version: 10 at 80 for a number other than 4 and 6.
#[inline(always)]
pub(crate) fn codes(version: u64) -> Result<Codes, Refusal> {
    match version {
        4 => Ok(CODES_04),
        6 => Ok(CODES_06),
        _ => Err(unknown()),
    }
}

/// The refusal of an unknown version: 10 at the version field of an A, also for a version that is told with a G.
pub(super) const fn unknown() -> Refusal {
    Reason::Fixed.at(TABLE[A_VERSION].first)
}

impl Codes {
    /// Whether the byte is a capture of this version.
    #[inline(always)]
    pub(super) const fn has_capture(self, byte: u8) -> bool {
        // No branch: digits and letters come in no order, so it would be mispredicted.
        is_among(byte, b'1', self.captures) | is_among(byte, b'a', self.captures)
    }

    /// Whether the byte is a payment form of this version.
    #[inline(always)]
    pub(super) const fn has_form(self, byte: u8) -> bool {
        is_among(byte, b'1', self.forms)
    }
}

/// Whether the byte is one of the `count` bytes from `first` on. A lower byte wraps to one that is past them.
#[inline(always)]
const fn is_among(byte: u8, first: u8, count: u8) -> bool {
    byte.wrapping_sub(first) < count
}
