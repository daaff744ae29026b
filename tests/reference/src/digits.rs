//! Digits, text bytes, and numbers written in digits: docs/SPEC.md, "Words".

/// Whether the byte is a digit, 48 to 57.
#[inline]
pub const fn is_digit(byte: u8) -> bool {
    byte.is_ascii_digit()
}

/// Whether the byte is a text byte, 32 to 126 or 160 to 255 (ISO 8859-1).
#[inline]
pub const fn is_text(byte: u8) -> bool {
    // No branch, so the loop over a field vectorizes.
    ((byte >= 32) & (byte <= 126)) | (byte >= 160)
}

/// Whether all bytes are digits. The loop has no early exit, so it vectorizes.
#[inline(always)]
pub fn all_digits(bytes: &[u8]) -> bool {
    let worst = bytes
        .iter()
        .fold(0, |worst: u8, &byte| worst.max(byte.wrapping_sub(b'0')));
    worst <= 9
}

/// Whether all bytes are text bytes. The loop has no early exit, so it vectorizes.
#[inline(always)]
pub fn all_text(bytes: &[u8]) -> bool {
    bytes
        .iter()
        .fold(0, |bad, &byte| bad | u8::from(!is_text(byte)))
        == 0
}

/// The number that the bytes write; `None` if one is not a digit, or if the number does not fit.
pub fn number(bytes: &[u8]) -> Option<u64> {
    bytes.iter().try_fold(0u64, |number, &byte| {
        if !is_digit(byte) {
            return None;
        }
        number.checked_mul(10)?.checked_add(u64::from(byte - b'0'))
    })
}

/// The number that at most 19 bytes write, all of them digits.
#[inline(always)]
pub(crate) fn value(digits: &[u8]) -> u64 {
    digits
        .iter()
        .fold(0, |number, &digit| number * 10 + u64::from(digit - b'0'))
}

/// Writes the number with leading zeros over all of `out`. False, and `out` does not change, if the number is too wide.
pub fn write(number: u64, out: &mut [u8]) -> bool {
    if !fits(number, out.len()) {
        return false;
    }
    let mut rest = number;
    for byte in out.iter_mut().rev() {
        // A remainder by 10 is one digit, so the cast loses nothing.
        *byte = b'0' + (rest % 10) as u8;
        rest /= 10;
    }
    true
}

/// Whether the number has at most `width` digits.
pub fn fits(number: u64, width: usize) -> bool {
    u32::try_from(width)
        .ok()
        .and_then(|width| 10u64.checked_pow(width))
        .is_none_or(|bound| number < bound)
}
