//! Check digits under modulo 10 and modulo 11: docs/SPEC.md, "Check digits".

use crate::digits::is_digit;
use crate::refusal::{Reason, Refusal};

/// The modulus that a value kind names.
#[derive(Clone, Copy, Debug, PartialEq, Eq, Hash)]
pub enum Modulus {
    Ten,
    Eleven,
}

impl Modulus {
    /// Kinds 6 and 7 name modulo 10, 8 and 9 modulo 11.
    #[inline]
    pub const fn from_kind(kind: u64) -> Option<Modulus> {
        match kind {
            6 | 7 => Some(Modulus::Ten),
            8 | 9 => Some(Modulus::Eleven),
            _ => None,
        }
    }

    /// The modulus as a number.
    pub const fn number(self) -> u64 {
        match self {
            Modulus::Ten => 10,
            Modulus::Eleven => 11,
        }
    }

    /// The weight of the digit that has `rank` digits to its right.
    const fn weight(self, rank: usize) -> u16 {
        // The remainders are below 2 and below 8, so the casts lose nothing.
        match self {
            Modulus::Ten => 2 - (rank % 2) as u16,
            Modulus::Eleven => 2 + (rank % 8) as u16,
        }
    }

    /// What a product adds to the sum: under modulo 10 its decimal digits, under modulo 11 the whole product.
    #[inline(always)]
    const fn share(self, product: u16) -> u16 {
        match self {
            // A product is at most 18: two digits, the first at most 1.
            Modulus::Ten => {
                if product > 9 {
                    product - 9
                } else {
                    product
                }
            }
            Modulus::Eleven => product,
        }
    }

    /// The remainder of the weighted sum of any number of digits; 2 at the first byte that is not a digit.
    pub fn remainder(self, digits: &[u8]) -> Result<u64, Refusal> {
        if let Some(i) = digits.iter().position(|&byte| !is_digit(byte)) {
            return Err(Reason::NoDigit.at(i + 1));
        }
        // The remainder is taken at each step, so the sum cannot overflow.
        Ok(digits
            .iter()
            .rev()
            .enumerate()
            .fold(0, |sum, (rank, &digit)| {
                let product = self.weight(rank) * u16::from(digit - b'0');
                (sum + u64::from(self.share(product))) % self.number()
            }))
    }

    /// The check digit of a remainder: the modulus less the remainder, but 0 for remainder 0, under modulo 11 also
    /// for 1. It is one digit: 10 less 1 to 9, and 11 less 2 to 10, are 9 to 1.
    #[inline]
    pub(crate) const fn check(self, remainder: u64) -> u64 {
        match (self, remainder) {
            (_, 0) | (Modulus::Eleven, 1) => 0,
            (_, _) => self.number() - remainder,
        }
    }

    /// The check digit of any number of digits, as a number; 2 at the first byte that is not a digit.
    pub fn check_digit(self, digits: &[u8]) -> Result<u64, Refusal> {
        Ok(self.check(self.remainder(digits)?))
    }

    /// The check of a box of eleven bytes that are digits.
    #[inline(always)]
    pub(crate) fn box_check(self, digits: &[u8; 11]) -> u64 {
        self.check(match self {
            Modulus::Ten => self.weighted(digits, const { &weights(Modulus::Ten, 11) }),
            Modulus::Eleven => self.weighted(digits, const { &weights(Modulus::Eleven, 11) }),
        })
    }

    /// The general check of a barcode of 44 bytes that are digits. Place 4, index 3, is left out.
    #[inline(always)]
    pub(crate) fn general_check(self, digits: &[u8; 44]) -> u64 {
        self.check(match self {
            Modulus::Ten => self.weighted(digits, const { &weights(Modulus::Ten, 3) }),
            Modulus::Eleven => self.weighted(digits, const { &weights(Modulus::Eleven, 3) }),
        })
    }

    /// The remainder of at most 44 digits with given weights. The sum is at most 44 * 81, which fits in 16 bits.
    #[inline(always)]
    fn weighted<const N: usize>(self, digits: &[u8; N], weights: &[u16; N]) -> u64 {
        let mut sum = 0;
        for i in 0..N {
            sum += self.share(weights[i] * u16::from(digits[i] - b'0'));
        }
        u64::from(sum) % self.number()
    }
}

/// The weights of N digits. The digit at index `left_out` has weight 0, and the digits to its left have the weights
/// that they would have without it.
const fn weights<const N: usize>(modulus: Modulus, left_out: usize) -> [u16; N] {
    let mut weights = [0; N];
    let mut rank = 0;
    let mut i = N;
    while i > 0 {
        i -= 1;
        if i != left_out {
            weights[i] = modulus.weight(rank);
            rank += 1;
        }
    }
    weights
}

#[cfg(test)]
mod tests {
    use super::*;
    use crate::random::Random;

    #[test]
    fn constant_weights_give_the_same_checks() {
        let mut random = Random::new(11);
        for _ in 0..20_000 {
            let code: [u8; 44] = std::array::from_fn(|_| random.digit());
            let in_box: [u8; 11] = std::array::from_fn(|_| random.digit());
            let mut without_check = code[..3].to_vec();
            without_check.extend_from_slice(&code[4..]);
            for modulus in [Modulus::Ten, Modulus::Eleven] {
                assert_eq!(
                    Ok(modulus.general_check(&code)),
                    modulus.check_digit(&without_check)
                );
                assert_eq!(Ok(modulus.box_check(&in_box)), modulus.check_digit(&in_box));
            }
        }
    }

    #[test]
    fn every_check_is_one_digit() {
        for modulus in [Modulus::Ten, Modulus::Eleven] {
            for remainder in 0..modulus.number() {
                assert!(modulus.check(remainder) <= 9);
            }
        }
    }

    #[test]
    fn largest_sums_fit() {
        for modulus in [Modulus::Ten, Modulus::Eleven] {
            assert!(modulus.general_check(&[b'9'; 44]) <= 9);
            assert_eq!(
                Ok(modulus.general_check(&[b'9'; 44])),
                modulus.check_digit(&[b'9'; 43])
            );
        }
    }
}
