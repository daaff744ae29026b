//! Agreed issuers: docs/SPEC.md. A caller lends a list of the issuers that agreed on due dates, one key for each. The
//! barcode of an agreed issuer must have a due date; that of another issuer shows none.

use crate::barcode::Issuer;
use crate::refusal::{Reason, Refusal};

/// The most entries of a list.
pub const AGREED: usize = 64;

/// A key is the segment times this, and the number.
const SEGMENT_UNIT: u64 = 100_000_000;

/// The key of an issuer; 0 for what is no issuer.
#[inline]
pub const fn key(issuer: Issuer) -> u64 {
    if !issuer.is_issuer() {
        return 0;
    }
    issuer.segment * SEGMENT_UNIT + issuer.number
}

/// Whether a key names an issuer.
#[inline]
pub const fn names_issuer(key: u64) -> bool {
    let issuer = Issuer {
        segment: key / SEGMENT_UNIT,
        number: key % SEGMENT_UNIT,
    };
    issuer.is_issuer()
}

/// 25 at 0 for a list of more than 64 entries, with an entry that names no issuer, or with an issuer twice.
#[inline]
pub fn check(agreed: &[u64]) -> Result<(), Refusal> {
    if agreed.is_empty() || is_right(agreed) {
        return Ok(());
    }
    Err(Reason::WrongList.at(0))
}

fn is_right(agreed: &[u64]) -> bool {
    agreed.len() <= AGREED && agreed.iter().all(|&key| names_issuer(key)) && all_differ(agreed)
}

/// Whether no two entries are equal: one pass for a list in rising order, else every pair.
fn all_differ(agreed: &[u64]) -> bool {
    agreed.is_sorted_by(|before, after| before < after)
        || (1..agreed.len()).all(|i| !agreed[..i].contains(&agreed[i]))
}

/// Whether an issuer is in a list; false for what is no issuer, also in a wrong list.
#[inline(always)]
pub fn is_agreed(issuer: Issuer, agreed: &[u64]) -> bool {
    let key = key(issuer);
    key != 0 && agreed.contains(&key)
}
