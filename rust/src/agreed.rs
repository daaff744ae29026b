//! The issuers that agreed on due dates: docs/SPEC.md, "Agreed issuers".

use crate::raw;
use crate::{Issuer, Reason, Refusal};

/// The most issuers that [`Agreed::new`] accepts.
pub const AGREED: usize = 64;

/// The issuers that agreed to put a due date first in their free fields.
///
/// Every function that reads or makes a barcode takes such a list. The due dates of these issuers are shown, in
/// [`Fields::due`](crate::Fields::due), and a barcode of theirs without one is refused 11. Of all other issuers no due
/// date is shown, so a contract number is never taken for one: a forecast by due date counts real ones only.
///
/// A [`Session`](crate::Session) only checks due dates: to sum by due date, decode each payment with
/// [`record::decode`](crate::record::decode) under the same list. Each call has its own list; a session or a
/// [`Writer`](crate::Writer) remembers none.
///
/// ```
/// use hollytrot::{line, Agreed, Date, Issuer};
///
/// let typed = b"817000000007010936592012909010000000000000000000";
/// let agreed = Agreed::new(&[Issuer { segment: 1, number: 3659 }])?;
/// assert_eq!(line::decode(typed, &agreed)?.due, Date::new(2019, 9, 1));
/// assert_eq!(line::decode(typed, &Agreed::none())?.due, None);
/// # Ok::<(), hollytrot::Refusal>(())
/// ```
#[derive(Clone, Debug, Default, PartialEq, Eq, Hash)]
pub struct Agreed {
    /// Their keys, in rising order, so that lists of the same issuers are equal.
    keys: Vec<u64>,
}

impl Agreed {
    /// No issuer agreed: no due date is shown, and none is required.
    pub const fn none() -> Agreed {
        Agreed { keys: Vec::new() }
    }

    /// These issuers, in any order. Refused 25 if there are more than [`AGREED`], if the segment of one is not 1 to 7
    /// or 9, if its number has more than 4 digits, in segment 6 more than 8, or if one is there twice.
    pub fn new(issuers: &[Issuer]) -> Result<Agreed, Refusal> {
        // SAFETY: the engine accepts any two numbers.
        let key = |&issuer: &Issuer| unsafe { raw::hollytrot_issuer_key(issuer) };
        let mut keys: Vec<u64> = issuers.iter().map(key).collect();
        keys.sort_unstable();
        // The engine judges the list of each call before everything else: under a right one, an empty barcode is
        // refused 1.
        // SAFETY: pointers and lengths are those of slices.
        let answer =
            unsafe { raw::hollytrot_barcode_check(b"".as_ptr(), 0, keys.as_ptr(), keys.len()) };
        match answer.to_result() {
            Err(refusal) if refusal.reason == Reason::WrongList => Err(refusal),
            _ => Ok(Agreed { keys }),
        }
    }

    /// The pointer and the length that the engine takes.
    pub(crate) fn as_raw(&self) -> (*const u64, usize) {
        (self.keys.as_ptr(), self.keys.len())
    }
}
