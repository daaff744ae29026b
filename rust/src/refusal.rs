//! Refusals: a number of docs/SPEC.md, "Refusals", with a place.

use std::fmt;

use crate::raw;

/// Defines [`Reason`] from one list: the name, the number and the words of each reason. The numbers need not be
/// consecutive, and nothing depends on the order.
macro_rules! reasons {
    ($($name:ident = $number:literal, $words:literal;)*) => {
        /// Why something was refused. Later versions of the specification may add and retire reasons.
        #[derive(Clone, Copy, Debug, PartialEq, Eq, Hash)]
        #[non_exhaustive]
        pub enum Reason {
            $(#[doc = concat!(stringify!($number), ": ", $words, ".")] $name = $number,)*
        }

        impl Reason {
            /// Every reason.
            pub const ALL: &'static [Reason] = &[$(Reason::$name),*];

            /// What is wrong, in words.
            pub const fn words(self) -> &'static str {
                match self {
                    $(Reason::$name => $words,)*
                }
            }
        }
    };
}

reasons! {
    WrongLength = 1, "the length is not the required one";
    NoDigit = 2, "a byte is not a digit";
    WrongProduct = 3, "the product is not 8";
    UnknownSegment = 4, "the segment is not 1 to 7 or 9";
    UnknownKind = 5, "the value kind is not 6 to 9";
    WrongBoxCheck = 6, "the check of a box is wrong";
    WrongGeneralCheck = 7, "the general check is wrong";
    NoText = 8, "a byte is not a text byte";
    NotExpected = 9, "the first byte names no record expected now";
    FixedDiffers = 10, "a fixed field or the version has other bytes";
    NoDate = 11, "eight digits are not a date";
    UnknownCode = 12, "the capture or the payment form is unknown";
    CountDiffers = 13, "the trailer's count is not the file's";
    TotalDiffers = 14, "the trailer's total is not the file's";
    FileFull = 15, "the file has as many payments as a file can have";
    FileTotalPassed = 16, "the file's total would pass its limit";
    BoardFull = 17, "a new issuer when all lanes are in use";
    BoardTotalPassed = 18, "a total of the board would pass its limit";
    FileOpen = 19, "the end of the input while a file is open";
    // 20 is retired and is not used again.
    TooWide = 21, "a number is too wide for its field";
    NoLineEnd = 22, "a record of a lined file without CR and LF behind it";
    WrongList = 25, "the list of agreed issuers has over 64 entries, one that names no issuer, or an issuer twice";
    NotFollowing = 26, "the file's number is not the next of its bank and agreement";
    PairsFull = 27, "a new bank and agreement when 16 are remembered";
}

impl Reason {
    /// The number in docs/SPEC.md, "Refusals".
    pub const fn number(self) -> u64 {
        self as u64
    }

    /// The reason with this number; `None` if there is none.
    pub fn from_number(number: u64) -> Option<Reason> {
        let mut all = Reason::ALL.iter().copied();
        all.find(|reason| reason.number() == number)
    }
}

/// A refusal. Places count from 1; place 0 means that the refusal has none.
#[derive(Clone, Copy, Debug, PartialEq, Eq, Hash)]
pub struct Refusal {
    pub reason: Reason,
    pub place: usize,
}

impl fmt::Display for Refusal {
    fn fmt(&self, f: &mut fmt::Formatter<'_>) -> fmt::Result {
        write!(f, "refused {}", self.reason.number())?;
        if self.place != 0 {
            write!(f, " at place {}", self.place)?;
        }
        write!(f, ": {}", self.reason.words())
    }
}

impl std::error::Error for Refusal {}

impl raw::Answer {
    /// The answer as a result. Panics at a number that is not in [`Reason`], which only a library of another version
    /// can answer.
    pub(crate) fn to_result(self) -> Result<(), Refusal> {
        if self.number == 0 {
            return Ok(());
        }
        let Some(reason) = Reason::from_number(self.number) else {
            panic!(
                "the library answered {}, which hollytrot {} does not know: link the libhollytrot.a of this version",
                self.number,
                crate::VERSION
            )
        };
        Err(Refusal {
            reason,
            place: self.place,
        })
    }

    pub(crate) fn from_result(answer: Result<(), Refusal>) -> raw::Answer {
        match answer {
            Ok(()) => raw::Answer {
                number: 0,
                place: 0,
            },
            Err(refusal) => raw::Answer {
                number: refusal.reason.number(),
                place: refusal.place,
            },
        }
    }
}

#[cfg(test)]
mod tests {
    use super::*;

    fn answer(number: u64) -> raw::Answer {
        raw::Answer { number, place: 5 }
    }

    #[test]
    fn every_reason_is_found_by_its_number() {
        for &reason in Reason::ALL {
            assert_eq!(Reason::from_number(reason.number()), Some(reason));
            assert_eq!(
                answer(reason.number()).to_result(),
                Err(Refusal { reason, place: 5 })
            );
        }
        for number in [0, 20, 23, 24, 28, u64::MAX] {
            assert_eq!(Reason::from_number(number), None);
        }
    }

    #[test]
    #[should_panic(expected = "the library answered 1000, which hollytrot")]
    fn an_unknown_number_panics() {
        let _ = answer(1000).to_result();
    }
}
