//! Refusals: a number of docs/SPEC.md, "Refusals", with a place.

use std::fmt;

/// Defines [`Reason`], its `ALL` and its `words` from one list of rows: name, number, words.
macro_rules! reasons {
    ($($name:ident = $number:literal, $words:literal;)*) => {
        /// Why something was refused, with the numbers of docs/SPEC.md, "Refusals".
        #[derive(Clone, Copy, Debug, PartialEq, Eq, PartialOrd, Ord, Hash)]
        pub enum Reason {
            $($name = $number,)*
        }

        impl Reason {
            /// Every reason, once. Nothing depends on the order.
            pub const ALL: &'static [Reason] = &[$(Reason::$name),*];

            /// What is wrong, in words.
            pub const fn words(self) -> &'static str {
                match self {
                    $(Reason::$name => $words,)*
                }
            }
        }
    };
}

// docs/check-refusals reads these rows.
reasons! {
    Length = 1, "length is not the required one";
    NoDigit = 2, "a byte is not a digit";
    Product = 3, "product is not 8";
    Segment = 4, "segment is not 1 to 7 or 9";
    Kind = 5, "value kind is not 6 to 9";
    BoxCheck = 6, "a box check is wrong";
    GeneralCheck = 7, "general check is wrong";
    NoText = 8, "a byte is not a text byte";
    Unexpected = 9, "first byte names no record expected now";
    Fixed = 10, "fixed field has other bytes";
    NoDate = 11, "eight digits are not a date";
    UnknownCode = 12, "capture or payment form unknown";
    TrailerCount = 13, "trailer count differs";
    TrailerTotal = 14, "trailer total differs";
    TooManyPayments = 15, "a payment after 999,997 in the same file";
    FileTotal = 16, "file total past its limit";
    TooManyLanes = 17, "new issuer when all lanes are in use";
    BoardTotal = 18, "a board total past 10^18";
    FileOpen = 19, "end of the input while a file is open";
    // 20 is retired: it must not be given to another reason.
    WideNumber = 21, "number too wide for its field";
    NoLineEnd = 22, "bytes 13 and 10 do not follow the record";
    WrongList = 25, "the list of agreed issuers is too long, or has an entry that names no issuer, or an issuer twice";
    NotFollowing = 26, "the sequence number does not follow the last one of its bank and agreement";
    PairsFull = 27, "a new bank and agreement when 16 are remembered";
}

impl Reason {
    /// The number in docs/SPEC.md, "Refusals".
    pub const fn number(self) -> u64 {
        self as u64
    }

    /// The refusal for this reason at a place. Places count from 1; place 0 means that the refusal has none.
    pub const fn at(self, place: usize) -> Refusal {
        Refusal {
            reason: self,
            place,
        }
    }
}

/// A refusal: its reason and its place.
#[derive(Clone, Copy, Debug, PartialEq, Eq, PartialOrd, Ord, Hash)]
pub struct Refusal {
    pub reason: Reason,
    pub place: usize,
}

impl Refusal {
    /// The number in docs/SPEC.md, "Refusals".
    pub const fn number(self) -> u64 {
        self.reason.number()
    }
}

impl fmt::Display for Refusal {
    fn fmt(&self, f: &mut fmt::Formatter<'_>) -> fmt::Result {
        write!(
            f,
            "{} at {}: {}",
            self.number(),
            self.place,
            self.reason.words()
        )
    }
}

impl std::error::Error for Refusal {}

/// The answer of an outcome: number and place, 0 and 0 if accepted.
pub fn answer<T>(outcome: &Result<T, Refusal>) -> (u64, usize) {
    match outcome {
        Ok(_) => (0, 0),
        Err(refusal) => (refusal.number(), refusal.place),
    }
}
