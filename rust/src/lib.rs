//! Collection barcodes, typed lines, A/G/Z return files and the board of a premium collector.
//!
//! A safe crate over the proved engine (include/hollytrot.h), by the rules of docs/SPEC.md. Every function accepts
//! every input and returns its value or one [`Refusal`], which has a number and a place; a refused call changes
//! nothing. Only [`Session::run`] and [`Session::run_part`], which take many records, keep those before the refused
//! one. What the C interface requires of its caller, no null pointers, no overlapping buffers and no `bool` but 0 and
//! 1, this crate guarantees.
//!
//! ```
//! use hollytrot::{line, Agreed};
//!
//! let typed = b"817700000000010936599702411310797039001433708318";
//! assert_eq!(line::decode(typed, &Agreed::none())?.issuer.number, 3659);
//!
//! let mistyped = b"817700000000010936599702411310797039001433708319";
//! let refusal = line::decode(mistyped, &Agreed::none()).unwrap_err();
//! assert_eq!(refusal.to_string(), "refused 6 at place 48: the check of a box is wrong");
//! # Ok::<(), hollytrot::Refusal>(())
//! ```
//!
//! Whether a free field starts with a due date is agreed with each issuer: the functions that read or make a barcode
//! take the list of those that did, [`Agreed`].
//!
//! # The next day
//!
//! A [`Session`] takes a file once, even if it is loaded twice: it remembers the number of the last accepted file of
//! each bank and agreement, and accepts only the next. A program that starts anew each day keeps these numbers,
//! [`Session::remembered`], in a file of its own, and begins the next day with [`Session::with_remembered`]:
//!
//! ```
//! use hollytrot::{Pair, Session};
//!
//! /// What to keep of a day when all its files are taken: bank, agreement and number of each pair, 29 bytes.
//! fn kept(day: &Session) -> Vec<u8> {
//!     let mut bytes = Vec::new();
//!     for pair in day.remembered() {
//!         bytes.extend(pair.bank);
//!         bytes.extend(pair.agreement);
//!         bytes.extend(format!("{:06}", pair.sequence).bytes());
//!     }
//!     bytes
//! }
//!
//! /// The next day's session. It fails if the bytes are damaged: a new session instead would take files again.
//! fn next_day(kept: &[u8]) -> Result<Session, Box<dyn std::error::Error>> {
//!     let mut pairs = Vec::new();
//!     for entry in kept.chunks(29) {
//!         let entry: &[u8; 29] = entry.try_into()?;
//!         pairs.push(Pair {
//!             bank: entry[..3].try_into()?,
//!             agreement: entry[3..23].try_into()?,
//!             sequence: std::str::from_utf8(&entry[23..])?.parse()?,
//!         });
//!     }
//!     Ok(Session::with_remembered(&pairs)?)
//! }
//! # let day = next_day(b"341PS0001              000041237PS0007              000009").unwrap();
//! # assert_eq!(next_day(&kept(&day)).unwrap(), day);
//! # assert_eq!(day.remembered()[1].sequence, 9);
//! # assert!(next_day(&kept(&day)[1..]).is_err());
//! ```
//!
//! The library, libhollytrot.a, is for x86-64 Linux.

mod agreed;
mod codes;
mod pairs;
mod raw;
pub mod record;
mod refusal;
mod sessions;
mod writers;

pub use agreed::{Agreed, AGREED};
pub use codes::{barcode, check_digit, line, Date, Fields, Issuer, Modulus};
pub use pairs::{Pair, PAIRS};
pub use record::{Header, Payment, Record, Trailer, Version};
pub use refusal::{Reason, Refusal};
pub use sessions::{page, Board, Lane, Limits, RunResult, Session, Tally, LANES};
pub use writers::Writer;

/// The version of this crate and of the library it is for. That of the layout is a [`Version`].
pub const VERSION: &str = env!("CARGO_PKG_VERSION");

/// The length of a record.
pub const RECORD: usize = 150;

/// The length of a record of a lined file, with CR and LF behind it.
pub const LINED: usize = RECORD + 2;
