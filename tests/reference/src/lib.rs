//! An independent program for docs/SPEC.md: the collection barcode, the typed line, the return file of A, G and Z
//! records, a writer for each, and the board.
//!
//! It is plain Rust with mutable state, written from the specification alone, so that the proved engine can be compared
//! with it. It shares no code with the engine. Every function is total: it answers for each input, and a refused call
//! changes neither its buffers nor its session or writer.

#![forbid(unsafe_code)]

pub mod agreed;
pub mod barcode;
pub mod checks;
pub mod dates;
pub mod days;
pub mod digits;
pub mod line;
pub mod page;
pub mod random;
pub mod records;
pub mod refusal;
pub mod session;
pub mod writer;

pub use agreed::AGREED;
pub use barcode::{Barcode, Issuer};
pub use checks::Modulus;
pub use dates::Date;
pub use page::Reading;
pub use records::{Header, Payment, Record, Trailer};
pub use refusal::{answer, Reason, Refusal};
pub use session::{Board, Lane, Memory, Pair, RunResult, Session};
pub use writer::{Stage, Writer};
