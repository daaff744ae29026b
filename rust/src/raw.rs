//! The declarations of include/hollytrot.h. Sizes and offsets are asserted here; tests/conformance/abi.c compares the
//! same ones with the library.

mod functions;

use std::mem::{offset_of, size_of};

pub use functions::*;

#[repr(C)]
#[derive(Clone, Copy)]
pub struct Answer {
    pub number: u64,
    pub place: usize,
}

#[repr(C)]
#[derive(Clone, Copy)]
pub struct Part {
    pub from: usize,
    pub length: usize,
}

#[repr(C)]
#[derive(Clone, Copy)]
pub struct Date {
    pub year: u64,
    pub month: u64,
    pub day: u64,
}

#[repr(C)]
#[derive(Clone, Copy)]
pub struct Fields {
    pub kind: u64,
    pub value: u64,
    pub issuer: crate::Issuer,
    pub due: Date,
}

#[repr(C)]
#[derive(Clone, Copy)]
pub struct Decoded {
    pub answer: Answer,
    pub fields: Fields,
}

#[repr(C)]
#[derive(Clone, Copy)]
pub struct Header {
    pub bank: u64,
    pub date: Date,
    pub sequence: u64,
    pub version: u64,
}

#[repr(C)]
#[derive(Clone, Copy)]
pub struct Payment {
    pub paid: Date,
    pub credited: Date,
    pub barcode: Fields,
    pub received: u64,
    pub tariff: u64,
    pub number: u64,
}

#[repr(C)]
#[derive(Clone, Copy)]
pub struct Trailer {
    pub count: u64,
    pub total: u64,
}

#[repr(C)]
#[derive(Clone, Copy)]
pub struct Record {
    pub answer: Answer,
    pub letter: u64,
    pub header: Header,
    pub payment: Payment,
    pub trailer: Trailer,
}

#[repr(C)]
#[derive(Clone, Copy, Debug, PartialEq, Eq)]
pub struct File {
    pub taken: u64,
    pub total: u64,
    pub version: u64,
    pub lined: bool,
}

#[repr(C)]
#[derive(Clone, Copy, Debug, PartialEq, Eq)]
pub struct Writer {
    pub stage: u64,
    pub file: File,
}

#[repr(C)]
#[derive(Clone, Copy)]
pub struct WriteResult {
    pub answer: Answer,
    pub writer: Writer,
}

#[repr(C)]
#[derive(Clone, Copy, Debug, PartialEq, Eq)]
pub struct Memory {
    pub pairs: [crate::Pair; crate::PAIRS],
    pub used: usize,
}

#[repr(C)]
#[derive(Clone, Copy, Debug, PartialEq, Eq)]
pub struct Session {
    pub shown: crate::Board,
    pub work: crate::Board,
    pub opened: bool,
    pub file: File,
    pub opening: crate::Pair,
    pub memory: Memory,
}

#[repr(C)]
#[derive(Clone, Copy)]
pub struct TakeResult {
    pub answer: Answer,
    pub session: Session,
}

#[repr(C)]
#[derive(Clone, Copy)]
pub struct RunResult {
    pub answer: Answer,
    pub session: Session,
    pub records: u64,
    pub files: u64,
    pub bytes: usize,
}

#[repr(C)]
#[derive(Clone, Copy)]
pub struct PageResult {
    pub answer: Answer,
    pub length: usize,
}

const _: () = {
    use crate::{Board, Issuer, Lane, Limits, Pair, Tally};
    assert!(size_of::<Answer>() == 16 && offset_of!(Answer, place) == 8);
    assert!(size_of::<Part>() == 16 && offset_of!(Part, length) == 8);
    assert!(size_of::<Date>() == 24 && offset_of!(Date, month) == 8 && offset_of!(Date, day) == 16);
    assert!(size_of::<Issuer>() == 16 && offset_of!(Issuer, number) == 8);
    assert!(
        size_of::<Fields>() == 56
            && offset_of!(Fields, issuer) == 16
            && offset_of!(Fields, due) == 32
    );
    assert!(size_of::<Decoded>() == 72 && offset_of!(Decoded, fields) == 16);
    assert!(size_of::<Header>() == 48 && offset_of!(Header, date) == 8);
    assert!(offset_of!(Header, sequence) == 32 && offset_of!(Header, version) == 40);
    assert!(size_of::<Payment>() == 128 && offset_of!(Payment, barcode) == 48);
    assert!(offset_of!(Payment, received) == 104 && offset_of!(Payment, number) == 120);
    assert!(size_of::<Trailer>() == 16 && offset_of!(Trailer, total) == 8);
    assert!(
        size_of::<Record>() == 216
            && offset_of!(Record, letter) == 16
            && offset_of!(Record, header) == 24
    );
    assert!(offset_of!(Record, payment) == 72 && offset_of!(Record, trailer) == 200);
    assert!(size_of::<File>() == 32 && offset_of!(File, total) == 8);
    assert!(offset_of!(File, version) == 16 && offset_of!(File, lined) == 24);
    assert!(size_of::<Writer>() == 40 && offset_of!(Writer, file) == 8);
    assert!(size_of::<WriteResult>() == 56 && offset_of!(WriteResult, writer) == 16);
    assert!(size_of::<Tally>() == 24 && offset_of!(Tally, centavos) == 8);
    assert!(offset_of!(Tally, tariff) == 16);
    assert!(size_of::<Lane>() == 40 && offset_of!(Lane, tally) == 16);
    assert!(size_of::<Board>() == 2592);
    assert!(size_of::<Pair>() == 32 && offset_of!(Pair, bank) == 0);
    assert!(offset_of!(Pair, agreement) == 3 && offset_of!(Pair, sequence) == 24);
    assert!(size_of::<Memory>() == 520 && offset_of!(Memory, used) == 512);
    assert!(size_of::<Session>() == 5776 && offset_of!(Session, work) == 2592);
    assert!(offset_of!(Session, opened) == 5184 && offset_of!(Session, file) == 5192);
    assert!(offset_of!(Session, opening) == 5224 && offset_of!(Session, memory) == 5256);
    assert!(size_of::<Limits>() == 48 && offset_of!(Limits, record_length) == 8);
    assert!(offset_of!(Limits, payments) == 16 && offset_of!(Limits, file_total) == 24);
    assert!(offset_of!(Limits, board_total) == 32 && offset_of!(Limits, pairs) == 40);
    assert!(size_of::<TakeResult>() == 5792 && offset_of!(TakeResult, session) == 16);
    assert!(size_of::<RunResult>() == 5816 && offset_of!(RunResult, records) == 5792);
    assert!(offset_of!(RunResult, files) == 5800 && offset_of!(RunResult, bytes) == 5808);
    assert!(size_of::<PageResult>() == 24 && offset_of!(PageResult, length) == 16);
};
