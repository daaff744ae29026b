//! The functions of include/hollytrot.h. A list of agreed issuers is behind the other inputs and before an output
//! buffer.

use super::{
    Answer, Date, Decoded, PageResult, Part, Record, RunResult, Session, TakeResult, WriteResult,
    Writer,
};

extern "C" {
    pub fn hollytrot_issuer_key(issuer: crate::Issuer) -> u64;
    pub fn hollytrot_barcode_check(
        bytes: *const u8,
        length: usize,
        agreed: *const u64,
        agreed_length: usize,
    ) -> Answer;
    pub fn hollytrot_barcode_decode(
        bytes: *const u8,
        length: usize,
        agreed: *const u64,
        agreed_length: usize,
    ) -> Decoded;
    pub fn hollytrot_barcode_free_field(
        bytes: *const u8,
        length: usize,
        agreed: *const u64,
        agreed_length: usize,
    ) -> Part;
    pub fn hollytrot_barcode_build(
        issuer: crate::Issuer,
        kind: u64,
        value: u64,
        free_field: *const u8,
        free_length: usize,
        agreed: *const u64,
        agreed_length: usize,
        out: *mut u8,
        out_length: usize,
    ) -> Answer;
    pub fn hollytrot_line_check(
        bytes: *const u8,
        length: usize,
        agreed: *const u64,
        agreed_length: usize,
    ) -> Answer;
    pub fn hollytrot_line_decode(
        bytes: *const u8,
        length: usize,
        agreed: *const u64,
        agreed_length: usize,
    ) -> Decoded;
    pub fn hollytrot_line_to_barcode(
        bytes: *const u8,
        length: usize,
        agreed: *const u64,
        agreed_length: usize,
        out: *mut u8,
        out_length: usize,
    ) -> Answer;
    pub fn hollytrot_line_from_barcode(
        bytes: *const u8,
        length: usize,
        agreed: *const u64,
        agreed_length: usize,
        out: *mut u8,
        out_length: usize,
    ) -> Answer;
    pub fn hollytrot_date_read(bytes: *const u8, length: usize) -> Date;
    pub fn hollytrot_date_check(date: Date) -> bool;
    pub fn hollytrot_check_ten(bytes: *const u8, length: usize) -> u64;
    pub fn hollytrot_check_eleven(bytes: *const u8, length: usize) -> u64;
    pub fn hollytrot_record_check(
        bytes: *const u8,
        length: usize,
        version: u64,
        agreed: *const u64,
        agreed_length: usize,
    ) -> Answer;
    pub fn hollytrot_record_decode(
        bytes: *const u8,
        length: usize,
        version: u64,
        agreed: *const u64,
        agreed_length: usize,
    ) -> Record;
    pub fn hollytrot_record_field(
        bytes: *const u8,
        length: usize,
        version: u64,
        row: usize,
        agreed: *const u64,
        agreed_length: usize,
    ) -> Part;
    pub fn hollytrot_record_join(
        bytes: *const u8,
        length: usize,
        version: u64,
        agreed: *const u64,
        agreed_length: usize,
        out: *mut u8,
        out_length: usize,
    ) -> Answer;
    pub fn hollytrot_writer_new() -> Writer;
    pub fn hollytrot_writer_header(
        writer: Writer,
        fields: *const u8,
        fields_length: usize,
        out: *mut u8,
        out_length: usize,
    ) -> WriteResult;
    pub fn hollytrot_writer_payment(
        writer: Writer,
        fields: *const u8,
        fields_length: usize,
        received: u64,
        tariff: u64,
        agreed: *const u64,
        agreed_length: usize,
        out: *mut u8,
        out_length: usize,
    ) -> WriteResult;
    pub fn hollytrot_writer_trailer(writer: Writer, out: *mut u8, out_length: usize)
        -> WriteResult;
    pub fn hollytrot_session_limits() -> crate::Limits;
    pub fn hollytrot_session_new() -> Session;
    pub fn hollytrot_session_take(
        session: Session,
        bytes: *const u8,
        length: usize,
        agreed: *const u64,
        agreed_length: usize,
    ) -> TakeResult;
    pub fn hollytrot_session_run(
        session: Session,
        bytes: *const u8,
        length: usize,
        more: bool,
        agreed: *const u64,
        agreed_length: usize,
    ) -> RunResult;
    pub fn hollytrot_session_abandon(session: Session) -> Session;
    pub fn hollytrot_session_finish(session: Session) -> TakeResult;
    pub fn hollytrot_page(
        answer: Answer,
        records: u64,
        files: u64,
        board: crate::Board,
        out: *mut u8,
        out_length: usize,
    ) -> PageResult;
}
