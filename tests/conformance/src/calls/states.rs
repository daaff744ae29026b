//! The calls that have a state: sessions, the page of a session's board, and writers.

use reference::{page, Reason, Refusal, RunResult, Session, Stage, Writer};

use super::{put, Calls, FILL, PAGE};
use crate::wire;

impl Calls {
    pub fn session(&self) -> &Session {
        &self.session
    }

    pub fn new_session(&mut self) {
        self.session = Session::new();
        let session = self.session.clone();
        let (_, reply) = self.call(b'n');
        wire::session(reply, &session);
    }

    /// Goes on with this session, in an arbitrary state.
    pub fn set_session(&mut self, session: &Session) {
        self.session = session.clone();
        let (request, _) = self.call(b's');
        wire::session(request, session);
    }

    pub fn take(&mut self, record: &[u8], agreed: &[u64]) -> Result<(), Refusal> {
        let before = self.session.clone();
        let outcome = self.session.take(record, agreed);
        assert!(outcome.is_ok() || before == self.session);
        let after = self.session.clone();
        self.counts
            .count_cases(b't', [&before, &after], record, outcome);
        let (request, reply) = self.call(b't');
        put(request, record);
        wire::list(request, agreed);
        wire::answer(reply, &outcome);
        wire::session(reply, &after);
        outcome
    }

    /// Takes consecutive records; each counts as an input. More bytes may be to come.
    pub fn run(&mut self, bytes: &[u8], more: bool, agreed: &[u64]) -> RunResult {
        let before = self.session.clone();
        let result = self.session.run(bytes, more, agreed);
        let after = self.session.clone();
        self.counts.inputs += result.records;
        let rest = &bytes[result.bytes..];
        self.counts
            .count_cases(b'R', [&before, &after], rest, result.answer);
        let (request, reply) = self.call(b'R');
        wire::flag(request, more);
        wire::number(request, bytes.len() as u64);
        request.extend_from_slice(bytes);
        wire::list(request, agreed);
        wire::answer(reply, &result.answer);
        wire::numbers(reply, &[result.records, result.files, result.bytes as u64]);
        wire::session(reply, &after);
        result
    }

    pub fn abandon(&mut self) {
        self.session.abandon();
        let after = self.session.clone();
        let (_, reply) = self.call(b'x');
        wire::session(reply, &after);
    }

    pub fn finish_session(&mut self) {
        let outcome = self.session.finish();
        let after = self.session.clone();
        let (_, reply) = self.call(b'e');
        wire::answer(reply, &outcome);
        wire::session(reply, &after);
    }

    pub fn board(&mut self) {
        let board = *self.session.board();
        let (_, reply) = self.call(b'B');
        wire::board(reply, &board);
    }

    /// The page of the board shown, with an answer of any number and any place. A buffer of another length than
    /// [`PAGE`] is refused 1 at 0.
    pub fn page(&mut self, number: u64, place: u64, records: u64, files: u64, out_length: usize) {
        let board = *self.session.board();
        let (request, reply) = self.call(b'p');
        let numbers = [number, place, records, files, out_length as u64];
        wire::numbers(request, &numbers);
        let mut out = vec![FILL; out_length];
        let mut result = Err(Reason::Length.at(0));
        if out_length == PAGE {
            let text = page::page(number, place, records, files, &board);
            out[..text.len()].copy_from_slice(&text);
            result = Ok(text.len() as u64);
        }
        wire::answer(reply, &result);
        wire::number(reply, result.unwrap_or(0));
        reply.extend_from_slice(&out);
    }

    pub fn writer(&self) -> &Writer {
        &self.writer
    }

    pub fn new_writer(&mut self) {
        self.writer = Writer::new();
        self.stage = 0;
        let writer = self.writer.clone();
        let (_, reply) = self.call(b'N');
        wire::writer(reply, 0, &writer);
    }

    /// Goes on with a writer in an arbitrary state; stages past 1 are closed.
    pub fn set_writer(&mut self, [stage, taken, total, version]: [u64; 4], lined: bool) {
        let writer = Writer {
            stage: match stage {
                0 => Stage::Fresh,
                1 => Stage::Open,
                _ => Stage::Closed,
            },
            taken,
            total,
            version,
            lined,
        };
        self.stage = stage;
        self.writer = writer.clone();
        let (request, _) = self.call(b'w');
        wire::writer(request, stage, &writer);
    }

    pub fn header(&mut self, fields: &[u8], out_length: u8) {
        let mut out = vec![FILL; out_length.into()];
        let outcome = self.writer.header(fields, &mut out);
        let request = self.write(b'h', outcome, &out);
        request.push(out_length);
        put(request, fields);
    }

    pub fn payment(
        &mut self,
        fields: &[u8],
        received: u64,
        tariff: u64,
        agreed: &[u64],
        out_length: u8,
    ) {
        let mut out = vec![FILL; out_length.into()];
        let outcome = self
            .writer
            .payment(fields, received, tariff, agreed, &mut out);
        let request = self.write(b'g', outcome, &out);
        wire::numbers(request, &[received, tariff]);
        request.push(out_length);
        put(request, fields);
        wire::list(request, agreed);
    }

    pub fn trailer(&mut self, out_length: u8) {
        let mut out = vec![FILL; out_length.into()];
        let outcome = self.writer.trailer(&mut out);
        self.write(b'z', outcome, &out).push(out_length);
    }

    /// Starts the request of a writer's call, which is expected to give this outcome, the writer after the call, and
    /// this output buffer.
    fn write(&mut self, letter: u8, outcome: Result<(), Refusal>, out: &[u8]) -> &mut Vec<u8> {
        if outcome.is_ok() {
            self.stage = self.writer.stage as u64;
        }
        let (stage, writer) = (self.stage, self.writer.clone());
        let (request, reply) = self.call(letter);
        wire::answer(reply, &outcome);
        wire::writer(reply, stage, &writer);
        reply.extend_from_slice(out);
        request
    }
}
