//! Steps of a session that are taken and also run: a run is its takes.

use super::{assert_answer, z};
use reference::{Memory, Session};

/// Takes a record that is accepted. A run over it leaves the same session.
#[track_caller]
pub fn assert_taken(session: &mut Session, record: &[u8]) {
    let mut other = session.clone();
    assert_answer(session.take(record, &[]), 0, 0);
    let run = other.run(record, false, &[]);
    assert_answer(run.answer, 0, 0);
    let files = u64::from(record[0] == b'Z');
    let counts = (run.records, run.files, run.bytes);
    assert_eq!(counts, (1, files, record.len()));
    assert_eq!(other, *session);
}

/// Takes a record that is refused, which must change nothing. A run over it answers the same.
#[track_caller]
pub fn assert_refused(session: &mut Session, record: &[u8], number: u64, place: usize) {
    let before = session.clone();
    assert_answer(session.take(record, &[]), number, place);
    assert_eq!(*session, before);
    let mut other = before.clone();
    let run = other.run(record, false, &[]);
    assert_answer(run.answer, number, place);
    assert_eq!((run.records, run.files, run.bytes), (0, 0, 0));
    assert_eq!(other, before);
}

/// Takes an empty file and returns the memory that it leaves. A run over both records leaves the same session.
#[track_caller]
pub fn take_file(session: &mut Session, header: &[u8; 150]) -> Memory {
    let mut other = session.clone();
    let records = [*header, z(2, 0)];
    for record in &records {
        assert_answer(session.take(record, &[]), 0, 0);
    }
    let run = other.run(&records.concat(), false, &[]);
    assert_answer(run.answer, 0, 0);
    assert_eq!((run.records, run.files, run.bytes), (2, 1, 300));
    assert_eq!(other, *session);
    session.memory
}
