//! Lined and bare files through writers and sessions: docs/SPEC.md, "Line ends".

mod common;

use common::{code, header_numbered, payment_of, refused, HEADER, NONE};
use hollytrot::{record, Reason, RunResult, Session, Version, Writer, LINED, RECORD};

/// The three records of a file with one payment, as this writer writes them.
fn records_of(writer: Writer) -> [Vec<u8>; 3] {
    records_numbered(writer, 4321)
}

/// The same of a file with another number.
fn records_numbered(mut writer: Writer, number: u64) -> [Vec<u8>; 3] {
    let header = writer.header(&header_numbered(number));
    let header = header.expect("a good header");
    let payment = writer.payment(&payment_of(&code()), 5, 0, &NONE);
    let payment = payment.expect("a good payment");
    [header, payment, writer.trailer().expect("an open file")]
}

/// The result of a run in which all was accepted.
fn accepted(records: u64, files: u64, bytes: usize) -> RunResult {
    RunResult {
        answer: Ok(()),
        records,
        files,
        bytes,
    }
}

#[test]
fn a_lined_writer_puts_cr_and_lf_behind_each_record() {
    let (bare, lined) = (records_of(Writer::new()), records_of(Writer::lined()));
    for (bare, lined) in bare.iter().zip(&lined) {
        assert_eq!((bare.len(), lined.len()), (RECORD, LINED));
        assert_eq!(*lined, [&bare[..], b"\r\n"].concat());
        // a record alone has no CR and LF
        let wrong_length = refused(Reason::WrongLength, 0);
        assert_eq!(
            record::check(lined, Version::Four, &NONE),
            Err(wrong_length)
        );
        assert_eq!(
            record::check(&lined[..RECORD], Version::Four, &NONE),
            Ok(())
        );
    }
}

#[test]
fn a_refusal_keeps_the_form_of_a_writer() {
    let mut writer = Writer::lined();
    let not_expected = refused(Reason::NotExpected, 1);
    assert_eq!(
        writer.payment(&payment_of(&code()), 5, 0, &NONE),
        Err(not_expected)
    );
    assert_eq!(writer.trailer(), Err(not_expected));
    let wrong_length = refused(Reason::WrongLength, 0);
    assert_eq!(writer.header(b""), Err(wrong_length));
    assert_eq!(writer, Writer::lined());
    assert_ne!(writer, Writer::new());
    assert_eq!(writer.header(HEADER).map(|a| a.len()), Ok(LINED));
    assert_eq!(writer.header(HEADER), Err(not_expected));
    assert_eq!(writer.trailer().map(|z| z.len()), Ok(LINED));
    assert_eq!(writer.trailer(), Err(not_expected));
}

#[test]
fn the_header_decides_the_form_that_a_session_takes() {
    let [a, g, z] = records_of(Writer::lined());
    let wrong_length = refused(Reason::WrongLength, 0);
    let mut session = Session::new();
    assert_eq!(session.take(&a[..RECORD + 1], &NONE), Err(wrong_length));
    let ended_wrongly = [&a[..RECORD], b"\n\n"].concat();
    assert_eq!(session.take(&ended_wrongly, &NONE), Err(wrong_length));
    assert!(!session.is_lined());
    for record in [&a, &g, &z] {
        session
            .take(record, &NONE)
            .expect("a record with CR and LF");
        assert_eq!(session.is_lined(), record != &z);
    }
    let [a, _, _] = records_numbered(Writer::lined(), 4322);
    session.take(&a[..RECORD], &NONE).expect("the header alone");
    assert!(!session.is_lined());
    assert_eq!(session.take(&g, &NONE), Err(wrong_length));
    for record in [&g, &z] {
        session
            .take(&record[..RECORD], &NONE)
            .expect("a record alone");
    }
    assert_eq!(session.board().total().payments, 2);
}

#[test]
fn a_record_without_its_line_end_changes_nothing() {
    let [a, g, z] = records_of(Writer::lined());
    let wrong_length = refused(Reason::WrongLength, 0);
    let no_line_end = refused(Reason::NoLineEnd, 151);
    let mut session = Session::new();
    session.take(&a, &NONE).expect("a header with CR and LF");
    let before = session.clone();
    for part in [&g[..RECORD], &g[..RECORD + 1]] {
        assert_eq!(session.take(part, &NONE), Err(no_line_end));
    }
    let ended_wrongly = [&g[..RECORD], b"\n\r"].concat();
    assert_eq!(session.take(&ended_wrongly, &NONE), Err(no_line_end));
    assert_eq!(session.take(&g[..RECORD - 1], &NONE), Err(wrong_length));
    assert_eq!(
        session.take(&[&g[..], b"\n"].concat(), &NONE),
        Err(wrong_length)
    );
    assert_eq!(session, before);
    // the other checks come first
    let count_differs = refused(Reason::CountDiffers, 2);
    assert_eq!(session.take(&z[..RECORD], &NONE), Err(count_differs));
    session
        .take(&g, &NONE)
        .expect("the same payment with CR and LF");
    assert_eq!(session.take(&z[..RECORD], &NONE), Err(no_line_end));
    session
        .take(&z, &NONE)
        .expect("the same trailer with CR and LF");
    assert_eq!(
        no_line_end.to_string(),
        "refused 22 at place 151: a record of a lined file without CR and LF behind it"
    );
}

#[test]
fn a_run_takes_lined_and_bare_files() {
    let writers = [Writer::lined(), Writer::new(), Writer::lined()];
    let numbered = (1..).zip(writers);
    let files = numbered.map(|(number, writer)| records_numbered(writer, number).concat());
    let input: Vec<u8> = files.flatten().collect();
    let mut session = Session::new();
    assert_eq!(session.run(&input, &NONE), accepted(9, 3, input.len()));
    assert_eq!(session.finish(), Ok(()));
    assert_eq!(session.run(b"", &NONE), accepted(0, 0, 0));
    // the last record without its LF
    let mut session = Session::new();
    let result = session.run(&input[..input.len() - 1], &NONE);
    assert_eq!(result.answer, Err(refused(Reason::NoLineEnd, 151)));
    assert_eq!((result.records, result.files), (8, 2));
    assert_eq!(result.bytes, input.len() - LINED);
    assert!(session.is_lined());
}

#[test]
fn an_input_may_be_split_anywhere() {
    let bare = records_numbered(Writer::new(), 4321);
    let lined = records_numbered(Writer::lined(), 4322);
    let input = [bare.concat(), lined.concat()].concat();
    let mut whole = Session::new();
    assert_eq!(whole.run(&input, &NONE), accepted(6, 2, input.len()));
    for length in 1..=input.len() {
        let mut session = Session::new();
        let (mut records, mut files) = (0, 0);
        let mut bytes = Vec::new();
        for part in input.chunks(length) {
            bytes.extend_from_slice(part);
            let result = session.run_part(&bytes, &NONE);
            assert_eq!(result.answer, Ok(()));
            bytes.drain(..result.bytes);
            assert!(bytes.len() < LINED);
            records += result.records;
            files += result.files;
        }
        let last = session.run(&bytes, &NONE);
        assert_eq!(last.answer, Ok(()));
        assert_eq!((records + last.records, files + last.files), (6, 2));
        assert_eq!(session, whole);
    }
}

#[test]
fn a_part_leaves_what_may_go_on() {
    let [a, g, z] = records_of(Writer::lined());
    let mut session = Session::new();
    // the header's CR and LF may follow
    assert_eq!(session.run_part(&a[..RECORD + 1], &NONE), accepted(0, 0, 0));
    assert_eq!(session, Session::new());
    assert_eq!(session.run_part(&a, &NONE), accepted(1, 0, LINED));
    assert!(session.is_lined());
    // a refusal tells where: behind the bytes taken
    let part = [&g[..], &a, &z].concat();
    let result = session.run_part(&part, &NONE);
    assert_eq!(result.answer, Err(refused(Reason::NotExpected, 1)));
    assert_eq!((result.records, result.bytes), (1, LINED));
    // at the input's end the rest is no record
    let result = session.run(&z[..RECORD], &NONE);
    assert_eq!(result.answer, Err(refused(Reason::NoLineEnd, 151)));
    let result = session.run(&z[..RECORD - 1], &NONE);
    assert_eq!(result.answer, Err(refused(Reason::WrongLength, 0)));
    assert_eq!((result.records, result.bytes), (0, 0));
}
