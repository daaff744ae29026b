//! The tariffs of payments in the lanes and in the total: docs/SPEC.md, "Board".

mod common;

use common::{code, header_numbered, payment_of, refused, ISSUER, NONE};
use hollytrot::{barcode, page, Board, Issuer, Lane, Reason, Session, Tally, Writer};

/// Another issuer than [`ISSUER`].
const OTHER: Issuer = Issuer {
    segment: 1,
    number: 3659,
};

/// The largest tariff that a record has room for.
const LARGEST: u64 = 9_999_999;

/// The issuer of a payment, the centavos received, and the tariff.
type Payment = (Issuer, u64, u64);

/// Payments of two issuers by turns, with different tariffs; the last has none.
const PAYMENTS: [Payment; 4] = [
    (ISSUER, 1_000, 150),
    (OTHER, 2_000, 275),
    (ISSUER, 3_000, 161),
    (OTHER, 5, 0),
];

/// A barcode of one of the two issuers.
fn code_of(issuer: Issuer) -> [u8; 44] {
    if issuer == ISSUER {
        return code();
    }
    let free = b"2024022912345678901230000";
    barcode::build(issuer, 6, 1, free, &NONE).expect("good fields")
}

/// The records of the file of this number with these payments, as this writer writes them.
fn records_by(mut writer: Writer, number: u64, payments: &[Payment]) -> Vec<Vec<u8>> {
    let header = writer.header(&header_numbered(number));
    let mut records = vec![header.expect("a good header")];
    for &(issuer, received, tariff) in payments {
        let fields = payment_of(&code_of(issuer));
        let payment = writer.payment(&fields, received, tariff, &NONE);
        records.push(payment.expect("a good payment"));
    }
    records.push(writer.trailer().expect("an open file"));
    records
}

fn records_of(number: u64, payments: &[Payment]) -> Vec<Vec<u8>> {
    records_by(Writer::new(), number, payments)
}

fn tally(payments: u64, centavos: u64, tariff: u64) -> Tally {
    Tally {
        payments,
        centavos,
        tariff,
    }
}

/// The board has a lane of each issuer, first [`ISSUER`]'s, with these sums, and this total.
#[track_caller]
fn same_sums(board: &Board, of_issuer: Tally, of_other: Tally, total: Tally) {
    let lanes = [(ISSUER, of_issuer), (OTHER, of_other)];
    let lanes = lanes.map(|(issuer, tally)| Lane { issuer, tally });
    assert_eq!(board.lanes(), lanes);
    assert_eq!(board.total(), total);
}

/// The board has the sums of [`PAYMENTS`].
#[track_caller]
fn same_as_payments(board: &Board) {
    let (of_issuer, of_other) = (tally(2, 4_000, 311), tally(2, 2_005, 275));
    same_sums(board, of_issuer, of_other, tally(4, 6_005, 586));
}

#[test]
fn each_issuer_has_its_own_tariffs() {
    for writer in [Writer::new(), Writer::lined()] {
        let records = records_by(writer, 4321, &PAYMENTS);
        let mut one_by_one = Session::new();
        for record in &records {
            one_by_one.take(record, &NONE).expect("expected now");
        }
        same_as_payments(one_by_one.board());
        let mut session = Session::new();
        let result = session.run(&records.concat(), &NONE);
        assert_eq!((result.answer, result.records), (Ok(()), 6));
        assert_eq!(session, one_by_one);
    }
}

#[test]
fn a_tariff_line_is_behind_each_line_of_centavos() {
    let mut session = Session::new();
    let result = session.run(&records_of(4321, &PAYMENTS).concat(), &NONE);
    let text = "answer=0\nplace=0\nrecord=6\nfiles=1\n\
                lanes=2\npayments=4\ncentavos=6005\ntariff=586\n\
                lane=1\nissuer=6-12345678\npayments=2\ncentavos=4000\ntariff=311\n\
                lane=2\nissuer=1-3659\npayments=2\ncentavos=2005\ntariff=275\n";
    let printed = page(result.answer, result.records, result.files, session.board());
    assert_eq!(printed, text.as_bytes());
    let empty = page(Ok(()), 0, 0, Session::new().board());
    let text = "answer=0\nplace=0\nrecord=0\nfiles=0\nlanes=0\npayments=0\ncentavos=0\ntariff=0\n";
    assert_eq!(empty, text.as_bytes());
}

/// 430 of the largest tariff are more than 32 bits hold.
#[test]
fn tariffs_of_many_files_add_up() {
    let mut session = Session::new();
    let many = [(ISSUER, 0, LARGEST); 430];
    let files = [&PAYMENTS[..], &many, &[(OTHER, 7, LARGEST)]];
    for (number, payments) in (1..).zip(files) {
        let result = session.run(&records_of(number, payments).concat(), &NONE);
        assert_eq!((result.answer, result.files), (Ok(()), 1));
    }
    same_sums(
        session.board(),
        tally(432, 4_000, 4_299_999_881),
        tally(3, 2_012, 10_000_274),
        tally(435, 6_012, 4_310_000_155),
    );
}

/// A file has at most 999,997 payments, so its tariffs stay far below 10^18.
#[test]
fn the_largest_file_has_room_for_its_tariffs() {
    const MOST: u64 = 999_997;
    let records = records_of(1, &[(ISSUER, 0, LARGEST)]);
    let mut file = records[0].clone();
    file.extend(records[1].repeat(MOST as usize));
    let mut trailer = records[2].clone();
    trailer[1..7].copy_from_slice(b"999999");
    file.extend(trailer);
    let mut session = Session::new();
    assert_eq!(session.run(&file, &NONE).answer, Ok(()));
    assert_eq!(session.board().total(), tally(MOST, 0, MOST * LARGEST));
}

#[test]
fn only_the_tariffs_of_accepted_files_are_shown() {
    let mut session = Session::new();
    let first = session.run(&records_of(4321, &PAYMENTS).concat(), &NONE);
    assert_eq!(first.answer, Ok(()));
    let before = session.clone();
    // an open file
    let records = records_of(4322, &[(OTHER, 0, 1), (ISSUER, 0, LARGEST)]);
    for record in &records[..3] {
        session.take(record, &NONE).expect("expected now");
    }
    same_as_payments(session.board());
    // a refused payment
    let open = session.clone();
    let mut no_digit = records[2].clone();
    no_digit[99] = b'x';
    let refusal = refused(Reason::NoDigit, 100);
    assert_eq!(session.take(&no_digit, &NONE), Err(refusal));
    assert_eq!(session, open);
    // an abandoned file, and then the same one with its trailer
    session.abandon();
    assert_eq!(session, before);
    let again = session.run(&records.concat(), &NONE);
    assert_eq!(again.answer, Ok(()));
    let (of_issuer, of_other) = (tally(3, 4_000, 10_000_310), tally(3, 2_005, 276));
    let total = tally(6, 6_005, 10_000_586);
    same_sums(session.board(), of_issuer, of_other, total);
}
