//! Due dates of agreed issuers, through every function that takes a list: docs/SPEC.md, "Agreed issuers".

mod common;

use common::{code, payment_of, refused, HEADER, ISSUER, NONE};
use hollytrot::record::{self, Row};
use hollytrot::{
    barcode, line, Agreed, Date, Issuer, Reason, Record, Refusal, Session, Version, Writer, AGREED,
};

/// A line of 1-3659 whose free field starts with 20190901.
const DATED: &[u8; 48] = b"817000000007010936592012909010000000000000000000";

/// The same with places 25 and 26 exchanged, which no check digit notices: 20109901 is not a date.
const UNDATED: &[u8; 48] = b"817000000007010936592012099010000000000000000000";

fn issuer(segment: u64, number: u64) -> Issuer {
    Issuer { segment, number }
}

fn agreed(issuers: &[Issuer]) -> Agreed {
    Agreed::new(issuers).expect("a right list")
}

/// Both issuers of the barcodes here.
fn both() -> Agreed {
    agreed(&[issuer(1, 3659), ISSUER])
}

/// The barcode of segment 6 with a 30th of February.
fn undated() -> [u8; 44] {
    let free = b"202402301234567890123";
    barcode::build(ISSUER, 8, 98_765_432_109, free, &NONE).expect("good fields")
}

fn no_date(place: usize) -> Refusal {
    refused(Reason::NoDate, place)
}

#[test]
fn a_list_has_at_most_64_issuers_each_once() {
    let wrong = Err(refused(Reason::WrongList, 0));
    let many: Vec<Issuer> = (0..65).map(|number| issuer(3, number)).collect();
    assert!(Agreed::new(&many[..AGREED]).is_ok());
    assert_eq!(Agreed::new(&many), wrong);
    for twice in [0, 1, 62] {
        let mut list = many[..AGREED].to_vec();
        list[63] = list[twice];
        assert_eq!(Agreed::new(&list), wrong);
    }
    assert_eq!(
        Agreed::new(&many).unwrap_err().to_string(),
        "refused 25: the list of agreed issuers has over 64 entries, one that names no issuer, or an issuer twice"
    );
}

#[test]
fn an_entry_names_an_issuer() {
    for (segment, number) in [(1, 0), (1, 9_999), (9, 9_999), (6, 0), (6, 99_999_999)] {
        assert!(Agreed::new(&[issuer(segment, number)]).is_ok());
    }
    for (segment, number) in [
        (0, 1),
        (8, 1),
        (10, 1),
        (u64::MAX, 1),
        (1, 10_000),
        (9, 10_000),
        (6, 100_000_000),
        (5, 100_000_000),
        (1, u64::MAX),
    ] {
        let wrong = Err(refused(Reason::WrongList, 0));
        assert_eq!(Agreed::new(&[issuer(segment, number)]), wrong);
        assert_eq!(Agreed::new(&[ISSUER, issuer(segment, number)]), wrong);
    }
}

#[test]
fn the_order_of_a_list_does_not_matter() {
    assert_eq!(both(), agreed(&[ISSUER, issuer(1, 3659)]));
    assert_ne!(both(), agreed(&[ISSUER]));
    assert_eq!(agreed(&[]), Agreed::none());
    assert_eq!(Agreed::default(), Agreed::none());
}

#[test]
fn a_due_date_is_shown_of_agreed_issuers_only() {
    let date = Date::new(2019, 9, 1);
    assert_eq!(line::decode(DATED, &both()).map(|f| f.due), Ok(date));
    // the same number in another segment is another issuer
    let others = agreed(&[issuer(2, 3659), issuer(1, 3658), ISSUER]);
    for list in [&others, &NONE] {
        assert_eq!(line::decode(DATED, list).map(|f| f.due), Ok(None));
        assert_eq!(line::decode(UNDATED, list).map(|f| f.due), Ok(None));
    }
    let date = Date::new(2024, 2, 29);
    assert_eq!(barcode::decode(&code(), &both()).map(|f| f.due), Ok(date));
    assert_eq!(barcode::decode(&code(), &NONE).map(|f| f.due), Ok(None));
}

#[test]
fn a_line_of_an_agreed_issuer_needs_a_date() {
    assert_eq!(line::check(UNDATED, &NONE), Ok(()));
    assert_eq!(line::check(DATED, &both()), Ok(()));
    assert_eq!(line::check(UNDATED, &both()), Err(no_date(21)));
    assert_eq!(line::decode(UNDATED, &both()), Err(no_date(21)));
    assert_eq!(line::to_barcode(UNDATED, &both()), Err(no_date(21)));
    let typed = line::from_barcode(&undated(), &NONE).expect("accepted");
    assert_eq!(line::check(&typed, &both()), Err(no_date(26)));
}

#[test]
fn a_barcode_of_an_agreed_issuer_needs_a_date() {
    let of_line = line::to_barcode(UNDATED, &NONE).expect("accepted");
    for (code, place) in [(of_line, 20), (undated(), 24)] {
        assert_eq!(barcode::check(&code, &NONE), Ok(()));
        assert_eq!(barcode::check(&code, &both()), Err(no_date(place)));
        assert_eq!(barcode::decode(&code, &both()), Err(no_date(place)));
        assert_eq!(line::from_barcode(&code, &both()), Err(no_date(place)));
        assert_eq!(barcode::free_field(&code, &both()), b"");
        assert_eq!(barcode::free_field(&code, &NONE), &code[place - 1..]);
    }
    let build = |free| barcode::build(ISSUER, 8, 98_765_432_109, free, &both());
    assert_eq!(build(b"202402291234567890123"), Ok(code()));
    assert_eq!(build(b"202402301234567890123"), Err(no_date(24)));
    // every other refusal comes first
    let no_digit = refused(Reason::NoDigit, 44);
    assert_eq!(build(b"20240230123456789012x"), Err(no_digit));
}

/// The three records of a file with this payment, written under this list.
fn file_of(code: &[u8; 44], agreed: &Agreed) -> Result<[Vec<u8>; 3], Refusal> {
    let mut writer = Writer::new();
    let header = writer.header(HEADER)?;
    let payment = writer.payment(&payment_of(code), 5, 0, agreed)?;
    Ok([header, payment, writer.trailer()?])
}

#[test]
fn a_payment_of_an_agreed_issuer_needs_a_date() {
    let [_, g, _] = file_of(&undated(), &NONE).expect("a file");
    let four = Version::Four;
    assert_eq!(record::check(&g, four, &NONE), Ok(()));
    assert_eq!(record::check(&g, four, &both()), Err(no_date(61)));
    assert_eq!(record::decode(&g, four, &both()), Err(no_date(61)));
    let fields = record::payment_fields(&g, four, &both());
    assert_eq!(fields, Err(no_date(61)));
    assert_eq!(record::field(&g, four, Row::NUMBER, &both()), b"");
    assert_eq!(record::field(&g, four, Row::NUMBER, &NONE), b"00056789");
    // it is the turn of the barcode, before that of the amount behind it
    let mut wrong_amount = g;
    wrong_amount[81] = b'x';
    let checked = record::check(&wrong_amount, four, &both());
    assert_eq!(checked, Err(no_date(61)));

    let [_, g, _] = file_of(&code(), &both()).expect("a file");
    for (list, due) in [(&both(), Date::new(2024, 2, 29)), (&NONE, None)] {
        let Ok(Record::Payment(payment)) = record::decode(&g, four, list) else {
            panic!("a G")
        };
        assert_eq!(payment.barcode.due, due);
    }
    let of_line = line::to_barcode(UNDATED, &NONE).expect("accepted");
    let [_, g, _] = file_of(&of_line, &NONE).expect("a file");
    assert_eq!(record::check(&g, four, &both()), Err(no_date(57)));
}

#[test]
fn a_writer_asks_for_the_date_and_stays_as_it_was() {
    assert_eq!(file_of(&undated(), &both()), Err(no_date(61)));
    let mut writer = Writer::new();
    writer.header(HEADER).expect("a good header");
    let before = writer.clone();
    let refused = writer.payment(&payment_of(&undated()), 5, 0, &both());
    assert_eq!(refused, Err(no_date(61)));
    assert_eq!(writer, before);
    // each call has its own list
    let under_none = writer.payment(&payment_of(&undated()), 5, 0, &NONE);
    assert!(under_none.is_ok());
    let under_list = writer.payment(&payment_of(&code()), 5, 0, &both());
    assert!(under_list.is_ok());
}

#[test]
fn a_session_asks_for_the_date_and_stays_as_it_was() {
    let [a, g, z] = file_of(&undated(), &NONE).expect("a file");
    let input = [&a[..], &g, &z].concat();
    let mut session = Session::new();
    let result = session.run(&input, &both());
    assert_eq!(result.answer, Err(no_date(61)));
    assert_eq!((result.records, result.bytes), (1, 150));
    let before = session.clone();
    assert_eq!(session.take(&g, &both()), Err(no_date(61)));
    let part = session.run_part(&[&g[..], &z].concat(), &both());
    assert_eq!((part.answer, part.bytes), (Err(no_date(61)), 0));
    assert_eq!(session, before);
    // each call has its own list
    let result = session.run(&input[150..], &NONE);
    assert_eq!((result.answer, result.files), (Ok(()), 1));
}

#[test]
fn a_fresh_session_takes_a_file_under_the_list_it_was_written_under() {
    for list in [&both(), &NONE] {
        let records = file_of(&code(), list).expect("a file");
        let mut session = Session::new();
        let result = session.run(&records.concat(), list);
        assert_eq!((result.answer, result.files), (Ok(()), 1));
        assert_eq!(session.board().total().payments, 1);
        let mut one_by_one = Session::new();
        for record in &records {
            one_by_one.take(record, list).expect("expected now");
        }
        assert_eq!(one_by_one, session);
    }
}
