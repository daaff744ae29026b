//! Known values through every type of the crate, with some of docs/SPEC.md, "Samples".

mod common;

use common::{code, header_numbered, payment_of, refused, HEADER, ISSUER, NONE};
use hollytrot::record::{self, Row};
use hollytrot::{
    barcode, check_digit, line, page, Agreed, Date, Fields, Issuer, Modulus, Reason, Record,
    Session, Tally, Version, Writer, LANES, PAIRS, RECORD,
};

const P4: &[u8] = b"817700000000010936599702411310797039001433708318";

const HEADER_06: &[u8; 80] =
    b"AGREEMENT           COMPANY             237BANK                2023123100432106O";

#[test]
fn refusals_say_number_place_and_reason() {
    let refusal = line::check(&P4[..47], &NONE).unwrap_err();
    assert_eq!(
        refusal.to_string(),
        "refused 1: the length is not the required one"
    );
    let mut p6 = P4.to_vec();
    p6[47] = b'9';
    assert_eq!(
        line::decode(&p6, &NONE),
        Err(refused(Reason::WrongBoxCheck, 48))
    );
    assert_eq!(
        line::to_barcode(&p6, &NONE).unwrap_err().to_string(),
        "refused 6 at place 48: the check of a box is wrong"
    );
}

#[test]
fn limits_are_those_of_the_constants() {
    let limits = Session::limits();
    assert_eq!((limits.lanes, limits.record_length), (LANES, RECORD));
    assert_eq!(limits.payments, 999_997);
    assert_eq!(limits.file_total, 99_999_999_999_999_999);
    assert_eq!(limits.board_total, 1_000_000_000_000_000_000);
    assert_eq!((limits.pairs, PAIRS), (PAIRS, 16));
}

#[test]
fn lines_and_barcodes() {
    let fields = line::decode(P4, &NONE).expect("accepted");
    let issuer = Issuer {
        segment: 1,
        number: 3659,
    };
    assert_eq!(
        fields,
        Fields {
            kind: 7,
            value: 109,
            issuer,
            due: None
        }
    );
    let code44 = line::to_barcode(P4, &NONE).expect("accepted");
    assert_eq!(line::from_barcode(&code44, &NONE).expect("accepted"), P4);
    assert_eq!(barcode::decode(&code44, &NONE), Ok(fields));
    assert_eq!(barcode::free_field(&code44, &NONE), &code44[19..]);
    assert_eq!(barcode::free_field(&code44[..43], &NONE), b"");

    let agreed = Agreed::new(&[ISSUER]).expect("one issuer");
    let fields = barcode::decode(&code(), &agreed).expect("accepted");
    assert_eq!((fields.kind, fields.value), (8, 98_765_432_109));
    assert_eq!(
        (fields.issuer, fields.due),
        (ISSUER, Date::new(2024, 2, 29))
    );
    let free = b"202402291234567890123";
    assert_eq!(barcode::free_field(&code(), &agreed), free);
    assert_eq!(
        barcode::build(issuer, 7, 0, b"", &NONE),
        Err(refused(Reason::WrongLength, 0))
    );
}

#[test]
fn dates_and_check_digits() {
    let date = Date::read(b"20000229").expect("P10");
    assert_eq!((date.year(), date.month(), date.day()), (2000, 2, 29));
    assert_eq!(date.to_string(), "2000-02-29");
    assert_eq!(Date::read(b"19000229"), None);
    assert_eq!(Date::new(2100, 2, 29), None);
    assert_eq!(check_digit(Modulus::Ten, b"01230067896"), 3);
    assert_eq!(check_digit(Modulus::Eleven, b"01230067896"), 0);
}

#[test]
fn a_file_written_and_taken() {
    let mut writer = Writer::new();
    assert_eq!(writer.trailer(), Err(refused(Reason::NotExpected, 1)));
    let a = writer.header(HEADER).expect("a good header");
    let g = writer
        .payment(&payment_of(&code()), 4_294_967_296, 789, &NONE)
        .expect("a good payment");
    let wide = writer.payment(&payment_of(&code()), 1_000_000_000_000, 0, &NONE);
    assert_eq!(wide, Err(refused(Reason::TooWide, 82)));
    let wide = writer.payment(&payment_of(&code()), 0, 10_000_000, &NONE);
    assert_eq!(wide, Err(refused(Reason::TooWide, 94)));
    let z = writer.trailer().expect("an open file");
    assert_eq!(writer.trailer(), Err(refused(Reason::NotExpected, 1)));

    let version = Version::Four;
    let Ok(Record::Header(header)) = record::decode(&a, version, &NONE) else {
        panic!("an A")
    };
    assert_eq!((header.bank, header.sequence), (237, 4321));
    assert_eq!(header.version, version);
    assert_eq!(header.date, Date::new(2023, 12, 31).unwrap());
    assert_eq!(record::header_fields(&a).unwrap(), *HEADER);
    let Ok(Record::Payment(payment)) = record::decode(&g, version, &NONE) else {
        panic!("a G")
    };
    assert_eq!(
        (payment.received, payment.tariff, payment.number),
        (4_294_967_296, 789, 56_789)
    );
    assert_eq!(payment.paid, Date::new(2024, 1, 2).unwrap());
    assert_eq!(payment.credited, Date::new(2024, 3, 4).unwrap());
    assert_eq!(Ok(payment.barcode), barcode::decode(&code(), &NONE));
    assert_eq!(
        record::payment_fields(&g, version, &NONE),
        Ok(payment_of(&code()))
    );
    let wrong_length = refused(Reason::WrongLength, 0);
    assert_eq!(
        record::payment_fields(&a, version, &NONE),
        Err(wrong_length)
    );
    assert_eq!(record::header_fields(&g), Err(wrong_length));
    assert_eq!(record::check(&g, version, &NONE), Ok(()));
    assert_eq!(record::check(&g[1..], version, &NONE), Err(wrong_length));
    assert_eq!(
        record::field(&g, version, Row::RECEIVED, &NONE),
        b"004294967296"
    );
    assert_eq!(record::field(&g, version, Row::BANK, &NONE), b"");
    let Ok(Record::Trailer(trailer)) = record::decode(&z, version, &NONE) else {
        panic!("a Z")
    };
    assert_eq!((trailer.count, trailer.total), (3, 4_294_967_296));

    let mut session = Session::new();
    assert_eq!(
        session.take(&g, &NONE),
        Err(refused(Reason::NotExpected, 1))
    );
    session.take(&a, &NONE).expect("expected now");
    session.take(&g, &NONE).expect("expected now");
    assert_eq!(session.finish(), Err(refused(Reason::FileOpen, 0)));
    assert_eq!(session.board().lanes(), []);
    let result = session.run(&z, &NONE);
    assert_eq!(
        (result.answer, result.records, result.files),
        (Ok(()), 1, 1)
    );
    let lane = session.board().lane(ISSUER).expect("its lane");
    let tally = Tally {
        payments: 1,
        centavos: 4_294_967_296,
        tariff: 789,
    };
    assert_eq!(lane.tally, tally);
    assert_eq!(session.board().total(), tally);

    let next = Writer::new().header(&header_numbered(4322));
    session
        .take(&next.expect("a good header"), &NONE)
        .expect("another file");
    session.abandon();
    assert_eq!(session.finish(), Ok(()));
    let text = "answer=0\nplace=0\nrecord=3\nfiles=1\n\
                lanes=1\npayments=1\ncentavos=4294967296\ntariff=789\n\
                lane=1\nissuer=6-12345678\npayments=1\ncentavos=4294967296\ntariff=789\n";
    assert_eq!(page(Ok(()), 3, 1, session.board()), text.as_bytes());
    let text = page(
        Err(refused(Reason::TotalDiffers, 8)),
        2,
        0,
        Session::new().board(),
    );
    assert_eq!(&text[..18], b"answer=14\nplace=8\n");
}

/// A payment with a capture that only version 06 has.
fn payment_of_06() -> [u8; 121] {
    let mut fields = payment_of(&code());
    fields[96] = b'7';
    fields
}

#[test]
fn versions_have_their_numbers() {
    for version in [Version::Four, Version::Six] {
        assert_eq!(Version::from_number(version.number()), Some(version));
    }
    assert_eq!((Version::Four.number(), Version::Six.number()), (4, 6));
    for number in [0, 5, 77, (1 << 32) + 4, u64::MAX] {
        assert_eq!(Version::from_number(number), None);
    }
}

#[test]
fn the_version_told_decides_the_codes() {
    let mut writer = Writer::new();
    let a = writer.header(HEADER_06).expect("a good header");
    let g = writer
        .payment(&payment_of_06(), 1, 0, &NONE)
        .expect("its code");
    let unknown = refused(Reason::UnknownCode, 117);
    for version in [Version::Four, Version::Six] {
        let Ok(Record::Header(header)) = record::decode(&a, version, &NONE) else {
            panic!("an A, whatever version is told")
        };
        assert_eq!(header.version, Version::Six);
    }
    assert_eq!(record::header_fields(&a), Ok(*HEADER_06));
    assert_eq!(record::check(&g, Version::Six, &NONE), Ok(()));
    assert_eq!(record::check(&g, Version::Four, &NONE), Err(unknown));
    let decoded = record::decode(&g, Version::Six, &NONE);
    assert!(matches!(decoded, Ok(Record::Payment(_))));
    assert_eq!(record::decode(&g, Version::Four, &NONE), Err(unknown));
    assert_eq!(record::field(&g, Version::Six, Row::CAPTURE, &NONE), b"7");
    assert_eq!(record::field(&g, Version::Four, Row::CAPTURE, &NONE), b"");
    let fields = record::payment_fields(&g, Version::Six, &NONE);
    assert_eq!(fields, Ok(payment_of_06()));
    assert_eq!(
        record::payment_fields(&g, Version::Four, &NONE),
        Err(unknown)
    );
}

#[test]
fn the_header_of_the_open_file_decides_the_codes() {
    let mut writer = Writer::new();
    let a = writer.header(HEADER_06).expect("a good header");
    let g = writer
        .payment(&payment_of_06(), 1, 0, &NONE)
        .expect("its code");
    let z = writer.trailer().expect("an open file");
    let mut session = Session::new();
    let result = session.run(&[&a[..], &g, &z].concat(), &NONE);
    assert_eq!((result.answer, result.files), (Ok(()), 1));

    // a file of version 04 behind it does not have the code
    let mut writer = Writer::new();
    let a = writer
        .header(&header_numbered(4322))
        .expect("a good header");
    let unknown = refused(Reason::UnknownCode, 117);
    assert_eq!(writer.payment(&payment_of_06(), 1, 0, &NONE), Err(unknown));
    session.take(&a, &NONE).expect("another file");
    assert_eq!(session.take(&g, &NONE), Err(unknown));
}

#[test]
fn a_header_names_its_version() {
    let wrong_version = refused(Reason::FixedDiffers, 80);
    for i in [77, 78] {
        let mut fields = *HEADER;
        fields[i] = b'5';
        assert_eq!(Writer::new().header(&fields), Err(wrong_version));
    }
    let without = [&HEADER[..77], b"O"].concat();
    let wrong_length = refused(Reason::WrongLength, 0);
    assert_eq!(Writer::new().header(&without), Err(wrong_length));
}
