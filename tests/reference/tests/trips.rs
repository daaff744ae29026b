//! Round trips: decoding what was built, written or converted gives the same bytes again.

mod common;

use reference::agreed::is_agreed;
use reference::random::Random;
use reference::records::{self, TABLE};
use reference::{barcode, days, digits, line, Record, Stage, Writer};

#[test]
fn barcode_to_fields_and_back() {
    let mut random = Random::new(1);
    for _ in 0..50_000 {
        let issuer = days::issuer(&mut random);
        let agreed = days::agreed(&mut random, &[issuer]);
        let code = days::barcode_under(&mut random, issuer, &agreed).unwrap();
        let decoded = barcode::decode(&code, &agreed).unwrap();
        let free = barcode::free_field(&code, &agreed);
        assert_eq!(free.len(), barcode::free_length(decoded.segment));
        let mut again = [0; 44];
        barcode::build(
            decoded.segment,
            decoded.kind,
            decoded.value,
            decoded.issuer,
            free,
            &agreed,
            &mut again,
        )
        .unwrap();
        assert_eq!(again, code);
        // A due date is shown for an agreed issuer, and only for one.
        assert_eq!(decoded.due.is_some(), is_agreed(issuer, &agreed));
        if let Some(due) = decoded.due {
            assert_eq!(due.digits(), free[..8]);
        }
    }
}

#[test]
fn fields_to_barcode_and_back() {
    let mut random = Random::new(2);
    for _ in 0..50_000 {
        let issuer = days::issuer(&mut random);
        let (kind, value) = (random.between(6, 9), random.number(11));
        let free: Vec<u8> = (0..barcode::free_length(issuer.segment))
            .map(|_| random.digit())
            .collect();
        let mut code = [0; 44];
        barcode::build(
            issuer.segment,
            kind,
            value,
            issuer.number,
            &free,
            &[],
            &mut code,
        )
        .unwrap();
        let decoded = barcode::decode(&code, &[]).unwrap();
        assert_eq!(
            (decoded.issuer(), decoded.kind, decoded.value),
            (issuer, kind, value)
        );
        assert_eq!(barcode::free_field(&code, &[]), free);
    }
}

#[test]
fn barcode_to_line_and_back() {
    let mut random = Random::new(3);
    for _ in 0..50_000 {
        let code = days::barcode(&mut random).unwrap();
        let mut typed = [0; 48];
        line::line_from_barcode(&code, &[], &mut typed).unwrap();
        let mut again = [0; 44];
        line::barcode_from_line(&typed, &[], &mut again).unwrap();
        assert_eq!(again, code);
        assert_eq!(line::decode(&typed, &[]), barcode::decode(&code, &[]));
        assert!(common::naive::typed_line(&typed, &[]).is_ok());
    }
}

#[test]
fn record_to_field_bytes_and_back() {
    let mut random = Random::new(4);
    for _ in 0..20_000 {
        let header = days::header(&mut random).unwrap();
        let Ok(Record::A(decoded)) = records::decode(&header, 0, &[]) else {
            panic!("an A")
        };
        let version = decoded.version;
        let mut fields = [0; 80];
        records::join(&header, 0, &[], &mut fields).unwrap();
        let mut writer = Writer::new();
        let mut out = [0; 150];
        writer.header(&fields, &mut out).unwrap();
        assert_eq!(out, header);
        assert_eq!(writer.version, version);

        let payment = days::payment(&mut random, version).unwrap();
        let Ok(Record::G(decoded)) = records::decode(&payment, version, &[]) else {
            panic!("a G")
        };
        let mut fields = [0; 121];
        records::join(&payment, version, &[], &mut fields).unwrap();
        writer
            .payment(&fields, decoded.received, decoded.tariff, &[], &mut out)
            .unwrap();
        assert_eq!(out, payment);
        assert_eq!((writer.taken, writer.total), (1, decoded.received));
        writer.trailer(&mut out).unwrap();
        assert_eq!(out, common::z(3, decoded.received));
        assert_eq!((writer.stage, writer.version), (Stage::Closed, version));
    }
}

#[test]
fn decoded_numbers_are_those_of_the_fields() {
    let mut random = Random::new(5);
    for _ in 0..20_000 {
        let version = days::version(&mut random);
        let record = days::record(&mut random, version).unwrap();
        let number =
            |row: usize| digits::number(records::field(&record, version, row, &[])).unwrap();
        match records::decode(&record, version, &[]).unwrap() {
            Record::A(decoded) => {
                assert_eq!(decoded.bank, number(records::A_BANK));
                assert_eq!(decoded.sequence, number(records::A_SEQUENCE));
                assert_eq!(decoded.version, number(records::A_VERSION));
                let date = records::field(&record, version, records::A_DATE, &[]);
                assert_eq!(decoded.date.digits(), date);
            }
            Record::G(decoded) => {
                assert_eq!(decoded.received, number(records::G_RECEIVED));
                assert_eq!(decoded.tariff, number(records::G_TARIFF));
                assert_eq!(decoded.number, number(records::G_NUMBER));
                let bytes = |row| records::field(&record, version, row, &[]);
                assert_eq!(decoded.paid.digits(), bytes(records::G_PAID));
                assert_eq!(decoded.credited.digits(), bytes(records::G_CREDITED));
                assert_eq!([decoded.capture], bytes(records::G_CAPTURE));
                assert_eq!([decoded.form], bytes(records::G_FORM));
                assert_eq!(
                    Ok(decoded.barcode),
                    barcode::decode(bytes(records::G_BARCODE), &[])
                );
            }
            Record::Z(decoded) => {
                assert_eq!(decoded.count, number(records::Z_COUNT));
                assert_eq!(decoded.total, number(records::Z_TOTAL));
            }
        }
    }
}

#[test]
fn the_table_covers_each_record_once() {
    for letter in [b'A', b'G', b'Z'] {
        let mut next = 1;
        for row in TABLE.iter().filter(|row| row.letter == letter) {
            assert_eq!(row.first, next);
            assert!(row.last >= row.first);
            next = row.last + 1;
        }
        assert_eq!(next, 151);
    }
}

#[test]
fn numbers_in_digits() {
    let mut out = [7; 3];
    assert!(!digits::write(1000, &mut out));
    assert_eq!(out, [7; 3]);
    assert!(digits::write(999, &mut out));
    assert_eq!(&out, b"999");
    assert!(digits::write(0, &mut []));
    assert!(!digits::write(1, &mut []));
    let mut wide = [0; 25];
    assert!(digits::write(u64::MAX, &mut wide));
    assert_eq!(&wide, b"0000018446744073709551615");
    assert_eq!(digits::number(&wide), Some(u64::MAX));
    assert_eq!(digits::number(b"18446744073709551616"), None);
    assert_eq!(digits::number(b"12a"), None);
    assert_eq!(digits::number(b""), Some(0));
}
