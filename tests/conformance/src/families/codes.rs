//! Every byte as a code, and every version: of single records, in sessions and by writers.

use reference::days;
use reference::random::Random;
use reference::records::{G_CAPTURE, G_FORM, LINE_END, TABLE};

use super::{boards, sessions};
use crate::calls::Calls;
use crate::{lists, versions};

/// Both versions.
const VERSIONS: [u64; 2] = [4, 6];

/// What follows a record of a bare file, and of a lined one.
const ENDS: [&[u8]; 2] = [b"", LINE_END];

/// Where a G has its capture and its payment form, and where both are in its field bytes.
const CAPTURE: usize = TABLE[G_CAPTURE].first - 1;
const FORM: usize = TABLE[G_FORM].first - 1;
const GIVEN: [usize; 2] = [96, 120];

pub fn codes(calls: &mut Calls, random: &mut Random, times: u64) {
    for _ in 0..times {
        each_two_codes(calls, random);
        each_version(calls, random);
        each_told(calls, random);
        taken(calls, random);
        written(calls, random);
    }
}

/// A G of each version, with each byte as its capture and each as its payment form. Version 06 has its issuer agreed.
fn each_two_codes(calls: &mut Calls, random: &mut Random) {
    for version in VERSIONS {
        let issuer = days::issuer(random);
        let agreed = match version {
            4 => Vec::new(),
            _ => lists::only(&[issuer]),
        };
        let payment = days::payment_under(random, issuer, version, &agreed);
        let mut record = payment.expect("a good payment");
        for two in 0..=u16::MAX {
            [record[CAPTURE], record[FORM]] = two.to_be_bytes();
            calls.record(&record, version, &agreed);
        }
    }
}

/// An A with each two bytes as its version, as a record and as field bytes.
fn each_version(calls: &mut Calls, random: &mut Random) {
    let mut record = days::header(random).expect("a good header");
    let mut fields = days::header_fields(random);
    calls.new_writer();
    for two in 0..=u16::MAX {
        record[79..81].copy_from_slice(&two.to_be_bytes());
        calls.record(&record, versions::told(random), &[]);
        fields[77..79].copy_from_slice(&two.to_be_bytes());
        calls.header(&fields, random.one_of(&[150, 152]));
        // In an open file the next header would not be expected.
        if calls.writer().version != 0 {
            calls.new_writer();
        }
    }
}

/// Records of each version that are told each version, or a number that is none: a G with each byte as one of its
/// codes, an A and a Z.
fn each_told(calls: &mut Calls, random: &mut Random) {
    for told in versions::OTHERS.into_iter().chain(VERSIONS) {
        for version in VERSIONS {
            let issuer = days::issuer(random);
            let agreed = lists::right(random, &[issuer]);
            let payment = days::payment_under(random, issuer, version, &agreed);
            let payment = payment.expect("a good payment");
            for byte in 0..=255 {
                for code in [CAPTURE, FORM] {
                    let mut record = payment;
                    record[code] = byte;
                    calls.record(&record, told, &agreed);
                }
            }
            let header = versions::header(random, version);
            for record in [header, payment, days::trailer(random)] {
                calls.record(&record, told, &agreed);
                calls.fields(&record, told, &agreed);
            }
        }
    }
}

/// An open file of each version and form, and payments with each byte as one of their codes: one by one, and in runs of
/// two.
fn taken(calls: &mut Calls, random: &mut Random) {
    for version in VERSIONS {
        for end in ENDS {
            // In one session, the number of a second file might have to follow that of the first.
            calls.new_session();
            let header = versions::header(random, version);
            let agreed = lists::right(random, &boards::FEW);
            calls
                .take(&[&header, end].concat(), &agreed)
                .expect("a file to open");
            for byte in 0..=255 {
                for code in [CAPTURE, FORM] {
                    let mut record = boards::payment(random, version, &agreed);
                    let before = record;
                    record[code] = byte;
                    let _ = calls.take(&[&record, end].concat(), &agreed);
                    let two = [&before, end, &record, end].concat();
                    calls.run(&two, random.once_in(2), &agreed);
                }
            }
            let trailer = sessions::trailer(calls.session());
            calls
                .take(&[&trailer, end].concat(), &agreed)
                .expect("its own trailer");
        }
    }
}

/// A writer of each version and form, and payments with each byte as one of their codes.
fn written(calls: &mut Calls, random: &mut Random) {
    for version in VERSIONS {
        for end in ENDS {
            let size = 150 + end.len() as u8;
            calls.set_writer([1, 0, 0, version], !end.is_empty());
            let issuer = days::issuer(random);
            let agreed = lists::right(random, &[issuer]);
            let code = days::barcode_under(random, issuer, &agreed).expect("a good barcode");
            for byte in 0..=255 {
                for place in GIVEN {
                    let mut fields = days::payment_fields(random, &code, version);
                    fields[place] = byte;
                    let (received, tariff) = (random.number(12), random.number(7));
                    calls.payment(&fields, received, tariff, &agreed, size);
                }
            }
            calls.trailer(size);
        }
    }
}
