//! Single records, told the version of their file or another number.

use reference::days;
use reference::random::Random;

use super::{each_change, noise, out_length};
use crate::calls::{fields_length, Calls};
use crate::lists::{self, Choice};
use crate::versions;

/// An A and a G of a file of this version, and a Z, each with a list of this choice. All are accepted under an empty
/// one.
fn records(random: &mut Random, version: u64, choice: Choice) -> [([u8; 150], Vec<u64>); 3] {
    let issuer = days::issuer(random);
    let agreed = choice(random, &[issuer]);
    let made = lists::made(random, &agreed);
    let payment = days::payment_under(random, issuer, version, made).expect("a good payment");
    let header = versions::header(random, version);
    [
        (header, choice(random, &[])),
        (payment, agreed),
        (days::trailer(random), choice(random, &[])),
    ]
}

/// Records of each version with each byte at each place.
pub fn changed(calls: &mut Calls, random: &mut Random, times: u64) {
    for _ in 0..7 * times {
        for version in [4, 6] {
            for (mut record, agreed) in records(random, version, lists::right) {
                calls.fields(&record, version, &agreed);
                each_change(&mut record, |changed| {
                    calls.record(changed, version, &agreed)
                });
            }
        }
    }
}

/// Records damaged at one to three places, and random bytes of every length up to 200, half of them with a letter
/// first. The version told may be another one than that of the record, or no version.
pub fn damaged(calls: &mut Calls, random: &mut Random, times: u64) {
    for _ in 0..100_000 * times {
        let told = versions::told(random);
        let made = versions::made(random, told);
        for (mut record, agreed) in records(random, made, lists::lent) {
            if random.once_in(8) {
                let required = fields_length(&record) as u8;
                calls.join(&record, told, &agreed, out_length(random, required));
            }
            match random.below(4) {
                0 => versions::change(random, &mut record),
                _ => drop(days::damage(random, &mut record)),
            }
            calls.record(&record, told, &agreed);
            if random.once_in(8) {
                calls.fields(&record, told, &agreed);
            }
        }
    }
    for _ in 0..30 * times {
        for length in 0..=200 {
            let mut bytes = noise(random, length);
            if let (Some(first), true) = (bytes.first_mut(), random.once_in(2)) {
                *first = random.one_of(b"AGZ");
            }
            let told = versions::told(random);
            let agreed = lists::lent(random, &[]);
            calls.record(&bytes, told, &agreed);
            calls.fields(&bytes, told, &agreed);
        }
    }
}
