//! Agreed issuers: every operation under every kind of list, every month and day as a due date, and issuers' keys.

use reference::agreed::key;
use reference::barcode::{self, free_place};
use reference::random::Random;
use reference::{days, Barcode, Issuer, Session, AGREED};

use super::{near, noise, out_length};
use crate::calls::{Calls, Conversion};
use crate::{lines, lists, versions};

/// The unit of an issuer's segment in its key.
const UNIT: u64 = 100_000_000;

/// Barcodes of every segment, with a date and without one, under every kind of list; then wrong lists with inputs that
/// are refused for other reasons too, and keys.
pub fn lists(calls: &mut Calls, random: &mut Random, times: u64) {
    for _ in 0..8 * times {
        for segment in days::SEGMENTS {
            let bound = if segment == 6 { UNIT } else { 10_000 };
            let number = near(random, &[0, bound - 1]) % bound;
            let issuer = Issuer { segment, number };
            for dated in [false, true] {
                let code = barcode_of(random, issuer, dated);
                for agreed in every_kind(random, issuer) {
                    each_operation(calls, random, &code, &agreed);
                }
            }
        }
    }
    for _ in 0..2_000 * times {
        wrong_before_all(calls, random);
    }
    keys(calls, random, times);
}

/// A barcode of this issuer whose free field starts with a date or not.
fn barcode_of(random: &mut Random, issuer: Issuer, dated: bool) -> [u8; 44] {
    let agreed = lists::only(&[issuer]);
    loop {
        let code = days::barcode_of(random, issuer).expect("a good barcode");
        if barcode::decode(&code, &agreed).is_ok() == dated {
            return code;
        }
    }
}

/// Lists with this issuer and without it: empty, short, full and too long; lists of near keys; and full lists that are
/// wrong at one place, where this issuer is there twice or an entry names no issuer.
fn every_kind(random: &mut Random, issuer: Issuer) -> Vec<Vec<u64>> {
    let mine = key(issuer);
    let mut others: Vec<u64> = Vec::new();
    while others.len() < AGREED + 1 {
        let other = key(days::issuer(random));
        if other != mine && !others.contains(&other) {
            others.push(other);
        }
    }
    let full = others[1..].to_vec();
    let with = |place: usize, entry: u64| {
        let mut list = full.clone();
        list[place] = entry;
        list
    };
    let mut all = vec![
        vec![],
        vec![mine],
        vec![full[0]],
        vec![full[0], mine],
        full.clone(),
        others.clone(),
        [&others[..], &[mine]].concat(),
        vec![mine; 2],
        vec![mine; AGREED + 1],
    ];
    for place in [0, 1, 31, 62, 63] {
        all.push(with(place, mine));
        let mut twice = with(place, mine);
        twice[(place + 1 + random.index(AGREED - 1)) % AGREED] = mine;
        all.push(twice);
        all.push(with(place, no_key(random)));
    }
    all.extend(near_keys(issuer));
    all
}

/// Right lists that have this issuer's number in the other segments, or the numbers next to it; and wrong ones, whose
/// entry is the key in its low bits only.
fn near_keys(issuer: Issuer) -> Vec<Vec<u64>> {
    let mine = key(issuer);
    let is_other = |&key: &u64| key != mine && reference::agreed::names_issuer(key);
    let segments = days::SEGMENTS.map(|segment| segment * UNIT + issuer.number);
    let next = [mine + 1, mine - 1];
    vec![
        segments.into_iter().filter(is_other).collect(),
        next.into_iter().filter(is_other).collect(),
        vec![mine + (1 << 32)],
        vec![mine + (1 << 63)],
        vec![issuer.number],
    ]
}

/// A number that is not the key of an issuer.
fn no_key(random: &mut Random) -> u64 {
    let edges = [0, UNIT - 1, 8 * UNIT, 10 * UNIT, UNIT + 10_000, u64::MAX];
    loop {
        let number = near(random, &edges);
        if !reference::agreed::names_issuer(number) {
            return number;
        }
    }
}

/// Every operation that has a list, on this barcode, which is accepted under an empty one.
fn each_operation(calls: &mut Calls, random: &mut Random, code: &[u8; 44], agreed: &[u64]) {
    let line = lists::line_of(code);
    calls.barcode(code, agreed);
    calls.line(&line, agreed);
    calls.convert(Conversion::LineToBarcode, &line, agreed, 44);
    calls.convert(Conversion::LineFromBarcode, code, agreed, 48);
    let fields = barcode::decode(code, &[]).expect("a good barcode");
    let Barcode {
        segment,
        issuer,
        kind,
        value,
        ..
    } = fields;
    let free = &code[free_place(segment) - 1..];
    calls.build([segment, issuer, kind, value], free, agreed, 44);
    in_a_file(calls, random, code, agreed);
}

/// A payment with this barcode: as a single record, sometimes with other faults, in a session and by a writer.
fn in_a_file(calls: &mut Calls, random: &mut Random, code: &[u8; 44], agreed: &[u64]) {
    let version = days::version(random);
    let mut record = days::payment(random, version).expect("a good payment");
    record[37..81].copy_from_slice(code);
    if random.once_in(4) {
        days::damage(random, &mut record);
    }
    calls.record(&record, version, agreed);
    calls.fields(&record, version, agreed);
    calls.join(&record, version, agreed, 121);
    let lined = random.once_in(2);
    let session = Session {
        open: true,
        version,
        lined,
        ..Session::new()
    };
    let bytes = lines::with_end(random, &record, lined);
    calls.set_session(&session);
    let _ = calls.take(&bytes, agreed);
    calls.run(&[&bytes[..], &bytes].concat(), random.once_in(2), agreed);
    let size = if lined { 152 } else { 150 };
    calls.set_writer([1, 0, 0, version], lined);
    let fields = days::payment_fields(random, code, version);
    calls.payment(&fields, random.number(12), random.number(7), agreed, size);
}

/// A wrong list with bytes, numbers and buffers that are wrong themselves, in sessions and writers that expect
/// something else: it is refused first.
fn wrong_before_all(calls: &mut Calls, random: &mut Random) {
    let agreed = days::wrong_agreed(random, &[]);
    let length = random.index(160);
    let bytes = noise(random, length);
    calls.barcode(&bytes, &agreed);
    calls.line(&bytes, &agreed);
    let size = random.byte();
    calls.convert(Conversion::LineToBarcode, &bytes, &agreed, size);
    calls.convert(Conversion::LineFromBarcode, &bytes, &agreed, size);
    let numbers = [random.below(11), random.bits(), random.below(11), 0];
    calls.build(numbers, &bytes, &agreed, out_length(random, 44));
    let told = versions::told(random);
    let version = days::version(random);
    let record = days::record(random, version).expect("a good record");
    for bytes in [&bytes[..], &record] {
        calls.record(bytes, told, &agreed);
        calls.fields(bytes, told, &agreed);
        calls.join(bytes, told, &agreed, size);
    }
    calls.new_session();
    for bytes in [&bytes[..], &record, b""] {
        let _ = calls.take(bytes, &agreed);
        calls.run(bytes, random.once_in(2), &agreed);
    }
    calls.set_writer([random.below(3), 0, 0, told], random.once_in(2));
    calls.payment(&bytes, random.bits(), random.bits(), &agreed, size);
}

/// The keys of issuers, and of numbers near them.
fn keys(calls: &mut Calls, random: &mut Random, times: u64) {
    let edges = [0, 9_999, 10_000, UNIT - 1, UNIT, 1 << 32, u64::MAX];
    for segment in (0..=12).chain([1 << 32, (1 << 32) + 1, u64::MAX]) {
        for edge in edges {
            for number in [edge.wrapping_sub(1), edge, edge.wrapping_add(1)] {
                calls.issuer_key(segment, number);
            }
        }
    }
    for _ in 0..20_000 * times {
        calls.issuer_key(near(random, &[1, 6, 9]), near(random, &edges));
        calls.issuer_key(random.below(11), random.number(9));
    }
}

/// Every month and day of two digits as the due date of an agreed issuer, in years at the edges: as a barcode, built,
/// and by turns as a line and in a file.
pub fn due_dates(calls: &mut Calls, random: &mut Random, times: u64) {
    for year in [1899, 1900, 2000, 2023, 2024, 2100, 2199, 2200] {
        for rest in 0..10_000 * times {
            let issuer = match rest % 4 {
                0 => Issuer {
                    segment: 6,
                    number: random.number(8),
                },
                _ => days::issuer(random),
            };
            due_date(calls, random, issuer, year * 10_000 + rest % 10_000);
        }
    }
}

/// These eight digits as the due date of this issuer.
fn due_date(calls: &mut Calls, random: &mut Random, issuer: Issuer, date: u64) {
    let Issuer { segment, number } = issuer;
    let agreed = match random.below(8) {
        0 => days::agreed(random, &[issuer]),
        _ => lists::only(&[issuer]),
    };
    let digits = [date.to_string().into_bytes(), noise_digits(random)].concat();
    let free = &digits[..barcode::free_length(segment)];
    let (kind, value) = (random.between(6, 9), random.number(11));
    calls.build([segment, number, kind, value], free, &agreed, 44);
    let mut code = [0; 44];
    barcode::build(segment, kind, value, number, free, &[], &mut code).expect("a good barcode");
    calls.barcode(&code, &agreed);
    match random.below(4) {
        0 => in_a_file(calls, random, &code, &agreed),
        _ => calls.line(&lists::line_of(&code), &agreed),
    }
}

fn noise_digits(random: &mut Random) -> Vec<u8> {
    (0..17).map(|_| random.digit()).collect()
}
