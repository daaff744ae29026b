//! Typed lines, barcodes, dates and check digits.

use reference::random::Random;
use reference::{days, Issuer};

use super::{each_change, near, noise, out_length};
use crate::calls::{Calls, Conversion};
use crate::lists;

/// P4 and P8 of docs/SPEC.md, "Samples", and from "Typing errors" a line whose segment may be mistyped and one whose
/// kind may.
const LINES: [&[u8; 48]; 4] = [
    b"817700000000010936599702411310797039001433708318",
    b"818000000004000000100005000000000000000000000000",
    b"829000000000011351990220303000212303030330100000",
    b"827600000000000196040000000000000000000000000000",
];

/// A line of 1-3659 whose free field starts with a date, which two swapped digits spoil unnoticed by any check digit.
const DATED: (&[u8; 48], Issuer) = (
    b"817000000007010936592012909010000000000000000000",
    Issuer {
        segment: 1,
        number: 3659,
    },
);

/// The lines of the specification, and random ones, each with a right list. All are accepted under an empty one.
fn lines(random: &mut Random, count: u64) -> Vec<([u8; 48], Vec<u64>)> {
    let (dated, issuer) = DATED;
    let more = (0..count).map(|_| lists::line(random, lists::right));
    let known = LINES.iter().map(|line| (**line, Vec::new()));
    known
        .chain([(*dated, lists::only(&[issuer]))])
        .chain(more)
        .collect()
}

/// Lines with each byte at each place, and with each two neighbours swapped.
pub fn changed_lines(calls: &mut Calls, random: &mut Random, times: u64) {
    for (mut line, agreed) in lines(random, 200 * times) {
        each_change(&mut line, |changed| calls.line(changed, &agreed));
        for i in 1..line.len() {
            line.swap(i - 1, i);
            calls.line(&line, &agreed);
            line.swap(i - 1, i);
        }
    }
}

/// Barcodes with each byte at each place.
pub fn changed_barcodes(calls: &mut Calls, random: &mut Random, times: u64) {
    for _ in 0..100 * times {
        let (mut code, agreed) = lists::barcode(random, lists::right);
        each_change(&mut code, |changed| calls.barcode(changed, &agreed));
    }
}

/// Lines with each two digits at each two places of each box.
pub fn pairs_in_boxes(calls: &mut Calls, random: &mut Random, times: u64) {
    for (line, agreed) in lines(random, 20 * times) {
        for first in [0, 12, 24, 36] {
            for i in first..first + 11 {
                for j in i + 1..first + 11 {
                    for pair in 0..100 {
                        let mut changed = line;
                        changed[i] = b'0' + pair / 10;
                        changed[j] = b'0' + pair % 10;
                        calls.line(&changed, &agreed);
                    }
                }
            }
        }
    }
}

/// Every month and day of two digits in each year, and the same as numbers; then random ones.
pub fn dates(calls: &mut Calls, random: &mut Random, times: u64) {
    for year in 1899..=2200 {
        for rest in 0..10_000 {
            calls.date(&eight_digits(year * 10_000 + rest));
        }
        for month in 0..14 {
            for day in 0..33 {
                calls.is_date(year, month, day);
            }
        }
    }
    for _ in 0..50_000 * times {
        let edges = [
            0, 1, 2, 12, 28, 29, 30, 31, 1899, 1900, 2000, 2100, 2199, 2200,
        ];
        calls.is_date(
            near(random, &edges),
            near(random, &edges),
            near(random, &edges),
        );
        let mut bytes = days::date(random).digits().to_vec();
        days::damage(random, &mut bytes);
        calls.date(&bytes);
        let length = random.index(20);
        calls.date(&noise(random, length));
    }
}

fn eight_digits(mut number: u64) -> [u8; 8] {
    let mut digits = [b'0'; 8];
    for digit in digits.iter_mut().rev() {
        *digit += (number % 10) as u8;
        number /= 10;
    }
    digits
}

/// Lines and barcodes damaged at one to three places, random bytes of every length up to 200, and conversions.
pub fn damaged(calls: &mut Calls, random: &mut Random, times: u64) {
    for _ in 0..300_000 * times {
        let (mut line, agreed) = lists::line(random, lists::lent);
        days::damage(random, &mut line);
        calls.line(&line, &agreed);
        let (mut code, agreed) = lists::barcode(random, lists::lent);
        days::damage(random, &mut code);
        calls.barcode(&code, &agreed);
    }
    for _ in 0..100 * times {
        for length in 0..=200 {
            let agreed = lists::lent(random, &[]);
            calls.line(&noise(random, length), &agreed);
            calls.barcode(&noise(random, length), &agreed);
        }
        for _ in 0..100 {
            let (line, agreed) = lists::line(random, lists::lent);
            let length = out_length(random, 44);
            calls.convert(Conversion::LineToBarcode, &line, &agreed, length);
            let (code, agreed) = lists::barcode(random, lists::lent);
            let length = out_length(random, 48);
            calls.convert(Conversion::LineFromBarcode, &code, &agreed, length);
        }
    }
}

/// Segment, issuer, kind and value of a barcode, some of them at the edges of their widths.
fn built_numbers(random: &mut Random) -> [u64; 4] {
    let segment = if random.once_in(16) {
        random.bits()
    } else {
        random.below(11)
    };
    let kind = if random.once_in(16) {
        near(random, &[6, 9, 54, 57])
    } else {
        random.between(5, 10)
    };
    let width = if segment == 6 { 8 } else { 4 };
    let issuer = if random.once_in(4) {
        near(random, &[10_000, 100_000_000])
    } else {
        random.number(width)
    };
    let value = if random.once_in(4) {
        near(random, &[100_000_000_000])
    } else {
        random.number(11)
    };
    [segment, issuer, kind, value]
}

/// Barcodes built from numbers at the edges of their widths, and check digits of up to 255 digits.
pub fn build(calls: &mut Calls, random: &mut Random, times: u64) {
    for _ in 0..300_000 * times {
        let numbers = built_numbers(random);
        let [segment, number, ..] = numbers;
        let length = match random.below(16) {
            0 => random.index(50),
            _ if segment == 6 => 21,
            _ => 25,
        };
        let mut free: Vec<u8> = (0..length).map(|_| random.digit()).collect();
        if let (Some(first), true) = (free.first_chunk_mut(), random.once_in(2)) {
            *first = days::date(random).digits();
        }
        if random.once_in(4) {
            days::damage(random, &mut free);
        }
        // Where the numbers are no issuer, a list of it is wrong.
        let agreed = lists::lent(random, &[Issuer { segment, number }]);
        calls.build(numbers, &free, &agreed, out_length(random, 44));
    }
    for _ in 0..20 * times {
        for length in 0..=255 {
            let digits: Vec<u8> = (0..length).map(|_| random.digit()).collect();
            calls.check_digits(&digits);
        }
    }
}
