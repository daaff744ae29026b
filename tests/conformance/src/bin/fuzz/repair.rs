//! Repairs line ends, sequence numbers, check digits and trailers after a mutation, so that inputs get past those
//! checks.

use conformance::inputs::Kind;
use conformance::wire;
use reference::random::Random;
use reference::records::{Row, G_BARCODE, G_RECEIVED, LENGTH, TABLE, Z_COUNT, Z_TOTAL};
use reference::{digits, line, Modulus};

use crate::places::GIVEN_BARCODE;
use crate::{ends, pairs, places};

/// Repairs line ends and sequence numbers only in every second input each, so that wrong ones are met among right
/// records too.
pub fn repair(random: &mut Random, kind: Kind, rest: &mut Vec<u8>) {
    if random.once_in(2) {
        ends::repair(kind, rest);
    }
    if random.once_in(2) {
        pairs::repair(kind, rest);
    }
    match kind {
        Kind::Line => repair_line(rest),
        Kind::Barcode => repair_barcode(rest),
        Kind::Write => {
            for fields in places::payments(rest) {
                repair_barcode(&mut rest[fields + GIVEN_BARCODE..][..44]);
            }
        }
        _ => repair_records(kind, rest),
    }
}

/// Repairs the general check.
fn repair_barcode(code: &mut [u8]) {
    if code.len() != reference::barcode::LENGTH {
        return;
    }
    let kind = u64::from(code[2].wrapping_sub(b'0'));
    let rest = [&code[..3], &code[4..]].concat();
    if let Some(Ok(digit)) = Modulus::from_kind(kind).map(|modulus| modulus.check_digit(&rest)) {
        code[3] = b'0' + digit as u8;
    }
}

/// Repairs the general check and the checks of the four boxes.
fn repair_line(typed: &mut [u8]) {
    if typed.len() != line::LENGTH {
        return;
    }
    let mut code = places::without_checks(typed);
    repair_barcode(&mut code);
    // A barcode with other faults is not converted.
    let _ = line::line_from_barcode(&code, &[], typed);
}

/// Repairs the barcodes of payments, and the counts and totals of trailers.
fn repair_records(kind: Kind, rest: &mut [u8]) {
    let (mut taken, mut total) = match kind {
        Kind::ArbitrarySession if rest.len() > 16 => {
            (wire::number_at(rest, 1), wire::number_at(rest, 9))
        }
        _ => (0, 0),
    };
    for record in places::records(kind, rest) {
        let Some(record) = rest.get_mut(record.start..record.start + LENGTH) else {
            return;
        };
        if record[0] == b'G' {
            repair_barcode(field(record, G_BARCODE));
            let received = digits::number(field(record, G_RECEIVED)).unwrap_or(0);
            (taken, total) = (taken.saturating_add(1), total.saturating_add(received));
        } else if record[0] == b'Z' {
            digits::write(taken.saturating_add(2), field(record, Z_COUNT));
            digits::write(total, field(record, Z_TOTAL));
        } else {
            (taken, total) = (0, 0);
        }
    }
}

fn field(record: &mut [u8], row: usize) -> &mut [u8] {
    let Row { first, last, .. } = TABLE[row];
    &mut record[first - 1..last]
}
