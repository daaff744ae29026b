//! The sums of the working board in inputs: mutations that bring them to the limit.

use conformance::inputs::Kind;
use conformance::wire;
use reference::random::Random;
use reference::records::{self, LENGTH};
use reference::session::MOST_BOARD_TOTAL;
use reference::{Payment, Record};

use crate::{places, seeds};

/// Makes a sum of the working board one that a payment of the input takes to the limit, or one past it: mostly the
/// tariff, in the total, in a lane, or in both. The lane is mostly made the payment's own. An input that has no right
/// payment is sometimes replaced by one that has. False if the input has no board, or still no such payment.
pub fn limit(random: &mut Random, kind: Kind, bytes: &mut Vec<u8>) -> bool {
    if kind != Kind::ArbitrarySession {
        return false;
    }
    if payments(kind, bytes).is_empty() && random.once_in(2) {
        *bytes = seeds::session(random, true).unwrap_or_default();
    }
    let payments = payments(kind, bytes);
    let Some(payment) = payments.get(random.index(payments.len())) else {
        return false;
    };
    let which = [0, 1, 2, 2, 2, 2][random.index(6)];
    let added = [1, payment.received, payment.tariff][which];
    let sum = MOST_BOARD_TOTAL - added + random.below(2);
    let tallies = places::tallies(bytes);
    let (total, lanes) = (tallies[0], &tallies[1..]);
    let index = random.index(lanes.len().min(4));
    let how = random.below(3);
    if let (Some(&lane), 1..) = (lanes.get(index), how) {
        put(bytes, lane + 8 * which, sum);
        if !random.once_in(4) {
            own(bytes, total, lane, index, payment);
        }
    }
    if how != 1 || lanes.is_empty() {
        put(bytes, total + 8 * which, sum);
    }
    true
}

/// Gives a lane the issuer of a payment, and makes it one in use.
fn own(bytes: &mut [u8], total: usize, lane: usize, index: usize, payment: &Payment) {
    let issuer = payment.barcode.issuer();
    put(bytes, lane - 16, issuer.segment);
    put(bytes, lane - 8, issuer.number);
    let used = total - 8;
    if wire::number_at(bytes, used) <= index as u64 {
        put(bytes, used, index as u64 + 1);
    }
}

/// The payments of an input that are right under a version.
fn payments(kind: Kind, bytes: &[u8]) -> Vec<Payment> {
    let records = places::records(kind, bytes).into_iter();
    let records = records.filter_map(|record| bytes.get(record)?.first_chunk::<LENGTH>());
    let payment = |record: &[u8; LENGTH]| {
        let decoded = [4, 6].map(|version| records::decode(record, version, &[]));
        decoded.into_iter().find_map(|decoded| match decoded {
            Ok(Record::G(payment)) => Some(payment),
            _ => None,
        })
    };
    records.filter_map(payment).collect()
}

/// Writes a number, if there is room for it.
fn put(bytes: &mut [u8], place: usize, number: u64) {
    let mut new = Vec::new();
    wire::number(&mut new, number);
    if let Some(old) = bytes.get_mut(place..place + 8) {
        old.copy_from_slice(&new);
    }
}
