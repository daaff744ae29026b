//! Files written record by record, lined and bare, with refused calls among them, and writers in arbitrary states.

use reference::days;
use reference::random::Random;

use super::near;
use crate::calls::Calls;
use crate::{lines, lists, versions};

/// A header of either version, sometimes with another byte in its version.
fn header(calls: &mut Calls, random: &mut Random) {
    let mut fields = days::header_fields(random).to_vec();
    if random.once_in(8) {
        fields[77 + random.index(2)] = random.one_of(b"0456 \0");
    }
    damage(random, &mut fields);
    calls.header(&fields, lines::buffer_size(random, calls));
}

/// A payment, mostly with codes of the version of the writer's file.
fn payment(calls: &mut Calls, random: &mut Random) {
    let (code, agreed) = lists::barcode(random, lists::lent);
    let version = versions::made(random, calls.writer().version);
    let mut fields = days::payment_fields(random, &code, version).to_vec();
    damage(random, &mut fields);
    let amount = |random: &mut Random, width: u32| {
        if random.once_in(4) {
            near(random, &[10u64.pow(width)])
        } else {
            random.number(width)
        }
    };
    let (received, tariff) = (amount(random, 12), amount(random, 7));
    let size = lines::buffer_size(random, calls);
    calls.payment(&fields, received, tariff, &agreed, size);
}

/// Sometimes damages the field bytes at one to three places, or changes their length: by one, or two fewer.
fn damage(random: &mut Random, fields: &mut Vec<u8>) {
    match random.below(16) {
        0 => fields.truncate(fields.len() - 1 - random.index(2)),
        1 => fields.push(b'0'),
        2..=6 => drop(days::damage(random, fields)),
        _ => {}
    }
}

/// New writers and writers in arbitrary states, with random calls.
pub fn files(calls: &mut Calls, random: &mut Random, times: u64) {
    for _ in 0..50_000 * times {
        if random.once_in(3) {
            let stage = near(random, &[0, 1, 2]);
            let taken = near(random, &[0, 999_996, 999_997, u64::MAX]);
            let total = near(random, &[0, 99_999_999_999_999_999, u64::MAX]);
            let numbers = [stage, taken, total, versions::told(random)];
            calls.set_writer(numbers, random.once_in(2));
        } else {
            calls.new_writer();
        }
        header(calls, random);
        for _ in 0..random.index(8) {
            match random.below(12) {
                0 => header(calls, random),
                1 => calls.trailer(lines::buffer_size(random, calls)),
                _ => payment(calls, random),
            }
        }
        calls.trailer(lines::buffer_size(random, calls));
        payment(calls, random);
    }
}

/// Each call, with a buffer of each length, at each stage and in both forms; the lengths of field bytes are right.
pub fn buffer_sizes(calls: &mut Calls, random: &mut Random, times: u64) {
    for _ in 0..times {
        for stage in [0, 1, 2, u64::MAX] {
            for lined in [false, true] {
                for size in 0..=255 {
                    each_call(calls, random, stage, lined, size);
                }
            }
        }
    }
}

/// Each call from the same writer, with field bytes that are accepted and with damaged ones: a wrong length is refused
/// before these.
fn each_call(calls: &mut Calls, random: &mut Random, stage: u64, lined: bool, size: u8) {
    let version = days::version(random);
    let (code, agreed) = lists::barcode(random, lists::lent);
    let mut header = days::header_fields(random);
    let mut payment = days::payment_fields(random, &code, version);
    for damaged in [false, true] {
        if damaged {
            days::damage(random, &mut header);
            days::damage(random, &mut payment);
        }
        let start = |calls: &mut Calls| calls.set_writer([stage, 1, 5, version], lined);
        start(calls);
        calls.header(&header, size);
        start(calls);
        calls.payment(&payment, 7, 1, &agreed, size);
        start(calls);
        calls.trailer(size);
    }
}
