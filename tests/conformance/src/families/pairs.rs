//! Days of many pairs, whose sequence numbers follow or not.

use reference::days;
use reference::random::Random;

use super::sequence::next_day;
use crate::calls::Calls;
use crate::lines;

/// A day of up to 24 short files, of up to 16 pairs whose numbers follow. Most have wrong numbers, repeated or missing
/// files, or up to 17 further pairs; some are damaged too.
fn day(random: &mut Random) -> Vec<u8> {
    let (issuers, files) = (random.index(4), random.index(25));
    let form = lines::form(random);
    let day = days::day_of(random, issuers, files, 2, form);
    let mut bytes = day.expect("a good day").bytes;
    for _ in 0..random.below(4) {
        days::misnumber(random, &mut bytes);
    }
    if random.once_in(8) {
        days::damage(random, &mut bytes);
    }
    bytes
}

/// Days of many pairs record by record. A file is sometimes abandoned and begun again, or comes twice; sometimes a day
/// goes on with the memory alone. Behind a refusal the next file follows.
pub fn by_record(calls: &mut Calls, random: &mut Random, times: u64) {
    for _ in 0..800 * times {
        calls.new_session();
        let bytes = day(random);
        for file in files(&bytes) {
            match random.below(8) {
                0 => {
                    take_all(calls, &file[..1 + random.index(file.len())]);
                    calls.abandon();
                }
                1 => take_all(calls, &file),
                2 => next_day(calls),
                _ => {}
            }
            take_all(calls, &file);
            if calls.session().open && !random.once_in(4) {
                calls.abandon();
            }
        }
        calls.finish_session();
    }
}

/// The records of each file of a day: an A begins a new one.
fn files(bytes: &[u8]) -> Vec<Vec<&[u8]>> {
    let mut files: Vec<Vec<&[u8]>> = Vec::new();
    for range in lines::records(bytes) {
        let record = &bytes[range];
        match files.last_mut() {
            Some(file) if record[0] != b'A' => file.push(record),
            _ => files.push(vec![record]),
        }
    }
    files
}

/// Takes records up to the first refusal.
fn take_all(calls: &mut Calls, records: &[&[u8]]) {
    for record in records {
        if calls.take(record, &[]).is_err() {
            return;
        }
    }
}

/// The bytes from the first A on that is not the first record.
fn next_file(bytes: &[u8]) -> &[u8] {
    let mut others = lines::records(bytes).into_iter().skip(1);
    let next = others.find(|record| bytes[record.start] == b'A');
    next.map_or(&[], |record| &bytes[record.start..])
}

/// Days of many pairs in runs, whole and in pieces. Behind a refusal the next file follows.
pub fn by_run(calls: &mut Calls, random: &mut Random, times: u64) {
    for _ in 0..3_000 * times {
        calls.new_session();
        let bytes = day(random);
        let mut rest = &bytes[..];
        while !rest.is_empty() {
            let result = if random.once_in(2) {
                calls.run(rest, false, &[])
            } else {
                let ends = lines::cuts(random, rest.len());
                lines::feed(calls, rest, &ends, &[])
            };
            rest = next_file(&rest[result.bytes..]);
            if calls.session().open {
                calls.abandon();
            }
        }
        calls.finish_session();
    }
}
