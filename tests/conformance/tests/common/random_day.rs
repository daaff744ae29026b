//! The random days of the tests that run a program.

use conformance::{lines, versions};
use reference::days;
use reference::random::Random;

/// A day of 0 to 70 issuers, bare, lined or both: unchanged, damaged, out of order, with other versions or codes, with
/// a damaged line end, or with wrong sequence numbers. Every tenth is longer than one buffer of quadro.
pub fn day(i: u64) -> Vec<u8> {
    let random = &mut Random::new(i);
    let (files, most) = if i.is_multiple_of(10) {
        (6, 400)
    } else {
        (random.index(5), random.index(30))
    };
    let issuers = random.index(71);
    let form = lines::form(random);
    let mut bytes = days::day_of(random, issuers, files, most, form)
        .expect("a good day")
        .bytes;
    change(random, &mut bytes);
    bytes
}

/// Damages a day, or not.
pub fn change(random: &mut Random, bytes: &mut Vec<u8>) {
    match random.below(6) {
        0 => drop(days::damage(random, bytes)),
        1 => days::disorder(random, bytes),
        2 => versions::change_day(random, bytes),
        3 => days::damage_line_end(random, bytes),
        4 => days::misnumber(random, bytes),
        _ => {}
    }
}
