//! Lists of agreed issuers in random inputs: empty, right, full and wrong ones. Issuers are on them or not, and free
//! fields start with a date or not.

use reference::agreed::{self, key};
use reference::random::Random;
use reference::{days, line, Issuer, AGREED};

/// A list that a call may have: mostly the empty one, else mostly a right one that has some of these issuers.
pub fn lent(random: &mut Random, issuers: &[Issuer]) -> Vec<u64> {
    match random.below(16) {
        0 => days::wrong_agreed(random, issuers),
        1 | 2 => days::agreed(random, issuers),
        3..=5 => only(issuers),
        _ => Vec::new(),
    }
}

/// A right list: the empty one, or one that has some of these issuers.
pub fn right(random: &mut Random, issuers: &[Issuer]) -> Vec<u64> {
    match random.below(8) {
        0 => days::agreed(random, issuers),
        1..=3 => only(issuers),
        _ => Vec::new(),
    }
}

/// The right list of these issuers, which all differ, or of the first 64 of them.
pub fn only(issuers: &[Issuer]) -> Vec<u64> {
    issuers.iter().take(AGREED).map(|&one| key(one)).collect()
}

/// The list under which data may be made that is used under this one. Every second time it is the same one, if that is
/// right, so that the data is accepted; else the empty one, so that some agreed issuers have no due date.
pub fn made<'a>(random: &mut Random, agreed: &'a [u64]) -> &'a [u64] {
    if agreed::check(agreed).is_ok() && random.once_in(2) {
        agreed
    } else {
        &[]
    }
}

/// This list, for one of many calls; sometimes the empty one or a wrong one.
pub fn sometimes_other(random: &mut Random, agreed: &[u64]) -> Vec<u64> {
    match random.below(32) {
        0 => Vec::new(),
        1 => days::wrong_agreed(random, &[]),
        _ => agreed.to_vec(),
    }
}

/// A choice of a list for data of these issuers: [`lent`] or [`right`].
pub type Choice = fn(&mut Random, &[Issuer]) -> Vec<u64>;

/// A barcode, and a list of this choice. The barcode is accepted under an empty list.
pub fn barcode(random: &mut Random, choice: Choice) -> ([u8; 44], Vec<u64>) {
    let issuer = days::issuer(random);
    let agreed = choice(random, &[issuer]);
    let code = days::barcode_of(random, issuer).expect("a good barcode");
    (code, agreed)
}

/// The typed line of such a barcode, and a list of this choice.
pub fn line(random: &mut Random, choice: Choice) -> ([u8; 48], Vec<u64>) {
    let (code, agreed) = barcode(random, choice);
    (line_of(&code), agreed)
}

/// The typed line of a barcode.
pub fn line_of(code: &[u8; 44]) -> [u8; 48] {
    let mut typed = [b'0'; 48];
    line::line_from_barcode(code, &[], &mut typed).expect("a good barcode");
    typed
}
