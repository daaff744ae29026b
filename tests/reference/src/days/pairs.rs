//! Random pairs of a bank and an agreement, and headers of theirs.

use super::{digit_field, header_fields, text};
use crate::digits;
use crate::random::Random;
use crate::records::HEADER_FIELDS;
use crate::refusal::Refusal;
use crate::session::{following, Pair, LAST_NUMBER, PAIRS};
use crate::writer::Writer;

/// `count` different pairs, each with the number of its first file. Some differ only in the bank, or by the same text
/// at another place of the agreement.
pub fn pairs(random: &mut Random, count: usize) -> Vec<Pair> {
    let mut found: Vec<Pair> = Vec::new();
    while found.len() < count {
        let next = pair_near(random, &found);
        let is_next = |pair: &Pair| pair.bank == next.bank && pair.agreement == next.agreement;
        if !found.iter().any(is_next) {
            found.push(next);
        }
    }
    found
}

/// The pairs of a day: often one, sometimes nearly as many as a session remembers, never more.
pub(super) fn pairs_of_day(random: &mut Random) -> Vec<Pair> {
    let most = PAIRS as u64;
    let count = match random.below(4) {
        0 | 1 => 1,
        2 => random.between(most - 2, most),
        _ => random.between(1, most),
    };
    pairs(random, count as usize)
}

/// A random pair. Often it has the agreement or the bank of one of these pairs, or its text moved within the field.
fn pair_near(random: &mut Random, found: &[Pair]) -> Pair {
    let mut pair = Pair {
        sequence: first_number(random),
        ..Pair::new()
    };
    digit_field(random, &mut pair.bank);
    agreement(random, &mut pair.agreement);
    if let Some(near) = found.get(random.index(found.len())) {
        match random.below(4) {
            0 => pair.agreement = near.agreement,
            1 => pair.bank = near.bank,
            2 => {
                pair.bank = near.bank;
                pair.agreement = near.agreement;
                move_text(random, &mut pair.agreement);
            }
            _ => {}
        }
    }
    pair
}

/// Fills an agreement, often with a short text at the left.
fn agreement(random: &mut Random, field: &mut [u8; 20]) {
    text(random, field);
    if random.once_in(2) {
        let length = 1 + random.index(12);
        field[length..].fill(b' ');
    }
}

/// Moves the text of a field to the right, by at most the blanks behind it; a text without blanks is turned by 1.
fn move_text(random: &mut Random, field: &mut [u8; 20]) {
    let blanks = field.iter().rev().take_while(|&&byte| byte == b' ').count();
    field.rotate_right(1 + random.index(blanks));
}

/// The number of a pair's first file: often near the first or the last one.
pub fn first_number(random: &mut Random) -> u64 {
    match random.below(4) {
        0 => random.below(3),
        1 | 2 => LAST_NUMBER - random.below(3),
        _ => random.below(LAST_NUMBER + 1),
    }
}

/// The field bytes of a random A of this pair, of either version, with the pair's number; with any number if that one
/// is past 999999.
pub fn header_fields_of(random: &mut Random, pair: &Pair) -> [u8; HEADER_FIELDS] {
    let mut fields = header_fields(random);
    fields[..20].copy_from_slice(&pair.agreement);
    fields[40..43].copy_from_slice(&pair.bank);
    digits::write(pair.sequence, &mut fields[71..77]);
    fields
}

/// A random A of this pair, of either version, with the pair's number.
pub fn header_of(random: &mut Random, pair: &Pair) -> Result<[u8; 150], Refusal> {
    let mut out = [b' '; 150];
    Writer::new().header(&header_fields_of(random, pair), &mut out)?;
    Ok(out)
}

/// The field bytes of the pair's next A. The pair gets the number behind it.
pub(super) fn next_header(random: &mut Random, pair: &mut Pair) -> [u8; HEADER_FIELDS] {
    let fields = header_fields_of(random, pair);
    // No number of a day is past 999999; the default is never used.
    pair.sequence = following(pair.sequence).unwrap_or(0);
    fields
}
