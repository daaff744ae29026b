//! Boards in arbitrary states whose sums are near their limits, and payments that take them there.

use reference::random::Random;
use reference::records::{G_TARIFF, LENGTH, TABLE};
use reference::session::MOST_BOARD_TOTAL;
use reference::{days, digits, Board, Issuer};

use super::near;

/// A few issuers.
pub const FEW: [Issuer; 12] = {
    let mut few = [Issuer {
        segment: 1,
        number: 0,
    }; 12];
    let mut i = 0;
    while i < 12 {
        few[i].segment = [1, 2, 6][i % 3];
        few[i].number = i as u64 / 3;
        i += 1;
    }
    few
};

/// Numbers at the limits of counts and sums.
const LIMITS: [u64; 4] = [0, 999_997, MOST_BOARD_TOTAL, u64::MAX];

/// The most centavos and the highest tariff of a payment: 12 and 7 digits.
pub const MOST_RECEIVED: u64 = 999_999_999_999;
pub const MOST_TARIFF: u64 = 9_999_999;

/// How the payments, the centavos and the tariff of a tally are made.
#[derive(Clone, Copy)]
enum Sums {
    /// Near any limit.
    Any,
    /// Those that are true near 10^18, so that a payment may take them past it; the others far from it.
    Near([bool; 3]),
}

/// One of the few issuers.
pub fn issuer(random: &mut Random) -> Issuer {
    FEW[random.index(FEW.len())]
}

/// A tariff, often at the edges.
pub fn tariff(random: &mut Random) -> u64 {
    match random.below(6) {
        0 => 0,
        1 => 1,
        2 => MOST_TARIFF,
        _ => random.number(7),
    }
}

/// A payment of one of the few issuers, in a file of this version, accepted under this list.
pub fn payment(random: &mut Random, version: u64, agreed: &[u64]) -> [u8; LENGTH] {
    let issuer = issuer(random);
    payment_of(random, issuer, version, agreed)
}

/// Such a payment of this issuer.
pub fn payment_of(
    random: &mut Random,
    issuer: Issuer,
    version: u64,
    agreed: &[u64],
) -> [u8; LENGTH] {
    let record = days::payment_under(random, issuer, version, agreed);
    let mut record = record.expect("a good payment");
    set(&mut record, G_TARIFF, tariff(random));
    record
}

/// Writes a number into a field of a payment, by its row of the table.
pub fn set(record: &mut [u8; LENGTH], row: usize, number: u64) {
    let fits = digits::write(number, &mut record[TABLE[row].first - 1..TABLE[row].last]);
    assert!(fits, "{number} is too wide");
}

/// How the sums of a board's lanes and of its total are made: near any limit, or near 10^18 in the lanes, in the total
/// or in both. Mostly tariffs are near it while the others are not, or all three are.
fn sums(random: &mut Random) -> [Sums; 2] {
    let which = match random.below(8) {
        0..=2 => return [Sums::Any; 2],
        3..=5 => [false, false, true],
        6 => [true; 3],
        _ => [(); 3].map(|()| random.once_in(2)),
    };
    let (close, far) = (Sums::Near(which), Sums::Near([false; 3]));
    match random.below(3) {
        0 => [close, far],
        1 => [far, close],
        _ => [close, close],
    }
}

/// The payments, the centavos and the tariff of a tally.
fn tally(random: &mut Random, sums: Sums) -> [u64; 3] {
    match sums {
        Sums::Any => [(); 3].map(|()| near(random, &LIMITS)),
        Sums::Near(which) => [0, 1, 2].map(|i| {
            if which[i] {
                near_limit(random, [1, MOST_RECEIVED, MOST_TARIFF][i])
            } else {
                random.number(17)
            }
        }),
    }
}

/// A sum that a payment takes to 10^18, past it or near it, where it adds at most this much; sometimes one past it.
fn near_limit(random: &mut Random, most: u64) -> u64 {
    match random.below(8) {
        0 => u64::MAX - random.below(2),
        1 => MOST_BOARD_TOTAL + 1,
        2 => MOST_BOARD_TOTAL - most + random.below(2),
        3 | 4 => MOST_BOARD_TOTAL - random.between(0, most),
        5 => MOST_BOARD_TOTAL - 1,
        _ => MOST_BOARD_TOTAL,
    }
}

/// A board in an arbitrary state, with numbers near the limits. Some of its lanes have one of the few issuers, so that
/// a payment's issuer may be found once, several times or never.
pub fn board(random: &mut Random) -> Board {
    let [of_lanes, of_total] = sums(random);
    let mut board = Board::new();
    for lane in &mut board.lanes {
        if random.once_in(16) {
            lane.issuer = issuer(random);
        } else {
            lane.issuer.segment = random.bits();
            lane.issuer.number = random.number(8);
        }
        [lane.payments, lane.centavos, lane.tariff] = tally(random, of_lanes);
    }
    board.used = near(random, &[0, 1, 5, 63, 64, 65, u64::MAX]) as usize;
    [board.payments, board.centavos, board.tariff] = tally(random, of_total);
    board
}
