//! The board: docs/SPEC.md, "Board" and "Limits".

use crate::barcode::Issuer;
use crate::records::Payment;
use crate::refusal::{Reason, Refusal};

/// How many lanes a board has.
pub const LANES: usize = 64;

/// The most payments, the most centavos and the highest sum of tariffs of a board: 10^18.
pub const MOST_BOARD_TOTAL: u64 = 1_000_000_000_000_000_000;

/// A lane: an issuer, its payments, the centavos received and the sum of the tariffs, in centavos too.
#[derive(Clone, Copy, Debug, Default, PartialEq, Eq, Hash)]
pub struct Lane {
    pub issuer: Issuer,
    pub payments: u64,
    pub centavos: u64,
    pub tariff: u64,
}

/// A board: its lanes in the order in which issuers first appeared, how many of them are in use, and the totals over
/// them.
#[derive(Clone, Copy, Debug, PartialEq, Eq, Hash)]
pub struct Board {
    pub lanes: [Lane; LANES],
    pub used: usize,
    pub payments: u64,
    pub centavos: u64,
    pub tariff: u64,
}

/// The three numbers of a lane, of a payment and of a board's totals.
#[derive(Clone, Copy)]
pub(crate) struct Tally {
    pub payments: u64,
    pub centavos: u64,
    pub tariff: u64,
}

/// What one payment changes on a board: a lane, which may be new, and the totals.
pub(super) struct Posting {
    /// Below 64.
    index: usize,
    new: bool,
    issuer: Issuer,
    lane: Tally,
    totals: Tally,
}

impl Tally {
    const ZERO: Tally = Tally {
        payments: 0,
        centavos: 0,
        tariff: 0,
    };

    /// What one payment adds.
    #[inline(always)]
    const fn of_payment(payment: &Payment) -> Tally {
        Tally {
            payments: 1,
            centavos: payment.received,
            tariff: payment.tariff,
        }
    }

    /// The sums. A board in an arbitrary state may have any numbers, so they saturate at 2^64 - 1, which is past every
    /// limit.
    #[inline(always)]
    const fn plus(self, more: Tally) -> Tally {
        Tally {
            payments: self.payments.saturating_add(more.payments),
            centavos: self.centavos.saturating_add(more.centavos),
            tariff: self.tariff.saturating_add(more.tariff),
        }
    }
}

impl Lane {
    /// The lane of an issuer with these numbers.
    #[inline(always)]
    const fn new(issuer: Issuer, tally: Tally) -> Lane {
        Lane {
            issuer,
            payments: tally.payments,
            centavos: tally.centavos,
            tariff: tally.tariff,
        }
    }

    /// Its three numbers.
    #[inline(always)]
    pub(crate) const fn tally(&self) -> Tally {
        Tally {
            payments: self.payments,
            centavos: self.centavos,
            tariff: self.tariff,
        }
    }
}

impl Default for Board {
    fn default() -> Self {
        Board::new()
    }
}

impl Board {
    /// The empty board.
    pub const fn new() -> Board {
        const NO_ISSUER: Issuer = Issuer {
            segment: 0,
            number: 0,
        };
        const UNUSED: Lane = Lane::new(NO_ISSUER, Tally::ZERO);
        Board {
            lanes: [UNUSED; LANES],
            used: 0,
            payments: 0,
            centavos: 0,
            tariff: 0,
        }
    }

    /// The lanes in use: the first `used` of the 64.
    #[inline]
    pub fn in_use(&self) -> &[Lane] {
        &self.lanes[..self.used.min(LANES)]
    }

    /// The three totals.
    #[inline(always)]
    pub(crate) const fn totals(&self) -> Tally {
        Tally {
            payments: self.payments,
            centavos: self.centavos,
            tariff: self.tariff,
        }
    }

    /// What one payment changes: 17 at 53, 18 at 82, 18 at 94.
    #[inline(always)]
    pub(super) fn posting(&self, payment: &Payment) -> Result<Posting, Refusal> {
        let issuer = payment.barcode.issuer();
        let found = self.in_use().iter().position(|lane| lane.issuer == issuer);
        let (index, before) = match found {
            Some(index) => (index, self.lanes[index].tally()),
            None if self.used < LANES => (self.used, Tally::ZERO),
            None => return Err(Reason::TooManyLanes.at(53)),
        };
        let more = Tally::of_payment(payment);
        let lane = before.plus(more);
        let totals = self.totals().plus(more);
        check_sums(lane, totals)?;
        Ok(Posting {
            index,
            new: found.is_none(),
            issuer,
            lane,
            totals,
        })
    }

    /// Makes the change that one payment makes to this board.
    #[inline(always)]
    pub(super) fn post(&mut self, posting: Posting) {
        self.lanes[posting.index] = Lane::new(posting.issuer, posting.lane);
        self.payments = posting.totals.payments;
        self.centavos = posting.totals.centavos;
        self.tariff = posting.totals.tariff;
        if posting.new {
            self.used = posting.index + 1;
        }
    }
}

/// 18 at 82 if the payments or the centavos, of the lane or of the totals, are past the board's limit; then 18 at 94 if
/// the tariff is.
#[inline(always)]
fn check_sums(lane: Tally, totals: Tally) -> Result<(), Refusal> {
    let is_past = |sums: [u64; 2]| sums.iter().any(|&sum| sum > MOST_BOARD_TOTAL);
    if is_past([lane.payments, lane.centavos]) || is_past([totals.payments, totals.centavos]) {
        return Err(Reason::BoardTotal.at(82));
    }
    if is_past([lane.tariff, totals.tariff]) {
        return Err(Reason::BoardTotal.at(94));
    }
    Ok(())
}
