//! Payments that take tariffs of a board to 10^18, or would take them past it: a run must reach each case.

use std::array::from_fn;

use reference::records::{self, G_TARIFF, LENGTH, LINE_END, TABLE};
use reference::session::{LANES, MOST_BOARD_TOTAL};
use reference::{Board, Payment, Reason, Record, Refusal, Session};

const LIMIT: u128 = MOST_BOARD_TOTAL as u128;

/// The index of the tariff among the three numbers of a tally, below.
const TARIFF: usize = 2;

/// A case of a payment at the limit of tariffs.
#[derive(Clone, Copy, Debug, PartialEq, Eq, PartialOrd, Ord)]
pub enum Case {
    /// Accepted: the tariff of its lane is exactly 10^18 now.
    LaneExact,
    /// Accepted: the tariff of the total is.
    TotalExact,
    /// 18 at 94: the tariff of the lane would be past 10^18, and that of the total would not.
    LanePast,
    /// 18 at 94: the tariff of the total would be past 10^18, and that of the lane would not.
    TotalPast,
    /// 18 at 94: both would be.
    BothPast,
    /// 18 at 94, in a lined file: its line end is wrong too.
    PastBeforeLineEnd,
    /// 22, in a lined file: a tariff would be exactly 10^18.
    ExactAtLineEnd,
    /// 18 at 82: a tariff would be past 10^18 too.
    BehindOthers,
    /// 17: all three sums of the total would be past 10^18 too.
    BehindLanes,
    /// 15 or 16: a tariff would be past 10^18 too.
    BehindFile,
}

impl Case {
    pub const ALL: [Case; 10] = [
        Case::LaneExact,
        Case::TotalExact,
        Case::LanePast,
        Case::TotalPast,
        Case::BothPast,
        Case::PastBeforeLineEnd,
        Case::ExactAtLineEnd,
        Case::BehindOthers,
        Case::BehindLanes,
        Case::BehindFile,
    ];
}

/// The cases of a call that took records, from the sessions before and after it, the bytes that it did not take, which
/// start with a refused record, and its answer.
pub fn of(sessions: [&Session; 2], rest: &[u8], answer: Result<(), Refusal>) -> Vec<Case> {
    let [before, after] = sessions;
    let mut cases = accepted(before, after);
    if let Err(refusal) = answer {
        cases.extend(refused(after, rest, refusal));
    }
    cases
}

/// The cases of accepted payments: a tariff of the working board was not 10^18, and is now.
fn accepted(before: &Session, after: &Session) -> Vec<Case> {
    let is_new = |tariff: &dyn Fn(&Board) -> u64| {
        let old = [&before.working, &before.shown].map(tariff);
        tariff(&after.working) == MOST_BOARD_TOTAL && !old.contains(&MOST_BOARD_TOTAL)
    };
    let mut cases = Vec::new();
    if (0..LANES).any(|i| is_new(&|board| board.lanes[i].tariff)) {
        cases.push(Case::LaneExact);
    }
    if is_new(&|board| board.tariff) {
        cases.push(Case::TotalExact);
    }
    cases
}

/// The cases of a refused payment: the bytes start with it.
fn refused(session: &Session, bytes: &[u8], refusal: Refusal) -> Vec<Case> {
    let Some(payment) = payment(session, bytes, refusal.reason) else {
        return Vec::new();
    };
    let [lane, total] = sums(&session.working, &payment);
    let tariffs = [lane[TARIFF], total[TARIFF]];
    let is_past = |sum: u128| sum > LIMIT;
    let past = tariffs.map(is_past);
    let any_past = past != [false; 2];
    match refusal.reason {
        Reason::BoardTotal if refusal.place == TABLE[G_TARIFF].first => {
            let is_ended = !session.lined || bytes[LENGTH..].starts_with(LINE_END);
            let late = (!is_ended).then_some(Case::PastBeforeLineEnd);
            of_past(past).into_iter().chain(late).collect()
        }
        Reason::BoardTotal if any_past => vec![Case::BehindOthers],
        Reason::TooManyLanes if total.into_iter().all(is_past) => vec![Case::BehindLanes],
        Reason::TooManyPayments | Reason::FileTotal if any_past => vec![Case::BehindFile],
        Reason::NoLineEnd if tariffs.contains(&LIMIT) => vec![Case::ExactAtLineEnd],
        _ => Vec::new(),
    }
}

/// The payment that these bytes start with, if it was refused for one of the reasons that come behind its own bytes.
fn payment(session: &Session, bytes: &[u8], reason: Reason) -> Option<Payment> {
    let behind = matches!(
        reason,
        Reason::TooManyPayments
            | Reason::FileTotal
            | Reason::TooManyLanes
            | Reason::BoardTotal
            | Reason::NoLineEnd
    );
    let record = bytes.get(..LENGTH).filter(|_| behind)?;
    match records::decode(record, session.version, &[]) {
        Ok(Record::G(payment)) => Some(payment),
        _ => None,
    }
}

/// The case of 18 at 94, by whether the tariffs of the lane and of the total would be past 10^18.
fn of_past(past: [bool; 2]) -> Option<Case> {
    match past {
        [true, false] => Some(Case::LanePast),
        [false, true] => Some(Case::TotalPast),
        [true, true] => Some(Case::BothPast),
        [false, false] => None,
    }
}

/// The sums of the payment's lane and of the total with the payment. A new lane starts from 0.
fn sums(board: &Board, payment: &Payment) -> [[u128; 3]; 2] {
    let issuer = payment.barcode.issuer();
    let lane = board.in_use().iter().find(|lane| lane.issuer == issuer);
    let lane = lane.map_or([0; 3], |lane| [lane.payments, lane.centavos, lane.tariff]);
    let total = [board.payments, board.centavos, board.tariff];
    let more = [1, payment.received, payment.tariff];
    [lane, total].map(|before| from_fn(|i| u128::from(before[i]) + u128::from(more[i])))
}
