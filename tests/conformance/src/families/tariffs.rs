//! Tariffs: payments that take the sums of a board to 10^18 or past it, in the lane, in the total and in both, one by
//! one and in runs.

use reference::random::Random;
use reference::records::{G_RECEIVED, G_TARIFF, LENGTH, LINE_END};
use reference::session::{LANES, MOST_BOARD_TOTAL, MOST_FILE_TOTAL, MOST_PAYMENTS};
use reference::{days, Board, Issuer, Lane, Session};

use super::boards::{self, FEW, MOST_RECEIVED, MOST_TARIFF};
use super::ends::start;
use super::sessions;
use crate::calls::{Calls, PAGE};
use crate::lines::{self, WRONG_ENDS};
use crate::{lists, versions};

/// A sum before a payment, by what it would be with it.
#[derive(Clone, Copy)]
enum Edge {
    /// Far below the limit.
    Far,
    /// Exactly the limit.
    Exact,
    /// One past the limit.
    Past,
    /// Past 2^64, unless the payment adds nothing.
    Most,
}

impl Edge {
    /// The edges of payments and of centavos.
    const OF_OTHERS: [Edge; 3] = [Edge::Far, Edge::Exact, Edge::Past];

    /// The edges of tariffs.
    const OF_TARIFFS: [Edge; 4] = [Edge::Far, Edge::Exact, Edge::Past, Edge::Most];

    /// The sum before a payment that adds this much.
    fn before(self, random: &mut Random, added: u64) -> u64 {
        match self {
            Edge::Far => random.number(17),
            Edge::Exact => MOST_BOARD_TOTAL - added,
            Edge::Past => MOST_BOARD_TOTAL - added + 1,
            Edge::Most => u64::MAX,
        }
    }
}

/// The edges of the six sums, each combination by its number: payments, centavos and tariff of the lane, then of the
/// total.
fn combination(mut number: usize) -> [[Edge; 3]; 2] {
    let mut next = |edges: &[Edge]| {
        let edge = edges[number % edges.len()];
        number /= edges.len();
        edge
    };
    [(); 2].map(|()| {
        [
            next(&Edge::OF_OTHERS),
            next(&Edge::OF_OTHERS),
            next(&Edge::OF_TARIFFS),
        ]
    })
}

/// How many combinations there are.
const COMBINATIONS: usize = (3 * 3 * 4) * (3 * 3 * 4);

/// A board with a lane of this issuer at any place, whose sums and totals come to these edges if this is added. The
/// other lanes in use have other issuers, those behind them any; the sums of both are not asked.
fn board(random: &mut Random, issuer: Issuer, edges: [[Edge; 3]; 2], added: [u64; 3]) -> Board {
    let mut board = boards::board(random);
    board.used = 1 + random.index(LANES);
    for (i, lane) in board.lanes[..board.used].iter_mut().enumerate() {
        lane.issuer.segment = 3;
        lane.issuer.number = i as u64;
    }
    let [lane, total] = edges.map(|edges| [0, 1, 2].map(|i| edges[i].before(random, added[i])));
    let place = random.index(board.used);
    board.lanes[place] = lane_of(issuer, lane);
    [board.payments, board.centavos, board.tariff] = total;
    board
}

fn lane_of(issuer: Issuer, [payments, centavos, tariff]: [u64; 3]) -> Lane {
    Lane {
        issuer,
        payments,
        centavos,
        tariff,
    }
}

/// Each combination of the six sums at their edges, for tariffs at the edges; then once more at another limit.
pub fn each_sum(calls: &mut Calls, random: &mut Random, times: u64) {
    for _ in 0..times {
        for tariff in [0, 1, MOST_TARIFF, random.number(7)] {
            for number in 0..COMBINATIONS {
                let received = [0, 1, MOST_RECEIVED, random.number(12)][random.index(4)];
                let added = [1, received, tariff];
                let mut issuer = boards::issuer(random);
                let mut session = Session {
                    open: true,
                    version: days::version(random),
                    working: board(random, issuer, combination(number), added),
                    ..Session::new()
                };
                payments(calls, random, &session, issuer, added);
                other_limit(random, &mut session, &mut issuer, received);
                payments(calls, random, &session, issuer, added);
            }
        }
    }
}

/// Takes the session of a payment to a limit that is asked before the sums of the board: its file is full, its file's
/// total would pass, or its issuer has no lane, where one is free or none is.
fn other_limit(random: &mut Random, session: &mut Session, issuer: &mut Issuer, received: u64) {
    match random.below(4) {
        0 => session.taken = MOST_PAYMENTS,
        1 => session.total = MOST_FILE_TOTAL - received + 1,
        _ => {
            issuer.segment = 4;
            session.working.used = LANES - random.index(2);
        }
    }
}

/// Payments that add this to the board, in a bare file, and in lined ones with right and wrong line ends: each alone,
/// and in a run with another payment of the issuer behind it.
fn payments(
    calls: &mut Calls,
    random: &mut Random,
    session: &Session,
    issuer: Issuer,
    [_, received, tariff]: [u64; 3],
) {
    let mut session = session.clone();
    let wrong = WRONG_ENDS[random.index(WRONG_ENDS.len())];
    for (lined, end) in [(false, b"".as_slice()), (true, LINE_END), (true, wrong)] {
        session.lined = lined;
        let mut record = boards::payment_of(random, issuer, session.version, &[]);
        boards::set(&mut record, G_RECEIVED, received);
        boards::set(&mut record, G_TARIFF, tariff);
        let record = [&record, end].concat();
        let second = boards::payment_of(random, issuer, session.version, &[]);
        let two = [&record, &second[..], lines::end(lined)].concat();
        start(calls, &session);
        let _ = calls.take(&record, &[]);
        start(calls, &session);
        calls.run(&two, false, &[]);
    }
}

/// A payment of a file.
struct Paid {
    issuer: Issuer,
    tariff: u64,
    record: [u8; LENGTH],
}

fn paid(random: &mut Random, version: u64, agreed: &[u64]) -> Paid {
    let (issuer, tariff) = (boards::issuer(random), boards::tariff(random));
    let mut record = boards::payment_of(random, issuer, version, agreed);
    boards::set(&mut record, G_TARIFF, tariff);
    Paid {
        issuer,
        tariff,
        record,
    }
}

/// A board on which the first payments of a file, up to any one, take a tariff to 10^18, or one past it: that of the
/// total, of the lane of the last of them, or of both. The payments and centavos are mostly far from it.
fn near_limit(random: &mut Random, file: &[Paid]) -> Board {
    let first = &file[..1 + random.index(file.len())];
    let last = first[first.len() - 1].issuer;
    let of_all: u64 = first.iter().map(|paid| paid.tariff).sum();
    let of_last = first.iter().filter(|paid| paid.issuer == last);
    let of_last: u64 = of_last.map(|paid| paid.tariff).sum();
    let near = [Edge::Exact, Edge::Exact, Edge::Past][random.index(3)];
    let [of_lane, of_total] = match random.below(3) {
        0 => [near, Edge::Far],
        1 => [Edge::Far, near],
        _ => [near, near],
    };
    let other = [Edge::Far, Edge::Exact][usize::from(random.once_in(4))];
    let edges = [of_lane, of_total].map(|tariff| [other, other, tariff]);
    let added = [file.len() as u64, random.number(12), of_last];
    let mut board = board(random, last, edges, added);
    board.tariff = of_total.before(random, of_all);
    board
}

/// A file of these payments, with the trailer that it has if all are accepted.
fn whole(random: &mut Random, file: &[Paid], version: u64) -> Vec<u8> {
    let end = lines::end(random.once_in(2));
    let mut bytes = [&versions::header(random, version), end].concat();
    for paid in file {
        bytes.extend([&paid.record, end].concat());
    }
    let mut ahead = Session::new();
    ahead.run(&bytes, false, &[]);
    bytes.extend([&sessions::trailer(&ahead), end].concat());
    bytes
}

/// Files whose payments take tariffs of the board shown to the limit and past it: in runs, cut anywhere, and record by
/// record, where the file goes on behind a refused payment and ends with its own trailer. Then the page.
pub fn files(calls: &mut Calls, random: &mut Random, times: u64) {
    for _ in 0..6_000 * times {
        let agreed = lists::right(random, &FEW);
        let version = days::version(random);
        let count = 1 + random.index(8);
        let file: Vec<Paid> = (0..count).map(|_| paid(random, version, &agreed)).collect();
        let session = Session {
            shown: near_limit(random, &file),
            ..Session::new()
        };
        let mut bytes = whole(random, &file, version);
        if random.once_in(8) {
            days::damage_line_end(random, &mut bytes);
        }
        calls.set_session(&session);
        if random.once_in(2) {
            let ends = lines::cuts(random, bytes.len());
            lines::feed(calls, &bytes, &ends, &agreed);
        } else {
            by_record(calls, &bytes, &agreed);
        }
        calls.finish_session();
        calls.page(0, 0, random.number(19), random.number(19), PAGE);
    }
}

/// Takes each record; at the end the trailer of what was accepted, if the file is still open.
fn by_record(calls: &mut Calls, bytes: &[u8], agreed: &[u64]) {
    for record in lines::records(bytes) {
        let _ = calls.take(&bytes[record], agreed);
    }
    if calls.session().open {
        let end = lines::end(calls.session().lined);
        let trailer = sessions::trailer(calls.session());
        let _ = calls.take(&[&trailer, end].concat(), agreed);
    }
}
