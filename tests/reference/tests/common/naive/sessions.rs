//! Sessions, runs and pages by the naive rules.

use super::{list, number, record, Answer, History, NaiveFile, Outcome};
use reference::{answer, Board, Lane, RunResult, Session};

/// A lane: segment, number, payments, centavos, tariff.
pub type NaiveLane = (u128, u128, u128, u128, u128);

#[derive(Clone, Debug, Default, PartialEq, Eq)]
pub struct NaiveBoard {
    pub lanes: Vec<NaiveLane>,
    pub payments: u128,
    pub centavos: u128,
    pub tariff: u128,
}

impl NaiveBoard {
    pub fn of(board: &Board) -> NaiveBoard {
        let lane = |lane: &Lane| {
            (
                u128::from(lane.issuer.segment),
                u128::from(lane.issuer.number),
                u128::from(lane.payments),
                u128::from(lane.centavos),
                u128::from(lane.tariff),
            )
        };
        NaiveBoard {
            lanes: board.lanes.iter().take(board.used).map(lane).collect(),
            payments: u128::from(board.payments),
            centavos: u128::from(board.centavos),
            tariff: u128::from(board.tariff),
        }
    }

    /// Adds one payment of an issuer: segment, number. The sums are looked at when all of them are made.
    fn post(&mut self, issuer: (u128, u128), received: u128, tariff: u128) -> Outcome<()> {
        let is_its = |lane: &NaiveLane| (lane.0, lane.1) == issuer;
        if !self.lanes.iter().any(is_its) {
            self.lanes.push((issuer.0, issuer.1, 0, 0, 0));
        }
        if self.lanes.len() > 64 {
            return Err((17, 53));
        }
        let i = self.lanes.iter().position(is_its).expect("just put there");
        let lane = &mut self.lanes[i];
        lane.2 += 1;
        lane.3 += received;
        lane.4 += tariff;
        self.payments += 1;
        self.centavos += received;
        self.tariff += tariff;
        for (sum, place) in [
            (self.payments, 82),
            (lane.2, 82),
            (self.centavos, 82),
            (lane.3, 82),
            (self.tariff, 94),
            (lane.4, 94),
        ] {
            if sum > E18 {
                return Err((18, place));
            }
        }
        Ok(())
    }
}

/// A session. Each step makes a new one.
#[derive(Clone, Debug, Default, PartialEq, Eq)]
pub struct NaiveSession {
    pub open: bool,
    pub taken: u128,
    pub total: u128,
    pub version: u64,
    pub lined: bool,
    pub shown: NaiveBoard,
    pub working: NaiveBoard,
    pub opening: NaiveFile,
    pub history: History,
}

const E18: u128 = 1_000_000_000_000_000_000;

impl NaiveSession {
    pub fn of(session: &Session) -> NaiveSession {
        NaiveSession {
            open: session.open,
            taken: u128::from(session.taken),
            total: u128::from(session.total),
            version: session.version,
            lined: session.lined,
            shown: NaiveBoard::of(&session.shown),
            working: NaiveBoard::of(&session.working),
            opening: NaiveFile::of(&session.opening),
            history: History::of(&session.memory),
        }
    }

    /// The session that follows when the open file, if there is one, is abandoned.
    pub fn abandoned(&self) -> NaiveSession {
        if !self.open {
            return self.clone();
        }
        NaiveSession {
            shown: self.shown.clone(),
            working: self.shown.clone(),
            history: self.history.clone(),
            ..NaiveSession::default()
        }
    }

    /// The next session, or the refusal. A wrong list comes first. What stands behind the record's 150 bytes is looked
    /// at before them for the length alone, and after them for the line end.
    pub fn take(&self, bytes: &[u8], agreed: &[u64]) -> Outcome<NaiveSession> {
        list(agreed)?;
        let ended = bytes.len() == 152 && bytes[150] == 13 && bytes[151] == 10;
        let lengths: &[usize] = match (self.open, self.lined, ended) {
            (true, true, _) => &[150, 151, 152],
            (true, false, _) | (false, _, false) => &[150],
            (false, _, true) => &[152],
        };
        if !lengths.contains(&bytes.len()) {
            return Err((1, 0));
        }
        let mut next = self.take_bare(&bytes[..150], agreed)?;
        if self.open && self.lined && !ended {
            return Err((22, 151));
        }
        if !self.open {
            next.lined = ended;
        }
        Ok(next)
    }

    /// The next session for the 150 bytes of a record, as though no file had line ends.
    fn take_bare(&self, bytes: &[u8], agreed: &[u64]) -> Outcome<NaiveSession> {
        let allowed: &[u8] = if self.open { b"GZ" } else { b"A" };
        record(bytes, self.version, allowed, agreed)?;
        let mut next = self.clone();
        match bytes[0] {
            b'A' => {
                next.opening = NaiveFile::of_header(bytes);
                self.history.allows(&next.opening)?;
                next.open = true;
                next.taken = 0;
                next.total = 0;
                // Accepted, so the second version byte is 52 or 54.
                next.version = u64::from(bytes[80]) - 48;
                next.working = self.shown.clone();
            }
            b'G' => next.post(bytes)?,
            _ => {
                if number(&bytes[1..7]) != self.taken + 2 {
                    return Err((13, 2));
                }
                if number(&bytes[7..24]) != self.total {
                    return Err((14, 8));
                }
                next = NaiveSession {
                    shown: self.working.clone(),
                    working: self.working.clone(),
                    history: self.history.with(&self.opening),
                    ..NaiveSession::default()
                };
            }
        }
        Ok(next)
    }

    fn post(&mut self, bytes: &[u8]) -> Outcome<()> {
        let received = number(&bytes[81..93]);
        let segment = number(&bytes[38..39]);
        let last = if segment == 6 { 60 } else { 56 };
        let issuer = number(&bytes[52..last]);
        self.taken += 1;
        if self.taken > 999_997 {
            return Err((15, 1));
        }
        self.total += received;
        if self.total > 99_999_999_999_999_999 {
            return Err((16, 82));
        }
        let tariff = number(&bytes[93..100]);
        self.working.post((segment, issuer), received, tariff)
    }
}

/// What a run leaves, or what it has left so far.
#[derive(Clone, Debug, Default, PartialEq, Eq)]
pub struct NaiveRun {
    pub session: NaiveSession,
    pub records: u64,
    pub files: u64,
    pub answer: Answer,
    pub bytes: usize,
}

impl NaiveRun {
    /// What the program's run left.
    pub fn of(session: &Session, result: &RunResult) -> NaiveRun {
        NaiveRun {
            session: NaiveSession::of(session),
            records: result.records,
            files: result.files,
            answer: answer(&result.answer),
            bytes: result.bytes,
        }
    }
}

/// A run over an input, one record after the other. The input that is left may go on later, where there is more.
pub fn run(session: &NaiveSession, input: &[u8], more: bool, agreed: &[u64]) -> NaiveRun {
    let mut run = NaiveRun {
        session: session.clone(),
        ..NaiveRun::default()
    };
    if let Err(refusal) = list(agreed) {
        run.answer = refusal;
        return run;
    }
    loop {
        let left = input.len() - run.bytes;
        if left == 0 || (more && left < 152) {
            return run;
        }
        let end = [13, 10] == input[run.bytes..][left.min(150)..left.min(152)];
        let lined = (run.session.open && run.session.lined) || (!run.session.open && end);
        let length = if lined { left.min(152) } else { left.min(150) };
        let record = &input[run.bytes..run.bytes + length];
        match run.session.take(record, agreed) {
            Ok(next) => run.session = next,
            Err(refusal) => {
                run.answer = refusal;
                return run;
            }
        }
        run.records += 1;
        run.bytes += length;
        if record[0] == b'Z' {
            run.files += 1;
        }
    }
}

/// The page of an input.
pub fn page(input: &[u8]) -> String {
    let NaiveRun {
        session,
        records,
        files,
        mut answer,
        ..
    } = run(&NaiveSession::default(), input, false, &[]);
    if answer.0 == 0 && session.open {
        answer = (19, 0);
    }
    let mut text = format!(
        "answer={}\nplace={}\nrecord={records}\nfiles={files}\n",
        answer.0, answer.1
    );
    let board = session.shown;
    text += &format!("lanes={}\n", board.lanes.len());
    text += &tally(board.payments, board.centavos, board.tariff);
    for (i, lane) in board.lanes.iter().enumerate() {
        let (segment, number, payments, centavos, tariff) = *lane;
        let width = if segment == 6 { 8 } else { 4 };
        text += &format!("lane={}\nissuer={segment}-{number:0width$}\n", i + 1);
        text += &tally(payments, centavos, tariff);
    }
    text
}

fn tally(payments: u128, centavos: u128, tariff: u128) -> String {
    format!("payments={payments}\ncentavos={centavos}\ntariff={tariff}\n")
}
