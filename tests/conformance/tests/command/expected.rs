//! What the command must say of its inputs: answers and sums are those of the reference program's session, records,
//! bytes and return files are counted here, in the bytes that it accepted.

use std::fs;

use conformance::engine::root;
use reference::page::page;
use reference::records::{LENGTH, LINED, LINE_END};
use reference::Session;

/// A refusal of an input. Records and bytes count from 1.
pub struct Refused {
    pub number: u64,
    pub place: u64,
    /// The refused record; for 19 the last one.
    pub record: u64,
    /// The byte at the place, the record's first if there is none; for 19 the last one.
    pub byte: u64,
    /// The first byte of the open file, of the refused record if none is open.
    pub from: u64,
}

pub struct Input {
    /// Where its accepted return files are: from the first byte of the A up to the Z, with its line end.
    pub files: Vec<(usize, usize)>,
    pub records: u64,
    pub refused: Option<Refused>,
}

/// The inputs that are read, and the session behind them.
pub struct Expected {
    pub inputs: Vec<Input>,
    pub session: Session,
}

/// The number of the refusal of an input that ends while a file is open.
const FILE_OPEN: u64 = 19;

impl Expected {
    /// One session over these inputs, up to the first that is refused, or over all of them.
    pub fn of(inputs: &[&[u8]], keep_going: bool, agreed: &[u64]) -> Expected {
        let mut session = Session::new();
        let mut read = Vec::new();
        for bytes in inputs {
            read.push(take(&mut session, bytes, agreed));
            if !keep_going && read.iter().any(|input| input.refused.is_some()) {
                break;
            }
        }
        Expected {
            inputs: read,
            session,
        }
    }

    pub fn first(&self) -> Option<&Refused> {
        self.inputs.iter().find_map(|input| input.refused.as_ref())
    }

    /// Number and place of the first refusal, 0 and 0 if there is none.
    pub fn answer(&self) -> (u64, u64) {
        self.first()
            .map_or((0, 0), |refused| (refused.number, refused.place))
    }

    pub fn records(&self) -> u64 {
        self.inputs.iter().map(|input| input.records).sum()
    }

    pub fn files(&self) -> u64 {
        self.inputs
            .iter()
            .map(|input| input.files.len() as u64)
            .sum()
    }

    pub fn status(&self) -> i32 {
        i32::from(self.first().is_some())
    }

    pub fn page(&self) -> Vec<u8> {
        let (number, place) = self.answer();
        let board = self.session.board();
        page(number, place, self.records(), self.files(), board)
    }

    /// Standard error: a line for each refusal, of inputs with these names.
    pub fn lines(&self, names: &[&str], keep_going: bool) -> String {
        let mut lines = String::new();
        for (input, name) in self.inputs.iter().zip(names) {
            if let Some(refused) = &input.refused {
                lines += &format!("{name}: {}", refused.text());
                if keep_going {
                    lines += &format!("; set aside from byte {} on", refused.from);
                }
                lines += "\n";
            }
        }
        lines
    }
}

impl Refused {
    fn text(&self) -> String {
        let at = match (self.number, self.place) {
            (FILE_OPEN, _) => format!("after record {}", self.record),
            (_, 0) => format!("at record {}", self.record),
            (_, place) => format!("at place {place} of record {}", self.record),
        };
        let words = words(self.number);
        format!("refused {} ({words}) {at}, byte {}", self.number, self.byte)
    }
}

/// Takes an input to its first refusal or its end, and abandons the file that is then open.
fn take(session: &mut Session, bytes: &[u8], agreed: &[u64]) -> Input {
    let run = session.run(bytes, false, agreed);
    let answer = run.answer.and_then(|()| session.finish());
    session.abandon();
    let (files, open) = files(&bytes[..run.bytes]);
    assert_eq!(files.len() as u64, run.files);
    let before = run.bytes as u64;
    let refused = answer.err().map(|refusal| {
        let at_end = refusal.number() == FILE_OPEN;
        Refused {
            number: refusal.number(),
            place: refusal.place as u64,
            record: run.records + u64::from(!at_end),
            byte: match at_end {
                true => before,
                false => before + refusal.place.max(1) as u64,
            },
            from: open.map_or(before, |start| start as u64) + 1,
        }
    });
    Input {
        files,
        records: run.records,
        refused,
    }
}

/// The whole files in accepted records, and where the file starts that is open behind them.
fn files(bytes: &[u8]) -> (Vec<(usize, usize)>, Option<usize>) {
    let mut files = Vec::new();
    let mut open = None;
    let mut at = 0;
    while at < bytes.len() {
        let lined = bytes[at + LENGTH..].starts_with(LINE_END);
        // The header decides.
        let (start, size) = open.unwrap_or((at, if lined { LINED } else { LENGTH }));
        open = Some((start, size));
        if bytes[at] == b'Z' {
            files.push((start, at + size));
            open = None;
        }
        at += size;
    }
    (files, open.map(|(start, _)| start))
}

/// The words of a refusal in docs/REFUSALS.md.
pub fn words(number: u64) -> String {
    let rows = fs::read_to_string(root().join("docs/REFUSALS.md")).expect("the refusals");
    let row = rows
        .lines()
        .find(|row| row.starts_with(&format!("| {number} |")))
        .expect("a row of the refusal");
    let last = row.trim_end_matches(" |").rsplit(" | ").next();
    last.expect("a cell of words").to_string()
}
