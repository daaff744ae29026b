//! Sequence numbers by the naive rules: all accepted files are kept, and looked through each time.

use super::{number, Outcome};
use reference::{Memory, Pair};

/// What names a file: the bank and the agreement, 23 bytes, and its number.
#[derive(Clone, Debug, Default, PartialEq, Eq)]
pub struct NaiveFile {
    pub pair: [u8; 23],
    pub number: u128,
}

impl NaiveFile {
    pub fn of(pair: &Pair) -> NaiveFile {
        let bytes = [&pair.bank[..], &pair.agreement].concat();
        NaiveFile {
            pair: bytes.try_into().expect("23 bytes"),
            number: u128::from(pair.sequence),
        }
    }

    /// Of an A whose fields are right.
    pub fn of_header(bytes: &[u8]) -> NaiveFile {
        let pair = [&bytes[42..45], &bytes[2..22]].concat();
        NaiveFile {
            pair: pair.try_into().expect("23 bytes"),
            number: number(&bytes[73..79]),
        }
    }
}

/// All accepted files, oldest first. Two histories are equal if they leave the same memory.
#[derive(Clone, Debug, Default)]
pub struct History {
    files: Vec<NaiveFile>,
    /// How many places of an arbitrary memory repeat a pair that stands before them.
    doubles: usize,
}

impl PartialEq for History {
    fn eq(&self, other: &History) -> bool {
        self.lasts() == other.lasts() && self.doubles == other.doubles
    }
}

impl Eq for History {}

impl History {
    /// As if each pair remembered had had one file.
    pub fn of(memory: &Memory) -> History {
        let mut history = History::default();
        for pair in memory.pairs.iter().take(memory.used) {
            let file = NaiveFile::of(pair);
            match history.last(&file.pair) {
                Some(_) => history.doubles += 1,
                None => history.files.push(file),
            }
        }
        history
    }

    /// The number of the pair's last file.
    pub fn last(&self, pair: &[u8; 23]) -> Option<u128> {
        let mut newest_first = self.files.iter().rev();
        newest_first
            .find(|file| file.pair == *pair)
            .map(|file| file.number)
    }

    /// The last file of each pair, in the order of their first files.
    pub fn lasts(&self) -> Vec<NaiveFile> {
        let is_first = |i: usize| {
            let before = &self.files[..i];
            before.iter().all(|file| file.pair != self.files[i].pair)
        };
        let firsts = (0..self.files.len()).filter(|&i| is_first(i));
        let pairs = firsts.map(|i| self.files[i].pair);
        pairs
            .map(|pair| NaiveFile {
                pair,
                number: self.last(&pair).expect("it has a file"),
            })
            .collect()
    }

    fn is_full(&self) -> bool {
        self.lasts().len() + self.doubles >= 16
    }

    /// 26 or 27 if the file may not come now.
    pub fn allows(&self, file: &NaiveFile) -> Outcome<()> {
        match self.last(&file.pair) {
            Some(999_999) if file.number != 1 => Err((26, 74)),
            Some(last) if last != 999_999 && file.number != last + 1 => Err((26, 74)),
            None if self.is_full() => Err((27, 3)),
            _ => Ok(()),
        }
    }

    /// The piece with the number that may come now, if it is a header with a number of a pair that has files.
    pub fn in_order(&self, piece: &[u8]) -> Vec<u8> {
        let mut piece = piece.to_vec();
        if piece.len() >= 150 && piece[0] == b'A' && piece[73..79].iter().all(u8::is_ascii_digit) {
            let next = match self.last(&NaiveFile::of_header(&piece).pair) {
                None => return piece,
                Some(999_999) => 1,
                Some(last) => last + 1,
            };
            piece[73..79].copy_from_slice(format!("{next:06}").as_bytes());
        }
        piece
    }

    /// With one more accepted file; without it if its pair has no place.
    pub fn with(&self, file: &NaiveFile) -> History {
        let mut next = self.clone();
        if self.last(&file.pair).is_some() || !self.is_full() {
            next.files.push(file.clone());
        }
        next
    }
}
