//! The numbers of accepted files: docs/SPEC.md, "Sequence numbers".

use crate::{Agreed, Reason, Refusal, Session, Writer};

/// The most pairs of a bank and an agreement that a session remembers.
pub const PAIRS: usize = 16;

/// A bank and an agreement, byte for byte as in a header, with the number of their last accepted file.
///
/// One agreement with two banks is two pairs, and so is one that is at the left of its field and then at the right.
#[repr(C)]
#[derive(Clone, Copy, Debug, PartialEq, Eq, Hash)]
pub struct Pair {
    /// Places 43 to 45 of the header: digits.
    pub bank: [u8; 3],
    /// Places 3 to 22: text in ISO 8859-1, with the blanks around it.
    pub agreement: [u8; 20],
    /// Places 74 to 79: the sequence number, at most 999999.
    pub sequence: u64,
}

impl Pair {
    /// Whether both have the same bank and the same agreement, whatever their numbers are.
    fn is_same_pair(&self, other: &Pair) -> bool {
        self.bank == other.bank && self.agreement == other.agreement
    }

    /// The field bytes of a header with this pair and number, and any date. Refused 21 if the number has more than six
    /// digits.
    fn header_fields(&self) -> Result<Vec<u8>, Refusal> {
        let sequence = format!("{:06}", self.sequence);
        if sequence.len() > 6 {
            return Err(at_sequence(Reason::TooWide));
        }
        let (agreement, bank, blanks) = (&self.agreement[..], &self.bank[..], &[b' '; 20][..]);
        let rest = [b"20000101", sequence.as_bytes(), b"04O"].concat();
        Ok([agreement, blanks, bank, blanks, &rest].concat())
    }
}

/// A refusal at the sequence number of a header.
fn at_sequence(reason: Reason) -> Refusal {
    Refusal { reason, place: 74 }
}

impl Session {
    /// A session with no file open, an empty board, and these pairs remembered: those that
    /// [`remembered`](Self::remembered) returned the day before. A file that was accepted then is now refused 26.
    ///
    /// What `remembered` returned is never refused. A list with a wrong pair is refused as a whole, with a place in a
    /// header:
    ///
    /// | No. | Place | If |
    /// |---|---|---|
    /// | 21 | 74 | a number is above 999999 |
    /// | 8 | 3 to 22 | a byte of an agreement is not a text byte |
    /// | 2 | 43 to 45 | a byte of a bank is not a digit |
    /// | 26 | 74 | a pair is there twice, whatever its two numbers are |
    /// | 27 | 3 | there are more than [`PAIRS`] |
    ///
    /// If a bank starts its numbers anew, leave its pair out: its first file may then have any number. If an agreement
    /// has ended, leave its pair out to make room for another one.
    ///
    /// ```
    /// use hollytrot::{Agreed, Reason, Session, Writer};
    ///
    /// let header = b"AGREEMENT           COMPANY             237BANK                2023123100432104O";
    /// let mut writer = Writer::new();
    /// let file = [writer.header(header)?, writer.trailer()?].concat();
    ///
    /// let mut today = Session::new();
    /// today.run(&file, &Agreed::none()).answer?;
    /// assert_eq!(today.remembered()[0].sequence, 4321);
    ///
    /// let mut tomorrow = Session::with_remembered(today.remembered())?;
    /// let again = tomorrow.run(&file, &Agreed::none()).answer;
    /// assert_eq!(again.unwrap_err().reason, Reason::NotFollowing);
    /// # Ok::<(), hollytrot::Refusal>(())
    /// ```
    pub fn with_remembered(pairs: &[Pair]) -> Result<Session, Refusal> {
        let mut session = Session::new();
        for pair in pairs {
            session.remember(pair)?;
        }
        Ok(session)
    }

    /// Takes an empty file of this pair and number, which leaves nothing but its number. So the engine judges the pair,
    /// and every session of this crate is one that files lead to.
    fn remember(&mut self, pair: &Pair) -> Result<(), Refusal> {
        let mut writer = Writer::new();
        let header = writer.header(&pair.header_fields()?)?;
        let mut known = self.remembered().iter();
        if known.any(|known| known.is_same_pair(pair)) {
            // The engine alone would accept the next number.
            return Err(at_sequence(Reason::NotFollowing));
        }
        self.take(&header, &Agreed::none())?;
        self.take(&writer.trailer()?, &Agreed::none())
    }
}
