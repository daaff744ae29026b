//! Reads the arguments of calls from the bytes of an input.

use reference::session::{LANES, PAIRS};
use reference::{Board, Issuer, Lane, Memory, Pair};

/// The rest of an input. Past its end there are zeros.
pub struct Rest<'a>(pub &'a [u8]);

impl<'a> Rest<'a> {
    pub fn bytes(&mut self, most: usize) -> &'a [u8] {
        let (bytes, rest) = self.0.split_at(most.min(self.0.len()));
        self.0 = rest;
        bytes
    }

    pub fn byte(&mut self) -> u8 {
        self.bytes(1).first().copied().unwrap_or(0)
    }

    pub fn number(&mut self) -> u64 {
        let mut n = [0; 8];
        let bytes = self.bytes(8);
        n[..bytes.len()].copy_from_slice(bytes);
        u64::from_le_bytes(n)
    }

    /// A list of agreed issuers: a count of one byte, then that many numbers.
    pub fn list(&mut self) -> Vec<u64> {
        (0..self.byte()).map(|_| self.number()).collect()
    }

    /// A length of one byte, then that many bytes.
    pub fn counted(&mut self) -> &'a [u8] {
        let length = self.byte();
        self.bytes(length.into())
    }

    /// The rest, but at most 255 bytes.
    pub fn short(&mut self) -> &'a [u8] {
        self.bytes(255)
    }

    pub fn board(&mut self) -> Board {
        let mut board = Board::new();
        board.used = self.number() as usize;
        board.payments = self.number();
        board.centavos = self.number();
        board.tariff = self.number();
        let given = usize::from(self.byte()).min(LANES);
        for lane in &mut board.lanes[..given] {
            let issuer = Issuer {
                segment: self.number(),
                number: self.number(),
            };
            *lane = Lane {
                issuer,
                payments: self.number(),
                centavos: self.number(),
                tariff: self.number(),
            };
        }
        board
    }

    pub fn pair(&mut self) -> Pair {
        let mut pair = Pair::new();
        pair.bank.fill_with(|| self.byte());
        pair.agreement.fill_with(|| self.byte());
        pair.sequence = self.number();
        pair
    }

    pub fn memory(&mut self) -> Memory {
        let mut memory = Memory::new();
        memory.used = self.number() as usize;
        let given = usize::from(self.byte()).min(PAIRS);
        memory.pairs[..given].fill_with(|| self.pair());
        memory
    }
}
