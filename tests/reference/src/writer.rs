//! The writer of one file: docs/SPEC.md, "Writer".

use crate::agreed;
use crate::records::{self, G_RECEIVED, G_TARIFF, LENGTH, LINE_END, TABLE, Z_COUNT, Z_TOTAL};
use crate::refusal::{Reason, Refusal};
use crate::session::{check_payment_count, file_sum, MOST_PAYMENTS};

/// Which record the writer expects.
#[derive(Clone, Copy, Debug, PartialEq, Eq, Hash)]
pub enum Stage {
    /// Nothing was written: it expects A.
    Fresh,
    /// A was written: it expects G or Z.
    Open,
    /// Z was written: it expects nothing more.
    Closed,
}

/// A writer of one file.
#[derive(Clone, Debug, PartialEq, Eq, Hash)]
pub struct Writer {
    pub stage: Stage,
    /// The payments written.
    pub taken: u64,
    /// The centavos of those payments.
    pub total: u64,
    /// The version that the header written names, 4 or 6; 0 before that.
    pub version: u64,
    /// Whether the file is lined, with CR and LF behind each record: the header's buffer decides. False before that.
    pub lined: bool,
}

/// The caller's buffer for a record: 150 bytes for the record, and none or two for its line end.
struct Buffer<'a> {
    record: &'a mut [u8; LENGTH],
    end: &'a mut [u8],
}

impl Buffer<'_> {
    /// Whether it has two bytes for a line end.
    fn lined(&self) -> bool {
        self.end.len() == LINE_END.len()
    }

    /// Writes the record, and a line end into a buffer of 152 bytes.
    fn write(self, record: &[u8; LENGTH]) {
        if self.lined() {
            self.end.copy_from_slice(LINE_END);
        }
        *self.record = *record;
    }
}

impl Default for Writer {
    fn default() -> Self {
        Writer::new()
    }
}

impl Writer {
    /// A new writer, which expects a header.
    pub const fn new() -> Writer {
        Writer {
            stage: Stage::Fresh,
            taken: 0,
            total: 0,
            version: 0,
            lined: false,
        }
    }

    /// Writes the A of 80 field bytes. A buffer of 152 bytes makes the file lined, one of 150 bare. Order: 1, 9, the
    /// fields. A refusal changes nothing.
    pub fn header(&mut self, fields: &[u8], out: &mut [u8]) -> Result<(), Refusal> {
        let fields = fields.try_into().map_err(|_| Reason::Length.at(0))?;
        let buffer = self.buffer(out)?;
        self.expects(Stage::Fresh)?;
        let record = records::header_from_fields(fields);
        let header = records::header(&record)?;
        *self = Writer {
            stage: Stage::Open,
            taken: 0,
            total: 0,
            version: header.version,
            lined: buffer.lined(),
        };
        buffer.write(&record);
        Ok(())
    }

    /// Writes the G of 121 field bytes and two amounts. Order: 25, 1, 9, 10 at 80 if the version, in an arbitrary
    /// state, is neither 4 nor 6, the fields (21 in the turn of its field), 15, 16. A refusal changes nothing. The list
    /// is not kept.
    pub fn payment(
        &mut self,
        fields: &[u8],
        received: u64,
        tariff: u64,
        agreed: &[u64],
        out: &mut [u8],
    ) -> Result<(), Refusal> {
        agreed::check(agreed)?;
        let fields = fields.try_into().map_err(|_| Reason::Length.at(0))?;
        let buffer = self.buffer(out)?;
        self.expects(Stage::Open)?;
        let codes = records::codes(self.version)?;
        let mut record = records::payment_from_fields(fields);
        let money = write_money(&mut record, received, tariff);
        first_refusal(records::payment(&record, codes, agreed).map(|_| ()), money)?;
        check_payment_count(self.taken)?;
        self.total = file_sum(self.total, received)?;
        // No overflow: `taken` is below 999,997 here.
        self.taken += 1;
        buffer.write(&record);
        Ok(())
    }

    /// Writes the Z and closes the file. Order: 1, 9; then 15, 16 for a writer in an arbitrary state whose count or
    /// total is too wide. A refusal changes nothing.
    pub fn trailer(&mut self, out: &mut [u8]) -> Result<(), Refusal> {
        let buffer = self.buffer(out)?;
        self.expects(Stage::Open)?;
        if self.taken > MOST_PAYMENTS {
            return Err(Reason::TooManyPayments.at(1));
        }
        file_sum(self.total, 0)?;
        let mut record = [b' '; LENGTH];
        record[0] = b'Z';
        // Both fit, by the two checks above.
        records::write_number::<Z_COUNT>(&mut record, self.taken + 2);
        records::write_number::<Z_TOTAL>(&mut record, self.total);
        buffer.write(&record);
        self.stage = Stage::Closed;
        Ok(())
    }

    /// The buffer of a record; 1 for a wrong length. A fresh writer takes 150 or 152 bytes, whatever `lined` is;
    /// after that the file's form decides, also when it is closed.
    fn buffer<'a>(&self, out: &'a mut [u8]) -> Result<Buffer<'a>, Refusal> {
        let wrong = Reason::Length.at(0);
        let (record, end) = out.split_first_chunk_mut().ok_or(wrong)?;
        let buffer = Buffer { record, end };
        let lined = buffer.lined();
        let right = match self.stage {
            Stage::Fresh => lined || buffer.end.is_empty(),
            Stage::Open | Stage::Closed if self.lined => lined,
            Stage::Open | Stage::Closed => buffer.end.is_empty(),
        };
        if right {
            Ok(buffer)
        } else {
            Err(wrong)
        }
    }

    /// 9 at 1 if the writer is at another stage.
    fn expects(&self, stage: Stage) -> Result<(), Refusal> {
        if self.stage != stage {
            return Err(Reason::Unexpected.at(1));
        }
        Ok(())
    }
}

/// Writes both amounts; 21 for the first that is too wide, whose field keeps its zeros.
fn write_money(record: &mut [u8; LENGTH], received: u64, tariff: u64) -> Result<(), Refusal> {
    if !records::write_number::<G_RECEIVED>(record, received) {
        return Err(Reason::WideNumber.at(TABLE[G_RECEIVED].first));
    }
    if !records::write_number::<G_TARIFF>(record, tariff) {
        return Err(Reason::WideNumber.at(TABLE[G_TARIFF].first));
    }
    Ok(())
}

/// Of the record's refusal and its amounts' refusal, the one further left: fields are checked from left to right, each
/// refusal is inside its own field, and an amount of zeros is not refused.
fn first_refusal(record: Result<(), Refusal>, money: Result<(), Refusal>) -> Result<(), Refusal> {
    match (record, money) {
        (Err(of_record), Err(of_money)) if of_record.place < of_money.place => Err(of_record),
        (_, Err(of_money)) => Err(of_money),
        (record, Ok(())) => record,
    }
}
