//! The writer of one return file: docs/SPEC.md, "Writer".

use crate::raw;
use crate::{Agreed, Refusal, LINED, RECORD};

/// Writes a file record by record: the header, each payment, then the trailer with the file's own count and total. Each
/// record is 150 bytes; in a lined file it is 152, the last two CR and LF. A call that is not expected now is refused 9
/// at 1, and so is every call after the trailer: use a new writer for each file.
///
/// ```
/// use hollytrot::Writer;
///
/// let header = b"AGREEMENT           COMPANY             237BANK                2023123100432104O";
/// let mut writer = Writer::lined();
/// let mut file = writer.header(header)?;
/// file.extend(writer.trailer()?);
/// assert_eq!(file.len(), 304);
/// assert!(file.ends_with(b"\r\n"));
/// # Ok::<(), hollytrot::Refusal>(())
/// ```
#[derive(Clone, Debug, PartialEq, Eq)]
pub struct Writer(raw::Writer);

impl Default for Writer {
    fn default() -> Self {
        Writer::new()
    }
}

impl Writer {
    /// A new writer of a bare file, which expects a header.
    pub fn new() -> Writer {
        // SAFETY: the call has no arguments.
        Writer(unsafe { raw::hollytrot_writer_new() })
    }

    /// A new writer of a lined file, which expects a header.
    pub fn lined() -> Writer {
        let mut writer = Writer::new();
        // The engine does not read this of a new writer: here it chooses the length of the header's buffer, which makes
        // the file lined. So it never changes.
        writer.0.file.lined = true;
        writer
    }

    /// The A of 80 field bytes: those of places 3 to 81, of which the last two are the version, `04` or `06`, and the
    /// second byte of the service field, 79 or 211.
    pub fn header(&mut self, fields: &[u8]) -> Result<Vec<u8>, Refusal> {
        let (bytes, length) = (fields.as_ptr(), fields.len());
        // SAFETY: pointers and lengths are those of slices, and `out` overlaps no other.
        self.write(|writer, out| unsafe {
            raw::hollytrot_writer_header(writer, bytes, length, out.as_mut_ptr(), out.len())
        })
    }

    /// The G of 121 field bytes, those of places 2 to 81 and 101 to 141, and the two amounts in centavos. Its capture
    /// and payment form must be codes of the version that the header names. If the issuer is agreed, its free field
    /// must start with a date, else 11 at 57, in segment 6 at 61. A session that is given the same list does not refuse
    /// the record for that.
    pub fn payment(
        &mut self,
        fields: &[u8],
        received: u64,
        tariff: u64,
        agreed: &Agreed,
    ) -> Result<Vec<u8>, Refusal> {
        let (bytes, length) = (fields.as_ptr(), fields.len());
        let (keys, count) = agreed.as_raw();
        // SAFETY: pointers and lengths are those of slices, and `out` overlaps no other.
        self.write(|writer, out| unsafe {
            raw::hollytrot_writer_payment(
                writer,
                bytes,
                length,
                received,
                tariff,
                keys,
                count,
                out.as_mut_ptr(),
                out.len(),
            )
        })
    }

    /// The Z; the writer is closed then.
    pub fn trailer(&mut self) -> Result<Vec<u8>, Refusal> {
        // SAFETY: pointer and length are those of `out`, which nothing else refers to.
        self.write(|writer, out| unsafe {
            raw::hollytrot_writer_trailer(writer, out.as_mut_ptr(), out.len())
        })
    }

    /// The record that `call` writes, as long as those of the file; a refusal does not change the writer.
    fn write(
        &mut self,
        call: impl FnOnce(raw::Writer, &mut [u8]) -> raw::WriteResult,
    ) -> Result<Vec<u8>, Refusal> {
        let length = if self.0.file.lined { LINED } else { RECORD };
        let mut out = vec![0; length];
        let result = call(self.0, &mut out);
        result.answer.to_result()?;
        self.0 = result.writer;
        Ok(out)
    }
}
