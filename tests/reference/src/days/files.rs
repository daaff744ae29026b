//! Random days: files of one to sixteen pairs of a bank and an agreement, one after the other. The numbers of each pair
//! follow each other.

use super::pairs::{next_header, pairs_of_day};
use super::{barcode_under, issuers, payment_fields};
use crate::barcode::Issuer;
use crate::random::Random;
use crate::records::{HEADER_FIELDS, LENGTH, LINED};
use crate::refusal::Refusal;
use crate::session::Lane;
use crate::writer::Writer;

/// The most digits of an amount in a day. A file of 999,997 such payments is below the limit of a file, and a day of a
/// hundred million below the limit of a board.
const AMOUNT_DIGITS: u32 = 10;

/// The form of a day's files.
#[derive(Clone, Copy, Debug, PartialEq, Eq, Hash)]
pub enum Form {
    /// Nothing follows a record.
    Bare,
    /// CR and LF follow each record.
    Lined,
    /// Each file is bare or lined, at random.
    Both,
}

impl Form {
    /// Every form.
    pub const ALL: [Form; 3] = [Form::Bare, Form::Lined, Form::Both];

    /// The room that the writer of the next file is lent for each record: 150 or 152 bytes.
    fn room(self, random: &mut Random) -> usize {
        match self {
            Form::Bare => LENGTH,
            Form::Lined => LINED,
            Form::Both if random.once_in(2) => LENGTH,
            Form::Both => LINED,
        }
    }
}

/// A payment as it was made, before it was written into a record.
#[derive(Clone, Copy, Debug, PartialEq, Eq)]
pub struct Posted {
    pub issuer: Issuer,
    pub received: u64,
    pub tariff: u64,
}

/// A day: its consecutive records, and the payments of each file.
#[derive(Clone, Debug, Default, PartialEq, Eq)]
pub struct Day {
    pub bytes: Vec<u8>,
    pub files: Vec<Vec<Posted>>,
}

impl Day {
    /// The lanes of the first `files` files, summed from the payments as they were made.
    pub fn lanes(&self, files: usize) -> Vec<Lane> {
        let mut lanes: Vec<Lane> = Vec::new();
        for posted in self.files.iter().take(files).flatten() {
            match lanes.iter_mut().find(|lane| lane.issuer == posted.issuer) {
                Some(lane) => {
                    lane.payments = lane.payments.saturating_add(1);
                    lane.centavos = lane.centavos.saturating_add(posted.received);
                    lane.tariff = lane.tariff.saturating_add(posted.tariff);
                }
                None => lanes.push(Lane {
                    issuer: posted.issuer,
                    payments: 1,
                    centavos: posted.received,
                    tariff: posted.tariff,
                }),
            }
        }
        lanes
    }
}

/// A bare day of `files` files with at most `most` payments in each, of `issuer_count` issuers. If there is a file,
/// every issuer has a payment; the last file has more than `most` payments if that takes them.
pub fn day(
    random: &mut Random,
    issuer_count: usize,
    files: usize,
    most: usize,
) -> Result<Day, Refusal> {
    day_of(random, issuer_count, files, most, Form::Bare)
}

/// Such a day in a form. From equal seeds, a bare day and a lined one have the same records.
pub fn day_of(
    random: &mut Random,
    issuer_count: usize,
    files: usize,
    most: usize,
    form: Form,
) -> Result<Day, Refusal> {
    let issuers = issuers(random, issuer_count);
    day_under(random, &issuers, files, most, form, &[])
}

/// Such a day of these issuers, which must all differ, that this list does not refuse: agreed issuers always have a due
/// date.
pub fn day_under(
    random: &mut Random,
    issuers: &[Issuer],
    files: usize,
    most: usize,
    form: Form,
    agreed: &[u64],
) -> Result<Day, Refusal> {
    let mut pairs = pairs_of_day(random);
    let mut seen = 0;
    let mut day = Day::default();
    for i in 0..files {
        let mut chosen = Vec::new();
        if !issuers.is_empty() {
            for _ in 0..random.index(most.saturating_add(1)) {
                chosen.push(next_issuer(random, issuers, &mut seen));
            }
        }
        if i + 1 == files {
            chosen.extend_from_slice(&issuers[seen..]);
        }
        let pair = random.index(pairs.len());
        let fields = next_header(random, &mut pairs[pair]);
        let room = form.room(random);
        file(random, &fields, &chosen, room, agreed, &mut day)?;
    }
    Ok(day)
}

/// Sometimes the first issuer that was not chosen yet, else one that was.
fn next_issuer(random: &mut Random, issuers: &[Issuer], seen: &mut usize) -> Issuer {
    if *seen == 0 || (*seen < issuers.len() && random.once_in(4)) {
        *seen += 1;
        return issuers[*seen - 1];
    }
    issuers[random.index(*seen)]
}

/// Adds a file with one payment for each of these issuers, in this order, with the codes of the header's version. Each
/// record has a room of this length.
fn file(
    random: &mut Random,
    header: &[u8; HEADER_FIELDS],
    issuers: &[Issuer],
    room: usize,
    agreed: &[u64],
    day: &mut Day,
) -> Result<(), Refusal> {
    let mut writer = Writer::new();
    let mut payments = Vec::new();
    writer.header(header, new_record(&mut day.bytes, room))?;
    for &issuer in issuers {
        let code = barcode_under(random, issuer, agreed)?;
        let fields = payment_fields(random, &code, writer.version);
        let received = random.number(AMOUNT_DIGITS);
        let tariff = random.number(7);
        let record = new_record(&mut day.bytes, room);
        writer.payment(&fields, received, tariff, agreed, record)?;
        payments.push(Posted {
            issuer,
            received,
            tariff,
        });
    }
    writer.trailer(new_record(&mut day.bytes, room))?;
    day.files.push(payments);
    Ok(())
}

/// Adds a room for one record at the end and returns its bytes.
fn new_record(bytes: &mut Vec<u8>, room: usize) -> &mut [u8] {
    let start = bytes.len();
    bytes.resize(start + room, b' ');
    &mut bytes[start..]
}
