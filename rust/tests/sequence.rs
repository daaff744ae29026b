//! Sequence numbers through sessions, and from one day to the next: docs/SPEC.md, "Sequence numbers".

mod common;

use common::{code, header_numbered, payment_of, refused, NONE};
use hollytrot::{Pair, Reason, Refusal, RunResult, Session, Writer, LINED, PAIRS, RECORD};

const LEFT: &[u8; 20] = b"PS0001              ";
const RIGHT: &[u8; 20] = b"              PS0001";

const NOT_FOLLOWING: Refusal = Refusal {
    reason: Reason::NotFollowing,
    place: 74,
};
const PAIRS_FULL: Refusal = Refusal {
    reason: Reason::PairsFull,
    place: 3,
};

fn pair(bank: &[u8; 3], agreement: &[u8; 20], sequence: u64) -> Pair {
    Pair {
        bank: *bank,
        agreement: *agreement,
        sequence,
    }
}

/// The pair of most tests, with this number.
fn first(sequence: u64) -> Pair {
    pair(b"341", LEFT, sequence)
}

/// The i-th of many pairs.
fn nth(i: u64, sequence: u64) -> Pair {
    let mut pair = first(sequence);
    pair.agreement[4..6].copy_from_slice(format!("{i:02}").as_bytes());
    pair
}

/// The file of this pair and number, with one payment of 5 centavos.
fn file_by(mut writer: Writer, pair: &Pair) -> Vec<u8> {
    let mut fields = header_numbered(pair.sequence);
    fields[..20].copy_from_slice(&pair.agreement);
    fields[40..43].copy_from_slice(&pair.bank);
    let header = writer.header(&fields).expect("a good header");
    let payment = writer.payment(&payment_of(&code()), 5, 0, &NONE);
    let payment = payment.expect("a good payment");
    let trailer = writer.trailer().expect("an open file");
    [header, payment, trailer].concat()
}

fn file(pair: &Pair) -> Vec<u8> {
    file_by(Writer::new(), pair)
}

#[track_caller]
fn accept(session: &mut Session, pair: &Pair) {
    let result = session.run(&file(pair), &NONE);
    assert_eq!((result.answer, result.files), (Ok(()), 1));
}

/// The file of this pair and number is refused at its header, in both forms and by both calls, and changes nothing.
#[track_caller]
fn refuse(session: &mut Session, pair: &Pair, refusal: Refusal) {
    let before = session.clone();
    for (writer, length) in [(Writer::new(), RECORD), (Writer::lined(), LINED)] {
        let file = file_by(writer, pair);
        let nothing_taken = RunResult {
            answer: Err(refusal),
            records: 0,
            files: 0,
            bytes: 0,
        };
        assert_eq!(session.run(&file, &NONE), nothing_taken);
        assert_eq!(session.take(&file[..length], &NONE), Err(refusal));
        assert_eq!(*session, before);
    }
}

/// A session that accepted a file of each.
fn after(pairs: &[Pair]) -> Session {
    let mut session = Session::new();
    for pair in pairs {
        accept(&mut session, pair);
    }
    session
}

#[test]
fn a_day_loaded_twice_is_counted_once() {
    let (porto, serra) = (first(41), pair(b"237", b"PS0007              ", 9));
    let day = [file(&porto), file(&serra)].concat();
    let mut session = Session::new();
    let result = session.run(&day, &NONE);
    assert_eq!((result.answer, result.files), (Ok(()), 2));
    let before = session.clone();
    let result = session.run(&day, &NONE);
    assert_eq!((result.answer, result.records), (Err(NOT_FOLLOWING), 0));
    assert_eq!(session, before);
    assert_eq!(session.board().total().payments, 2);
    refuse(&mut session, &serra, NOT_FOLLOWING);
    assert_eq!(session.remembered(), [porto, serra]);

    let twice = [&day[..], &day].concat();
    let mut session = Session::new();
    let result = session.run(&twice, &NONE);
    assert_eq!((result.answer, result.files), (Err(NOT_FOLLOWING), 2));
    assert_eq!(result.bytes, day.len());
    assert_eq!(session, before);
    assert_eq!(
        NOT_FOLLOWING.to_string(),
        "refused 26 at place 74: the file's number is not the next of its bank and agreement"
    );
}

#[test]
fn only_the_next_number_is_taken() {
    for (last, next) in [(0, 1), (41, 42), (999_998, 999_999), (999_999, 1)] {
        let mut session = after(&[first(last)]);
        for number in [0, 1, 2, 40, 41, 42, 43, 999_998, 999_999] {
            if number != next {
                refuse(&mut session, &first(number), NOT_FOLLOWING);
            }
        }
        accept(&mut session, &first(next));
        assert_eq!(session.remembered(), [first(next)]);
    }
}

#[test]
fn a_pair_is_its_bytes() {
    let others = [
        pair(b"341", RIGHT, 41),
        pair(b"237", LEFT, 41),
        pair(b"237", RIGHT, 7),
        pair(b"341", b"ps0001              ", 0),
        pair(b"341", b"PS0001             \xA0", 41),
        pair(b"000", &[b' '; 20], 999_999),
    ];
    let mut session = after(&[first(41)]);
    for pair in &others {
        accept(&mut session, pair);
        refuse(&mut session, pair, NOT_FOLLOWING);
    }
    accept(&mut session, &first(42));
    assert_eq!(session.remembered()[0], first(42));
    assert_eq!(session.remembered()[1..], others);
}

#[test]
fn a_17th_pair_is_refused_and_the_16_go_on() {
    let mut session = Session::new();
    for i in 0..16 {
        accept(&mut session, &nth(i, 100 + i));
    }
    assert_eq!(session.remembered().len(), PAIRS);
    for number in [0, 1, 116] {
        refuse(&mut session, &nth(16, number), PAIRS_FULL);
    }
    for i in [15, 0, 7] {
        refuse(&mut session, &nth(i, 100 + i), NOT_FOLLOWING);
        accept(&mut session, &nth(i, 101 + i));
    }
    refuse(&mut session, &nth(16, 1), PAIRS_FULL);
    assert_eq!(session.remembered()[14..], [nth(14, 114), nth(15, 116)]);
    assert_eq!(
        PAIRS_FULL.to_string(),
        "refused 27 at place 3: a new bank and agreement when 16 are remembered"
    );
}

/// An open file has not used its number yet: it may be abandoned, and taken again.
#[test]
fn a_number_is_remembered_with_the_trailer() {
    for (before, number) in [(vec![], 7), (vec![first(41)], 42)] {
        let mut session = after(&before);
        let closed = session.clone();
        let file = file(&first(number));
        let (a, g, z) = (&file[..150], &file[150..300], &file[300..]);
        session.take(a, &NONE).expect("the next number");
        session.take(g, &NONE).expect("a payment");
        assert_eq!(session.remembered(), before);
        let not_expected = refused(Reason::NotExpected, 1);
        assert_eq!(session.take(a, &NONE), Err(not_expected));
        session.abandon();
        assert_eq!(session, closed);

        session.take(a, &NONE).expect("the same number");
        let count_differs = refused(Reason::CountDiffers, 2);
        assert_eq!(session.take(z, &NONE), Err(count_differs));
        assert_eq!(session.remembered(), before);
        session.take(g, &NONE).expect("a payment");
        session.take(z, &NONE).expect("the trailer");
        assert_eq!(session.remembered(), [first(number)]);
        refuse(&mut session, &first(number), NOT_FOLLOWING);
    }
}

/// A header's own refusals come first.
#[test]
fn a_repeated_header_with_another_fault() {
    let mut session = after(&[first(41)]);
    let header = &file(&first(41))[..RECORD];
    for (i, refusal) in [
        (22, refused(Reason::NoText, 23)),
        (72, refused(Reason::NoDate, 66)),
        (78, refused(Reason::NoDigit, 79)),
        (149, refused(Reason::FixedDiffers, 99)),
    ] {
        let mut faulty = header.to_vec();
        faulty[i] = if i == 72 { b'9' } else { 0x7F };
        assert_eq!(session.take(&faulty, &NONE), Err(refusal));
    }
    let wrong_length = refused(Reason::WrongLength, 0);
    assert_eq!(session.take(&header[1..], &NONE), Err(wrong_length));
}

#[test]
fn the_next_day_begins_where_this_one_ended() {
    let today = after(&[first(40), pair(b"237", RIGHT, 999_999), first(41)]);
    let pairs = today.remembered().to_vec();
    assert_eq!(pairs, [first(41), pair(b"237", RIGHT, 999_999)]);

    let mut tomorrow = Session::with_remembered(&pairs).expect("pairs of a session");
    assert_eq!(tomorrow.remembered(), pairs);
    assert_eq!(tomorrow.board(), Session::new().board());
    assert_eq!(tomorrow.finish(), Ok(()));
    for today in &pairs {
        refuse(&mut tomorrow, today, NOT_FOLLOWING);
    }
    refuse(&mut tomorrow, &first(43), NOT_FOLLOWING);
    accept(&mut tomorrow, &first(42));
    accept(&mut tomorrow, &pair(b"237", RIGHT, 1));
    assert_eq!(tomorrow.board().total().payments, 2);
    // a bank that starts its numbers anew
    let mut left_out = Session::with_remembered(&pairs[..1]).expect("pairs of a session");
    accept(&mut left_out, &pair(b"237", RIGHT, 500));
}

#[test]
fn every_list_of_a_session_is_accepted() {
    assert_eq!(Session::with_remembered(&[]), Ok(Session::new()));
    let edges = [first(0), pair(b"000", &[b' '; 20], 999_999)];
    let alike = [first(41), pair(b"237", LEFT, 41), pair(b"341", RIGHT, 41)];
    let bytes = [pair(b"999", &[0xFF; 20], 1), pair(b"999", &[b'~'; 20], 1)];
    let full: Vec<Pair> = (0..16).map(|i| nth(i, i)).collect();
    for pairs in [&edges[..], &alike, &bytes, &full] {
        let today = after(pairs);
        assert_eq!(today.remembered(), pairs);
        let tomorrow = Session::with_remembered(pairs).expect("pairs of a session");
        assert_eq!(tomorrow.remembered(), pairs);
        // a second night without files
        assert_eq!(
            Session::with_remembered(tomorrow.remembered()),
            Ok(tomorrow)
        );
    }
}

#[test]
fn a_list_that_no_session_has_is_refused() {
    let refusal_of = |pairs: &[Pair]| Session::with_remembered(pairs).unwrap_err();
    let mut seventeen: Vec<Pair> = (0..17).map(|i| nth(i, 1)).collect();
    assert_eq!(refusal_of(&seventeen), PAIRS_FULL);
    seventeen[16] = nth(3, 2);
    assert_eq!(refusal_of(&seventeen), NOT_FOLLOWING);
    for twice in [41, 42, 43] {
        let pairs = [first(41), nth(2, 9), first(twice)];
        assert_eq!(refusal_of(&pairs), NOT_FOLLOWING);
    }
    for number in [1_000_000, 1 << 32, u64::MAX] {
        let too_wide = refused(Reason::TooWide, 74);
        assert_eq!(refusal_of(&[nth(2, 9), first(number)]), too_wide);
    }
    for (bank, place) in [(b"x41", 43), (b"3 1", 44), (b"34\0", 45)] {
        let no_digit = refused(Reason::NoDigit, place);
        assert_eq!(refusal_of(&[pair(bank, LEFT, 41)]), no_digit);
    }
    for (i, byte) in [(0, 0), (6, b'\n'), (19, 0x9F)] {
        let mut damaged = first(41);
        damaged.agreement[i] = byte;
        let no_text = refused(Reason::NoText, i + 3);
        assert_eq!(refusal_of(&[damaged]), no_text);
    }
}
