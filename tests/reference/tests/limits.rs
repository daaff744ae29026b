//! Totals and counts at their limits (docs/SPEC.md, "Limits"), reached record by record.

mod common;

use common::{a, a_of, assert_answer, code_for, g, header_fields, p4_code};
use common::{payment_fields, with_bytes, z};
use reference::{Session, Writer};

const MOST_RECEIVED: u64 = 999_999_999_999;
const FILE_LIMIT: u64 = 99_999_999_999_999_999;
const E18: u64 = 1_000_000_000_000_000_000;

/// Takes the payments of a file with this number whose total is exactly the limit.
fn take_full_file(session: &mut Session, number: u64, most: &[u8], rest: &[u8]) {
    assert_answer(session.take(&a_of(number), &[]), 0, 0);
    for _ in 0..100_000 {
        session.take(most, &[]).unwrap();
    }
    assert_answer(session.take(rest, &[]), 0, 0);
    assert_eq!(session.total, FILE_LIMIT);
}

#[test]
fn past_2_to_the_32_in_one_lane() {
    let mut session = Session::new();
    let code = p4_code();
    let mut sum = 0;
    let amounts = [4_294_967_295, 1, 1, 4_294_967_296, MOST_RECEIVED];
    for (number, received) in (1..).zip(amounts) {
        sum += received;
        for record in [a_of(number), g(&code, received), z(3, received)] {
            assert_answer(session.take(&record, &[]), 0, 0);
        }
        assert_eq!(session.board().in_use()[0].centavos, sum);
        assert_eq!(session.board().centavos, sum);
    }
    assert_eq!(session.board().in_use()[0].payments, 5);
}

#[test]
fn a_file_of_999_997_payments() {
    let mut session = Session::new();
    let mut writer = Writer::new();
    let mut out = [0; 150];
    let (payment, fields) = (g(&p4_code(), 3), payment_fields());
    writer.header(&header_fields(), &mut out).unwrap();
    session.take(&out, &[]).unwrap();
    for _ in 0..999_997 {
        writer.payment(&fields, 3, 150, &[], &mut out).unwrap();
        session.take(&out, &[]).unwrap();
    }
    assert_eq!(out, payment);
    let before = session.clone();
    assert_answer(session.take(&payment, &[]), 15, 1);
    let bad = with_bytes(payment, 22, b"20230229");
    assert_answer(session.take(&bad, &[]), 11, 22);
    assert_eq!(session, before);
    let before = writer.clone();
    assert_answer(writer.payment(&fields, 3, 150, &[], &mut out), 15, 1);
    assert_eq!((&writer, out), (&before, payment));
    assert_answer(session.take(&z(999_998, 2_999_991), &[]), 13, 2);
    writer.trailer(&mut out).unwrap();
    assert_eq!(out, z(999_999, 2_999_991));
    assert_answer(session.take(&out, &[]), 0, 0);
    assert_eq!(session.board().in_use()[0].payments, 999_997);
    assert_eq!(session.board().centavos, 2_999_991);
}

#[test]
fn file_and_board_totals_at_their_limits() {
    let code = p4_code();
    let most = g(&code, MOST_RECEIVED);
    let rest = g(&code, 99_999);
    let mut session = Session::new();
    for files in 1..=10 {
        take_full_file(&mut session, files, &most, &rest);
        let before = session.clone();
        assert_answer(session.take(&g(&code, 1), &[]), 16, 82);
        assert_eq!(session, before);
        assert_answer(session.take(&g(&code, 0), &[]), 0, 0);
        assert_answer(session.take(&z(100_004, FILE_LIMIT), &[]), 0, 0);
        assert_eq!(session.board().centavos, files * FILE_LIMIT);
        assert_eq!(session.board().payments, files * 100_002);
    }
    assert_answer(session.take(&a_of(11), &[]), 0, 0);
    assert_answer(session.take(&g(&code, 11), &[]), 18, 82);
    assert_answer(session.take(&g(&code_for(2, 1), 11), &[]), 18, 82);
    assert_answer(session.take(&g(&code, 10), &[]), 0, 0);
    let before = session.clone();
    assert_answer(session.take(&g(&code, 1), &[]), 18, 82);
    assert_answer(session.take(&g(&code_for(2, 1), 1), &[]), 18, 82);
    assert_eq!(session, before);
    assert_answer(session.take(&g(&code_for(2, 1), 0), &[]), 0, 0);
    assert_answer(session.take(&z(4, 10), &[]), 0, 0);
    assert_eq!(session.board().centavos, E18);
    assert_eq!(session.board().in_use()[0].centavos, E18);
    // At the limit, a new file accepts payments of 0 only.
    assert_answer(session.take(&a_of(12), &[]), 0, 0);
    assert_answer(session.take(&g(&code, 1), &[]), 18, 82);
    assert_answer(session.take(&g(&code, 0), &[]), 0, 0);
    assert_answer(session.take(&z(3, 0), &[]), 0, 0);
}

#[test]
fn writer_total_at_its_limit() {
    let mut writer = Writer::new();
    let mut out = [0; 150];
    let payment = payment_fields();
    writer.header(&header_fields(), &mut out).unwrap();
    for _ in 0..100_000 {
        writer
            .payment(&payment, MOST_RECEIVED, 0, &[], &mut out)
            .unwrap();
    }
    let before = (writer.clone(), out);
    assert_answer(writer.payment(&payment, 100_000, 0, &[], &mut out), 16, 82);
    assert_eq!((writer.clone(), out), before);
    assert_answer(writer.payment(&payment, 99_999, 0, &[], &mut out), 0, 0);
    assert_answer(writer.payment(&payment, 1, 0, &[], &mut out), 16, 82);
    assert_answer(writer.payment(&payment, 0, 0, &[], &mut out), 0, 0);
    assert_answer(writer.trailer(&mut out), 0, 0);
    assert_eq!(out, z(100_004, FILE_LIMIT));
}

#[test]
fn lanes_keep_the_order_of_first_appearance_in_accepted_files() {
    let mut session = Session::new();
    let (one, two, three) = (code_for(1, 1), code_for(2, 2), code_for(6, 33_333_333));
    let take = |session: &mut Session, records: &[[u8; 150]]| {
        for record in records {
            assert_answer(session.take(record, &[]), 0, 0);
        }
    };
    take(&mut session, &[a(), g(&three, 1)]);
    session.abandon();
    take(&mut session, &[a(), g(&two, 1), z(3, 1)]);
    take(
        &mut session,
        &[a_of(2), g(&one, 2), g(&three, 4), g(&two, 8)],
    );
    assert_eq!(session.board().used, 1, "an open file is not shown");
    take(&mut session, &[z(5, 14)]);
    let issuers: Vec<(u64, u64)> = session
        .board()
        .in_use()
        .iter()
        .map(|lane| (lane.issuer.segment, lane.issuer.number))
        .collect();
    assert_eq!(issuers, [(2, 2), (1, 1), (6, 33_333_333)]);
    let sums: Vec<u64> = session
        .board()
        .in_use()
        .iter()
        .map(|lane| lane.centavos)
        .collect();
    assert_eq!(sums, [9, 2, 4]);
}
