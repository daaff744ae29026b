//! Memories of sequence numbers in arbitrary states, made by hand: docs/SPEC.md, "Sequence numbers". Each step is also
//! run, so that a run is its takes from such a state too.

mod common;

use common::steps::{assert_refused, assert_taken, take_file};
use common::{a_nth, assert_answer, g, lined, p4_code, z};
use reference::session::{following, LAST_NUMBER, PAIRS};
use reference::{Memory, Pair, Session};

/// The pair of the header `a_nth`.
fn nth(i: u64, sequence: u64) -> Pair {
    Pair {
        bank: format!("{i:03}").as_bytes().try_into().expect("3 bytes"),
        agreement: *b"AGREEMENT           ",
        sequence,
    }
}

/// Pairs 0 to 15, each with number 10, of which this many are in use.
fn memory(used: usize) -> Memory {
    let pairs = std::array::from_fn(|i| nth(i as u64, 10));
    Memory { pairs, used }
}

fn closed(memory: Memory) -> Session {
    Session {
        memory,
        ..Session::new()
    }
}

/// A session whose open file, without payments, is of this pair.
fn open(opening: Pair, memory: Memory) -> Session {
    Session {
        open: true,
        version: 4,
        opening,
        ..closed(memory)
    }
}

/// More than 16 in use is all 16, and `used` is not changed.
#[test]
fn more_than_16_in_use() {
    for used in [16, 17, 99, usize::MAX - 1, usize::MAX] {
        let mut session = closed(memory(used));
        assert_eq!(session.memory.in_use().len(), 16);
        let mut expected = memory(used);
        for i in 0..16 {
            assert_refused(&mut session, &a_nth(i, 10), 26, 74);
            assert_refused(&mut session, &a_nth(i, 12), 26, 74);
            expected.pairs[i as usize].sequence = 11;
            assert_eq!(take_file(&mut session, &a_nth(i, 11)), expected);
        }
        assert_refused(&mut session, &a_nth(16, 11), 27, 3);
    }
}

/// What stands past the pairs in use is not remembered, and a new pair takes the place.
#[test]
fn places_past_those_in_use() {
    for used in 0..16 {
        let mut session = closed(memory(used));
        let mut expected = memory(used);
        for i in used as u64..16 {
            let other = 15 - (i - used as u64);
            // The number follows none, and the pair stands further on.
            expected.pairs[expected.used] = nth(other, 500);
            expected.used += 1;
            assert_eq!(take_file(&mut session, &a_nth(other, 500)), expected);
        }
        assert_eq!(session.memory.used, PAIRS);
        assert_refused(&mut session, &a_nth(16, 500), 27, 3);
    }
}

#[test]
fn the_first_of_two_equal_pairs_counts() {
    let mut twice = memory(16);
    twice.pairs[9] = nth(2, 20);
    twice.pairs[15] = nth(2, 11);
    let mut session = closed(twice);
    assert_refused(&mut session, &a_nth(2, 21), 26, 74);
    assert_refused(&mut session, &a_nth(2, 12), 26, 74);
    twice.pairs[2].sequence = 11;
    assert_eq!(take_file(&mut session, &a_nth(2, 11)), twice);
    // 16 are in use, though 14 of them differ.
    assert_refused(&mut session, &a_nth(9, 1), 27, 3);
    // Only the first of the two is in use.
    let mut session = closed(Memory { used: 9, ..twice });
    assert_refused(&mut session, &a_nth(2, 21), 26, 74);
    let mut same = Memory {
        pairs: [nth(5, 3); PAIRS],
        used: usize::MAX,
    };
    let mut session = closed(same);
    same.pairs[0].sequence = 4;
    assert_eq!(take_file(&mut session, &a_nth(5, 4)), same);
}

/// Behind a number past 999999 no header follows, and nothing wraps.
#[test]
fn numbers_past_the_last() {
    assert_eq!(LAST_NUMBER, 999_999);
    assert_eq!(following(LAST_NUMBER), Some(1));
    assert_eq!(following(1_000_000), Some(1_000_001));
    assert_eq!(following(u64::MAX), None);
    for last in [1_000_000, 1_999_999, 1 << 32, u64::MAX - 1, u64::MAX] {
        let mut strange = memory(16);
        strange.pairs[3].sequence = last;
        let mut session = closed(strange);
        for number in [0, 1, 2, 10, 11, last % 1_000_000, 999_998, 999_999] {
            assert_refused(&mut session, &a_nth(3, number), 26, 74);
        }
        take_file(&mut session, &a_nth(4, 11));
        assert_refused(&mut session, &a_nth(16, 1), 27, 3);
    }
}

/// A Z whose file's pair is neither remembered nor has room is accepted and remembers nothing.
#[test]
fn an_open_file_without_room() {
    for used in [16, 17, usize::MAX] {
        for opening in [nth(16, 4), Pair::new(), nth(200, u64::MAX)] {
            let mut session = open(opening, memory(used));
            assert_taken(&mut session, &g(&p4_code(), 5));
            assert_eq!(session.opening, opening);
            assert_refused(&mut session, &z(2, 5), 13, 2);
            assert_refused(&mut session, &z(3, 6), 14, 8);
            assert_taken(&mut session, &z(3, 5));
            assert_eq!(session.memory, memory(used));
            assert_eq!((session.opening, session.open), (Pair::new(), false));
            assert_eq!(session.board().centavos, 5);
        }
    }
}

/// What the open file is of is remembered with its Z as it is: it need not follow.
#[test]
fn an_open_file_that_does_not_follow() {
    for sequence in [0, 10, 77, 1_000_000, u64::MAX] {
        for used in [3, 16, usize::MAX] {
            let mut session = open(nth(2, sequence), memory(used));
            assert_taken(&mut session, &z(2, 0));
            let mut expected = memory(used);
            expected.pairs[2].sequence = sequence;
            assert_eq!(session, closed(expected));
        }
        let mut session = open(nth(2, sequence), memory(2));
        assert_taken(&mut session, &z(2, 0));
        let mut expected = memory(3);
        expected.pairs[2].sequence = sequence;
        assert_eq!(session, closed(expected));
    }
}

/// Zeros are a pair as any other: the first file with them takes a place, the next one finds it.
#[test]
fn an_open_file_of_zeros() {
    let mut session = open(Pair::new(), Memory::new());
    for sequence in [0, 5] {
        assert_taken(&mut session, &z(2, 0));
        assert_eq!(session.memory.used, 1);
        let opening = Pair {
            sequence,
            ..Pair::new()
        };
        session = open(opening, session.memory);
    }
    assert_taken(&mut session, &z(2, 0));
    assert_eq!(session.memory.in_use()[0].sequence, 5);
    // Those that are not in use are no pair.
    assert_eq!(take_file(&mut session, &a_nth(1, 7)).used, 2);
    assert_eq!(session.memory.pairs[1], nth(1, 7));
}

/// With no file open, `opening` is asked by nothing and replaced only by an accepted header.
#[test]
fn a_closed_session_with_an_opening() {
    let strange = Session {
        opening: nth(7, u64::MAX),
        ..closed(memory(16))
    };
    let mut session = strange.clone();
    session.abandon();
    assert_answer(session.finish(), 0, 0);
    assert_eq!(session, strange);
    for (record, number, place) in [
        (a_nth(7, 10), 26, 74),
        (a_nth(16, 1), 27, 3),
        (z(2, 0), 9, 1),
        (g(&p4_code(), 1), 9, 1),
    ] {
        assert_refused(&mut session, &record, number, place);
    }
    assert_taken(&mut session, &a_nth(7, 11));
    assert_eq!(session, open(nth(7, 11), memory(16)));
}

/// Abandoning an open file leaves the memory, whatever state it has, and zeros as the opening.
#[test]
fn abandoning_an_open_file() {
    for used in [0, 5, 16, usize::MAX] {
        for opening in [nth(2, 11), nth(2, 500), nth(16, 1), Pair::new()] {
            let mut session = open(opening, memory(used));
            assert_taken(&mut session, &g(&p4_code(), 5));
            session.abandon();
            assert_eq!(session, closed(memory(used)));
        }
    }
}

/// In a lined file too: 22 keeps the opening, and the number is remembered with the line end.
#[test]
fn a_trailer_without_its_line_end() {
    let mut session = Session {
        lined: true,
        ..open(nth(2, 11), memory(16))
    };
    assert_refused(&mut session, &z(2, 0), 22, 151);
    assert_taken(&mut session, &lined(&z(2, 0)));
    let mut expected = memory(16);
    expected.pairs[2].sequence = 11;
    assert_eq!(session, closed(expected));
}
