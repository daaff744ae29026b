//! Sequence numbers: memories in arbitrary states, and headers of pairs that they have or not.

use reference::random::Random;
use reference::records::LENGTH;
use reference::session::{following, LAST_NUMBER, PAIRS};
use reference::{days, Memory, Pair, Session};

use super::ends::start;
use super::{each_change, sessions};
use crate::calls::Calls;
use crate::memories::{self, NUMBERS, USED};
use crate::{lines, lists};

/// A session with this memory and no file open.
fn closed(memory: Memory) -> Session {
    Session {
        memory,
        ..Session::new()
    }
}

/// A session with this memory, whose open file is of this pair.
fn open(random: &mut Random, opening: Pair, memory: Memory) -> Session {
    Session {
        open: true,
        version: days::version(random),
        lined: random.once_in(2),
        opening,
        ..closed(memory)
    }
}

/// An A of this pair with this number.
fn header(random: &mut Random, pair: &Pair, sequence: u64) -> [u8; LENGTH] {
    let mut record = days::header(random).expect("a good header");
    memories::put(&mut record, &Pair { sequence, ..*pair });
    record
}

/// The first 16 of these pairs, of which this many are in use.
fn memory_of(pairs: &[Pair], used: usize) -> Memory {
    Memory {
        pairs: std::array::from_fn(|i| pairs[i]),
        used,
    }
}

/// Each byte at each place of an A, from a full memory: with the next number of its pair, with a wrong number, and of a
/// pair that the memory does not have.
pub fn changed_headers(calls: &mut Calls, random: &mut Random, times: u64) {
    for _ in 0..times {
        let pairs = days::pairs(random, PAIRS + 1);
        let session = closed(memory_of(&pairs, PAIRS));
        let mine = pairs[random.index(PAIRS)];
        let next = following(mine.sequence).expect("a number of six digits");
        for (pair, number) in [(mine, next), (mine, mine.sequence), (pairs[PAIRS], 5)] {
            each_change(&mut header(random, &pair, number), |changed| {
                start(calls, &session);
                let _ = calls.take(changed, &[]);
            });
        }
    }
}

/// A pair at each place of a memory, in use or not: with each number at the edges, and at each further place again. It
/// is met by headers with numbers at the edges, and by an open file.
pub fn each_place(calls: &mut Calls, random: &mut Random, times: u64) {
    for _ in 0..times {
        let pairs = days::pairs(random, PAIRS + 1);
        for used in USED {
            for place in 0..PAIRS {
                let mut memory = memory_of(&pairs, used);
                memory.pairs[place] = pairs[PAIRS];
                each_number(calls, random, memory, place);
                each_second_place(calls, random, memory, place);
            }
        }
    }
}

/// The pair at this place, with each number at the edges.
fn each_number(calls: &mut Calls, random: &mut Random, mut memory: Memory, place: usize) {
    for number in NUMBERS {
        memory.pairs[place].sequence = number;
        let low = number % (LAST_NUMBER + 1);
        let of_headers = [
            following(number),
            Some(number),
            number.checked_add(2),
            Some(low),
            Some((low + 1) % (LAST_NUMBER + 1)),
            Some(0),
            Some(1),
            Some(LAST_NUMBER),
        ];
        headers(calls, random, &memory, place, &of_headers);
        file_ends(calls, random, &memory, place);
    }
}

/// The pair at this place again, with another number, at each place behind it.
fn each_second_place(calls: &mut Calls, random: &mut Random, memory: Memory, place: usize) {
    for second in place + 1..PAIRS {
        let mut memory = memory;
        memory.pairs[second] = memory.pairs[place];
        memory.pairs[second].sequence = days::first_number(random);
        let next = [place, second].map(|i| following(memory.pairs[i].sequence));
        headers(calls, random, &memory, place, &next);
        file_ends(calls, random, &memory, place);
    }
}

/// Headers of the pair at this place with these numbers, as far as an A shows them: each alone, and in a run with the Z
/// of its empty file behind it.
fn headers(
    calls: &mut Calls,
    random: &mut Random,
    memory: &Memory,
    place: usize,
    numbers: &[Option<u64>],
) {
    let session = closed(*memory);
    let trailer = sessions::trailer(&session);
    for &number in numbers.iter().flatten().filter(|&&n| n <= LAST_NUMBER) {
        let end = lines::end(random.once_in(2));
        let header = header(random, &memory.pairs[place], number);
        let header = [&header, end].concat();
        start(calls, &session);
        let _ = calls.take(&header, &[]);
        start(calls, &session);
        calls.run(&[&header, &trailer[..], end].concat(), false, &[]);
    }
}

/// An open file of the pair at this place, with any number, ends: by its Z, and abandoned.
fn file_ends(calls: &mut Calls, random: &mut Random, memory: &Memory, place: usize) {
    let opening = Pair {
        sequence: NUMBERS[random.index(NUMBERS.len())],
        ..memory.pairs[place]
    };
    let session = open(random, opening, *memory);
    let trailer = sessions::trailer(&session);
    calls.set_session(&session);
    let _ = calls.take(&[&trailer, lines::end(session.lined)].concat(), &[]);
    calls.set_session(&session);
    calls.abandon();
}

/// Sessions with memories in arbitrary states, with a few calls each: headers and trailers, one by one and in runs.
pub fn arbitrary(calls: &mut Calls, random: &mut Random, times: u64) {
    for _ in 0..10_000 * times {
        let memory = memories::memory(random);
        let opening = memories::opening(random, &memory);
        let mut session = open(random, opening, memory);
        session.open = random.once_in(2);
        calls.set_session(&session);
        for _ in 0..random.index(6) {
            call(calls, random);
        }
    }
}

/// A call of the session as it is.
fn call(calls: &mut Calls, random: &mut Random) {
    let agreed = lists::lent(random, &[]);
    match random.below(16) {
        0 => calls.abandon(),
        1 => calls.finish_session(),
        2 => next_day(calls),
        3..=6 => {
            let length = 1 + random.index(8);
            let bytes = records(random, calls.session(), length);
            calls.run(&bytes, random.once_in(2), &agreed);
        }
        _ => drop(calls.take(&records(random, calls.session(), 1), &agreed)),
    }
}

/// A new session that has only the memory of the session before.
pub fn next_day(calls: &mut Calls) {
    let memory = calls.session().memory;
    calls.set_session(&closed(memory));
}

/// Records for a session: mostly its open file's Z, and then headers, each with the Z of its empty file.
fn records(random: &mut Random, session: &Session, count: usize) -> Vec<u8> {
    let mut ahead = session.clone();
    let mut bytes = Vec::new();
    for _ in 0..count {
        let is_expected = !random.once_in(16);
        let record = if ahead.open == is_expected {
            sessions::trailer(&ahead)
        } else {
            memories::header(random, &ahead.memory)
        };
        let lined = if ahead.open {
            ahead.lined
        } else {
            random.once_in(2)
        };
        let record = [&record, lines::end(lined)].concat();
        let _ = ahead.take(&record, &[]);
        bytes.extend(record);
    }
    bytes
}
