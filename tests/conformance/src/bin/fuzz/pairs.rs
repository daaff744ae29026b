//! Pairs in inputs, of headers and of sessions in arbitrary states: mutations that make them equal, and the repair of
//! their sequence numbers.

use conformance::inputs::{Kind, Rest, PAIR};
use conformance::{memories, wire};
use reference::random::Random;
use reference::records::LENGTH;
use reference::session::following;
use reference::Pair;

use crate::mutate::edge;
use crate::places;

/// Where a pair is: the start of an A, or of a pair of a session in an arbitrary state.
#[derive(Clone, Copy)]
enum Place {
    Header(usize),
    Kept(usize),
}

/// The pairs of an input: those of its session, then those of its headers.
fn all(kind: Kind, bytes: &[u8]) -> Vec<Place> {
    let mut all = Vec::new();
    if kind == Kind::ArbitrarySession {
        let is_whole = |place: &usize| place + PAIR <= bytes.len();
        let kept = places::pairs(bytes).into_iter().filter(is_whole);
        all.extend(kept.map(Place::Kept));
    }
    if kind == Kind::Run || places::has_steps(kind) {
        let records = places::records(kind, bytes).into_iter();
        let headers = records.filter(|one| one.len() >= LENGTH && bytes[one.start] == b'A');
        all.extend(headers.map(|header| Place::Header(header.start)));
    }
    all
}

fn read(bytes: &[u8], place: Place) -> Pair {
    match place {
        Place::Header(start) => memories::of(bytes[start..].first_chunk().expect("a record")),
        Place::Kept(start) => Rest(&bytes[start..]).pair(),
    }
}

fn write(bytes: &mut [u8], place: Place, pair: &Pair) {
    match place {
        Place::Header(start) => {
            let record = bytes[start..].first_chunk_mut().expect("a record");
            memories::put(record, pair);
        }
        Place::Kept(start) => {
            let mut new = Vec::new();
            wire::pair(&mut new, pair);
            bytes[start..start + PAIR].copy_from_slice(&new);
        }
    }
}

/// Copies one of the pairs to the place of another one, mostly with the next number, sometimes with another byte. False
/// if the input has no pair.
pub fn copy(random: &mut Random, kind: Kind, bytes: &mut [u8]) -> bool {
    let all = all(kind, bytes);
    let Some(&from) = all.get(random.index(all.len())) else {
        return false;
    };
    let to = all[random.index(all.len())];
    let mut pair = read(bytes, from);
    match random.below(8) {
        0 => {}
        1 => pair.sequence = 0,
        2 => pair.sequence = edge(random),
        _ => pair.sequence = following(pair.sequence).unwrap_or(0),
    }
    match random.below(8) {
        0 => pair.bank[random.index(3)] ^= 1,
        1 => pair.agreement[random.index(20)] ^= random.one_of(&[1, 0x20, 0x80]),
        _ => {}
    }
    write(bytes, to, &pair);
    true
}

/// Gives each header the next number of its pair, if that is one of the session's or of a header before it.
pub fn repair(kind: Kind, bytes: &mut [u8]) {
    let mut known: Vec<Pair> = Vec::new();
    for place in all(kind, bytes) {
        let mut pair = read(bytes, place);
        let found = known.iter_mut().find(|one| one.is_same_pair(&pair));
        match (place, found) {
            (_, None) => known.push(pair),
            (Place::Kept(_), Some(_)) => {}
            (Place::Header(_), Some(before)) => {
                pair.sequence = following(before.sequence).unwrap_or(0);
                before.sequence = pair.sequence;
                write(bytes, place, &pair);
            }
        }
    }
}
