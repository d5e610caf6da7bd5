//! Plans in strict order, and such plans with a field or two out of it.

use super::damage::{again, twice};
use super::{tag_of, Piece};
use crate::rng::Rng;

/// By tag, within a tag by number.
fn rank(piece: &Piece) -> (u8, u16) {
    let number = match piece {
        Piece::Port { number, .. } | Piece::Flow { number, .. } => *number,
        Piece::Extra { number, .. } | Piece::Jitter { number, .. } => *number,
        Piece::Header { .. } | Piece::Clocks { .. } | Piece::Raw(_) => 0,
    };
    (tag_of(piece), number)
}

/// The same fields in strict order.
pub fn sorted(pieces: &[Piece]) -> Vec<Piece> {
    let mut pieces = pieces.to_vec();
    pieces.sort_by_key(rank);
    pieces
}

/// Whether a field says what its absence says.
fn needless(piece: &Piece) -> bool {
    match piece {
        Piece::Extra { extra, .. } => *extra == 0,
        Piece::Jitter { jitter, .. } => *jitter == 0,
        Piece::Clocks { drift, timing_jitter, sync_error } => (*drift, *timing_jitter, *sync_error) == (0, 0, 0),
        _ => false,
    }
}

/// The same fields but those that say what their absence says.
pub fn without_needless(pieces: &[Piece]) -> Vec<Piece> {
    pieces.iter().filter(|piece| !needless(piece)).cloned().collect()
}

/// Two neighbours of a plan in strict order exchanged, and the place of the one that is late now.
pub fn exchanged(rng: &mut Rng, pieces: &[Piece]) -> (Vec<Piece>, usize) {
    let mut pieces = pieces.to_vec();
    let late = rng.range(1, pieces.len() as u64 - 1) as usize;
    pieces.swap(late - 1, late);
    (pieces, late)
}

/// One field of a plan in strict order moved, and the place of the first field that is late now: the one moved, or else the one it
/// was put before.
pub fn one_moved(rng: &mut Rng, pieces: &[Piece]) -> (Vec<Piece>, usize) {
    let mut pieces = pieces.to_vec();
    let from = rng.index(pieces.len());
    let to = (from + rng.range(1, pieces.len() as u64 - 1) as usize) % pieces.len();
    let piece = pieces.remove(from);
    pieces.insert(to, piece);
    (pieces, if from < to { to } else { to + 1 })
}

/// A plan in strict order but for a field or two: late, a second time, or a flow with a port twice in its route, late or not.
pub fn disturbed(rng: &mut Rng, pieces: &[Piece]) -> Vec<Piece> {
    let mut pieces = pieces.to_vec();
    for _ in 0..rng.range(1, 3) {
        match rng.below(6) {
            0 => again(rng, &mut pieces),
            1 => twice(rng, &mut pieces),
            2 => late_twice(rng, &mut pieces),
            3 => pieces = exchanged(rng, &pieces).0,
            4 => pieces = one_moved(rng, &pieces).0,
            _ => late_again(rng, &mut pieces),
        }
    }
    pieces
}

/// A flow with a port twice in its route put behind any field after it.
fn late_twice(rng: &mut Rng, pieces: &mut Vec<Piece>) {
    let flows: Vec<usize> = (0..pieces.len()).filter(|place| tag_of(&pieces[*place]) == 3).collect();
    if flows.is_empty() {
        return;
    }
    let mut flow = pieces.remove(rng.pick(&flows));
    twice(rng, std::slice::from_mut(&mut flow));
    let place = rng.index(pieces.len() + 1);
    pieces.insert(place, flow);
}

/// A field given again behind all others.
fn late_again(rng: &mut Rng, pieces: &mut Vec<Piece>) {
    let copy = pieces[rng.index(pieces.len())].clone();
    pieces.push(copy);
}
