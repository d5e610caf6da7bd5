//! Plans made lighter, in one respect or in all, and plans that leave room for it.

use super::later::{clocks, extras, jitters};
use super::{bound, clocks_kind, fit, has_extra, has_jitter, Piece};
use crate::model::lighter::{Respect, RESPECTS};
use crate::rng::Rng;

/// A smaller number: by 1, the least, or any; the same where it is the least.
fn lower(rng: &mut Rng, least: u64, now: u64) -> u64 {
    if now <= least {
        return now;
    }
    match rng.below(4) {
        0 => now - 1,
        1 => least,
        _ => rng.range(least, now - 1),
    }
}

/// A larger number: by 1, the most, or up to twice; the same where it is the most.
fn higher(rng: &mut Rng, now: u64, most: u64) -> u64 {
    if now >= most {
        return now;
    }
    match rng.below(8) {
        0..=2 => now + 1,
        3 => most,
        _ => rng.range(now + 1, (2 * now).min(most)),
    }
}

/// A shorter blocker, of which none, 0, is the shortest.
fn shorter(rng: &mut Rng, blocker: u16) -> u16 {
    if blocker <= 64 || rng.chance(1, 4) {
        return 0;
    }
    lower(rng, 64, blocker.into()) as u16
}

/// A field made easier in a respect, where it has a number for it and room.
fn ease(rng: &mut Rng, respect: Respect, piece: &mut Piece) {
    match (respect, piece) {
        (Respect::Lengths, Piece::Flow { length, .. }) => *length = lower(rng, 64, (*length).into()) as u16,
        (Respect::Counts, Piece::Flow { count, .. }) => *count = lower(rng, 1, (*count).into()) as u16,
        (Respect::Periods, Piece::Flow { period, .. }) => *period = higher(rng, (*period).into(), 100_000_000) as u32,
        (Respect::Jitters, Piece::Jitter { jitter, .. }) => *jitter = lower(rng, 0, (*jitter).into()) as u32,
        (Respect::Rates, Piece::Port { rate, .. }) => *rate = higher(rng, (*rate).into(), 100_000) as u32,
        (Respect::Blockers, Piece::Port { blocker, .. }) => *blocker = shorter(rng, *blocker),
        (Respect::Extras, Piece::Extra { extra, .. }) => *extra = lower(rng, 0, (*extra).into()) as u16,
        (Respect::Drift, Piece::Clocks { drift, .. }) => *drift = lower(rng, 0, (*drift).into()) as u32,
        (Respect::TimingJitter, Piece::Clocks { timing_jitter, .. }) => {
            *timing_jitter = lower(rng, 0, (*timing_jitter).into()) as u32;
        }
        (Respect::SyncError, Piece::Clocks { sync_error, .. }) => {
            *sync_error = lower(rng, 0, (*sync_error).into()) as u32;
        }
        (Respect::Guard, Piece::Header { guard, .. }) => *guard = lower(rng, 0, (*guard).into()) as u32,
        _ => {}
    }
}

fn has_room(respect: Respect, piece: &Piece) -> bool {
    let mut eased = piece.clone();
    ease(&mut Rng::new(0), respect, &mut eased);
    eased != *piece
}

/// Some of the flows, each with its jitter.
fn fewer_flows(rng: &mut Rng, pieces: &[Piece]) -> Option<Vec<Piece>> {
    let number_of = |piece: &Piece| match piece {
        Piece::Flow { number, .. } => Some(*number),
        _ => None,
    };
    let mut kept: Vec<u16> = pieces.iter().filter_map(number_of).collect();
    if kept.len() < 2 {
        return None;
    }
    rng.shuffle(&mut kept);
    kept.truncate(lower(rng, 1, kept.len() as u64) as usize);
    let stays = |piece: &&Piece| match piece {
        Piece::Flow { number, .. } | Piece::Jitter { number, .. } => kept.contains(number),
        _ => true,
    };
    Some(pieces.iter().filter(stays).cloned().collect())
}

/// A plan lighter in one respect alone, or none where there is no room: one field is easier at least, or some, or all.
pub fn in_one(rng: &mut Rng, pieces: &[Piece], respect: Respect) -> Option<Vec<Piece>> {
    if respect == Respect::Flows {
        return fewer_flows(rng, pieces);
    }
    let mut places: Vec<usize> = (0..pieces.len()).filter(|place| has_room(respect, &pieces[*place])).collect();
    rng.shuffle(&mut places);
    let first = *places.first()?;
    let share = rng.pick(&[0, 1, 4]);
    let mut lighter = pieces.to_vec();
    for place in places {
        if place == first || rng.chance(share, 4) {
            ease(rng, respect, &mut lighter[place]);
        }
    }
    Some(lighter)
}

/// A plan lighter in one respect after the other, each in which there is room, and these respects.
pub fn in_all(rng: &mut Rng, pieces: &[Piece]) -> (Vec<Piece>, Vec<Respect>) {
    let (mut lighter, mut eased) = (pieces.to_vec(), Vec::new());
    for respect in RESPECTS {
        if let Some(next) = in_one(rng, &lighter, respect) {
            lighter = next;
            eased.push(respect);
        }
    }
    (lighter, eased)
}

/// The same plan told otherwise: in another order, and without some of the fields that say no more than their absence.
pub fn retold(rng: &mut Rng, mut pieces: Vec<Piece>) -> Vec<Piece> {
    let says_nothing = |piece: &Piece| match piece {
        Piece::Extra { extra, .. } => *extra == 0,
        Piece::Jitter { jitter, .. } => *jitter == 0,
        Piece::Clocks { .. } => clocks_kind(std::slice::from_ref(piece), 1) == 0,
        _ => false,
    };
    pieces.retain(|piece| !says_nothing(piece) || rng.chance(1, 2));
    rng.shuffle(&mut pieces);
    pieces
}

/// All frames made longer, up to the longest there are.
pub fn longer_frames(rng: &mut Rng, pieces: &mut [Piece]) {
    for piece in pieces {
        if let Piece::Flow { length, .. } = piece {
            *length = higher(rng, (*length).into(), 2_000) as u16;
        }
    }
}

/// A good plan in which jitter, extra bytes and clocks had a second chance, with rates that fit.
pub fn heavy(rng: &mut Rng) -> Vec<Piece> {
    let mut pieces = super::plan(rng);
    if !has_jitter(&pieces) {
        pieces.retain(|piece| !matches!(piece, Piece::Jitter { .. }));
        pieces.extend(jitters(rng, &pieces));
    }
    if !has_extra(&pieces) {
        let number_of = |piece: &Piece| match piece {
            Piece::Port { number, .. } => Some(*number),
            _ => None,
        };
        let ports: Vec<u16> = pieces.iter().filter_map(number_of).collect();
        pieces.retain(|piece| !matches!(piece, Piece::Extra { .. }));
        pieces.extend(extras(rng, &ports));
    }
    if clocks_kind(&pieces, 1) == 0 {
        pieces.retain(|piece| !matches!(piece, Piece::Clocks { .. }));
        pieces.extend(clocks(rng));
    }
    bound(&mut pieces, 3_000);
    fit::fit(rng, &mut pieces);
    pieces
}
