//! Damaged plans: every refusal from 1 to 9, alone and several at once.

use super::{encode, tag_of, Piece};
use crate::rng::Rng;

fn any_of(rng: &mut Rng, pieces: &[Piece], tag: u8) -> Option<usize> {
    let places: Vec<usize> = (0..pieces.len()).filter(|place| tag_of(&pieces[*place]) == tag).collect();
    (!places.is_empty()).then(|| rng.pick(&places))
}

fn any_route<'a>(rng: &mut Rng, pieces: &'a mut [Piece]) -> Option<&'a mut Vec<u16>> {
    match &mut pieces[any_of(rng, pieces, 3)?] {
        Piece::Flow { route, .. } => Some(route),
        _ => None,
    }
}

/// One number just past an end of its range, or far past it.
fn past_an_end(rng: &mut Rng, pieces: &mut [Piece]) {
    let place = rng.index(pieces.len());
    match &mut pieces[place] {
        Piece::Header { guard, top } => match rng.below(2) {
            0 => *guard = rng.pick(&[1_000_001, 1 << 24, u32::MAX]),
            _ => *top = rng.pick(&[0, 100_000_001, u32::MAX]),
        },
        Piece::Port { number, rate, blocker } => match rng.below(3) {
            0 => *number = rng.pick(&[0, 65, 256, 257, u16::MAX]),
            1 => *rate = rng.pick(&[0, 100_001, 1 << 17, u32::MAX]),
            _ => *blocker = rng.pick(&[1, 63, 2001, u16::MAX]),
        },
        Piece::Flow { number, period, count, length, route } => match rng.below(5) {
            0 => *number = rng.pick(&[0, 257, 512, u16::MAX]),
            1 => *period = rng.pick(&[0, 999, 100_000_001, u32::MAX]),
            2 => *count = rng.pick(&[0, 65, 257, u16::MAX]),
            3 => *length = rng.pick(&[0, 63, 2001, u16::MAX]),
            _ => {
                let hop = rng.index(route.len());
                route[hop] = rng.pick(&[0, 65, 256, 257, 320, u16::MAX]);
            }
        },
        Piece::Extra { number, extra } => match rng.below(2) {
            0 => *number = rng.pick(&[0, 65, 256, 257, u16::MAX]),
            _ => *extra = rng.pick(&[65, 66, 128, 256, 257, 1 << 15, u16::MAX]),
        },
        Piece::Jitter { number, jitter } => match rng.below(2) {
            0 => *number = rng.pick(&[0, 257, 512, u16::MAX]),
            _ => *jitter = rng.pick(&[10_000_001, 10_000_002, 1 << 24, 1 << 31, u32::MAX]),
        },
        Piece::Clocks { drift, timing_jitter, sync_error } => match rng.below(3) {
            0 => *drift = rng.pick(&[1_001, 1_024, 1 << 16, u32::MAX]),
            1 => *timing_jitter = rng.pick(&[1_001, 1_024, 1 << 16, u32::MAX]),
            _ => *sync_error = rng.pick(&[1_000_001, 1 << 20, 1 << 31, u32::MAX]),
        },
        Piece::Raw(_) => {}
    }
}

/// A field a second time, with the same numbers or others, anywhere.
pub fn again(rng: &mut Rng, pieces: &mut Vec<Piece>) {
    let tag = rng.pick(&[4, 5, 6]);
    let one = any_of(rng, pieces, tag).filter(|_| rng.chance(2, 3));
    let mut copy = pieces[one.unwrap_or_else(|| rng.index(pieces.len()))].clone();
    match &mut copy {
        Piece::Header { top, .. } if rng.chance(1, 2) => *top = rng.range(1, 100_000_000) as u32,
        Piece::Port { rate, .. } if rng.chance(1, 2) => *rate = rng.range(1, 100_000) as u32,
        Piece::Flow { period, .. } if rng.chance(1, 2) => *period = rng.range(1_000, 100_000_000) as u32,
        Piece::Extra { extra, .. } if rng.chance(1, 2) => *extra = rng.pick(&[0, 0, 1, 64]),
        Piece::Jitter { jitter, .. } if rng.chance(1, 2) => *jitter = rng.pick(&[0, 0, 1, 10_000_000]),
        Piece::Clocks { sync_error, .. } if rng.chance(1, 2) => *sync_error = rng.pick(&[0, 0, 1, 1_000_000]),
        _ => {}
    }
    let place = rng.index(pieces.len() + 1);
    pieces.insert(place, copy);
}

/// A port twice in a route, next to itself or not.
pub fn twice(rng: &mut Rng, pieces: &mut [Piece]) {
    if let Some(route) = any_route(rng, pieces) {
        let hop = rng.index(route.len());
        let port = route[hop];
        if route.len() < 16 {
            let at = if rng.chance(1, 2) { hop } else { rng.index(route.len() + 1) };
            route.insert(at, port);
        } else {
            let other = (hop + rng.range(1, 15) as usize) % 16;
            route[other] = port;
        }
    }
}

fn without(rng: &mut Rng, pieces: &mut Vec<Piece>) {
    match rng.below(5) {
        0 => pieces.retain(|piece| tag_of(piece) != 1),
        1 => pieces.retain(|piece| tag_of(piece) != 3),
        2 => pieces.retain(|piece| tag_of(piece) != 2),
        _ => {
            let tag = rng.pick(&[2, 3]);
            if let Some(place) = any_of(rng, pieces, tag) {
                pieces.remove(place);
            }
        }
    }
    if pieces.is_empty() {
        pieces.push(Piece::Raw(vec![3]));
    }
}

/// A route over a port that the plan may lack.
fn astray(rng: &mut Rng, pieces: &mut [Piece]) {
    if let Some(route) = any_route(rng, pieces) {
        let free: Vec<u16> = (1..=64).filter(|port| !route.contains(port)).collect();
        let hop = rng.index(route.len());
        route[hop] = rng.pick(&free);
    }
}

/// Extra bytes of a port or jitter of a flow that the plan may lack, or a second time of one that has some; or clocks.
fn lost(rng: &mut Rng, pieces: &mut Vec<Piece>) {
    for _ in 0..rng.range(1, 3) {
        let more = match rng.below(5) {
            0 => Piece::Clocks { drift: 0, timing_jitter: 0, sync_error: rng.pick(&[0, 0, 1_000]) },
            1 | 2 => Piece::Extra { number: rng.range(1, 64) as u16, extra: rng.pick(&[0, 0, 1, 32, 64]) },
            _ => Piece::Jitter { number: rng.range(1, 256) as u16, jitter: rng.pick(&[0, 0, 1, 30_000, 10_000_000]) },
        };
        let place = rng.index(pieces.len() + 1);
        pieces.insert(place, more);
    }
}

/// A field of unknown tag, or of a length that its tag does not allow.
fn odd_field(rng: &mut Rng, pieces: &mut Vec<Piece>) {
    let known = rng.chance(1, 2);
    let tag = if known { rng.range(1, 6) as u8 } else { rng.pick(&[0, 7, 8, 0x10, 0x11, 0x12, 0x13, 0x14, 0x81, 255]) };
    let length = rng.pick(&[0, 1, 3, 4, 5, 6, 7, 8, 9, 10, 11, 12, 13, 41, 42, 43, 44, 64, 256, 264, 300]);
    let mut raw = vec![tag, (length / 256) as u8, (length % 256) as u8];
    raw.extend((0..length).map(|_| rng.pick(&[0, 0, 1, 4, 200])));
    let place = rng.index(pieces.len() + 1);
    pieces.insert(place, Piece::Raw(raw));
}

/// The length in a field's head changed, its value as it was.
fn odd_length(rng: &mut Rng, pieces: &mut [Piece]) {
    let place = rng.index(pieces.len());
    let mut raw = pieces[place].bytes();
    if raw.len() > 2 {
        match rng.below(4) {
            0 => raw[2] = raw[2].wrapping_add(1),
            1 => raw[2] = raw[2].wrapping_sub(1),
            2 => raw[2] = raw[2].wrapping_add(2),
            _ => raw[1] = rng.pick(&[1, 2, 255]),
        }
    }
    pieces[place] = Piece::Raw(raw);
}

fn flip(rng: &mut Rng, bytes: &mut [u8]) {
    let place = rng.index(bytes.len());
    bytes[place] = match rng.below(3) {
        0 => bytes[place] ^ (1 << rng.below(8)),
        1 => rng.next() as u8,
        _ => rng.pick(&[0, 1, 2, 3, 4, 5, 6, 7, 255]),
    };
}

/// A plan with one to three faults, rarely with none.
pub fn damaged(rng: &mut Rng, good: &[Piece]) -> Vec<u8> {
    let mut pieces = good.to_vec();
    for _ in 0..rng.pick(&[1, 1, 1, 2, 2, 3]) {
        match rng.below(11) {
            0..=2 => past_an_end(rng, &mut pieces),
            3 => again(rng, &mut pieces),
            4 => twice(rng, &mut pieces),
            5 => without(rng, &mut pieces),
            6 => astray(rng, &mut pieces),
            7 => odd_field(rng, &mut pieces),
            8 => odd_length(rng, &mut pieces),
            9 => lost(rng, &mut pieces),
            _ => rng.shuffle(&mut pieces),
        }
    }
    let mut bytes = encode(&pieces);
    match rng.below(6) {
        0 => flip(rng, &mut bytes),
        1 => bytes.truncate(rng.index(bytes.len() + 1)),
        2 if rng.chance(1, 3) => bytes.extend((0..rng.range(1, 40)).map(|_| rng.below(5) as u8)),
        _ => {}
    }
    bytes
}
