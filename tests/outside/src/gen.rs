//! Plans by chance, from a seed: good ones of several kinds.

pub mod comb;
pub mod damage;
pub mod few;
pub mod fit;
pub mod kinds;
pub mod laden;
mod later;
pub mod lighter;
pub mod newer;
pub mod newer_damage;
pub mod newer_faults;
pub mod newer_sized;
pub mod short;
pub mod sized;
pub mod strict;

use crate::rng::Rng;

/// A field of a plan, before it becomes bytes.
#[derive(Clone, Debug, PartialEq)]
pub enum Piece {
    Header { guard: u32, top: u32 },
    Port { number: u16, rate: u32, blocker: u16 },
    Flow { number: u16, period: u32, count: u16, length: u16, route: Vec<u16> },
    Extra { number: u16, extra: u16 },
    Jitter { number: u16, jitter: u32 },
    Clocks { drift: u32, timing_jitter: u32, sync_error: u32 },
    Raw(Vec<u8>),
}

impl Piece {
    pub fn bytes(&self) -> Vec<u8> {
        let mut bytes = Vec::new();
        match self {
            Piece::Header { guard, top } => {
                bytes.extend([1, 0, 8]);
                bytes.extend(guard.to_be_bytes());
                bytes.extend(top.to_be_bytes());
            }
            Piece::Port { number, rate, blocker } => {
                bytes.extend([2, 0, 8]);
                bytes.extend(number.to_be_bytes());
                bytes.extend(rate.to_be_bytes());
                bytes.extend(blocker.to_be_bytes());
            }
            Piece::Flow { number, period, count, length, route } => {
                bytes.push(3);
                bytes.extend((10 + 2 * route.len() as u16).to_be_bytes());
                bytes.extend(number.to_be_bytes());
                bytes.extend(period.to_be_bytes());
                bytes.extend(count.to_be_bytes());
                bytes.extend(length.to_be_bytes());
                bytes.extend(route.iter().flat_map(|port| port.to_be_bytes()));
            }
            Piece::Extra { number, extra } => {
                bytes.extend([4, 0, 4]);
                bytes.extend(number.to_be_bytes());
                bytes.extend(extra.to_be_bytes());
            }
            Piece::Jitter { number, jitter } => {
                bytes.extend([5, 0, 6]);
                bytes.extend(number.to_be_bytes());
                bytes.extend(jitter.to_be_bytes());
            }
            Piece::Clocks { drift, timing_jitter, sync_error } => {
                bytes.extend([6, 0, 12]);
                bytes.extend([drift, timing_jitter, sync_error].iter().flat_map(|number| number.to_be_bytes()));
            }
            Piece::Raw(raw) => bytes.extend(raw),
        }
        bytes
    }
}

/// The tag of a field, 0 for raw bytes.
pub fn tag_of(piece: &Piece) -> u8 {
    match piece {
        Piece::Raw(_) => 0,
        Piece::Header { .. } => 1,
        Piece::Port { .. } => 2,
        Piece::Flow { .. } => 3,
        Piece::Extra { .. } => 4,
        Piece::Jitter { .. } => 5,
        Piece::Clocks { .. } => 6,
    }
}

pub fn encode(pieces: &[Piece]) -> Vec<u8> {
    pieces.iter().flat_map(Piece::bytes).collect()
}

/// The extra bytes that the pieces give a port.
pub fn extra_of(pieces: &[Piece], port: u16) -> u64 {
    let extra = pieces.iter().find_map(|piece| match piece {
        Piece::Extra { number, extra } if *number == port => Some(u64::from(*extra)),
        _ => None,
    });
    extra.unwrap_or(0)
}

/// Wire bits of a frame at a port, with the extra bytes that the pieces give it.
pub fn wire_bits(pieces: &[Piece], port: u16, length: u16) -> u64 {
    8 * (u64::from(length) + 20 + extra_of(pieces, port))
}

/// Whether some port has extra bytes.
pub fn has_extra(pieces: &[Piece]) -> bool {
    pieces.iter().any(|piece| matches!(piece, Piece::Extra { extra, .. } if *extra > 0))
}

/// The jitter that the pieces give a flow.
pub fn jitter_of(pieces: &[Piece], flow: u16) -> u64 {
    let jitter = pieces.iter().find_map(|piece| match piece {
        Piece::Jitter { number, jitter } if *number == flow => Some(u64::from(*jitter)),
        _ => None,
    });
    jitter.unwrap_or(0)
}

/// Whether some flow has jitter.
pub fn has_jitter(pieces: &[Piece]) -> bool {
    pieces.iter().any(|piece| matches!(piece, Piece::Jitter { jitter, .. } if *jitter > 0))
}

/// A duration widened by the clocks that the pieces give.
pub fn widened(pieces: &[Piece], duration: u64) -> u64 {
    let more = pieces.iter().find_map(|piece| match piece {
        Piece::Clocks { drift, timing_jitter, sync_error } => {
            let drifted = (duration * u64::from(*drift) + 999_999) / 1_000_000;
            Some((drifted + u64::from(*timing_jitter)).min(2 * u64::from(*sync_error)))
        }
        _ => None,
    });
    duration + more.unwrap_or(0)
}

/// What the pieces say of clocks: 0 for equal ones, 1 where no duration up to this is widened, 2 where it is.
pub fn clocks_kind(pieces: &[Piece], duration: u64) -> u32 {
    let numbers = |piece: &Piece| match piece {
        Piece::Clocks { drift, timing_jitter, sync_error } => drift + timing_jitter + sync_error,
        _ => 0,
    };
    if pieces.iter().all(|piece| numbers(piece) == 0) {
        return 0;
    }
    1 + u32::from(widened(pieces, duration) > duration)
}

pub fn set_top(pieces: &mut [Piece], new: u64) {
    for piece in pieces {
        if let Piece::Header { top, .. } = piece {
            *top = new as u32;
        }
    }
}

pub fn set_guard(pieces: &mut [Piece], new: u64) {
    for piece in pieces {
        if let Piece::Header { guard, .. } = piece {
            *guard = new as u32;
        }
    }
}

/// How many times a demand rises up to top.
fn rises(pieces: &[Piece], top: u64) -> u64 {
    let of_flow = |piece: &Piece| match piece {
        Piece::Flow { period, .. } => top / u64::from(*period) + 1,
        _ => 0,
    };
    pieces.iter().map(of_flow).sum()
}

/// Top comes down until the plan can be walked in fair time.
pub fn bound(pieces: &mut [Piece], limit: u64) {
    let mut top = pieces.iter().find_map(|piece| match piece {
        Piece::Header { top, .. } => Some(u64::from(*top)),
        _ => None,
    });
    while let Some(now) = top.filter(|now| *now > 1 && rises(pieces, *now) > limit) {
        top = Some(now / 2);
        set_top(pieces, now / 2);
    }
}

/// A good plan of any kind, its fields mostly out of order.
pub fn plan(rng: &mut Rng) -> Vec<Piece> {
    let mut pieces = match rng.below(16) {
        0..=4 => kinds::small(rng),
        5..=8 => kinds::gaps(rng),
        9..=10 => kinds::tight(rng),
        11..=12 => kinds::wide(rng),
        13..=14 => kinds::edges(rng),
        _ => kinds::full(rng),
    };
    let limit = if rng.chance(1, 40) { 400_000 } else { 6_000 };
    bound(&mut pieces, limit);
    if rng.chance(3, 5) {
        fit::fit(rng, &mut pieces);
    }
    if rng.chance(3, 4) {
        rng.shuffle(&mut pieces);
    }
    pieces
}
