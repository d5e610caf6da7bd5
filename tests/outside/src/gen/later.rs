//! The fields of document 02: extra bytes of ports, jitter of flows, and clocks.

use super::Piece;
use crate::rng::Rng;

/// Extra bytes for some of the ports, for none or for all, some of them 0.
pub fn extras(rng: &mut Rng, ports: &[u16]) -> Vec<Piece> {
    let share = rng.pick(&[0, 0, 1, 2, 4]);
    let mut pieces = Vec::new();
    for number in ports {
        if rng.chance(share, 4) {
            let extra = if rng.chance(1, 2) { rng.pick(&[0, 1, 32, 63, 64]) } else { rng.range(0, 64) as u16 };
            pieces.push(Piece::Extra { number: *number, extra });
        }
    }
    pieces
}

/// Release jitter for some of the flows, for none or for all: 0, an end, around a few periods, or any.
pub fn jitters(rng: &mut Rng, flows: &[Piece]) -> Vec<Piece> {
    let share = rng.pick(&[0, 0, 1, 2, 4]);
    let far = rng.chance(1, 6);
    let mut pieces = Vec::new();
    for piece in flows {
        if let Piece::Flow { number, period, .. } = piece {
            if rng.chance(share, 4) {
                let period = u64::from(*period);
                let jitter = match rng.below(8) {
                    0 => 0,
                    1 => rng.pick(&[1, 2, 999, 1_000]),
                    2 if far => rng.pick(&[9_999_999, 10_000_000]),
                    3 if far => rng.spread(1, 10_000_000),
                    4 => period * rng.range(1, 3) + rng.range(0, 2) - 1,
                    _ => rng.range(0, period),
                };
                pieces.push(Piece::Jitter { number: *number, jitter: jitter.min(10_000_000) as u32 });
            }
        }
    }
    pieces
}

/// Clocks for half of the plans: all 0, the paper's, ends of their ranges, any, or such that no duration is widened.
pub fn clocks(rng: &mut Rng) -> Option<Piece> {
    let (drift, timing_jitter, sync_error) = match rng.below(14) {
        0 => (0, 0, 0),
        1 => (100, 2, 1_000),
        2 => (rng.pick(&[0, 1, 999, 1_000]), rng.pick(&[0, 1, 999, 1_000]), rng.pick(&[0, 1, 999_999, 1_000_000])),
        3 => (0, 0, rng.spread(1, 1_000_000)),
        4 => (rng.range(0, 1_000), rng.range(1, 1_000), 0),
        5 => (rng.range(0, 1_000), rng.range(0, 1_000), rng.spread(1, 1_000)),
        6 => (rng.range(0, 1_000), rng.range(0, 1_000), rng.spread(1, 1_000_000)),
        _ => return None,
    };
    Some(Piece::Clocks { drift: drift as u32, timing_jitter: timing_jitter as u32, sync_error: sync_error as u32 })
}
