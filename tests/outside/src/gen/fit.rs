//! Rates made to fit, so that a plan has admissible durations, often by a hair.

use super::{jitter_of, widened, wire_bits, Piece};
use crate::rng::Rng;

/// Bits that the flows of a port bring at a duration.
fn bits_at(pieces: &[Piece], port: u16, duration: u64) -> u64 {
    let counted_over = widened(pieces, duration);
    let of_flow = |piece: &Piece| match piece {
        Piece::Flow { number, period, count, length, route } if route.contains(&port) => {
            let begun = (counted_over + jitter_of(pieces, *number) + u64::from(*period) - 1) / u64::from(*period);
            begun * u64::from(*count) * wire_bits(pieces, port, *length)
        }
        _ => 0,
    };
    pieces.iter().map(of_flow).sum()
}

fn header(pieces: &mut [Piece]) -> Option<(&mut u32, u64)> {
    pieces.iter_mut().find_map(|piece| match piece {
        Piece::Header { guard, top } => Some((guard, u64::from(*top))),
        _ => None,
    })
}

/// Every rate just high enough for one duration up to top, or a little higher, or rarely one short.
pub fn fit(rng: &mut Rng, pieces: &mut [Piece]) {
    let (guard, top) = match header(pieces) {
        Some(found) => found,
        None => return,
    };
    let aim = rng.range((top / 4).max(1), top);
    if 2 * u64::from(*guard) >= aim {
        *guard = (aim / 8) as u32;
    }
    let window = aim - 2 * u64::from(*guard);
    let given = pieces.to_vec();
    let spare = rng.pick(&[0, 0, 1, 2, 10, 200]);
    let short = rng.chance(1, 8);
    for piece in pieces {
        if let Piece::Port { number, rate, blocker } = piece {
            let blocking = if *blocker == 0 { 0 } else { wire_bits(&given, *number, *blocker) };
            let taken = 1000 * (bits_at(&given, *number, aim) + blocking);
            let exact = (taken + window - 1) / window;
            let more = exact * rng.range(0, spare) / 1000;
            let less = u64::from(short && rng.chance(1, 4));
            *rate = (exact + more).saturating_sub(less).clamp(1, 100_000) as u32;
        }
    }
}
