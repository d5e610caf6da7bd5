//! Plans with short admissible durations.

use super::later::{clocks, extras, jitters};
use super::Piece;
use crate::rng::Rng;

/// A few short frames over fast ports; top is at most 1,500.
pub fn plan(rng: &mut Rng) -> Vec<Piece> {
    let ports = rng.numbers(3, 64);
    let guard = rng.pick(&[0, 0, 0, 1, 2, 3, 10, 60]);
    let mut pieces = vec![Piece::Header { guard, top: rng.range(100, 1_500) as u32 }];
    for number in &ports {
        let blocker = if rng.chance(1, 4) { rng.range(64, 400) as u16 } else { 0 };
        pieces.push(Piece::Port { number: *number, rate: rng.range(2_000, 100_000) as u32, blocker });
    }
    for number in rng.numbers(4, 256).into_iter().take(rng.range(1, 4) as usize) {
        let route = ports[..rng.range(1, 3) as usize].to_vec();
        let (period, count) = (rng.range(1_000, 3_000) as u32, rng.range(1, 2) as u16);
        pieces.push(Piece::Flow { number, period, count, length: rng.range(64, 150) as u16, route });
    }
    pieces.extend(jitters(rng, &pieces));
    pieces.extend(extras(rng, &ports));
    pieces.extend(clocks(rng));
    rng.shuffle(&mut pieces);
    pieces
}
