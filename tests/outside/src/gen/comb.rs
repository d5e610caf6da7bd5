//! Plans whose admissible durations fall apart again and again: a port that is all but full, and few flows of short periods.

use super::later::{clocks, extras};
use super::{kinds::load_of, Piece};
use crate::rng::Rng;

/// One to three flows; the rate leaves a thousandth of itself free, or much less.
pub fn plan(rng: &mut Rng) -> Vec<Piece> {
    let how_many = rng.range(1, 2) as usize;
    let ports = rng.numbers(how_many, 64);
    let period = rng.range(1_000, 4_000);
    let mut flows: Vec<Piece> = Vec::new();
    for number in rng.numbers(3, 256).into_iter().take(rng.pick(&[1, 1, 1, 2, 3])) {
        let (count, length) = (rng.range(1, 64) as u16, rng.range(64, 2_000) as u16);
        flows.push(Piece::Flow { number, period: (period + rng.below(3)) as u32, count, length, route: ports.clone() });
        if rng.chance(1, 4) {
            flows.push(Piece::Jitter { number, jitter: rng.range(0, period) as u32 });
        }
    }
    flows.extend(extras(rng, &ports));
    if rng.chance(1, 4) {
        flows.extend(clocks(rng));
    }
    let mut pieces = vec![Piece::Header { guard: rng.pick(&[0, 0, 1, 7, 100]), top: (period * rng.spread(100, 4_000)) as u32 }];
    for number in ports {
        let rate = load_of(&flows, number) / 1_000 + rng.pick(&[1, 1, 2, 10]);
        let blocker = rng.pick(&[0, 0, 0, 64, 300]);
        pieces.push(Piece::Port { number, rate: rate.clamp(1, 100_000) as u32, blocker });
    }
    pieces.extend(flows);
    pieces
}
