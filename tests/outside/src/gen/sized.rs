//! Plans made to have a given size, and the longest one without a needless field.

use super::{encode, Piece};
use crate::rng::Rng;

/// A plan made to have a given size, up to and past the largest.
pub fn sized(rng: &mut Rng, good: &[Piece], size: usize) -> Vec<u8> {
    let mut bytes = encode(good);
    let filler = good[rng.index(good.len())].bytes();
    while bytes.len() < size {
        match rng.below(3) {
            0 => bytes.extend(&filler),
            1 => bytes.push(rng.below(6) as u8),
            _ => bytes.extend([3, 0x40, 0x00]),
        }
    }
    bytes.truncate(size);
    bytes
}

/// A last field that fills the plan up to a size, of a tag or length that is refused.
pub fn topped_up(good: &[Piece], tag: u8, size: usize) -> Vec<u8> {
    let mut bytes = encode(good);
    let length = size.saturating_sub(bytes.len() + 3);
    bytes.extend([tag, (length / 256) as u8, (length % 256) as u8]);
    bytes.resize(bytes.len() + length, 0);
    bytes
}

/// Every field that a plan can have, in strict order, none of which says what its absence says.
pub fn longest() -> Vec<Piece> {
    let mut pieces = vec![Piece::Header { guard: 1_000_000, top: 100_000_000 }];
    let rate = |number: u16| 1 + u32::from(number) * 1_562;
    pieces.extend((1..=64).map(|number| Piece::Port { number, rate: rate(number), blocker: 2_000 - number }));
    for number in 1..=256 {
        let route = (0..16).map(|hop| (number * 5 + hop * 11) % 64 + 1).collect();
        let (count, length) = (number % 64 + 1, 2_000 - number);
        pieces.push(Piece::Flow { number, period: 100_000_000 - u32::from(number), count, length, route });
    }
    pieces.extend((1..=64).map(|number| Piece::Extra { number, extra: 65 - number }));
    pieces.extend((1..=256).map(|number| Piece::Jitter { number, jitter: 39_062 * u32::from(number) }));
    pieces.push(Piece::Clocks { drift: 1_000, timing_jitter: 1_000, sync_error: 1_000_000 });
    pieces
}
