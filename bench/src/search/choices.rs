//! Random choices of a layout, and changes of one.

use super::candidate::{wire_bits, Short, LENGTHS, MOST_FLOWS, MOST_RATE, OVERHEAD};
use super::layout::{Choice, Round, ROUNDS};
use super::rng::Rng;

/// The most by which a rate is above what the short flows take, in Mbit/s.
const MOST_ABOVE: u64 = 40;
const MOST_SETS: u64 = 5;
const MOST_SHARING: u64 = 3;

/// Short flows at an even distance in ns that all but fill a port of the highest rate.
fn any_short(rng: &mut Rng) -> Short {
    let (distance, groups) = (5 + rng.below(5), 1 + rng.below(2));
    let flows = 1_000u64.div_ceil(distance * groups) * groups;
    let length = (MOST_RATE - MOST_ABOVE) * distance * groups / 8_000 - OVERHEAD;
    Short { flows, distance, groups, length }
}

fn filled(short: &Short) -> u64 {
    1_000 * wire_bits(short.length) / (short.distance * short.groups)
}

fn any_round(rng: &mut Rng) -> Round {
    let sets = rng.below(MOST_SETS + 1) as usize;
    Round { sets, periods: 1 + rng.below(sets.max(2) as u64 - 1) as usize }
}

/// None where the short frames or the flows leave their range.
pub fn any_choice(rng: &mut Rng) -> Option<Choice> {
    let short = any_short(rng);
    let rest = (MOST_FLOWS as u64).checked_sub(short.flows + 3)?;
    let mut rounds = [0; ROUNDS].map(|_| any_round(rng));
    rounds.sort_by_key(|round| (round.sets > 0).then(|| std::cmp::Reverse(1_000 * round.periods / round.sets)));
    (short.length >= LENGTHS.0).then_some(Choice {
        short,
        rate: filled(&short) + 1 + rng.below(MOST_ABOVE - 1),
        sharing: 1 + rng.below(MOST_SHARING) as usize,
        fine: 2 + rng.below(rest + 1) as usize,
        fine_length: LENGTHS.0 + rng.below(60),
        from: rng.within(5.0e7, 7.0e7),
        left: rng.within(0.0, 0.5),
        rounds,
    })
}

/// A choice that differs in one to three respects.
pub fn other_choice(choice: &Choice, rng: &mut Rng) -> Choice {
    let mut other = *choice;
    let by = |rng: &mut Rng, size: u64| rng.below(2 * size + 1) as i64 - size as i64;
    for _ in 0..1 + rng.below(3) {
        match rng.below(9) {
            0 => other.rate = (other.rate as i64 + by(rng, 2)).clamp(1, MOST_RATE as i64) as u64,
            1 => other.fine = (other.fine as i64 + by(rng, 4)).max(2) as usize,
            2 => other.fine_length = (other.fine_length as i64 + by(rng, 2)).clamp(LENGTHS.0 as i64, LENGTHS.1 as i64) as u64,
            3 | 4 => other.from += rng.within(-1.0e6, 1.0e6),
            5 => other.sharing = 1 + rng.below(MOST_SHARING) as usize,
            6 => other.left = rng.within(0.0, 0.5),
            _ => other.rounds[rng.below(ROUNDS as u64) as usize] = any_round(rng),
        }
    }
    other
}
