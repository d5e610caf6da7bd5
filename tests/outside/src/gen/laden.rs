//! Plans of 64 ports and 256 flows whose load at every port is 98 % to 100 % of the rate, with room for admissible durations.

use super::{kinds::load_of, Piece};
use crate::rng::Rng;

/// The longest period in units of a plan; the others are an eighth to all of it.
const LONGEST: u64 = 8_000;

/// Every period divides the longest, and every load is a whole number of Mbit/s: demand and rate can meet exactly.
fn dividing(rng: &mut Rng, unit: u64, number: u16) -> Piece {
    let parts = rng.range((84 + unit - 1) / unit, (2020 / unit).min(320));
    let period = unit * (LONGEST >> rng.below(4));
    let length = unit * parts - 20;
    Piece::Flow { number, period: period as u32, count: 1, length: length as u16, route: rng.numbers(16, 64) }
}

/// Any periods: the demand is above the load at nearly all durations, and less and less so in proportion.
fn any_period(rng: &mut Rng, unit: u64, number: u16) -> Piece {
    let period = rng.range(unit * LONGEST / 8, unit * LONGEST);
    let length = rng.range(64, (100 * unit).clamp(300, 2000));
    Piece::Flow { number, period: period as u32, count: 1, length: length as u16, route: rng.numbers(16, 64) }
}

/// Extra bytes in whole units, so that loads stay whole; few enough for the highest rate.
fn extras(rng: &mut Rng, unit: u64) -> Vec<Piece> {
    let share = rng.pick(&[0, 1, 4]);
    let mut pieces = Vec::new();
    for number in 1..=64 {
        if rng.chance(share, 4) {
            let extra = unit * rng.range(0, (64 / unit).min(24));
            pieces.push(Piece::Extra { number, extra: extra as u16 });
        }
    }
    pieces
}

/// Jitter of a small part of a period, so that room is left.
fn jitters(rng: &mut Rng, unit: u64) -> Vec<Piece> {
    let share = rng.pick(&[0, 1, 4]);
    let mut pieces = Vec::new();
    for number in 1..=256 {
        if rng.chance(share, 4) {
            let jitter = rng.range(0, 8 * unit) as u32;
            pieces.push(Piece::Jitter { number, jitter });
        }
    }
    pieces
}

/// Clocks, if any: such that no duration is widened, or that one is by little, so that room is left.
fn clocks(rng: &mut Rng, full: bool) -> Option<Piece> {
    let (drift, timing_jitter, sync_error) = match rng.below(6) {
        0 => (0, 0, 5_000),
        1 => (1_000, 1_000, 0),
        2 | 3 if !full => (rng.range(0, 200) as u32, rng.range(0, 20) as u32, rng.range(0, 1_000) as u32),
        _ => return None,
    };
    Some(Piece::Clocks { drift, timing_jitter, sync_error })
}

fn ports(rng: &mut Rng, flows: &[Piece], thousandths: u64) -> Vec<Piece> {
    let mut pieces = Vec::new();
    for number in rng.numbers(64, 64) {
        let load = load_of(flows, number);
        let rate = ((load + thousandths - 1) / thousandths) as u32;
        let blocker = if thousandths == 1000 { 0 } else { rng.pick(&[0, 0, 64, 700, 2000]) };
        pieces.push(Piece::Port { number, rate, blocker });
    }
    pieces
}

/// Of three plans one is loaded to 100 %, without guard band, blockers, jitter and widening: admissible where all periods end.
pub fn plan(rng: &mut Rng) -> Vec<Piece> {
    let unit = rng.spread(1, 60);
    let kind = rng.below(3);
    let (thousandths, longest) = match kind {
        0 => (1000, rng.range(1, 24)),
        1 => (rng.range(981, 999), rng.range(2, 24)),
        _ => (rng.range(981, 992), rng.range(16, 60)),
    };
    let numbers = rng.numbers(256, 256);
    let flow = if kind == 2 { any_period } else { dividing };
    let mut flows: Vec<Piece> = numbers.into_iter().map(|number| flow(rng, unit, number)).collect();
    flows.extend(extras(rng, unit));
    if kind != 0 {
        flows.extend(jitters(rng, unit));
    }
    flows.extend(clocks(rng, kind == 0));
    let guard = if kind == 0 { 0 } else { rng.range(0, 20 * unit) as u32 };
    let top = unit * LONGEST * longest + rng.pick(&[0, 0, 1, unit * 700]);
    let mut pieces = vec![Piece::Header { guard, top: top as u32 }];
    pieces.extend(ports(rng, &flows, thousandths));
    pieces.extend(flows);
    rng.shuffle(&mut pieces);
    pieces
}

/// Whether the load of every port is 98 % to 100 % of its rate.
pub fn is_laden(pieces: &[Piece]) -> bool {
    pieces.iter().all(|piece| match piece {
        Piece::Port { number, rate, .. } => {
            (980 * u64::from(*rate)..=1000 * u64::from(*rate)).contains(&load_of(pieces, *number))
        }
        _ => true,
    })
}
