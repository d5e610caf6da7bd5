//! Changes a candidate a little at a time, and keeps what has more spans.

use super::candidate::{Candidate, Late, LENGTHS, MOST_COUNT, MOST_JITTER, MOST_RATE, TOP};
use super::count;
use super::rng::Rng;

/// The shortest period of a late flow in ns: counting takes as long as late flows rise often.
const SHORTEST: u64 = 100_000;

fn moved(number: u64, by: i64, low: u64, high: u64) -> u64 {
    (number as i64 + by).clamp(low as i64, high as i64) as u64
}

fn change_late(late: &mut Late, ports: u64, rng: &mut Rng) {
    match rng.below(10) {
        0..=3 => late.period = moved(late.period, rng.by(20), SHORTEST, TOP),
        4 | 5 => late.jitter = moved(late.jitter, rng.by(20), 0, MOST_JITTER),
        6 | 7 => late.length = moved(late.length, rng.by(6), LENGTHS.0, LENGTHS.1),
        8 => late.ports ^= 1 << rng.below(ports),
        _ => late.count = moved(late.count, rng.by(1), 1, MOST_COUNT),
    }
}

fn change(candidate: &mut Candidate, rng: &mut Rng) {
    let (ports, flows) = (candidate.ports.len() as u64, candidate.late.len() as u64);
    let at = rng.below(flows) as usize;
    match rng.below(40) {
        0 => {
            let port = &mut candidate.ports[rng.below(ports) as usize];
            port.rate = moved(port.rate, rng.by(1), 1, MOST_RATE);
        }
        1 | 2 => {
            let port = &mut candidate.ports[rng.below(ports) as usize];
            let blocker = moved(port.blocker.max(LENGTHS.0), rng.by(7), LENGTHS.0 - 1, LENGTHS.1);
            port.blocker = if blocker < LENGTHS.0 { 0 } else { blocker };
        }
        3 => {
            let mut late = candidate.late[at];
            late.period = moved(late.period, rng.by(24), SHORTEST, TOP);
            candidate.late.push(late);
        }
        4 if flows > 1 => drop(candidate.late.swap_remove(at)),
        5 => {
            let other = rng.below(flows) as usize;
            let ports = candidate.late[at].ports;
            candidate.late[at].ports = candidate.late[other].ports;
            candidate.late[other].ports = ports;
        }
        _ => change_late(&mut candidate.late[at], ports, rng),
    }
}

/// One slot in so many is looked at while climbing.
const STEP: usize = 5;

/// The best of so many changes, one after the other, where at first a change may lose up to so many spans.
pub fn climb(start: Candidate, changes: u64, loss: f64, rng: &mut Rng, stop: &dyn Fn() -> bool) -> Candidate {
    let mut now = (count::spans(&start, STEP), start);
    let mut best = now.clone();
    for turn in 0..changes {
        if turn % 64 == 0 && stop() {
            break;
        }
        let mut next = now.1.clone();
        for _ in 0..1 + rng.below(3) {
            change(&mut next, rng);
        }
        let spans = if next.fits() { count::spans(&next, STEP) } else { 0 };
        let allowed = loss * (1.0 - turn as f64 / changes as f64) * rng.within(0.0, 1.0);
        if spans as f64 + allowed >= now.0 as f64 {
            now = (spans, next);
            if now.0 > best.0 {
                best = now.clone();
            }
        }
    }
    best.1
}
