//! Cuts of each flow's list of instants into cycles: which ones a plan permits, and random ones.

use super::emissions::Emission;
use crate::model::Plan;
use crate::rng::Rng;
use std::collections::BTreeMap;

/// The cycle of each frame, flow by flow.
pub type Cut = BTreeMap<u64, Vec<u64>>;

/// Cycle c has the instants from c durations up to, not including, c + 1 of them.
pub fn aligned(emission: &Emission, duration: u64) -> Cut {
    let cycles = |instants: &Vec<u64>| instants.iter().map(|instant| instant / duration).collect();
    emission.iter().map(|(flow, instants)| (*flow, cycles(instants))).collect()
}

/// Whether the cycles cut a list of instants so that those of one cycle lie within a length, its end left out.
fn cuts(instants: &[u64], cycles: &[u64], length: u64) -> bool {
    let mut ends: BTreeMap<u64, (u64, u64)> = BTreeMap::new();
    for (cycle, instant) in cycles.iter().zip(instants) {
        let (first, last) = ends.entry(*cycle).or_insert((*instant, *instant));
        *first = (*first).min(*instant);
        *last = (*last).max(*instant);
    }
    cycles.len() == instants.len()
        && cycles.windows(2).all(|pair| pair[0] <= pair[1])
        && ends.values().all(|(first, last)| last - first < length)
}

/// Whether a run may take these cycles: the aligned ones where clocks are equal, any cut within the widened duration otherwise.
pub fn permitted(plan: &Plan, duration: u64, emission: &Emission, cut: &Cut) -> bool {
    if plan.clocks.are_equal() {
        return *cut == aligned(emission, duration);
    }
    let length = plan.clocks.widened(duration);
    emission.keys().eq(cut.keys()) && emission.iter().all(|(flow, instants)| cuts(instants, &cut[flow], length))
}

/// Cycles of one flow, none longer than a length: each filled as far as it goes, or left early now and then, and some empty.
fn pieces(instants: &[u64], length: u64, rng: &mut Rng) -> Vec<u64> {
    let (early, empty) = (rng.pick(&[0, 0, 1, 8]), rng.pick(&[0, 0, 1, 8]));
    let (mut cycle, mut first) = (rng.below(3), instants[0]);
    let mut cycles = Vec::new();
    for instant in instants {
        if instant - first >= length || rng.chance(early, 16) {
            cycle += 1;
            first = *instant;
            if rng.chance(empty, 16) {
                cycle += rng.range(1, 3);
            }
        }
        cycles.push(cycle);
    }
    cycles
}

/// A random permitted cut, each flow's by itself; the aligned one where clocks are equal.
pub fn random(plan: &Plan, duration: u64, emission: &Emission, rng: &mut Rng) -> Cut {
    let mut cut = aligned(emission, duration);
    if !plan.clocks.are_equal() {
        let length = plan.clocks.widened(duration);
        for (flow, cycles) in &mut cut {
            if rng.chance(7, 8) {
                *cycles = pieces(&emission[flow], length, rng);
            }
        }
    }
    cut
}
