//! Emissions: which ones keep the contract, the worst at a port, and random ones.

use super::cuts::Cut;
use crate::model::{Flow, Plan};
use crate::rng::Rng;
use std::collections::BTreeMap;

/// Instants of each flow's frames, from 0, never falling.
pub type Emission = BTreeMap<u64, Vec<u64>>;

/// Nominal instants of a flow's frames, as early as they can be: each at most the jitter before its frame and not after it, and
/// frame k + count at least one period after frame k. None where there are no such. They may lie before 0.
pub fn nominals(flow: &Flow, instants: &[u64]) -> Option<Vec<i64>> {
    let mut nominals: Vec<i64> = Vec::new();
    for (k, instant) in instants.iter().enumerate() {
        let mut nominal = *instant as i64 - flow.jitter as i64;
        if let Some(before) = k.checked_sub(flow.count as usize) {
            nominal = nominal.max(nominals[before] + flow.period as i64);
        }
        if nominal > *instant as i64 {
            return None;
        }
        nominals.push(nominal);
    }
    Some(nominals)
}

fn never_falls<T: PartialOrd>(row: &[T]) -> bool {
    row.windows(2).all(|pair| pair[0] <= pair[1])
}

/// Whether every flow's instants keep the contract. Their earliest nominal instants never fall, so it is no matter whether
/// the contract asks that of them.
pub fn keeps_contract(plan: &Plan, emission: &Emission) -> bool {
    emission.iter().all(|(number, instants)| {
        let nominals = nominals(&plan.flows[number], instants);
        never_falls(instants) && nominals.map_or(false, |nominals| never_falls(&nominals))
    })
}

/// All flows of a port send as much as they may in one cycle, of the widened length, so that it comes together at the port in one
/// cycle: what is due within a jitter before a flow's cycle comes at its start, the rest when it is due. Some flow starts at 0.
pub fn gathered_at(plan: &Plan, port: u64, duration: u64) -> (Emission, Cut) {
    let hop_of = |flow: &Flow| flow.route.iter().position(|passed| *passed == port);
    let last = plan.flows.values().filter_map(hop_of).max().unwrap_or(0);
    let length = plan.clocks.widened(duration) as i64;
    let (mut emission, mut cut) = (Emission::new(), Cut::new());
    for (number, flow) in &plan.flows {
        if let Some(hop) = hop_of(flow) {
            let cycle = (last - hop) as u64;
            let start = (cycle * duration) as i64;
            let mut instants = Vec::new();
            let mut nominal = start - flow.jitter as i64;
            while nominal < start + length {
                instants.extend((0..flow.count).map(|_| nominal.max(start) as u64));
                nominal += flow.period as i64;
            }
            cut.insert(*number, vec![cycle; instants.len()]);
            emission.insert(*number, instants);
        }
    }
    (emission, cut)
}

/// When a frame comes that is due at a nominal instant: at once, at a cycle's start, as late as it may, or between.
fn released(rng: &mut Rng, flow: &Flow, nominal: i64, before: i64, duration: i64) -> i64 {
    let (soonest, latest) = (nominal.max(before), nominal + flow.jitter as i64);
    let boundary = (soonest + duration - 1) / duration * duration;
    match rng.below(6) {
        0..=1 => soonest,
        2 => latest,
        3..=4 if boundary <= latest => boundary,
        _ => soonest + rng.range(0, (latest - soonest) as u64) as i64,
    }
}

/// A random emission inside the contract, mostly as early as the contract lets it.
pub fn random(plan: &Plan, duration: u64, frames: usize, rng: &mut Rng) -> Emission {
    let mut emission = Emission::new();
    for (number, flow) in &plan.flows {
        if rng.chance(1, 8) {
            continue;
        }
        let (count, length) = (flow.count as usize, duration as i64);
        let hurry = rng.range(0, 8);
        let mut nominals: Vec<i64> = vec![rng.below(3 * duration + flow.jitter) as i64 - flow.jitter as i64];
        let mut instants = vec![released(rng, flow, nominals[0], 0, length)];
        for k in 1..=rng.index(frames) {
            let mut nominal = nominals[k - 1];
            if k >= count {
                nominal = nominal.max(nominals[k - count] + flow.period as i64);
            }
            if rng.chance(hurry, 16) {
                nominal += rng.below(duration.max(flow.period) + 1) as i64;
            } else if rng.chance(1, 8) {
                nominal = (nominal.div_euclid(length) + 1) * length;
            }
            nominals.push(nominal);
            instants.push(released(rng, flow, nominal, instants[k - 1], length));
        }
        emission.insert(*number, instants.into_iter().map(|instant| instant as u64).collect());
    }
    emission
}
