//! Which plans are lighter than another (document 02: an easier plan), and in what respects.

use super::Plan;

/// What may be easier about a plan.
#[derive(Clone, Copy, PartialEq, Eq, Debug)]
pub enum Respect {
    Flows,
    Lengths,
    Counts,
    Periods,
    Jitters,
    Rates,
    Blockers,
    Extras,
    Drift,
    TimingJitter,
    SyncError,
    Guard,
}

pub const RESPECTS: [Respect; 12] = [
    Respect::Flows,
    Respect::Lengths,
    Respect::Counts,
    Respect::Periods,
    Respect::Jitters,
    Respect::Rates,
    Respect::Blockers,
    Respect::Extras,
    Respect::Drift,
    Respect::TimingJitter,
    Respect::SyncError,
    Respect::Guard,
];

/// Numbers that a lighter plan keeps or makes easier: the respect, the one that may be larger, the one that may be smaller. None
/// where a port or a flow of the second plan is not in the first, or a route is another.
fn numbers(first: &Plan, second: &Plan) -> Option<Vec<(Respect, u64, u64)>> {
    let mut pairs = vec![
        (Respect::Flows, first.flows.len() as u64, second.flows.len() as u64),
        (Respect::Drift, first.clocks.drift, second.clocks.drift),
        (Respect::TimingJitter, first.clocks.timing_jitter, second.clocks.timing_jitter),
        (Respect::SyncError, first.clocks.sync_error, second.clocks.sync_error),
        (Respect::Guard, first.guard, second.guard),
    ];
    for (number, port) in &second.ports {
        let before = first.ports.get(number)?;
        pairs.push((Respect::Rates, port.rate, before.rate));
        pairs.push((Respect::Blockers, before.blocker, port.blocker));
        pairs.push((Respect::Extras, before.extra, port.extra));
    }
    for (number, flow) in &second.flows {
        let before = first.flows.get(number).filter(|before| before.route == flow.route)?;
        pairs.push((Respect::Lengths, before.length, flow.length));
        pairs.push((Respect::Counts, before.count, flow.count));
        pairs.push((Respect::Periods, flow.period, before.period));
        pairs.push((Respect::Jitters, before.jitter, flow.jitter));
    }
    Some(pairs)
}

/// The respects in which the second plan is easier than the first, or none where it is not lighter.
pub fn eased(first: &Plan, second: &Plan) -> Option<Vec<Respect>> {
    let pairs = numbers(first, second)?;
    let alike = first.top == second.top && first.ports.len() == second.ports.len();
    if !alike || pairs.iter().any(|(_, larger, smaller)| smaller > larger) {
        return None;
    }
    let easier = |respect: &Respect| pairs.iter().any(|(of, larger, smaller)| of == respect && smaller < larger);
    Some(RESPECTS.into_iter().filter(easier).collect())
}
