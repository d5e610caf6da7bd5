//! The admissible durations as spans, found by walking the points where a demand rises.

use super::{Clocks, Flow, Plan};
use crate::answers::Answer;
use std::collections::BTreeMap;

pub type Span = (u64, u64);

struct Column {
    rate: u64,
    blocking: u64,
    demand: u64,
    from: u64,
}

/// Demands in the present stretch, and from which duration each port can bear its own.
struct Walk {
    guard: u64,
    columns: BTreeMap<u64, Column>,
}

impl Walk {
    fn new(plan: &Plan) -> Walk {
        let mut columns = BTreeMap::new();
        for (number, port) in &plan.ports {
            if plan.crossed(*number) {
                let column = Column { rate: port.rate, blocking: port.blocker_bits(), demand: 0, from: 0 };
                columns.insert(*number, column);
            }
        }
        Walk { guard: plan.guard, columns }
    }

    fn rise(&mut self, port: u64, bits: u64) {
        let column = self.columns.get_mut(&port).expect("a route stays on known ports");
        column.demand += bits;
        let needed = 1000 * (column.demand + column.blocking);
        let window = needed / column.rate + u64::from(needed % column.rate != 0);
        column.from = window + 2 * self.guard;
    }

    /// From here on a constant demand is borne by all ports.
    fn borne_from(&self) -> u64 {
        self.columns.values().map(|column| column.from).max().unwrap_or(0)
    }
}

fn join(spans: &mut Vec<Span>, from: u64, to: u64) {
    match spans.last_mut() {
        Some(last) if last.1 + 1 == from => last.1 = to,
        _ => spans.push((from, to)),
    }
}

/// Whether a duration, widened and with the jitter, reaches past so many periods.
fn reaches_past(clocks: &Clocks, flow: &Flow, duration: u64, periods: u64) -> bool {
    clocks.widened(duration) + flow.jitter > periods * flow.period
}

/// The first duration from 1 on that reaches past so many periods: the longer the duration, the farther it reaches.
pub fn first_past(clocks: &Clocks, flow: &Flow, periods: u64) -> u64 {
    let (mut low, mut high) = (1, (periods * flow.period + 1).saturating_sub(flow.jitter).max(1));
    while low < high {
        let middle = (low + high) / 2;
        if reaches_past(clocks, flow, middle, periods) {
            high = middle;
        } else {
            low = middle + 1;
        }
    }
    low
}

/// Periods begun at a duration, of which so many had begun before.
fn periods_begun(clocks: &Clocks, flow: &Flow, before: u64, duration: u64) -> u64 {
    (before..).find(|periods| !reaches_past(clocks, flow, duration, *periods)).expect("a last period")
}

/// All admissible durations from 1 to top, rising.
pub fn spans(plan: &Plan) -> Vec<Span> {
    let mut walk = Walk::new(plan);
    let mut rises: BTreeMap<u64, Vec<(u64, u64)>> = BTreeMap::new();
    rises.insert(1, plan.flows.keys().map(|number| (*number, 0)).collect());
    let mut spans = Vec::new();
    while let Some(start) = rises.keys().next().copied() {
        for (number, before) in rises.remove(&start).unwrap_or_default() {
            let flow = &plan.flows[&number];
            let begun = periods_begun(&plan.clocks, flow, before, start);
            for port in &flow.route {
                walk.rise(*port, (begun - before) * flow.count * plan.ports[port].wire_bits(flow.length));
            }
            let next = first_past(&plan.clocks, flow, begun);
            if next <= plan.top {
                rises.entry(next).or_default().push((number, begun));
            }
        }
        let end = rises.keys().next().map_or(plan.top, |next| next - 1);
        let from = walk.borne_from().max(start);
        if from <= end {
            join(&mut spans, from, end);
        }
    }
    spans
}

/// How many periods the walk looks at, at most.
pub fn effort(plan: &Plan) -> u64 {
    let length = plan.clocks.widened(plan.top);
    plan.flows.values().map(|flow| (length + flow.jitter) / flow.period + 1).sum()
}

/// The same spans by trying every duration, for small tops.
pub fn scanned(plan: &Plan) -> Vec<Span> {
    let mut spans = Vec::new();
    for duration in 1..=plan.top {
        if plan.failing(duration).is_empty() {
            join(&mut spans, duration, duration);
        }
    }
    spans
}

/// One of the two searches on spans found before: answer, and the duration that the scratch tells of.
fn settle(plan: &Plan, found: Option<u64>, refusal: u32) -> (Answer, u64) {
    match found {
        Some(duration) => (Answer::new(0, duration, 0), duration),
        None => (plan.refuse_failing(refusal, plan.top), plan.top),
    }
}

#[derive(Clone, Copy, PartialEq, Eq, Debug)]
pub enum Search {
    Least,
    MarginSafe,
}

/// The answer of a search of a held plan, and the duration that the scratch tells of.
fn answered(plan: &Plan, spans: &[Span], which: Search) -> (Answer, u64) {
    match which {
        Search::Least => settle(plan, spans.first().map(|span| span.0), 22),
        Search::MarginSafe => {
            let last = spans.last().filter(|span| span.1 == plan.top);
            settle(plan, last.map(|span| span.0), 23)
        }
    }
}

/// A search: the answer, and the scratch as the call leaves it.
pub fn search(held: Option<(&Plan, &[Span])>, which: Search, scratch: &[u64]) -> (Answer, Vec<u64>) {
    let mut after = scratch.to_vec();
    let (plan, spans) = match held {
        Some(held) => held,
        None => return (Answer::refused(20), after),
    };
    if scratch.len() < 64 {
        return (Answer::refused(11), after);
    }
    let (answer, told) = answered(plan, spans, which);
    after[..64].fill(0);
    for (port, demand) in plan.demands(told) {
        after[port as usize - 1] = demand;
    }
    (answer, after)
}

/// The same over a scratch of one number or more: its first is the demand of the highest port that a route names.
pub fn lean_search(held: Option<(&Plan, &[Span])>, which: Search, scratch: &[u64]) -> (Answer, Vec<u64>) {
    let mut after = scratch.to_vec();
    let (plan, spans) = match held {
        Some(held) => held,
        None => return (Answer::refused(20), after),
    };
    if scratch.is_empty() {
        return (Answer::refused(11), after);
    }
    let (answer, told) = answered(plan, spans, which);
    let highest = plan.flows.values().flat_map(|flow| &flow.route).max().expect("a route");
    after[0] = plan.demands(told)[highest];
    (answer, after)
}
