//! The named groups of comparisons, and what they share.

mod alike;
pub mod batch;
mod batch_foreign;
pub mod clocks;
pub mod convert;
pub mod emission;
pub mod extra;
pub mod fields;
pub mod foreign;
mod form_foreign;
pub mod forms;
pub mod gates;
mod gates_k;
pub mod jitter;
pub mod known;
mod later_fields;
mod lent;
pub mod lighter;
mod lighter_k;
pub mod loads;
pub mod model;
pub mod nearest;
mod newer_fields;
pub mod order;
pub mod questions;
pub mod reprice;
mod reprice_k;
pub mod rows;
pub mod runs;
pub mod save;
mod save_k;
pub mod searches;
pub mod spans;
mod spans_k;
pub mod steps;
mod steps_k;
pub mod strict;
mod strict_k;
pub mod text;
mod text_k;
mod worked;
pub mod written;

use crate::answers::{Answer, Planner};
use crate::ffi;
use crate::model::fixed_point::fixed_point;
use crate::model::save::written;
use crate::model::spans::{first_past, lean_search, search, spans as found_spans, Search, Span};
use crate::model::{self as judge, Flow, Plan};
use crate::report::Tally;
use crate::rng::Rng;
use gates::{ask_gates, QUEUES};
use reprice::{ask_reprice, some_flow, FRAMES};
use save::ask_save;
use spans::{ask_span, ask_spans};

pub const LENGTHS: [usize; 5] = [0, 63, 64, 65, 100];
pub const LEAN_LENGTHS: [usize; 4] = [0, 1, 2, 64];

/// Durations worth asking: the ends, the guard bands, points where a demand rises.
pub fn durations(plan: &Plan, rng: &mut Rng) -> Vec<u64> {
    let mut asked = vec![0, 1, 2, plan.top - 1, plan.top, plan.top + 1, u64::MAX, u64::MAX - 1];
    let twice = 2 * plan.guard;
    asked.extend([twice.saturating_sub(1), twice, twice + 1, plan.guard, 100_000_000, 100_000_001]);
    asked.extend([1 << 32, (1 << 32) + 1, (1 << 32) + plan.top, 1 << 63, u64::from(u32::MAX)]);
    let flows: Vec<&Flow> = plan.flows.values().collect();
    for _ in 0..8 {
        let flow = rng.pick(&flows);
        let periods = rng.range(flow.jitter / flow.period, (plan.top + flow.jitter) / flow.period);
        let rise = first_past(&plan.clocks, flow, periods);
        asked.extend([rise.saturating_sub(2), rise - 1, rise, rise + 1]);
        asked.push(rng.range(1, plan.top));
    }
    asked
}

/// The ends of some spans and their neighbours.
pub fn span_ends(spans: &[Span], rng: &mut Rng) -> Vec<u64> {
    let mut asked = Vec::new();
    for _ in 0..spans.len().min(4) {
        let (from, to) = rng.pick(spans);
        asked.extend([from - 1, from, to, to + 1]);
    }
    asked
}

/// A few ports: the ends, present ones, ones that look alike in fewer bits.
pub fn some_ports(plan: &Plan, rng: &mut Rng) -> Vec<u64> {
    let present: Vec<u64> = plan.ports.keys().copied().collect();
    let one = rng.pick(&present);
    vec![0, 1, 64, 65, u64::MAX, one, rng.pick(&present), rng.range(1, 64), one + 256, one + (1 << 16), one + (1 << 32)]
}

pub fn ask_check(tally: &mut Tally, planner: &Planner, plan: Option<&Plan>, duration: u64) {
    let want = judge::check(plan, duration);
    tally.saw("check", want.refusal);
    tally.same(format_args!("cp_check({duration})"), ffi::check(planner, duration), want);
}

pub fn ask_slack(tally: &mut Tally, planner: &Planner, plan: Option<&Plan>, port: u64, duration: u64) {
    let want = judge::slack(plan, port, duration);
    tally.saw("slack", want.refusal);
    tally.same(format_args!("cp_slack({port}, {duration})"), ffi::slack(planner, port, duration), want);
}

type Ask = fn(&Planner, &mut [u64]) -> Answer;
type Judge = fn(Option<(&Plan, &[Span])>, Search, &[u64]) -> (Answer, Vec<u64>);

/// One search with a patterned scratch: the answer, and each number of the scratch.
fn ask_search(tally: &mut Tally, planner: &Planner, held: Option<(&Plan, &[Span])>, call: &'static str, ask: Ask, want: (Judge, Search), pattern: &[u64]) {
    let mut scratch = pattern.to_vec();
    let (answer, after) = want.0(held, want.1, pattern);
    tally.saw(call, answer.refusal);
    tally.same(format_args!("cp_{call}(scratch of {})", pattern.len()), ask(planner, &mut scratch), answer);
    tally.same(format_args!("scratch after cp_{call}({})", pattern.len()), &scratch, &after);
}

fn pattern(length: usize, rng: &mut Rng) -> Vec<u64> {
    (0..length).map(|_| rng.next()).collect()
}

/// Both searches with a patterned scratch of one length.
pub fn ask_searches(tally: &mut Tally, planner: &Planner, held: Option<(&Plan, &[Span])>, length: usize, rng: &mut Rng) {
    let pattern = pattern(length, rng);
    ask_search(tally, planner, held, "least", ffi::least, (search, Search::Least), &pattern);
    ask_search(tally, planner, held, "margin_safe", ffi::margin_safe, (search, Search::MarginSafe), &pattern);
}

/// Both searches over a scratch of one number or more, and over none.
pub fn ask_lean(tally: &mut Tally, planner: &Planner, held: Option<(&Plan, &[Span])>, length: usize, rng: &mut Rng) {
    let pattern = pattern(length, rng);
    ask_search(tally, planner, held, "lean_least", ffi::lean_least, (lean_search, Search::Least), &pattern);
    ask_search(tally, planner, held, "lean_margin_safe", ffi::lean_margin_safe, (lean_search, Search::MarginSafe), &pattern);
}

/// The iteration from a start with so many steps.
pub fn ask_fixed_point(tally: &mut Tally, planner: &Planner, plan: Option<&Plan>, start: u64, steps: u64) {
    let want = fixed_point(plan, start, steps);
    tally.saw("fixed_point", want.refusal);
    tally.same(format_args!("cp_fixed_point({start}, {steps})"), ffi::fixed_point(planner, start, steps), want);
}

/// Every kind of question, some of each.
pub fn ask_all(tally: &mut Tally, planner: &Planner, plan: Option<&Plan>, rng: &mut Rng) {
    let found = plan.map(found_spans);
    let mut asked = vec![0, 1, 1_000, 100_000_000, u64::MAX];
    let mut ports = vec![0, 1, 2, 64, 65, u64::MAX];
    if let Some(plan) = plan {
        asked.extend(durations(plan, rng));
        asked.extend(span_ends(found.as_deref().unwrap_or(&[]), rng));
        ports.extend(some_ports(plan, rng));
    }
    for _ in 0..10 {
        let (port, duration) = (rng.pick(&ports), rng.pick(&asked));
        ask_check(tally, planner, plan, duration);
        ask_slack(tally, planner, plan, port, duration);
    }
    for start in [1, rng.pick(&asked)] {
        let steps = rng.pick(&[0, 1, 2, 16, u64::MAX]);
        ask_fixed_point(tally, planner, plan, start, steps);
    }
    let needed = plan.map_or(11, |plan| written(plan).len());
    for length in [needed, rng.pick(&[0, needed - 1, needed + 1, 16_384])] {
        ask_save(tally, planner, plan, length, rng);
    }
    for queues in [(2, 3), (rng.pick(&QUEUES), rng.pick(&QUEUES))] {
        let (duration, length) = (rng.pick(&asked), rng.pick(&[0, 16, 47, 48, 60]));
        ask_gates(tally, planner, plan, (duration, queues.0, queues.1), length, rng);
    }
    for size in [64, rng.pick(&LENGTHS)] {
        let flow = plan.map_or(1, |plan| some_flow(plan, rng));
        let length = if rng.chance(1, 4) { rng.pick(&FRAMES) } else { rng.range(64, 2_000) };
        ask_reprice(tally, planner, plan, (rng.pick(&asked), flow, length), size, rng);
    }
    let length = rng.pick(&LENGTHS);
    for length in [length, 64] {
        ask_searches(tally, planner, plan.zip(found.as_deref()), length, rng);
    }
    let length = rng.pick(&LEAN_LENGTHS);
    ask_lean(tally, planner, plan.zip(found.as_deref()), length, rng);
    for duration in [1, rng.pick(&asked), rng.pick(&asked)] {
        ask_span(tally, planner, plan.zip(found.as_deref()), duration);
    }
    let count = found.as_ref().map_or(2, Vec::len);
    let sizes = spans::sizes(count, rng);
    let size = rng.pick(&sizes);
    ask_spans(tally, planner, plan.zip(found.as_deref()), size, rng);
}
