//! The fixed-point iteration: from several starts, with several numbers of steps, whole and in parts.

use super::{ask_fixed_point, durations, span_ends, steps_k};
use crate::answers::{Answer, Planner, StepsAnswer};
use crate::ffi;
use crate::gen::{self, encode, laden, Piece};
use crate::model::fixed_point::{iteration, most_steps, Iteration};
use crate::model::read::read;
use crate::model::spans::{effort, spans, Span};
use crate::model::Plan;
use crate::report::Tally;
use crate::rng::Rng;

/// The answer by the spans: the least admissible duration from a start on.
fn by_spans(plan: &Plan, spans: &[Span], start: u64) -> Answer {
    match spans.iter().find(|span| span.1 >= start) {
        Some(span) => Answer::new(0, span.0.max(start), 0),
        None => plan.refuse_failing(22, plan.top),
    }
}

/// Numbers of steps around the whole iteration's own, and any.
fn budgets(whole: u64, rng: &mut Rng) -> Vec<u64> {
    vec![0, 1, 2, whole - 1, whole, whole + 1, u64::MAX, 1 << 32, (1 << 32) + whole - 1, rng.range(0, whole)]
}

/// The iteration in parts, each from where the one before stopped: the same answer, and the steps add up.
fn in_parts(tally: &mut Tally, planner: &Planner, start: u64, whole: StepsAnswer, rng: &mut Rng) {
    let most = rng.pick(&[1, 2, 16, 16, 1_000]);
    let (mut from, mut used) = (start, 0);
    for _ in 0..8 * whole.steps + 64 {
        let steps = if rng.chance(1, 2) { most } else { rng.range(0, most) };
        let part = ffi::fixed_point(planner, from, steps);
        used += part.steps;
        if part.refusal != 26 {
            tally.same(format_args!("cp_fixed_point from {start} in parts"), StepsAnswer { steps: used, ..part }, whole);
            return;
        }
        if part.steps != steps {
            break;
        }
        from = part.first;
    }
    tally.same(format_args!("cp_fixed_point from {start} in parts comes to its end"), false, true);
}

/// Every kind of call from one start.
fn from(tally: &mut Tally, planner: &Planner, iteration: &Iteration, start: u64, rng: &mut Rng) {
    let whole = iteration.steps();
    for steps in budgets(whole, rng) {
        let want = iteration.after(steps);
        tally.saw("fixed_point", want.refusal);
        tally.same(format_args!("cp_fixed_point({start}, {steps})"), ffi::fixed_point(planner, start, steps), want);
    }
    in_parts(tally, planner, start, iteration.whole(), rng);
    if whole < 200 {
        for (steps, reached) in iteration.reached.iter().enumerate() {
            let want = StepsAnswer::new(Answer::new(26, *reached, 0), steps as u64);
            tally.same(format_args!("cp_fixed_point({start}, {steps})"), ffi::fixed_point(planner, start, steps as u64), want);
        }
    }
}

/// Starts: the ends, ends of spans, points where a demand rises. Fewer where an iteration may be long.
fn starts(plan: &Plan, spans: &[Span], rng: &mut Rng) -> Vec<u64> {
    let mut asked = durations(plan, rng);
    asked.extend(span_ends(spans, rng));
    rng.shuffle(&mut asked);
    asked.truncate(if effort(plan) > 10_000 { 4 } else { 24 });
    asked.extend([0, 1, plan.top, plan.top + 1, u64::MAX]);
    asked
}

fn one_plan(tally: &mut Tally, case: u64, pieces: &[Piece], rng: &mut Rng) -> Vec<Span> {
    let bytes = encode(pieces);
    tally.case(case, &bytes);
    let plan = read(&bytes).expect("a good plan");
    let planner = ffi::load(&ffi::empty(), &bytes).0;
    let found = spans(&plan);
    let most = most_steps(&plan);
    for start in starts(&plan, &found, rng) {
        if !plan.in_reach(start) {
            let steps = rng.pick(&[0, 1, 16, u64::MAX]);
            ask_fixed_point(tally, &planner, Some(&plan), start, steps);
            continue;
        }
        let iteration = iteration(&plan, start);
        tally.same(format_args!("model: from {start}, by spans"), iteration.end, by_spans(&plan, &found, start));
        let got = ffi::fixed_point(&planner, start, u64::MAX);
        tally.same(format_args!("cp_fixed_point from {start}, by spans"), got.answer(), iteration.end);
        tally.same(format_args!("steps from {start} are at most {most}"), got.steps <= most, true);
        tally.saw("steps, how many binary digits", 64 - iteration.steps().leading_zeros());
        from(tally, &planner, &iteration, start, rng);
    }
    let least = ffi::least(&planner, &mut [0; 64]);
    tally.same(format_args!("cp_fixed_point from 1 as cp_least"), ffi::fixed_point(&planner, 1, u64::MAX).answer(), least);
    found
}

pub fn run(tally: &mut Tally) {
    steps_k::run(tally);
    for start in [0, 1, 72_000, u64::MAX] {
        for steps in [0, 1, 16, u64::MAX] {
            ask_fixed_point(tally, &ffi::empty(), None, start, steps);
        }
    }
    for case in 0..tally.cases {
        let mut rng = tally.rng(case);
        let mut pieces = gen::plan(&mut rng);
        let found = one_plan(tally, case, &pieces, &mut rng);
        let tops: Vec<u64> = found.iter().flat_map(|span| [span.0, span.1]).chain([1, 2]).collect();
        let top = rng.pick(&tops).saturating_sub(rng.below(2)).max(1);
        gen::set_top(&mut pieces, top);
        one_plan(tally, case, &pieces, &mut rng);
    }
    for case in 0..tally.cases / 50 {
        let mut rng = tally.rng(1 << 40 | case);
        let pieces = laden::plan(&mut rng);
        one_plan(tally, case, &pieces, &mut rng);
    }
    tally.must_have_seen("fixed_point", &[0, 10, 20, 22, 26]);
    tally.must_have_seen("steps, how many binary digits", &[1, 2, 3, 4, 5, 6, 7, 8]);
}
