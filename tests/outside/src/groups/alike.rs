//! Two planners that must give the same answers to every question.

use super::reprice::some_flow;
use super::{durations, some_ports};
use crate::answers::{Answer, Planner, SpanRecord};
use crate::ffi;
use crate::model::Plan;
use crate::report::Tally;
use crate::rng::Rng;

type Search = fn(&Planner, &mut [u64]) -> Answer;

/// Every question, to both, and what both save; how names the other planner.
pub fn alike(tally: &mut Tally, how: &str, other: &Planner, one: &Planner, plan: &Plan, rng: &mut Rng) {
    same_answers(tally, how, other, one, plan, rng);
    let mut buffers = [[7; 16_384], [7; 16_384]];
    let (got, want) = (ffi::save(other, &mut buffers[0]), ffi::save(one, &mut buffers[1]));
    tally.same(format_args!("cp_save {how}"), got, want);
    tally.same(format_args!("buffers after cp_save {how} are equal"), buffers[0] == buffers[1], true);
}

/// Every question, to both.
pub fn same_answers(tally: &mut Tally, how: &str, other: &Planner, one: &Planner, plan: &Plan, rng: &mut Rng) {
    let asked = durations(plan, rng);
    let ports = some_ports(plan, rng);
    for duration in &asked {
        let (got, want) = (ffi::check(other, *duration), ffi::check(one, *duration));
        tally.same(format_args!("cp_check({duration}) {how}"), got, want);
        let port = rng.pick(&ports);
        let (got, want) = (ffi::slack(other, port, *duration), ffi::slack(one, port, *duration));
        tally.same(format_args!("cp_slack({port}, {duration}) {how}"), got, want);
        let mut lists = [[0; 48], [0; 48]];
        let (got, want) = (ffi::gates(other, *duration, 2, 3, &mut lists[0]), ffi::gates(one, *duration, 2, 3, &mut lists[1]));
        tally.same(format_args!("cp_gates({duration}, 2, 3) {how}"), got, want);
        tally.same(format_args!("list of cp_gates({duration}, 2, 3) {how}"), lists[0], lists[1]);
    }
    for duration in [1, rng.pick(&asked)] {
        tally.same(format_args!("cp_span({duration}) {how}"), ffi::span(other, duration), ffi::span(one, duration));
    }
    let mut spans = [[SpanRecord { first: 7, last: 8 }; 40]; 2];
    let (got, want) = (ffi::spans(other, &mut spans[0]), ffi::spans(one, &mut spans[1]));
    tally.same(format_args!("cp_spans {how}"), (got, spans[0]), (want, spans[1]));
    let (start, steps) = (rng.pick(&asked), rng.pick(&[0, 8, 16]));
    let (got, want) = (ffi::fixed_point(other, start, steps), ffi::fixed_point(one, start, steps));
    tally.same(format_args!("cp_fixed_point({start}, {steps}) {how}"), got, want);
    let mut scratches = [[steps; 70], [steps; 70]];
    let (got, want) = (ffi::least(other, &mut scratches[0]), ffi::least(one, &mut scratches[1]));
    tally.same(format_args!("cp_least {how}"), got, want);
    tally.same(format_args!("scratch after cp_least {how}"), scratches[0], scratches[1]);
    let (got, want) = (ffi::margin_safe(other, &mut scratches[0]), ffi::margin_safe(one, &mut scratches[1]));
    tally.same(format_args!("cp_margin_safe {how}"), got, want);
    tally.same(format_args!("scratch after cp_margin_safe {how}"), scratches[0], scratches[1]);
    for (call, ask) in [("cp_lean_least", ffi::lean_least as Search), ("cp_lean_margin_safe", ffi::lean_margin_safe as Search)] {
        let (got, want) = (ask(other, &mut scratches[0][..1]), ask(one, &mut scratches[1][..1]));
        tally.same(format_args!("{call} {how}"), (got, scratches[0][0]), (want, scratches[1][0]));
    }
    let (flow, mut lists) = (some_flow(plan, rng), [[3; 64], [3; 64]]);
    let (got, want) = (ffi::reprice(other, plan.top, flow, 1_000, &mut lists[0]), ffi::reprice(one, plan.top, flow, 1_000, &mut lists[1]));
    tally.same(format_args!("cp_reprice(top, {flow}, 1000) {how}"), (got, lists[0]), (want, lists[1]));
}
