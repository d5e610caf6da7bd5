//! Runs of frames: each 21 has a bad emission, and no emission is bad where a duration is accepted.

use super::{durations, span_ends, worked};
use crate::answers::Planner;
use crate::ffi;
use crate::gen::{self, encode, fit::fit, kinds, newer, Piece};
use crate::model::read::read;
use crate::model::spans::spans;
use crate::model::{Form, Plan};
use crate::report::Tally;
use crate::rng::Rng;
use crate::simulate::cuts::{self, aligned, permitted, Cut};
use crate::simulate::emissions::{gathered_at, keeps_contract, random, Emission};
use crate::simulate::{Left, Outcome, Run};

pub const FRAMES: u64 = 60_000;

/// Frames that a gathered emission has at most.
pub fn weight(plan: &Plan, duration: u64) -> u64 {
    let length = plan.clocks.widened(duration);
    plan.flows.values().map(|flow| flow.count * ((length + flow.jitter) / flow.period + 1)).sum()
}

fn may_happen(tally: &mut Tally, plan: &Plan, duration: u64, emission: &Emission, cut: &Cut) {
    tally.same(format_args!("the emission keeps the contract"), keeps_contract(plan, emission), true);
    tally.same(format_args!("the cut is permitted at {duration}"), permitted(plan, duration, emission, cut), true);
}

pub fn left_unsent(tally: &mut Tally, plan: &Plan, duration: u64, emission: &Emission, cut: &Cut) -> bool {
    may_happen(tally, plan, duration, emission, cut);
    matches!(Run::new(plan, duration, cut).follow(), Outcome::Unsent { .. })
}

/// Each failing port has an emission that leaves a frame unsent.
fn refused(tally: &mut Tally, plan: &Plan, planner: &Planner, duration: u64, lowest: u64, failing: u64) {
    let mut bad = Vec::new();
    for port in 1..=64 {
        let spare = ffi::slack(planner, port, duration);
        if spare.refusal == 0 && spare.slack < 0 {
            bad.push(port);
            let (emission, cut) = gathered_at(plan, port, duration);
            let unsent = left_unsent(tally, plan, duration, &emission, &cut);
            tally.same(format_args!("21 at {duration}: port {port} leaves a frame unsent"), unsent, true);
        }
    }
    let told = (bad.first().copied(), bad.len() as u64);
    tally.same(format_args!("21 at {duration}: failing ports"), (Some(lowest), failing), told);
}

/// Whether a frame with h ports has a delay of h - 1 to h + 1 durations, wherever in its window its sending ends.
fn timely(plan: &Plan, duration: u64, emission: &Emission, left: &Left) -> bool {
    let hops = plan.flows[&left.flow].route.len() as u64;
    let instant = emission[&left.flow][left.index];
    let (first, last) = (left.cycle * duration + plan.guard, (left.cycle + 1) * duration - plan.guard);
    instant + (hops - 1) * duration <= first && last <= instant + (hops + 1) * duration
}

pub fn all_leave(tally: &mut Tally, plan: &Plan, duration: u64, emission: &Emission, cut: &Cut) {
    may_happen(tally, plan, duration, emission, cut);
    match Run::new(plan, duration, cut).follow() {
        Outcome::Unsent { cycle, port } => {
            let sent = format!("frame unsent at port {port} in cycle {cycle} of {emission:?} in {cut:?}");
            tally.same(format_args!("accepted at {duration}"), sent, "all sent".to_string());
        }
        Outcome::AllSent(left) => {
            let frames: usize = emission.values().map(Vec::len).sum();
            tally.same(format_args!("accepted at {duration}: frames that left"), left.len(), frames);
            let hops = |flow: u64| plan.flows[&flow].route.len() as u64;
            let due = left.iter().all(|left| left.cycle == cut[&left.flow][left.index] + hops(left.flow));
            tally.same(format_args!("accepted at {duration}: each left in the cycle due"), due, true);
            if plan.clocks.are_equal() {
                let timely = left.iter().all(|left| timely(plan, duration, emission, left));
                tally.same(format_args!("accepted at {duration}: each delay is as promised"), timely, true);
            }
        }
    }
}

fn accepted(tally: &mut Tally, plan: &Plan, duration: u64, rng: &mut Rng) {
    for port in plan.ports.keys() {
        let (emission, cut) = gathered_at(plan, *port, duration);
        all_leave(tally, plan, duration, &emission, &cut);
    }
    for _ in 0..4 {
        let frames = rng.pick(&[3, 20, 200]);
        let emission = random(plan, duration, frames, rng);
        all_leave(tally, plan, duration, &emission, &aligned(&emission, duration));
        if !plan.clocks.are_equal() {
            all_leave(tally, plan, duration, &emission, &cuts::random(plan, duration, &emission, rng));
        }
    }
}

/// A plan to follow frames through, and its bytes; some have longer routes than the older form has.
pub fn some_plan(rng: &mut Rng) -> (Vec<Piece>, Vec<u8>) {
    let mut pieces = match rng.below(4) {
        0 => kinds::gaps(rng),
        1 => kinds::tight(rng),
        _ => kinds::small(rng),
    };
    let long = rng.chance(1, 4);
    if long {
        newer::lengthen(rng, &mut pieces);
    }
    gen::bound(&mut pieces, 3_000);
    if rng.chance(2, 3) {
        fit(rng, &mut pieces);
    }
    let bytes = if long { newer::encode(&newer::merged(&pieces)) } else { encode(&pieces) };
    (pieces, bytes)
}

pub fn run(tally: &mut Tally) {
    worked::run(tally);
    for case in 0..tally.cases {
        let mut rng = tally.rng(case);
        let (pieces, bytes) = some_plan(&mut rng);
        tally.case(case, &bytes);
        let plan = read(&bytes).expect("a good plan");
        let planner = ffi::load(&ffi::empty(), &bytes).0;
        let mut asked = span_ends(&spans(&plan), &mut rng);
        asked.extend(durations(&plan, &mut rng));
        rng.shuffle(&mut asked);
        asked.retain(|duration| *duration <= plan.top && weight(&plan, *duration) < FRAMES);
        for duration in asked.into_iter().take(12) {
            let answer = ffi::check(&planner, duration);
            tally.saw("check", answer.refusal);
            if plan.flows.values().any(|flow| flow.route.len() == Form::Newer.most_hops()) {
                tally.saw("check with the longest route", answer.refusal);
            }
            if gen::has_extra(&pieces) {
                tally.saw("check with extra bytes", answer.refusal);
            }
            if gen::has_jitter(&pieces) {
                tally.saw("check with jitter", answer.refusal);
            }
            match gen::clocks_kind(&pieces, plan.top) {
                0 => {}
                1 => tally.saw("check with clocks, not widened", answer.refusal),
                _ => tally.saw("check with clocks, widened", answer.refusal),
            }
            match answer.refusal {
                0 => accepted(tally, &plan, duration, &mut rng),
                21 => refused(tally, &plan, &planner, duration, answer.first, answer.second),
                other => tally.same(format_args!("cp_check({duration})"), (other, duration), (10, 0)),
            }
        }
    }
    tally.must_have_seen("check", &[0, 21]);
    tally.must_have_seen("check with the longest route", &[0, 21]);
    tally.must_have_seen("check with extra bytes", &[0, 21]);
    tally.must_have_seen("check with jitter", &[0, 21]);
    tally.must_have_seen("check with clocks, not widened", &[0, 21]);
    tally.must_have_seen("check with clocks, widened", &[0, 21]);
}
