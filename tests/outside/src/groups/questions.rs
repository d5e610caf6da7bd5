//! The plain question and the spare at boundary durations and at every port.

use super::clocks::{with_all, with_clocks};
use super::extra::with_extra;
use super::jitter::with_jitter;
use super::known::K;
use super::{ask_check, ask_slack, durations, some_ports, span_ends};
use crate::answers::Planner;
use crate::ffi;
use crate::gen::{self, encode};
use crate::model::read::read;
use crate::model::spans::spans;
use crate::model::Plan;
use crate::report::Tally;
use std::ops::Range;

/// K, or K with fields of document 02, at every duration around its gaps, and at many others.
fn all_of(tally: &mut Tally, bytes: &[u8], near: Range<u64>) {
    tally.case(0, bytes);
    let plan = read(bytes).expect("a plan");
    let planner = ffi::load(&ffi::empty(), bytes).0;
    for duration in near.clone().chain((0..1_000_100).step_by(97).filter(|duration| !near.contains(duration))) {
        ask_check(tally, &planner, Some(&plan), duration);
        ask_slack(tally, &planner, Some(&plan), 1, duration);
    }
}

/// A plan at every duration up to past its top.
fn every_duration(tally: &mut Tally, planner: &Planner, plan: &Plan) {
    for duration in 0..=plan.top + 2 {
        ask_check(tally, planner, Some(plan), duration);
    }
}

pub fn run(tally: &mut Tally) {
    let empty = ffi::empty();
    all_of(tally, &K, 71_900..143_000);
    all_of(tally, &with_extra(32, false), 77_000..228_000);
    all_of(tally, &with_jitter(1, 30_000, false), 69_900..143_000);
    all_of(tally, &with_jitter(2, 38_000, false), 71_900..213_000);
    all_of(tally, &with_clocks(100, 2, 1_000, false), 99_900..143_000);
    all_of(tally, &with_all(), 99_600..228_000);
    for duration in [0, 1, 1_000, 100_000_000, 100_000_001, u64::MAX] {
        ask_check(tally, &empty, None, duration);
        for port in (0..=65).chain([u64::MAX]) {
            ask_slack(tally, &empty, None, port, duration);
        }
    }
    for case in 0..tally.cases {
        let mut rng = tally.rng(case);
        let bytes = encode(&gen::plan(&mut rng));
        tally.case(case, &bytes);
        let plan = read(&bytes).expect("a good plan");
        let planner = ffi::load(&empty, &bytes).0;
        if plan.top * plan.flows.len() as u64 <= 20_000 {
            every_duration(tally, &planner, &plan);
        }
        let mut asked = durations(&plan, &mut rng);
        asked.extend(span_ends(&spans(&plan), &mut rng));
        for duration in &asked {
            ask_check(tally, &planner, Some(&plan), *duration);
            for port in some_ports(&plan, &mut rng) {
                ask_slack(tally, &planner, Some(&plan), port, *duration);
            }
        }
        for duration in [0, plan.top, plan.top + 1, rng.pick(&asked), rng.range(1, plan.top)] {
            for port in (0..=65).chain([u64::MAX]) {
                ask_slack(tally, &planner, Some(&plan), port, duration);
            }
        }
    }
    tally.must_have_seen("check", &[0, 10, 20, 21]);
    tally.must_have_seen("slack", &[0, 10, 20, 24]);
}
