//! K with another length for one of its flows, worked out by hand; and the order of the refusals.

use super::clocks::with_all;
use super::known::K;
use super::reprice::ask_reprice;
use crate::answers::Answer;
use crate::ffi;
use crate::model::read::read;
use crate::model::reprice::reprice;
use crate::report::Tally;

/// A duration, a flow and its length, then the spare of port 1.
const SPARES: [(u64, u64, u64, i64); 10] = [
    (100_000, 1, 230, 2_800_000),
    (100_000, 1, 231, 2_792_000),
    (100_000, 1, 229, 2_808_000),
    (100_000, 2, 705, 2_000_000),
    (100_000, 2, 64, 7_128_000),
    (100_000, 2, 2_000, -8_360_000),
    (72_000, 1, 231, -8_000),
    (120_000, 2, 605, -2_200_000),
    (120_000, 2, 500, -520_000),
    (120_000, 1, 231, -2_216_000),
];

/// A duration, a flow, its length and the size of the list, then the refusal.
const REFUSALS: [(u64, u64, u64, usize, u32); 24] = [
    (0, 1, 231, 64, 10),
    (1_000_001, 1, 231, 64, 10),
    (u64::MAX, 1, 231, 64, 10),
    ((1 << 32) + 100_000, 1, 231, 64, 10),
    (0, 0, 0, 0, 10),
    (100_000, 1, 231, 63, 11),
    (100_000, 1, 231, 0, 11),
    (100_000, 1, 63, 63, 11),
    (100_000, 3, 231, 63, 11),
    (100_000, 0, 0, 0, 11),
    (100_000, 1, 63, 64, 17),
    (100_000, 1, 2_001, 64, 17),
    (100_000, 1, 0, 64, 17),
    (100_000, 1, 65_536 + 231, 64, 17),
    (100_000, 1, u64::MAX, 64, 17),
    (100_000, 3, 63, 64, 17),
    (100_000, 0, 2_001, 100, 17),
    (100_000, 0, 231, 64, 29),
    (100_000, 3, 231, 64, 29),
    (100_000, 256, 231, 64, 29),
    (100_000, 257, 231, 64, 29),
    (100_000, 65_537, 231, 64, 29),
    (100_000, (1 << 32) + 1, 231, 64, 29),
    (100_000, u64::MAX, 231, 64, 29),
];

/// Both bounds on a spare in more ns are met: by K from 72,000 to 100,000, and by its first flow alone, where there is no window.
fn bounds_met(tally: &mut Tally) {
    let mut one_flow = K[..37].to_vec();
    one_flow[3..7].copy_from_slice(&500_000u32.to_be_bytes());
    for (bytes, from, to, rise) in [(K.to_vec(), 72_000, 100_000, 2_800_000), (one_flow, 100_000, 100_001, -2_000_000)] {
        tally.case(0, &bytes);
        let planner = ffi::load(&ffi::empty(), &bytes).0;
        let got = ffi::slack(&planner, 1, to).slack - ffi::slack(&planner, 1, from).slack;
        tally.same(format_args!("the spare of port 1 from {from} to {to}"), got, rise);
    }
}

pub fn run(tally: &mut Tally) {
    bounds_met(tally);
    tally.case(0, &K);
    let (plan, planner) = (read(&K).expect("a plan"), ffi::load(&ffi::empty(), &K).0);
    for (duration, flow, length, spare) in SPARES {
        for size in [64, 65, 100] {
            let mut list: Vec<i64> = (0..size).map(|place| -1_000 - place).collect();
            let mut want = list.clone();
            want[0] = spare;
            let model = reprice(Some(&plan), duration, flow, length, &list);
            let got = ffi::reprice(&planner, duration, flow, length, &mut list);
            tally.same(format_args!("cp_reprice({duration}, {flow}, {length})"), got, Answer::new(0, 0, 0));
            tally.same(format_args!("the list after cp_reprice({duration}, {flow}, {length})"), &list, &want);
            tally.same(format_args!("model: ({duration}, {flow}, {length})"), &model.1, &want);
        }
    }
    for (duration, flow, length, size, refusal) in REFUSALS {
        let mut list = vec![7; size];
        let got = ffi::reprice(&planner, duration, flow, length, &mut list);
        tally.same(format_args!("cp_reprice({duration}, {flow}, {length}), list of {size}"), got, Answer::refused(refusal));
        tally.same(format_args!("the list after it"), &list, &vec![7; size]);
        let model = reprice(Some(&plan), duration, flow, length, &list).0;
        tally.same(format_args!("model: ({duration}, {flow}, {length})"), model, Answer::refused(refusal));
        let none = ffi::reprice(&ffi::empty(), duration, flow, length, &mut list);
        tally.same(format_args!("cp_reprice without a plan"), none, Answer::refused(20));
    }
    let (all, mut rng) = (with_all(), tally.rng(1 << 50));
    tally.case(0, &all);
    let (plan, planner) = (read(&all).expect("a plan"), ffi::load(&ffi::empty(), &all).0);
    for duration in (1..=1_000_000).step_by(997) {
        for length in [64, 230, 605, 2_000] {
            for flow in [1, 2] {
                ask_reprice(tally, &planner, Some(&plan), (duration, flow, length), 64, &mut rng);
            }
        }
    }
}
