//! Emissions on K, and their cuts into cycles, worked out by hand.

use super::clocks::with_clocks;
use super::jitter::with_jitter;
use super::known::K;
use super::runs::{all_leave, left_unsent};
use crate::answers::Answer;
use crate::ffi;
use crate::gen::newer::{encode, Field};
use crate::model::read::read;
use crate::model::Plan;
use crate::report::Tally;
use crate::simulate::cuts::{aligned, permitted, Cut};
use crate::simulate::emissions::{keeps_contract, nominals, Emission};
use crate::simulate::{Outcome, Run};

fn emission(one: &[u64], two: &[u64]) -> Emission {
    Emission::from([(1, one.to_vec()), (2, two.to_vec())])
}

/// K with 38,000 of jitter for flow 2, at 72,001: flow 2 may come at 0 and 72,000, due at -38,000 and 72,000 and at no other
/// instants, and then a frame is left unsent. One ns earlier it may not come, nor may it without the jitter.
fn late(tally: &mut Tally) {
    let bytes = with_jitter(2, 38_000, false);
    tally.case(0, &bytes);
    let plan = read(&bytes).expect("a plan");
    let due = nominals(&plan.flows[&2], &[0, 72_000]);
    tally.same(format_args!("the worked nominal instants"), due, Some(vec![-38_000, 72_000]));
    let bad = emission(&[0], &[0, 72_000]);
    let unsent = left_unsent(tally, &plan, 72_001, &bad, &aligned(&bad, 72_001));
    tally.same(format_args!("the worked emission leaves a frame unsent at 72,001"), unsent, true);
    all_leave(tally, &plan, 72_000, &bad, &aligned(&bad, 72_000));
    tally.same(format_args!("1 ns earlier"), keeps_contract(&plan, &emission(&[0], &[0, 71_999])), false);
    let k = read(&K).expect("K is a plan");
    tally.same(format_args!("K: 72,000 after"), keeps_contract(&k, &bad), false);
    tally.same(format_args!("K: a period after"), keeps_contract(&k, &emission(&[0], &[0, 110_000])), true);
    tally.same(format_args!("K: 1 ns less than a period after"), keeps_contract(&k, &emission(&[0], &[0, 109_999])), false);
}

/// K with clocks of 1,000, 1,000 and 5,000 at 109,000, which they widen to 110,109: two frames of each flow in one cycle are too
/// many, and the same frames in the aligned cycles are not.
fn widened(tally: &mut Tally) {
    let bytes = with_clocks(1_000, 1_000, 5_000, false);
    tally.case(0, &bytes);
    let plan = read(&bytes).expect("a plan");
    tally.same(format_args!("109,000 widened"), plan.clocks.widened(109_000), 110_109);
    let bad = emission(&[0, 100_000], &[0, 110_000]);
    let unsent = left_unsent(tally, &plan, 109_000, &bad, &Cut::from([(1, vec![0, 0]), (2, vec![0, 0])]));
    tally.same(format_args!("the worked cut leaves a frame unsent at 109,000"), unsent, true);
    all_leave(tally, &plan, 109_000, &bad, &aligned(&bad, 109_000));
}

/// Which cycles of flow 1 are permitted at 142,000.
fn may_cut(tally: &mut Tally, plan: &Plan, instants: &[u64], cycles: &[u64], want: bool) {
    let (emission, cut) = (Emission::from([(1, instants.to_vec())]), Cut::from([(1, cycles.to_vec())]));
    let got = permitted(plan, 142_000, &emission, &cut);
    tally.same(format_args!("{instants:?} in cycles {cycles:?} of {:?}", plan.clocks), got, want);
}

/// Clocks that widen no duration let cycles be cut elsewhere all the same; K's own do not.
fn permitted_cuts(tally: &mut Tally) {
    for (drift, timing_jitter, sync_error) in [(0, 0, 5_000), (1_000, 1_000, 0)] {
        let bytes = with_clocks(drift, timing_jitter, sync_error, false);
        tally.case(0, &bytes);
        let plan = read(&bytes).expect("a plan");
        tally.same(format_args!("142,000 widened"), plan.clocks.widened(142_000), 142_000);
        may_cut(tally, &plan, &[100_000, 200_000], &[0, 1], true);
        may_cut(tally, &plan, &[100_000, 200_000], &[0, 0], true);
        may_cut(tally, &plan, &[100_000, 200_000], &[5, 9], true);
        may_cut(tally, &plan, &[100_000, 241_999], &[3, 3], true);
        may_cut(tally, &plan, &[100_000, 242_000], &[3, 3], false);
        may_cut(tally, &plan, &[0, 100_000, 200_000], &[0, 0, 0], false);
        may_cut(tally, &plan, &[0, 100_000, 200_000], &[0, 0, 1], true);
        may_cut(tally, &plan, &[0, 100_000, 200_000], &[0, 1, 1], true);
        may_cut(tally, &plan, &[0, 100_000, 200_000], &[0, 1, 0], false);
        may_cut(tally, &plan, &[100_000, 200_000], &[1, 0], false);
        may_cut(tally, &plan, &[100_000, 200_000], &[0], false);
        may_cut(tally, &plan, &[100_000, 200_000], &[0, 0, 0], false);
    }
    let k = read(&K).expect("K is a plan");
    may_cut(tally, &k, &[100_000, 200_000], &[0, 1], true);
    may_cut(tally, &k, &[100_000, 200_000], &[0, 0], false);
    may_cut(tally, &k, &[100_000, 200_000], &[1, 2], false);
    may_cut(tally, &k, &[0, 141_999, 142_000], &[0, 0, 1], true);
}

/// A flow over 24 ports: a frame leaves the last one in the 24th cycle after its own. 22,000 is just enough for its 2,000 wire bits.
fn over_24_ports(tally: &mut Tally) {
    let mut fields = vec![Field::new(0x11, &[(1_000, 4), (1_000_000, 4), (0, 4), (0, 4), (0, 4)])];
    fields.extend((1..=24).map(|number| Field::new(0x12, &[(number, 2), (100, 4), (0, 2), (0, 2)])));
    let mut numbers = vec![(1, 2), (100_000, 4), (1, 2), (230, 2), (0, 4)];
    numbers.extend((1..=24).rev().map(|port| (port, 2)));
    fields.push(Field::new(0x13, &numbers));
    let bytes = encode(&fields);
    tally.case(0, &bytes);
    let (plan, planner) = (read(&bytes).expect("a plan"), ffi::load(&ffi::empty(), &bytes).0);
    tally.same(format_args!("22,000"), ffi::check(&planner, 22_000), Answer::new(0, 0, 0));
    tally.same(format_args!("21,999"), ffi::check(&planner, 21_999), Answer::new(21, 1, 24));
    let emission = Emission::from([(1, vec![0, 100_000])]);
    let cut = aligned(&emission, 22_000);
    all_leave(tally, &plan, 22_000, &emission, &cut);
    let left = match Run::new(&plan, 22_000, &cut).follow() {
        Outcome::AllSent(left) => left.iter().map(|left| left.cycle).collect(),
        Outcome::Unsent { .. } => Vec::new(),
    };
    tally.same(format_args!("the cycles in which frames of cycles 0 and 4 leave"), left, vec![24, 28]);
    let unsent = left_unsent(tally, &plan, 21_999, &emission, &aligned(&emission, 21_999));
    tally.same(format_args!("21,999 leaves a frame unsent"), unsent, true);
}

pub fn run(tally: &mut Tally) {
    over_24_ports(tally);
    late(tally);
    widened(tally);
    permitted_cuts(tally);
}
