//! The nearest durations: those of the model, and that the plain question admits them and nothing between.

use super::durations;
use super::known::{with_top, K};
use super::strict::random_planner;
use crate::answers::{Answer, Planner};
use crate::ffi;
use crate::gen::{self, comb, damage, encode, laden, short, Piece};
use crate::model::nearest::{nearest, tried};
use crate::model::read::read;
use crate::model::spans::{spans, Span};
use crate::model::Plan;
use crate::report::Tally;
use crate::rng::Rng;

/// A duration of K, then the refusal, the nearest below and above; 0 for none.
const ROWS: [(u64, u32, u64, u64); 13] = [
    (1, 0, 0, 72_000),
    (71_999, 0, 0, 72_000),
    (72_000, 0, 72_000, 72_000),
    (100_000, 0, 100_000, 100_000),
    (110_000, 0, 110_000, 110_000),
    (110_001, 0, 110_000, 142_000),
    (120_000, 0, 110_000, 142_000),
    (141_999, 0, 110_000, 142_000),
    (142_000, 0, 142_000, 142_000),
    (1_000_000, 0, 1_000_000, 1_000_000),
    (0, 10, 0, 0),
    (1_000_001, 10, 0, 0),
    (u64::MAX, 10, 0, 0),
];

fn ask(tally: &mut Tally, planner: &Planner, held: Option<(&Plan, &[Span])>, duration: u64) {
    let want = nearest(held, duration);
    tally.saw("nearest", want.refusal);
    if want.refusal == 0 {
        tally.saw("none: 1 below, 2 above", u32::from(want.first == 0) + 2 * u32::from(want.second == 0));
    }
    tally.same(format_args!("cp_nearest({duration})"), ffi::nearest(planner, duration), want);
}

/// The plain question admits what is told, and neither what lies next to it nor halfway on the way from the duration.
fn as_checked(tally: &mut Tally, planner: &Planner, plan: &Plan, duration: u64) {
    if !plan.in_reach(duration) {
        return;
    }
    let admits = |one: u64| ffi::check(planner, one).refusal == 0;
    let told = ffi::nearest(planner, duration);
    let (below, above) = (told.first, if told.second == 0 { plan.top + 1 } else { told.second });
    tally.same(format_args!("both of cp_nearest({duration}) where cp_check admits it"), admits(duration), below == duration && above == duration);
    for one in [told.first, told.second] {
        tally.same(format_args!("cp_check({one}) as cp_nearest({duration}) says"), one == 0 || admits(one), true);
    }
    for one in [below + 1, (below + duration + 1) / 2, duration, (duration + above) / 2, above - 1] {
        if below < one && one < above && one >= 1 {
            tally.same(format_args!("cp_check({one}) between those of cp_nearest({duration})"), admits(one), false);
        }
    }
}

/// Durations around the ends of some spans, at the ends of what is allowed, and where a demand rises.
fn asked(plan: &Plan, found: &[Span], rng: &mut Rng) -> Vec<u64> {
    let mut asked = durations(plan, rng);
    for _ in 0..found.len().min(6) {
        let (first, last) = rng.pick(found);
        asked.extend([first - 1, first, first + 1, last - 1, last, last + 1, (first + last) / 2]);
    }
    asked
}

fn one_plan(tally: &mut Tally, case: u64, pieces: &[Piece], rng: &mut Rng) -> Vec<Span> {
    let bytes = encode(pieces);
    tally.case(case, &bytes);
    let plan = read(&bytes).expect("a good plan");
    let planner = ffi::load(&ffi::empty(), &bytes).0;
    let found = spans(&plan);
    for duration in asked(&plan, &found, rng) {
        ask(tally, &planner, Some((&plan, &found)), duration);
        as_checked(tally, &planner, &plan, duration);
    }
    found
}

/// Tops at the ends of a span and next to them.
fn other_tops(tally: &mut Tally, case: u64, pieces: &[Piece], found: &[Span], rng: &mut Rng) {
    if found.is_empty() {
        return;
    }
    let (first, last) = rng.pick(found);
    for top in [first - 1, first, last, last + 1] {
        if (1..=100_000_000).contains(&top) {
            let mut other = pieces.to_vec();
            gen::set_top(&mut other, top);
            one_plan(tally, case, &other, rng);
        }
    }
}

/// Plans of small tops: every duration is asked, and the nearest are those of a trial of each.
fn small_tops(tally: &mut Tally) {
    for case in 0..tally.cases / 4 + 1 {
        let mut rng = tally.rng(1 << 40 | case);
        let bytes = encode(&short::plan(&mut rng));
        tally.case(case, &bytes);
        let (plan, planner) = (read(&bytes).expect("a good plan"), ffi::load(&ffi::empty(), &bytes).0);
        let found = spans(&plan);
        for (duration, by_trial) in (0..).zip(tried(&plan)) {
            ask(tally, &planner, Some((&plan, &found)), duration);
            tally.same(format_args!("model: {duration} by trial"), by_trial, nearest(Some((&plan, &found)), duration));
        }
    }
}

/// A load that is refused between questions changes nothing.
fn after_refused_loads(tally: &mut Tally, case: u64, good: &[Piece], rng: &mut Rng) {
    let bytes = encode(good);
    let (plan, mut planner) = (read(&bytes).expect("a good plan"), ffi::load(&ffi::empty(), &bytes).0);
    let found = spans(&plan);
    for _ in 0..2 {
        let bad = damage::damaged(rng, good);
        tally.case(case, &bad);
        if read(&bad).is_err() {
            planner = ffi::load(&planner, &bad).0;
            ask(tally, &planner, Some((&plan, &found)), rng.range(1, plan.top));
        }
    }
}

fn no_plan(tally: &mut Tally) {
    let mut rng = tally.rng(u64::MAX);
    for planner in [ffi::empty(), random_planner(&mut rng)] {
        tally.case(0, &planner.to_bytes());
        for duration in [0, 1, 72_000, 100_000_000, 100_000_001, u64::MAX] {
            ask(tally, &planner, None, duration);
        }
    }
}

/// K, and K with a top below its first span and in its gap.
fn of_k(tally: &mut Tally) {
    tally.case(0, &K);
    let planner = ffi::load(&ffi::empty(), &K).0;
    for (duration, refusal, below, above) in ROWS {
        tally.same(format_args!("cp_nearest of K at {duration}"), ffi::nearest(&planner, duration), Answer::new(refusal, below, above));
    }
    for (top, duration, below) in [(50_000, 50_000, 0), (120_000, 120_000, 110_000), (120_000, 110_001, 110_000)] {
        let bytes = with_top(top);
        tally.case(0, &bytes);
        let planner = ffi::load(&ffi::empty(), &bytes).0;
        tally.same(format_args!("cp_nearest of K with top {top} at {duration}"), ffi::nearest(&planner, duration), Answer::new(0, below, 0));
    }
}

pub fn run(tally: &mut Tally) {
    of_k(tally);
    no_plan(tally);
    small_tops(tally);
    for case in 0..tally.cases {
        let mut rng = tally.rng(case);
        let pieces = if rng.chance(1, 4) { comb::plan(&mut rng) } else { gen::plan(&mut rng) };
        let found = one_plan(tally, case, &pieces, &mut rng);
        other_tops(tally, case, &pieces, &found, &mut rng);
        after_refused_loads(tally, case, &pieces, &mut rng);
    }
    for case in 0..tally.cases / 30 + 1 {
        let mut rng = tally.rng(1 << 41 | case);
        one_plan(tally, case, &laden::plan(&mut rng), &mut rng);
    }
    tally.must_have_seen("nearest", &[0, 10, 20]);
    tally.must_have_seen("none: 1 below, 2 above", &[0, 1, 2, 3]);
}
