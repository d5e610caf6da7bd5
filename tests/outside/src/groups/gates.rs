//! Gate control lists: the answer and every byte of the buffer, the list played instant by instant, and the order of the refusals.

use super::lent::lend;
use super::strict::random_planner;
use super::{durations, gates_k, span_ends};
use crate::answers::Planner;
use crate::ffi;
use crate::gen::{self, encode, short, Piece};
use crate::model::gates::gates;
use crate::model::read::read;
use crate::model::spans::{spans, Span};
use crate::model::Plan;
use crate::report::Tally;
use crate::rng::Rng;
use crate::simulate::gates::{entries, Turns};

/// Queues at the ends of what there is, and ones that look alike in fewer bits.
pub const QUEUES: [u64; 16] =
    [0, 1, 2, 3, 6, 7, 8, 9, 64, 255, 256, 258, (1 << 32) + 2, (1 << 63) + 3, u64::MAX - 1, u64::MAX];

/// The list for a duration and two queues, into a buffer of a length.
pub fn ask_gates(
    tally: &mut Tally,
    planner: &Planner,
    plan: Option<&Plan>,
    (duration, even, odd): (u64, u64, u64),
    length: usize,
    rng: &mut Rng,
) {
    let model = |buffer: &[u8]| gates(plan, duration, even, odd, buffer);
    tally.saw("gates", model(&vec![0; length]).0.refusal);
    let writer = |buffer: &mut [u8]| ffi::gates(planner, duration, even, odd, buffer);
    lend(tally, format_args!("cp_gates({duration}, {even}, {odd})"), length, rng, writer, model);
}

/// A list that is written, played at some instants or at all: each gate is as it must be, for two cycles and no longer.
fn played(tally: &mut Tally, planner: &Planner, turns: Turns, all: bool, rng: &mut Rng) {
    let mut buffer = [0; 64];
    let answer = ffi::gates(planner, turns.duration, turns.even, turns.odd, &mut buffer);
    if answer.refusal != 0 || answer.first > 64 {
        tally.same(format_args!("cp_gates writes a list of at most 64 bytes: {turns:?}, {answer:?}"), false, true);
        return;
    }
    let list = match entries(&buffer[..answer.first as usize]) {
        Some(list) => list,
        None => return tally.same(format_args!("the bytes written are fields of tag 21: {turns:?}"), false, true),
    };
    let total = list.iter().map(|entry| entry.1).sum::<u64>();
    tally.same(format_args!("the intervals' total: {turns:?}"), total, 2 * turns.duration);
    tally.same(format_args!("some interval is 0: {turns:?}"), list.iter().any(|entry| entry.1 == 0), false);
    let wrong = if all {
        turns.first_wrong(&list, 0..2 * turns.duration + 3)
    } else {
        let any: Vec<u64> = (0..20).map(|_| rng.below(2 * turns.duration)).collect();
        turns.first_wrong(&list, turns.edges().into_iter().chain(any))
    };
    tally.same(format_args!("first instant at which a gate is wrong: {turns:?}"), wrong, None);
}

/// Two queues that there are.
fn queues(rng: &mut Rng) -> (u64, u64) {
    let even = rng.below(8);
    (even, (even + rng.range(1, 7)) % 8)
}

/// Every pair of queues of 0 to 9 and of the larger ones, at one duration.
fn pairs(tally: &mut Tally, planner: &Planner, plan: &Plan, duration: u64, rng: &mut Rng) {
    for even in (0..10).chain(QUEUES) {
        for odd in (0..10).chain(QUEUES) {
            let length = rng.pick(&[0, 16, 47, 48, 60]);
            ask_gates(tally, planner, Some(plan), (duration, even, odd), length, rng);
            if even < 8 && odd < 8 && even != odd && plan.in_reach(duration) && plan.failing(duration).is_empty() {
                played(tally, planner, Turns { duration, guard: plan.guard, even, odd }, false, rng);
            }
        }
    }
}

/// Durations of any kind, each with some queues and buffers around the length needed.
fn ask_some(tally: &mut Tally, planner: &Planner, plan: &Plan, spans: &[Span], rng: &mut Rng) {
    let mut asked = durations(plan, rng);
    asked.extend(span_ends(spans, rng));
    let needed: usize = if plan.guard > 0 { 48 } else { 16 };
    for duration in asked {
        let (even, odd) = if rng.chance(1, 3) { (rng.pick(&QUEUES), rng.pick(&QUEUES)) } else { queues(rng) };
        for length in [needed - 1, needed, needed + 1, rng.index(needed), needed + rng.index(100)] {
            ask_gates(tally, planner, Some(plan), (duration, even, odd), length, rng);
        }
    }
}

fn loaded(tally: &mut Tally, case: u64, pieces: &[Piece]) -> (Plan, Planner, Vec<Span>) {
    let bytes = encode(pieces);
    tally.case(case, &bytes);
    let plan = read(&bytes).expect("a good plan");
    let found = spans(&plan);
    (plan, ffi::load(&ffi::empty(), &bytes).0, found)
}

/// Plans with short durations: many of the admissible ones played at every instant.
fn short_plans(tally: &mut Tally) {
    for case in 0..tally.cases / 4 + 1 {
        let mut rng = tally.rng(1 << 40 | case);
        let (plan, planner, found) = loaded(tally, case, &short::plan(&mut rng));
        tally.saw("short plans, 1 with a guard band", u32::from(plan.guard > 0));
        let mut asked = span_ends(&found, &mut rng);
        asked.extend((0..20).map(|_| rng.range(1, plan.top)));
        for duration in asked.into_iter().filter(|duration| plan.in_reach(*duration) && plan.failing(*duration).is_empty()) {
            let (even, odd) = queues(&mut rng);
            played(tally, &planner, Turns { duration, guard: plan.guard, even, odd }, true, &mut rng);
            tally.saw("short lists played, by guard bands", u32::from(plan.guard > 0));
        }
        ask_some(tally, &planner, &plan, &found, &mut rng);
    }
}

/// Planners that hold no plan: 20, whatever else is asked.
fn no_plan(tally: &mut Tally) {
    let mut rng = tally.rng(u64::MAX);
    for planner in [ffi::empty(), random_planner(&mut rng)] {
        tally.case(0, &planner.to_bytes());
        for duration in [0, 1, 100_000, u64::MAX] {
            for queues in [(2, 3), (8, 3), (2, 2), (u64::MAX, 0)] {
                for length in [0, 16, 48, 100] {
                    ask_gates(tally, &planner, None, (duration, queues.0, queues.1), length, &mut rng);
                }
            }
        }
    }
}

pub fn run(tally: &mut Tally) {
    gates_k::run(tally);
    no_plan(tally);
    short_plans(tally);
    for case in 0..tally.cases {
        let mut rng = tally.rng(case);
        let (plan, planner, found) = loaded(tally, case, &gen::plan(&mut rng));
        ask_some(tally, &planner, &plan, &found, &mut rng);
        for duration in span_ends(&found, &mut rng) {
            if plan.in_reach(duration) && plan.failing(duration).is_empty() {
                let (even, odd) = queues(&mut rng);
                played(tally, &planner, Turns { duration, guard: plan.guard, even, odd }, false, &mut rng);
            }
        }
        if case % 20 == 0 {
            let duration = found.first().map_or(plan.top, |span| span.0);
            pairs(tally, &planner, &plan, duration, &mut rng);
        }
    }
    tally.must_have_seen("gates", &[0, 10, 13, 18, 20, 21]);
    tally.must_have_seen("short plans, 1 with a guard band", &[0, 1]);
    tally.must_have_seen("short lists played, by guard bands", &[0, 1]);
}
