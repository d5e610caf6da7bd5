//! Another frame length for one flow: the answer and every number of the list, what a fresh load of the changed plan answers, and
//! what a byte more or some ns more change.

use super::strict::random_planner;
use super::{durations, reprice_k, span_ends};
use crate::answers::Planner;
use crate::ffi;
use crate::gen::{self, encode, laden, Piece};
use crate::model::read::read;
use crate::model::reprice::{relengthed, reprice};
use crate::model::save::written;
use crate::model::spans::spans;
use crate::model::tables::tables_of;
use crate::model::Plan;
use crate::report::Tally;
use crate::rng::Rng;

/// Lengths at the ends of what is allowed, and ones that look alike in fewer bits.
pub const FRAMES: [u64; 12] = [0, 63, 64, 65, 1_500, 1_999, 2_000, 2_001, 65_536 + 64, (1 << 32) + 64, 1 << 63, u64::MAX];

/// Numbers that are not lent, before and behind the list.
const AROUND: usize = 8;

/// A question on a list of a size, amid numbers that are not lent.
pub fn ask_reprice(tally: &mut Tally, planner: &Planner, plan: Option<&Plan>, asked: (u64, u64, u64), size: usize, rng: &mut Rng) {
    let (duration, flow, length) = asked;
    let before: Vec<i64> = (0..size + 2 * AROUND).map(|_| rng.next() as i64).collect();
    let lent = AROUND..AROUND + size;
    let (want, list) = reprice(plan, duration, flow, length, &before[lent.clone()]);
    tally.saw("reprice", want.refusal);
    let mut expected = before.clone();
    expected[lent.clone()].copy_from_slice(&list);
    let mut memory = before;
    let got = ffi::reprice(planner, duration, flow, length, &mut memory[lent]);
    tally.same(format_args!("cp_reprice({duration}, {flow}, {length}), list of {size}"), got, want);
    let other = (0..memory.len()).find(|place| memory[*place] != expected[*place]).map(|place| place as isize - AROUND as isize);
    tally.same(format_args!("first number that differs after cp_reprice({duration}, {flow}, {length}), list of {size}"), other, None);
}

/// A flow of the plan, or now and then one that it lacks.
pub fn some_flow(plan: &Plan, rng: &mut Rng) -> u64 {
    let present: Vec<u64> = plan.flows.keys().copied().collect();
    let one = rng.pick(&present);
    match rng.below(8) {
        0 => rng.pick(&[0, 1, 256, 257, 65_536 + one, (1 << 32) + one, u64::MAX]),
        1 => rng.range(1, 256),
        _ => one,
    }
}

/// A length that is allowed.
fn frame(rng: &mut Rng) -> u64 {
    if rng.chance(1, 3) {
        return rng.pick(&[64, 65, 1_999, 2_000]);
    }
    rng.range(64, 2_000)
}

/// The list with the spare of each crossed port at a duration, by the planner itself.
fn slacks(planner: &Planner, plan: &Plan, duration: u64) -> Vec<i64> {
    (1..=70).map(|port| if plan.crossed(port) { ffi::slack(planner, port, duration).slack } else { -7 }).collect()
}

/// A list that held the plan's spares holds those of a fresh load of the changed plan, in either reading.
fn fresh(tally: &mut Tally, planner: &Planner, plan: &Plan, (duration, flow, length): (u64, u64, u64)) {
    let mut list = slacks(planner, plan, duration);
    let held = planner.to_bytes();
    let answer = ffi::reprice(planner, duration, flow, length, &mut list);
    tally.same(format_args!("cp_reprice({duration}, {flow}, {length})"), answer.refusal, 0);
    tally.same(format_args!("the planner remains"), planner.to_bytes() == held, true);
    let other = relengthed(plan, flow, length);
    for load in [ffi::load, ffi::load_strict] {
        let (loaded, answer) = load(&ffi::empty(), &written(&other));
        tally.same(format_args!("the load of the plan so changed"), answer.refusal, 0);
        tally.same(format_args!("its tables"), loaded.differs(&tables_of(&other)), None);
        let want = slacks(&loaded, &other, duration);
        tally.same(format_args!("the list after cp_reprice({duration}, {flow}, {length})"), &list, &want);
    }
}

/// Each byte more lowers each spare on the route by 8,000 times the frames that the flow brings.
fn per_byte(tally: &mut Tally, planner: &Planner, plan: &Plan, (duration, number, length): (u64, u64, u64), longer: u64) {
    let flow = &plan.flows[&number];
    let frames = flow.frames_over(plan.clocks.widened(duration));
    let (mut one, mut other) = ([1; 64], [1; 64]);
    ffi::reprice(planner, duration, number, length, &mut one);
    ffi::reprice(planner, duration, number, longer, &mut other);
    let lower = |port: &u64| i128::from(one[*port as usize - 1]) - i128::from(other[*port as usize - 1]);
    let want = |port: &u64| match flow.route.contains(port) {
        true => 8_000 * i128::from(frames) * i128::from(longer - length),
        false => 0,
    };
    let differs = (1..=64).find(|port| lower(port) != want(port));
    tally.same(format_args!("first wrong port, flow {number} of {longer} bytes and not {length}, at {duration}"), differs, None);
}

/// By how much at most the demand of a port grows in so many ns.
fn growth(plan: &Plan, port: u64, more: u64) -> u64 {
    let drifted = (more * plan.clocks.drift + 999_999) / 1_000_000;
    let at = &plan.ports[&port];
    let of_flow = |flow: &&crate::model::Flow| at.wire_bits(flow.length) * flow.count * ((more + drifted + flow.period - 1) / flow.period);
    plan.flows.values().filter(|flow| flow.route.contains(&port)).map(|flow| of_flow(&flow)).sum()
}

/// A spare at two durations stays within its bounds.
fn longer(tally: &mut Tally, planner: &Planner, plan: &Plan, port: u64, (from, to): (u64, u64)) {
    let (one, other) = (ffi::slack(planner, port, from).slack, ffi::slack(planner, port, to).slack);
    let rise = i128::from(other) - i128::from(one);
    let most = i128::from(plan.ports[&port].rate) * i128::from(to - from);
    let least = -1_000 * i128::from(growth(plan, port, to - from));
    tally.same(format_args!("port {port}: {rise} from {from} to {to} is from {least} to {most}"), (least..=most).contains(&rise), true);
    if to > from {
        tally.saw("a spare in more ns, 1 falls, 2 rises as far as it may", if rise == most { 2 } else { u32::from(rise < 0) });
    }
}

/// Durations of any kind, each with some flows, lengths and lists.
fn ask_some(tally: &mut Tally, case: u64, pieces: &[Piece], rng: &mut Rng) {
    let bytes = encode(pieces);
    tally.case(case, &bytes);
    let plan = read(&bytes).expect("a good plan");
    let planner = ffi::load(&ffi::empty(), &bytes).0;
    let mut asked = durations(&plan, rng);
    asked.extend(span_ends(&spans(&plan), rng));
    for duration in asked {
        let size = rng.pick(&super::LENGTHS);
        let length = if rng.chance(1, 3) { rng.pick(&FRAMES) } else { frame(rng) };
        for size in [64, size] {
            ask_reprice(tally, &planner, Some(&plan), (duration, some_flow(&plan, rng), length), size, rng);
        }
        if !plan.in_reach(duration) {
            continue;
        }
        let flows: Vec<u64> = plan.flows.keys().copied().collect();
        let flow = rng.pick(&flows);
        tally.saw("ports of a route that is asked about", plan.flows[&flow].route.len() as u32);
        fresh(tally, &planner, &plan, (duration, flow, length.clamp(64, 2_000)));
        let (one, other) = (frame(rng), frame(rng));
        per_byte(tally, &planner, &plan, (duration, flow, one.min(other)), one.max(other));
        let to = rng.range(duration, plan.top);
        longer(tally, &planner, &plan, rng.pick(&plan.flows[&flow].route), (duration, to));
    }
}

/// Planners that hold no plan: 20, whatever else is asked.
fn no_plan(tally: &mut Tally) {
    let mut rng = tally.rng(u64::MAX);
    for planner in [ffi::empty(), random_planner(&mut rng)] {
        tally.case(0, &planner.to_bytes());
        for duration in [0, 1, 100_000, u64::MAX] {
            for flow in [0, 1, 256, u64::MAX] {
                for length in [0, 64, 2_001] {
                    for size in [0, 63, 64, 100] {
                        ask_reprice(tally, &planner, None, (duration, flow, length), size, &mut rng);
                    }
                }
            }
        }
    }
}

pub fn run(tally: &mut Tally) {
    reprice_k::run(tally);
    no_plan(tally);
    for case in 0..tally.cases {
        let mut rng = tally.rng(case);
        let pieces = gen::plan(&mut rng);
        tally.saw("extra bytes, 1 for some", u32::from(gen::has_extra(&pieces)));
        tally.saw("jitter, 1 for some", u32::from(gen::has_jitter(&pieces)));
        tally.saw("clocks, 2 where they widen", gen::clocks_kind(&pieces, u64::from(u32::MAX)));
        ask_some(tally, case, &pieces, &mut rng);
    }
    for case in 0..tally.cases / 20 + 1 {
        let mut rng = tally.rng(1 << 40 | case);
        let pieces = laden::plan(&mut rng);
        ask_some(tally, case, &pieces, &mut rng);
    }
    tally.must_have_seen("reprice", &[0, 10, 11, 17, 20, 29]);
    tally.must_have_seen("ports of a route that is asked about", &[1, 2, 15, 16]);
    tally.must_have_seen("a spare in more ns, 1 falls, 2 rises as far as it may", &[0, 1, 2]);
    tally.must_have_seen("extra bytes, 1 for some", &[0, 1]);
    tally.must_have_seen("jitter, 1 for some", &[0, 1]);
    tally.must_have_seen("clocks, 2 where they widen", &[0, 1, 2]);
}
