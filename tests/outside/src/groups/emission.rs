//! The bad emission of a refused duration: each flow's part is that of the emission gathered at the lowest failing port, and the first
//! frame left unsent is where the run leaves it.

use super::known::K;
use super::runs::{some_plan, weight, FRAMES};
use super::strict::random_planner;
use super::{durations, span_ends};
use crate::answers::{BurstAnswer, Planner, UnsentAnswer};
use crate::ffi;
use crate::model::read::read;
use crate::model::spans::spans;
use crate::model::Plan;
use crate::report::Tally;
use crate::simulate::emissions::gathered_at;
use crate::simulate::{Outcome, Run};

const NO_INSTANT: u64 = u64::MAX;

fn no_burst(refusal: u32) -> BurstAnswer {
    BurstAnswer { refusal, cycle: 0, frames: 0, instant: 0 }
}

fn no_unsent(refusal: u32) -> UnsentAnswer {
    UnsentAnswer { refusal, failing: 0, port: 0, cycle: 0, bits: 0, most: 0 }
}

/// A flow's part in the emission gathered at a port; none where it does not cross the port.
fn burst(plan: &Plan, duration: u64, port: u64, flow: u64, frame: u64) -> Option<BurstAnswer> {
    let (emission, cut) = gathered_at(plan, port, duration);
    let instants = emission.get(&flow)?;
    let instant = instants.get(frame as usize).copied().unwrap_or(NO_INSTANT);
    Some(BurstAnswer { refusal: 0, cycle: cut[&flow][0], frames: instants.len() as u64, instant })
}

/// The first frame left unsent, by the run of the gathered emission; what the port must send then comes from the flows' own cycles.
fn unsent(plan: &Plan, duration: u64) -> UnsentAnswer {
    let failing = match plan.failing(duration).first() {
        None => return no_unsent(0),
        Some(port) => *port,
    };
    let (_, cut) = gathered_at(plan, failing, duration);
    let (cycle, port) = match Run::new(plan, duration, &cut).follow() {
        Outcome::Unsent { cycle, port } => (cycle, port),
        Outcome::AllSent(_) => panic!("the run leaves no frame unsent"),
    };
    let here = &plan.ports[&port];
    let mut bits = 0;
    for (number, cycles) in &cut {
        let flow = &plan.flows[number];
        let hop = flow.route.iter().position(|passed| *passed == port);
        if hop.map_or(false, |hop| cycles[0] + hop as u64 + 1 == cycle) {
            bits += cycles.len() as u64 * here.wire_bits(flow.length);
        }
    }
    let most = (here.rate * plan.window(duration) / 1000).saturating_sub(here.blocker_bits());
    UnsentAnswer { refusal: 0, failing: failing as u32, port: port as u32, cycle, bits, most }
}

/// Each flow's part at a port: some of its frames, the last one and the place behind it.
fn parts(tally: &mut Tally, plan: &Plan, planner: &Planner, duration: u64, port: u64) {
    for flow in plan.flows.keys() {
        let told = ffi::burst(planner, duration, port, *flow, 0);
        match burst(plan, duration, port, *flow, 0) {
            None => tally.same(format_args!("cp_burst({duration}, {port}, {flow}) off the route"), (told.refusal, told.frames, told.instant), (0, 0, NO_INSTANT)),
            Some(first) => {
                tally.same(format_args!("cp_burst({duration}, {port}, {flow}, 0)"), told, first);
                for frame in [1, first.frames / 2, first.frames - 1, first.frames, u64::MAX] {
                    let want = burst(plan, duration, port, *flow, frame).expect("a part");
                    tally.same(format_args!("cp_burst({duration}, {port}, {flow}, {frame})"), ffi::burst(planner, duration, port, *flow, frame), want);
                }
            }
        }
    }
}

fn one_duration(tally: &mut Tally, plan: &Plan, planner: &Planner, duration: u64) {
    let want = unsent(plan, duration);
    tally.saw("unsent: 1 another port, 2 none", u32::from(want.port != want.failing) + 2 * u32::from(want.failing == 0));
    tally.same(format_args!("cp_unsent({duration})"), ffi::unsent(planner, duration), want);
    if want.failing != 0 {
        parts(tally, plan, planner, duration, u64::from(want.failing));
    }
    for port in [0, 65, u64::MAX] {
        tally.same(format_args!("cp_burst of port {port}"), ffi::burst(planner, duration, port, 1, 0), no_burst(24));
    }
    for flow in (0..=257).filter(|flow| !plan.flows.contains_key(flow)) {
        tally.same(format_args!("cp_burst of flow {flow}"), ffi::burst(planner, duration, 1, flow, 0), no_burst(29));
    }
}

/// K at 120,000 ns, as the builder typed it; and what is no plan or no duration.
fn of_k(tally: &mut Tally) {
    tally.case(0, &K);
    let planner = ffi::load(&ffi::empty(), &K).0;
    let want = UnsentAnswer { refusal: 0, failing: 1, port: 1, cycle: 1, bits: 14_000, most: 11_800 };
    tally.same(format_args!("cp_unsent of K at 120,000"), ffi::unsent(&planner, 120_000), want);
    for (flow, frame, instant) in [(1, 0, 0), (1, 1, 100_000), (1, 2, NO_INSTANT), (2, 0, 0), (2, 1, 110_000)] {
        let want = BurstAnswer { refusal: 0, cycle: 0, frames: 2, instant };
        tally.same(format_args!("cp_burst of K, flow {flow}, frame {frame}"), ffi::burst(&planner, 120_000, 1, flow, frame), want);
    }
    let mut rng = tally.rng(u64::MAX);
    for (planner, refusal) in [(planner, 10), (ffi::empty(), 20), (random_planner(&mut rng), 20)] {
        for duration in [0, 100_000_001, u64::MAX] {
            tally.same(format_args!("cp_unsent({duration})"), ffi::unsent(&planner, duration), no_unsent(refusal));
            tally.same(format_args!("cp_burst({duration})"), ffi::burst(&planner, duration, 0, 0, 0), no_burst(refusal));
        }
    }
}

pub fn run(tally: &mut Tally) {
    of_k(tally);
    for case in 0..tally.cases {
        let mut rng = tally.rng(case);
        let (_, bytes) = some_plan(&mut rng);
        tally.case(case, &bytes);
        let (plan, planner) = (read(&bytes).expect("a good plan"), ffi::load(&ffi::empty(), &bytes).0);
        let mut asked = span_ends(&spans(&plan), &mut rng);
        asked.extend(durations(&plan, &mut rng));
        rng.shuffle(&mut asked);
        asked.retain(|duration| plan.in_reach(*duration) && weight(&plan, *duration) < FRAMES);
        for duration in asked.into_iter().take(6) {
            one_duration(tally, &plan, &planner, duration);
        }
    }
    tally.must_have_seen("unsent: 1 another port, 2 none", &[0, 1, 2]);
}
