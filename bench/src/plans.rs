//! The plans that are measured, as bytes.

use crate::{found, most_spans, newer};

/// How a plan is measured: its name, its bytes, and how many durations the scan tries at most.
pub struct Case {
    pub name: &'static str,
    pub bytes: Vec<u8>,
    pub scanned: u64,
    /// Too long to count instructions: it is timed instead.
    pub timed: bool,
    /// Which of the two searches the plan is for.
    pub searches: &'static [&'static str],
}

pub fn header(plan: &mut Vec<u8>, guard: u32, top: u32) {
    plan.extend([1, 0, 8]);
    plan.extend(guard.to_be_bytes());
    plan.extend(top.to_be_bytes());
}

pub fn port(plan: &mut Vec<u8>, number: u16, rate: u32, blocker: u16) {
    plan.extend([2, 0, 8]);
    plan.extend(number.to_be_bytes());
    plan.extend(rate.to_be_bytes());
    plan.extend(blocker.to_be_bytes());
}

pub fn flow(plan: &mut Vec<u8>, number: u16, period: u32, length: u16, route: &[u16]) {
    plan.push(3);
    plan.extend((10 + 2 * route.len() as u16).to_be_bytes());
    plan.extend(number.to_be_bytes());
    plan.extend(period.to_be_bytes());
    plan.extend(1u16.to_be_bytes());
    plan.extend(length.to_be_bytes());
    plan.extend(route.iter().flat_map(|port| port.to_be_bytes()));
}

fn extra(plan: &mut Vec<u8>, number: u16, extra: u16) {
    plan.extend([4, 0, 4]);
    plan.extend(number.to_be_bytes());
    plan.extend(extra.to_be_bytes());
}

fn jitter(plan: &mut Vec<u8>, number: u16, jitter: u32) {
    plan.extend([5, 0, 6]);
    plan.extend(number.to_be_bytes());
    plan.extend(jitter.to_be_bytes());
}

pub fn clocks(plan: &mut Vec<u8>, drift: u32, timing_jitter: u32, sync_error: u32) {
    plan.extend([6, 0, 12]);
    plan.extend([drift, timing_jitter, sync_error].iter().flat_map(|number| number.to_be_bytes()));
}

pub fn k() -> Vec<u8> {
    let mut plan = Vec::new();
    header(&mut plan, 1_000, 1_000_000);
    port(&mut plan, 1, 100, 0);
    flow(&mut plan, 1, 100_000, 230, &[1]);
    flow(&mut plan, 2, 110_000, 605, &[1]);
    plan
}

/// 64 ports, 256 flows of 16 hops, each rate so that the long-run load is a part of it.
fn large(load: f64) -> Vec<u8> {
    let mut state = 1u64;
    let mut below = |bound: u64| {
        state = state.wrapping_mul(6364136223846793005).wrapping_add(1442695040888963407);
        (state >> 33) % bound
    };
    let (mut flows, mut loads) = (Vec::new(), [0.0; 64]);
    for number in 1..=256 {
        let (period, length) = (5_000 + below(45_000) as u32, 64 + below(1_400) as u16);
        let (start, step) = (below(64), 1 + 2 * below(32));
        let route: Vec<u16> = (0..16).map(|hop| ((start + hop * step) % 64 + 1) as u16).collect();
        for port in &route {
            loads[*port as usize - 1] += 8_000.0 * (length as f64 + 20.0) / period as f64;
        }
        flow(&mut flows, number, period, length, &route);
    }
    let mut plan = Vec::new();
    header(&mut plan, 500, 100_000_000);
    for number in 1..=64 {
        let rate = (loads[number as usize - 1] / load).ceil();
        port(&mut plan, number, rate as u32, if number % 2 == 0 { 1_500 } else { 0 });
    }
    plan.extend(flows);
    plan
}

/// A large plan whose flows all have jitter, up to 20,000 ns.
fn late(load: f64) -> Vec<u8> {
    let mut plan = large(load);
    for number in 1..=256 {
        jitter(&mut plan, number, u32::from(number) * 7_919 % 20_001);
    }
    plan
}

/// The same with the clocks that document 000 gives.
fn late_clocks(load: f64) -> Vec<u8> {
    let mut plan = late(load);
    clocks(&mut plan, 100, 2, 1_000);
    plan
}

/// K with extra bytes, jitter and clocks: four spans.
fn k_with_all() -> Vec<u8> {
    let mut plan = k();
    extra(&mut plan, 1, 32);
    jitter(&mut plan, 1, 30_000);
    clocks(&mut plan, 100, 2, 1_000);
    plan
}

/// One flow behind whose least duration a single one is refused.
fn one_ns_gap() -> Vec<u8> {
    let mut plan = Vec::new();
    header(&mut plan, 433, 10_000);
    port(&mut plan, 1, 10_000, 0);
    flow(&mut plan, 1, 1_000, 65, &[1]);
    plan
}

/// One flow that all but fills its port: a span in each of thousands of periods.
fn full_port() -> Vec<u8> {
    let mut plan = Vec::new();
    header(&mut plan, 0, 20_000_000);
    port(&mut plan, 1, 16_161, 0);
    flow(&mut plan, 1, 1_000, 2_000, &[1]);
    plan
}

/// One flow whose frame takes a whole period: every step goes one period further.
fn one_flow() -> Vec<u8> {
    let mut plan = Vec::new();
    header(&mut plan, 1, 100_000_000);
    port(&mut plan, 1, 1_000, 0);
    flow(&mut plan, 1, 1_000, 105, &[1]);
    plan
}

/// Ports at 100,000 Mbit/s, each crossed by all flows, of frames of these periods and lengths.
fn alike_ports(ports: u16, flows: &[(u32, u16)]) -> Vec<u8> {
    let mut plan = Vec::new();
    header(&mut plan, 0, 100_000_000);
    let route: Vec<u16> = (1..=ports).collect();
    for number in &route {
        port(&mut plan, *number, 100_000, 0);
    }
    for (slot, (period, length)) in flows.iter().enumerate() {
        flow(&mut plan, slot as u16 + 1, *period, *length, &route);
    }
    plan
}

fn found_ports(ports: u16, found: found::OnePort) -> Vec<u8> {
    let short = found.periods.iter().map(|period| (*period, 64));
    let late = found.late.iter().map(|period| (*period, found.late_length));
    alike_ports(ports, &short.chain(late).collect::<Vec<_>>())
}

/// 149 flows of 64 bytes at 100,000 Mbit/s, one with a period that brings the load to 1.000004.
fn spread() -> Vec<u8> {
    let mut flows: Vec<(u32, u16)> = (0..148).map(|slot| (1_000 + slot % 3, 64)).collect();
    let rest = 100.0 * 1.000003 - flows.iter().map(|flow| 672.0 / flow.0 as f64).sum::<f64>();
    flows.push(((672.0 / rest).round() as u32, 64));
    alike_ports(1, &flows)
}

/// The same flows over each group of 16 ports, with blockers that rise from port to port.
fn many_ports() -> Vec<u8> {
    let mut plan = Vec::new();
    header(&mut plan, 0, 100_000_000);
    for slot in 0..64 {
        let rate = if slot == 63 { 32_999 } else { 33_000 };
        port(&mut plan, slot as u16 + 1, rate, found::MANY_BLOCKERS[slot]);
    }
    let flows = found::MANY_PERIODS.len() as u16;
    for group in 0..4 {
        let route: Vec<u16> = (1..=16).map(|hop| group * 16 + hop).collect();
        for (slot, period) in found::MANY_PERIODS.iter().enumerate() {
            flow(&mut plan, group * flows + slot as u16 + 1, *period, 64, &route);
        }
    }
    plan
}

const BOTH: &[&str] = &["least", "safe"];

pub fn searches() -> Vec<Case> {
    let case = |name, bytes, scanned, searches| Case { name, bytes, scanned, timed: false, searches };
    vec![
        case("K", k(), 100_000, BOTH),
        case("large-60", large(0.6), 2_000, BOTH),
        case("large-90", large(0.9), 2_000, BOTH),
        case("large-99.9", large(0.999), 2_000, BOTH),
        case("late-90", late(0.9), 2_000, BOTH),
        case("clocks-90", late_clocks(0.9), 2_000, BOTH),
        case("one-flow", one_flow(), 20_000, &["least"]),
        case("149-flows", spread(), 5_000, &["least"]),
        case("up-one-port", found_ports(1, found::UP), 5_000, &["least"]),
        case("down-one-port", found_ports(1, found::DOWN), 5_000, &["safe"]),
        Case { timed: true, ..case("up-16-ports", found_ports(16, found::UP), 0, &["least"]) },
        Case { timed: true, ..case("down-16-ports", found_ports(16, found::DOWN), 0, &["safe"]) },
        Case { timed: true, ..case("up-64-ports", many_ports(), 0, &["least"]) },
    ]
}

/// The plans whose spans are measured: those of the searches, and more.
pub fn usable() -> Vec<Case> {
    let more = |name, bytes, timed| Case { name, bytes, scanned: 0, timed, searches: &[] };
    let mut cases = searches();
    for case in &mut cases {
        case.timed |= matches!(case.name, "up-one-port" | "down-one-port");
    }
    cases.extend([more("K-with-all", k_with_all(), false), more("one-ns-gap", one_ns_gap(), false)]);
    cases.extend([more("full-port", full_port(), false), more("most-spans", most_spans::plan(), true)]);
    cases
}

/// The plans whose load is measured. The third is the second without the field of port 64 (refusal 9), the fourth the second with its
/// ports behind its flows; the last has jitter for every flow, extra bytes for every port and clocks too.
pub fn loads() -> Vec<(&'static str, Vec<u8>)> {
    let longest = large(0.6);
    let port_64 = 11 + 63 * 11;
    let lacking = [&longest[..port_64], &longest[port_64 + 11..]].concat();
    let ports_last = [&longest[..11], &longest[port_64 + 11..], &longest[11..port_64 + 11]].concat();
    let mut every_field = late_clocks(0.6);
    (1..=64).for_each(|number| extra(&mut every_field, number, number));
    vec![("K", k()), ("longest", longest), ("longest-lacking", lacking), ("ports-last", ports_last), ("every-field", every_field)]
}

/// The plans whose text is measured: K, one with many short routes, and the longest of either form.
pub fn texts() -> Vec<(&'static str, Vec<u8>)> {
    let mut plans = loads();
    plans.retain(|plan| !matches!(plan.0, "longest-lacking" | "ports-last"));
    plans.insert(1, ("149-flows", spread()));
    plans.push(("newer-longest", newer::longest()));
    plans
}
