//! Whether these tables hold a plan that the rules accept, step by step as in crates/tables/src/valid.rt.

use crate::answers::Planner;
use crate::jump::{FLOWS, MAX_HOPS, PORTS, STRIDE};

fn valid_port(rate: u32, blocking: u16, extra: u8) -> bool {
    if rate == 0 {
        return blocking == 0 && extra == 0;
    }
    (1..=100_000).contains(&rate) && (blocking == 0 || (64..=2_000).contains(&blocking)) && extra <= 64
}

/// Whether each port of a route is in the plan and stands in the route once.
fn valid_route(planner: &Planner, slot: usize, hops: usize) -> bool {
    let mut seen = [false; PORTS];
    for &port in &planner.routes[slot * STRIDE..slot * STRIDE + hops] {
        let port = port as usize;
        if port < 1 || PORTS < port || planner.rates[port - 1] == 0 || seen[port - 1] {
            return false;
        }
        seen[port - 1] = true;
    }
    true
}

/// The most ports of a route in the form of this number.
fn most_hops(form: u32) -> Option<usize> {
    match form {
        0 => Some(MAX_HOPS),
        1 => Some(STRIDE),
        _ => None,
    }
}

fn valid_flow(planner: &Planner, slot: usize, most_hops: usize) -> bool {
    let (period, count) = (planner.periods[slot], planner.counts[slot]);
    let (length, jitter) = (planner.lengths[slot], planner.jitters[slot]);
    let hops = planner.hops[slot] as usize;
    if period == 0 {
        return count == 0 && length == 0 && jitter == 0 && hops == 0;
    }
    (1_000..=100_000_000).contains(&period)
        && (1..=64).contains(&count)
        && (64..=2_000).contains(&length)
        && jitter <= 10_000_000
        && (1..=most_hops).contains(&hops)
        && valid_route(planner, slot, hops)
}

pub fn valid_plan(planner: &Planner) -> bool {
    match most_hops(planner.form) {
        Some(most_hops) => valid_tables(planner, most_hops),
        None => false,
    }
}

fn valid_tables(planner: &Planner, most_hops: usize) -> bool {
    (1..=100_000_000).contains(&planner.top)
        && planner.guard <= 1_000_000
        && planner.drift <= 1_000
        && planner.timing_jitter <= 1_000
        && planner.sync_error <= 1_000_000
        && (0..PORTS).all(|slot| valid_port(planner.rates[slot], planner.blockings[slot], planner.extras[slot]))
        && (0..FLOWS).all(|slot| valid_flow(planner, slot, most_hops))
        && planner.periods.iter().any(|period| *period != 0)
}
