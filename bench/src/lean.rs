//! The planner's searches over a scratch of one number in safe Rust, step by step as in lean_seek.rt, port_search.rt and lean.rt of
//! crates/questions; and one port's climb, which `least` takes too.

use crate::answers::{Answer, Planner};
use crate::jump::{fails, need, stretch, window, wire_bits, FLOWS, PORTS, STRIDE};
use crate::valid::valid_plan;

/// The flows that cross a port: bit i of number w for the flow in slot 64 w + i.
type FlowSet = [u64; FLOWS / 64];

fn route(planner: &Planner, flow: usize) -> &[u8] {
    &planner.routes[flow * STRIDE..flow * STRIDE + planner.hops[flow] as usize]
}

fn holds(planner: &Planner, flow: usize, slot: usize) -> bool {
    route(planner, flow).contains(&(slot as u8 + 1))
}

fn crossing_flows(planner: &Planner, slot: usize) -> FlowSet {
    let mut set = FlowSet::default();
    for (word, bits) in set.iter_mut().enumerate() {
        for bit in 0..64 {
            if holds(planner, 64 * word + bit, slot) {
                *bits |= 1 << bit;
            }
        }
    }
    set
}

fn flow_bits(planner: &Planner, flow: usize, slot: usize, length: u32) -> u64 {
    let period = planner.periods[flow];
    let begun = (length + planner.jitters[flow] + (period - 1)) / period;
    planner.counts[flow] as u64 * begun as u64 * wire_bits(planner.lengths[flow], planner.extras[slot])
}

fn set_demand(planner: &Planner, set: &FlowSet, slot: usize, duration: u64) -> u64 {
    let length = stretch(planner, duration) as u32;
    let mut demand = 0;
    for (word, bits) in set.iter().enumerate() {
        let mut rest = *bits;
        while rest != 0 {
            demand += flow_bits(planner, 64 * word + rest.trailing_zeros() as usize, slot, length);
            rest &= rest - 1;
        }
    }
    demand
}

/// The demand of one port, every route looked through.
fn port_demand(planner: &Planner, slot: usize, duration: u64) -> u64 {
    let length = stretch(planner, duration) as u32;
    let on_port = (0..FLOWS).filter(|flow| holds(planner, *flow, slot));
    on_port.map(|flow| flow_bits(planner, flow, slot, length)).sum()
}

/// Up by what the port needs until it passes, or above top; and the steps.
pub fn raise_port(planner: &Planner, slot: usize, from: u64, steps: &mut u64) -> u64 {
    let set = crossing_flows(planner, slot);
    let mut t = from;
    while t <= planner.top as u64 {
        *steps += 1;
        let needed = need(planner, slot, set_demand(planner, &set, slot, t));
        if needed <= t {
            return t;
        }
        t = needed;
    }
    t
}

/// Down from top as far as the port passes, and no further than floor.
fn lower_port(planner: &Planner, slot: usize, floor: u64, steps: &mut u64) -> u64 {
    let set = crossing_flows(planner, slot);
    let mut below = planner.top as u64;
    while floor <= below {
        *steps += 1;
        let needed = need(planner, slot, set_demand(planner, &set, slot, below));
        if below < needed {
            return below + 1;
        }
        below = needed.max(floor) - 1;
    }
    below + 1
}

fn seek_least(planner: &Planner, steps: &mut u64) -> u64 {
    let top = planner.top as u64;
    let (mut t, mut slot, mut passed) = (1, 0, 0);
    while passed < PORTS {
        let reached = raise_port(planner, slot, t, steps);
        slot = (slot + 1) % PORTS;
        passed = if t < reached { 0 } else { passed + 1 };
        if top < reached {
            return top + 1;
        }
        t = reached;
    }
    t
}

fn seek_safe(planner: &Planner, steps: &mut u64) -> u64 {
    let mut safe = 1;
    for slot in 0..PORTS {
        safe = lower_port(planner, slot, safe, steps);
        if (planner.top as u64) < safe {
            break;
        }
    }
    safe
}

/// The refusal with the lowest port that fails at top, and how many do, port by port.
fn refused_at_top(refusal: u32, planner: &Planner) -> Answer {
    let top = planner.top as u64;
    let span = window(planner, top);
    let mut set = 0u64;
    for slot in 0..PORTS {
        if fails(planner, slot, span, port_demand(planner, slot, top)) {
            set |= 1 << slot;
        }
    }
    Answer::new(refusal, set.trailing_zeros() as u64 + 1, set.count_ones() as u64)
}

/// The slot of the highest port that a route names.
fn highest(planner: &Planner) -> usize {
    (0..PORTS).rev().find(|slot| (0..FLOWS).any(|flow| holds(planner, flow, *slot))).unwrap_or(0)
}

fn search(planner: &Planner, scratch: &mut [u64], refusal: u32, seek: fn(&Planner, &mut u64) -> u64) -> (Answer, u64) {
    if !valid_plan(planner) {
        return (Answer::refused(20), 0);
    }
    if scratch.is_empty() {
        return (Answer::refused(11), 0);
    }
    let (top, mut steps) = (planner.top as u64, 0);
    let found = seek(planner, &mut steps);
    scratch[0] = port_demand(planner, highest(planner), found.min(top));
    if found <= top {
        return (Answer::new(0, found, 0), steps);
    }
    (refused_at_top(refusal, planner), steps)
}

/// The answer `lean_least` gives, and the steps of single ports.
pub fn least(planner: &Planner, scratch: &mut [u64]) -> (Answer, u64) {
    search(planner, scratch, 22, seek_least)
}

/// The answer `lean_margin_safe` gives, and the steps of single ports.
pub fn margin_safe(planner: &Planner, scratch: &mut [u64]) -> (Answer, u64) {
    search(planner, scratch, 23, seek_safe)
}
