//! The planner's two searches in Rust, on the planner's own tables, step by step as in ascend.rt and descend.rt of crates/questions.
//! CHECKED says whether the sum over the hops tests its indices, as safe Rust does; the form test makes it needless.

use crate::answers::{Answer, Planner};
use crate::lean::raise_port;
use crate::valid::valid_plan;

pub const PORTS: usize = 64;
pub const FLOWS: usize = 256;
/// In a plan of the older form.
pub const MAX_HOPS: usize = 16;
pub use crate::answers::STRIDE;

pub fn wire_bits(length: u16, extra: u8) -> u64 {
    8 * (length as u64 + 20 + extra as u64)
}

/// Adds a flow's frames, each with the extra bytes of the port, to every port of its route.
fn add_route<const CHECKED: bool>(planner: &Planner, slot: usize, frames: u64, out: &mut [u64; PORTS]) {
    let length = planner.lengths[slot];
    let base = slot * STRIDE;
    let route = base..base + planner.hops[slot] as usize;
    if CHECKED {
        for &port in &planner.routes[route] {
            let port = port as usize - 1;
            out[port] += frames * wire_bits(length, planner.extras[port]);
        }
    } else {
        // The form test found at most 24 hops, each between 1 and 64.
        for &port in unsafe { planner.routes.get_unchecked(route) } {
            let port = port as usize - 1;
            let extra = unsafe { *planner.extras.get_unchecked(port) };
            unsafe { *out.get_unchecked_mut(port) += frames * wire_bits(length, extra) };
        }
    }
}

/// The duration widened by the clocks: the length over which frames are counted.
pub fn stretch(planner: &Planner, duration: u64) -> u64 {
    let drifted = (duration * planner.drift as u64 + 999_999) / 1_000_000;
    duration + (drifted + planner.timing_jitter as u64).min(2 * planner.sync_error as u64)
}

/// Every port's demand at a duration of 1 or more; 0 for a port not crossed.
pub fn demands<const CHECKED: bool>(planner: &Planner, duration: u64, out: &mut [u64; PORTS]) {
    out.fill(0);
    let length = stretch(planner, duration) as u32;
    for slot in 0..FLOWS {
        let period = planner.periods[slot];
        if period != 0 {
            let begun = (length + planner.jitters[slot] + (period - 1)) / period;
            let frames = planner.counts[slot] as u64 * begun as u64;
            add_route::<CHECKED>(planner, slot, frames, out);
        }
    }
}

/// The part of a cycle in which a port sends.
pub fn window(planner: &Planner, duration: u64) -> u64 {
    duration.saturating_sub(2 * planner.guard as u64)
}

/// What a port must be able to send, in bits times 1,000 ns.
fn workload(planner: &Planner, slot: usize, demand: u64) -> u64 {
    match planner.blockings[slot] {
        0 => 1_000 * demand,
        length => 1_000 * (demand + wire_bits(length, planner.extras[slot])),
    }
}

pub fn fails(planner: &Planner, slot: usize, window: u64, demand: u64) -> bool {
    demand != 0 && planner.rates[slot] as u64 * window < workload(planner, slot, demand)
}

/// From which duration a port bears a demand; 0 where there is none.
pub fn need(planner: &Planner, slot: usize, demand: u64) -> u64 {
    if demand == 0 {
        return 0;
    }
    let rate = planner.rates[slot] as u64;
    2 * planner.guard as u64 + (workload(planner, slot, demand) + (rate - 1)) / rate
}

/// The refusal with the lowest port that fails at top, and how many do.
pub fn refused_at_top<const CHECKED: bool>(refusal: u32, planner: &Planner, out: &mut [u64; PORTS]) -> Answer {
    let top = planner.top as u64;
    demands::<CHECKED>(planner, top, out);
    let span = window(planner, top);
    let mut set = 0u64;
    for slot in 0..PORTS {
        if fails(planner, slot, span, out[slot]) {
            set |= 1 << slot;
        }
    }
    Answer::new(refusal, set.trailing_zeros() as u64 + 1, set.count_ones() as u64)
}

/// The duration that the most needy crossed port needs for its demand; 0 where none is crossed.
pub fn largest_need(planner: &Planner, demands: &[u64; PORTS]) -> u64 {
    (0..PORTS).map(|slot| need(planner, slot, demands[slot])).max().unwrap_or(0)
}

/// The slot of the port that needs most.
fn neediest(planner: &Planner, demands: &[u64; PORTS]) -> usize {
    let (mut at, mut most) = (0, need(planner, 0, demands[0]));
    for slot in 1..PORTS {
        let needed = need(planner, slot, demands[slot]);
        if most < needed {
            (at, most) = (slot, needed);
        }
    }
    at
}

/// The least duration, or one above top where there is none; and the steps, passes over all ports and those of one alone.
fn ascend<const CHECKED: bool>(planner: &Planner, out: &mut [u64; PORTS]) -> (u64, u64) {
    let top = planner.top as u64;
    let (mut t, mut steps) = (1, 0);
    loop {
        steps += 1;
        demands::<CHECKED>(planner, t, out);
        let span = window(planner, t);
        if !(0..PORTS).any(|slot| fails(planner, slot, span, out[slot])) {
            return (t, steps);
        }
        t = raise_port(planner, neediest(planner, out), t, &mut steps);
        if top < t {
            return (top + 1, steps);
        }
    }
}

/// The margin-safe duration, or one above top where there is none; and the steps.
fn descend<const CHECKED: bool>(planner: &Planner, out: &mut [u64; PORTS]) -> (u64, u64) {
    let top = planner.top as u64;
    let (mut below, mut steps) = (top, 0);
    let found = loop {
        steps += 1;
        demands::<CHECKED>(planner, below, out);
        let most = largest_need(planner, out).max(1);
        if below < most {
            break below + 1;
        }
        below = most - 1;
    };
    if found <= top {
        demands::<CHECKED>(planner, found, out);
    }
    (found, steps)
}

/// The answer `least` gives, and the steps.
pub fn least<const CHECKED: bool>(planner: &Planner, scratch: &mut [u64]) -> (Answer, u64) {
    if !valid_plan(planner) {
        return (Answer::refused(20), 0);
    }
    if scratch.len() < PORTS {
        return (Answer::refused(11), 0);
    }
    let out: &mut [u64; PORTS] = (&mut scratch[..PORTS]).try_into().unwrap();
    let (found, steps) = ascend::<CHECKED>(planner, out);
    if found <= planner.top as u64 {
        return (Answer::new(0, found, 0), steps);
    }
    (refused_at_top::<CHECKED>(22, planner, out), steps)
}

/// The answer `margin_safe` gives, and the steps.
pub fn margin_safe<const CHECKED: bool>(planner: &Planner, scratch: &mut [u64]) -> (Answer, u64) {
    if !valid_plan(planner) {
        return (Answer::refused(20), 0);
    }
    if scratch.len() < PORTS {
        return (Answer::refused(11), 0);
    }
    let out: &mut [u64; PORTS] = (&mut scratch[..PORTS]).try_into().unwrap();
    let (found, steps) = descend::<CHECKED>(planner, out);
    if found <= planner.top as u64 {
        return (Answer::new(0, found, 0), steps);
    }
    (refused_at_top::<CHECKED>(23, planner, out), steps)
}
