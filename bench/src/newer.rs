//! Plans of the newer form: the tables written in it, and the longest plan.

use crate::answers::{Answer, Planner};
use crate::bytes::HEAD;
use crate::jump::{FLOWS, PORTS, STRIDE};
use crate::writer::{head, number, put};

const HEADER: usize = 20;
const PORT: usize = 10;
/// A flow's bytes in front of its route.
const FLOW: usize = 14;

/// How many bytes the plan takes.
fn needed(planner: &Planner) -> usize {
    let ports = planner.rates.iter().filter(|rate| **rate != 0).count();
    let flows = (0..FLOWS).filter(|slot| planner.periods[*slot] != 0);
    HEAD + HEADER + ports * (HEAD + PORT) + flows.map(|slot| HEAD + FLOW + 2 * usize::from(planner.hops[slot])).sum::<usize>()
}

fn put_flow<'a>(planner: &Planner, slot: usize, rest: &'a mut [u8]) -> &'a mut [u8] {
    let hops = usize::from(planner.hops[slot]);
    let rest = head(rest, 0x13, (FLOW + 2 * hops) as u16);
    let rest = put(rest, number(slot));
    let rest = put(rest, planner.periods[slot].to_be_bytes());
    let rest = put(rest, planner.counts[slot].to_be_bytes());
    let rest = put(rest, planner.lengths[slot].to_be_bytes());
    let rest = put(rest, planner.jitters[slot].to_be_bytes());
    let (route, rest) = rest.split_at_mut(2 * hops);
    for (bytes, port) in route.chunks_exact_mut(2).zip(&planner.routes[slot * STRIDE..]) {
        bytes.copy_from_slice(&[0, *port]);
    }
    rest
}

/// The plan of good tables in strict order, and the answer that saving gives.
pub fn put_plan(planner: &Planner, buffer: &mut [u8]) -> Answer {
    let needed = needed(planner);
    if buffer.len() < needed {
        return Answer::new(13, needed as u64, 0);
    }
    let mut rest = head(buffer, 0x11, HEADER as u16);
    for number in [planner.guard, planner.top, planner.drift, planner.timing_jitter, planner.sync_error] {
        rest = put(rest, number.to_be_bytes());
    }
    for slot in (0..PORTS).filter(|slot| planner.rates[*slot] != 0) {
        rest = put(head(rest, 0x12, PORT as u16), number(slot));
        rest = put(rest, planner.rates[slot].to_be_bytes());
        rest = put(rest, planner.blockings[slot].to_be_bytes());
        rest = put(rest, [0, planner.extras[slot]]);
    }
    for slot in (0..FLOWS).filter(|slot| planner.periods[*slot] != 0) {
        rest = put_flow(planner, slot, rest);
    }
    Answer::new(0, needed as u64, 0)
}

/// 63 ports and 256 flows of up to 24 ports, 16,384 bytes, with as long numbers as there are.
pub fn longest() -> Vec<u8> {
    let mut plan = vec![0x11, 0, HEADER as u8];
    plan.extend([1_000_000u32, 100_000_000, 1_000, 1_000, 1_000_000].iter().flat_map(|number| number.to_be_bytes()));
    for number in 1..=63u16 {
        plan.extend([0x12, 0, PORT as u8]);
        plan.extend(number.to_be_bytes());
        plan.extend((99_000 + u32::from(number)).to_be_bytes());
        plan.extend([2_000 - number, 64 - number % 32].iter().flat_map(|number| number.to_be_bytes()));
    }
    let mut left = 5_595;
    for number in 1..=256u16 {
        let hops = (left - (256 - number)).min(24);
        left -= hops;
        plan.extend([0x13, 0, (FLOW as u16 + 2 * hops) as u8]);
        plan.extend(number.to_be_bytes());
        plan.extend((100_000_000 - u32::from(number)).to_be_bytes());
        plan.extend([number % 48 + 16, 2_000 - number].iter().flat_map(|number| number.to_be_bytes()));
        plan.extend((9_000_000 + u32::from(number)).to_be_bytes());
        plan.extend((0..hops).flat_map(|hop| ((number + 5 * hop) % 63 + 1).to_be_bytes()));
    }
    plan
}
