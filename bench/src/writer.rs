//! Saving in Rust: the planner's tables as a plan's bytes in strict order, each field into what remains of the buffer.

use crate::answers::{Answer, Planner};
use crate::bytes::HEAD;
use crate::draft::FLOW_NUMBERS;
use crate::jump::{FLOWS, PORTS, STRIDE};
use crate::valid::valid_plan;

const HEADER: usize = HEAD + 8;
const PORT: usize = HEAD + 8;
const EXTRA: usize = HEAD + 4;
const JITTER: usize = HEAD + 6;
const CLOCKS: usize = HEAD + 12;

fn clocked(planner: &Planner) -> bool {
    (planner.drift, planner.timing_jitter, planner.sync_error) != (0, 0, 0)
}

/// How many bytes the plan takes.
fn needed(planner: &Planner) -> usize {
    let mut bytes = HEADER;
    for slot in 0..PORTS {
        bytes += if planner.rates[slot] != 0 { PORT } else { 0 };
        bytes += if planner.extras[slot] != 0 { EXTRA } else { 0 };
    }
    for slot in 0..FLOWS {
        bytes += if planner.periods[slot] != 0 { HEAD + FLOW_NUMBERS + 2 * planner.hops[slot] as usize } else { 0 };
        bytes += if planner.jitters[slot] != 0 { JITTER } else { 0 };
    }
    bytes + if clocked(planner) { CLOCKS } else { 0 }
}

/// What is written first of what remains, and what remains then.
pub fn put<'a, const N: usize>(rest: &'a mut [u8], bytes: [u8; N]) -> &'a mut [u8] {
    let (front, rest) = rest.split_at_mut(N);
    front.copy_from_slice(&bytes);
    rest
}

pub fn head(rest: &mut [u8], tag: u8, length: u16) -> &mut [u8] {
    let length = length.to_be_bytes();
    put(rest, [tag, length[0], length[1]])
}

pub fn number(slot: usize) -> [u8; 2] {
    (slot as u16 + 1).to_be_bytes()
}

fn put_flow<'a>(planner: &Planner, slot: usize, rest: &'a mut [u8]) -> &'a mut [u8] {
    let hops = planner.hops[slot] as usize;
    let rest = head(rest, 3, (FLOW_NUMBERS + 2 * hops) as u16);
    let rest = put(rest, number(slot));
    let rest = put(rest, planner.periods[slot].to_be_bytes());
    let rest = put(rest, planner.counts[slot].to_be_bytes());
    let rest = put(rest, planner.lengths[slot].to_be_bytes());
    let (route, rest) = rest.split_at_mut(2 * hops);
    for (bytes, port) in route.chunks_exact_mut(2).zip(&planner.routes[slot * STRIDE..]) {
        bytes.copy_from_slice(&[0, *port]);
    }
    rest
}

fn put_later<'a>(planner: &Planner, mut rest: &'a mut [u8]) -> &'a mut [u8] {
    for slot in (0..PORTS).filter(|slot| planner.extras[*slot] != 0) {
        rest = put(head(rest, 4, 4), number(slot));
        rest = put(rest, [0, planner.extras[slot]]);
    }
    for slot in (0..FLOWS).filter(|slot| planner.jitters[*slot] != 0) {
        rest = put(head(rest, 5, 6), number(slot));
        rest = put(rest, planner.jitters[slot].to_be_bytes());
    }
    if clocked(planner) {
        rest = put(head(rest, 6, 12), planner.drift.to_be_bytes());
        rest = put(rest, planner.timing_jitter.to_be_bytes());
        rest = put(rest, planner.sync_error.to_be_bytes());
    }
    rest
}

/// The answer `save` gives.
pub fn save(planner: &Planner, buffer: &mut [u8]) -> Answer {
    if !valid_plan(planner) {
        return Answer::refused(20);
    }
    put_plan(planner, buffer)
}

/// The plan of good tables in strict order, and the answer that saving gives.
pub fn put_plan(planner: &Planner, buffer: &mut [u8]) -> Answer {
    let needed = needed(planner);
    if buffer.len() < needed {
        return Answer::new(13, needed as u64, 0);
    }
    let mut rest = put(head(buffer, 1, 8), planner.guard.to_be_bytes());
    rest = put(rest, planner.top.to_be_bytes());
    for slot in (0..PORTS).filter(|slot| planner.rates[*slot] != 0) {
        rest = put(head(rest, 2, 8), number(slot));
        rest = put(rest, planner.rates[slot].to_be_bytes());
        rest = put(rest, planner.blockings[slot].to_be_bytes());
    }
    for slot in (0..FLOWS).filter(|slot| planner.periods[*slot] != 0) {
        rest = put_flow(planner, slot, rest);
    }
    put_later(planner, rest);
    Answer::new(0, needed as u64, 0)
}
