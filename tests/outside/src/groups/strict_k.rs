//! K's fields and a few more in several orders, with what either reading answers.

use super::known::K;
use super::strict::both;
use crate::answers::{Answer, Planner};
use crate::ffi;
use crate::report::Tally;

pub const HEADER: &[u8] = &[0x01, 0x00, 0x08, 0x00, 0x00, 0x03, 0xE8, 0x00, 0x0F, 0x42, 0x40];
pub const PORT_1: &[u8] = &[0x02, 0x00, 0x08, 0x00, 0x01, 0x00, 0x00, 0x00, 0x64, 0x00, 0x00];
pub const PORT_2: &[u8] = &[0x02, 0x00, 0x08, 0x00, 0x02, 0x00, 0x00, 0x00, 0x64, 0x00, 0x00];
pub const FLOW_1: &[u8] = &[0x03, 0x00, 0x0C, 0x00, 0x01, 0x00, 0x01, 0x86, 0xA0, 0x00, 0x01, 0x00, 0xE6, 0x00, 0x01];
pub const FLOW_2: &[u8] = &[0x03, 0x00, 0x0C, 0x00, 0x02, 0x00, 0x01, 0xAD, 0xB0, 0x00, 0x01, 0x02, 0x5D, 0x00, 0x01];
/// Flow 1 over port 1 and port 1.
const TWICE: &[u8] = &[0x03, 0x00, 0x0E, 0x00, 0x01, 0x00, 0x01, 0x86, 0xA0, 0x00, 0x01, 0x00, 0xE6, 0x00, 0x01, 0x00, 0x01];
/// Flow 256, whose number has its low byte 0.
pub const FLOW_256: &[u8] = &[0x03, 0x00, 0x0C, 0x01, 0x00, 0x00, 0x01, 0xAD, 0xB0, 0x00, 0x01, 0x02, 0x5D, 0x00, 0x01];
/// Flow 0, out of range.
const FLOW_0: &[u8] = &[0x03, 0x00, 0x0C, 0x00, 0x00, 0x00, 0x01, 0x86, 0xA0, 0x00, 0x01, 0x00, 0xE6, 0x00, 0x01];
pub const EXTRA_1: &[u8] = &[0x04, 0x00, 0x04, 0x00, 0x01, 0x00, 0x20];
pub const NO_EXTRA_1: &[u8] = &[0x04, 0x00, 0x04, 0x00, 0x01, 0x00, 0x00];
pub const EXTRA_2: &[u8] = &[0x04, 0x00, 0x04, 0x00, 0x02, 0x00, 0x01];
pub const JITTER_1: &[u8] = &[0x05, 0x00, 0x06, 0x00, 0x01, 0x00, 0x00, 0x75, 0x30];
pub const JITTER_2: &[u8] = &[0x05, 0x00, 0x06, 0x00, 0x02, 0x00, 0x00, 0x00, 0x00];
const JITTER_9: &[u8] = &[0x05, 0x00, 0x06, 0x00, 0x09, 0x00, 0x00, 0x75, 0x30];
pub const CLOCKS: &[u8] = &[0x06, 0x00, 0x0C, 0, 0, 0, 100, 0, 0, 0, 2, 0, 0, 0x03, 0xE8];

/// Fields one after the other, then what the strict reading and what the loose one answers.
type Row = (&'static [&'static [u8]], Answer, Answer);

const fn holds(ports: u64, flows: u64) -> Answer {
    Answer { refusal: 0, first: ports, second: flows }
}

const fn refuses(refusal: u32, place: u64) -> Answer {
    Answer { refusal, first: place, second: 0 }
}

/// The header, ports and flows.
const ORDERS: &[Row] = &[
    (&[&K], holds(1, 2), holds(1, 2)),
    (&[HEADER, PORT_1, FLOW_2, FLOW_1], refuses(12, 37), holds(1, 2)),
    (&[PORT_1, HEADER, FLOW_1, FLOW_2], refuses(12, 11), holds(1, 2)),
    (&[HEADER, FLOW_1, PORT_1, FLOW_2], refuses(12, 26), holds(1, 2)),
    (&[FLOW_1, FLOW_2, HEADER, PORT_1], refuses(12, 30), holds(1, 2)),
    (&[FLOW_2, FLOW_1, PORT_1, HEADER], refuses(12, 15), holds(1, 2)),
    (&[HEADER, PORT_1, PORT_2, FLOW_1, FLOW_2], holds(2, 2), holds(2, 2)),
    (&[HEADER, PORT_2, PORT_1, FLOW_1, FLOW_2], refuses(12, 22), holds(2, 2)),
    (&[&K, PORT_2], refuses(12, 52), holds(2, 2)),
    (&[&K, FLOW_256], holds(1, 3), holds(1, 3)),
    (&[HEADER, PORT_1, FLOW_256, FLOW_2, FLOW_1], refuses(12, 37), holds(1, 3)),
    (&[HEADER, PORT_1, FLOW_1, FLOW_256, FLOW_2], refuses(12, 52), holds(1, 3)),
];

/// Extra bytes, jitter and clocks.
const LATER: &[Row] = &[
    (&[&K, EXTRA_1, JITTER_1, CLOCKS], holds(1, 2), holds(1, 2)),
    (&[&K, EXTRA_1, JITTER_1, JITTER_2, CLOCKS], holds(1, 2), holds(1, 2)),
    (&[&K, CLOCKS], holds(1, 2), holds(1, 2)),
    (&[EXTRA_1, &K], refuses(12, 7), holds(1, 2)),
    (&[NO_EXTRA_1, &K], refuses(12, 7), holds(1, 2)),
    (&[JITTER_1, &K], refuses(12, 9), holds(1, 2)),
    (&[CLOCKS, &K], refuses(12, 15), holds(1, 2)),
    (&[HEADER, PORT_1, EXTRA_1, FLOW_1, FLOW_2], refuses(12, 29), holds(1, 2)),
    (&[HEADER, PORT_1, FLOW_1, JITTER_1, FLOW_2], refuses(12, 46), holds(1, 2)),
    (&[&K, JITTER_2, JITTER_1], refuses(12, 61), holds(1, 2)),
    (&[&K, JITTER_1, EXTRA_1], refuses(12, 61), holds(1, 2)),
    (&[&K, CLOCKS, JITTER_1], refuses(12, 67), holds(1, 2)),
    (&[&K, CLOCKS, EXTRA_1], refuses(12, 67), holds(1, 2)),
    (&[HEADER, PORT_1, PORT_2, FLOW_1, EXTRA_1, EXTRA_2], holds(2, 1), holds(2, 1)),
    (&[HEADER, PORT_1, PORT_2, FLOW_1, EXTRA_2, EXTRA_1], refuses(12, 55), holds(2, 1)),
];

/// Late fields that have other faults too, and plans that have others elsewhere.
const FAULTS: &[Row] = &[
    (&[HEADER, PORT_1, FLOW_2, FLOW_0], refuses(5, 37), refuses(5, 37)),
    (&[HEADER, PORT_1, FLOW_2, &[0x02, 0x00, 0x01, 0x00]], refuses(4, 37), refuses(4, 37)),
    (&[HEADER, PORT_1, FLOW_2, &[0x00, 0x00, 0x01, 0x00]], refuses(3, 37), refuses(3, 37)),
    (&[HEADER, PORT_1, FLOW_2, &[0x03, 0x00, 0x0C, 0x00, 0x01]], refuses(2, 37), refuses(2, 37)),
    (&[HEADER, PORT_1, FLOW_2, &[0x02, 0x00]], refuses(2, 37), refuses(2, 37)),
    (&[&K, FLOW_1], refuses(6, 52), refuses(6, 52)),
    (&[&K, PORT_1], refuses(6, 52), refuses(6, 52)),
    (&[&K, HEADER], refuses(6, 52), refuses(6, 52)),
    (&[&K, CLOCKS, CLOCKS], refuses(6, 67), refuses(6, 67)),
    (&[&K, EXTRA_1, CLOCKS, NO_EXTRA_1], refuses(6, 74), refuses(6, 74)),
    (&[&K, JITTER_9, CLOCKS, JITTER_9], refuses(6, 76), refuses(6, 76)),
    (&[&K, TWICE], refuses(6, 52), refuses(6, 52)),
    (&[HEADER, PORT_1, TWICE, FLOW_2], refuses(7, 22), refuses(7, 22)),
    (&[HEADER, PORT_1, FLOW_2, TWICE], refuses(12, 37), refuses(7, 37)),
    (&[HEADER, FLOW_2, TWICE, PORT_1], refuses(12, 26), refuses(7, 26)),
    (&[HEADER, TWICE, PORT_1, FLOW_2], refuses(7, 11), refuses(7, 11)),
    (&[HEADER, PORT_1, FLOW_2, FLOW_1, FLOW_2], refuses(12, 37), refuses(6, 52)),
    (&[HEADER, PORT_1, FLOW_2, FLOW_1, FLOW_0], refuses(12, 37), refuses(5, 52)),
    (&[HEADER, PORT_1, FLOW_2, FLOW_1, &[0x07, 0x00, 0x00]], refuses(12, 37), refuses(3, 52)),
    (&[HEADER, PORT_1, FLOW_2, FLOW_1, &[0x03]], refuses(12, 37), refuses(2, 52)),
    (&[HEADER, PORT_1, FLOW_0, FLOW_2, FLOW_1], refuses(5, 22), refuses(5, 22)),
    (&[HEADER, PORT_1, FLOW_2, &[0x07, 0x00, 0x00], FLOW_1], refuses(3, 37), refuses(3, 37)),
    (&[HEADER, FLOW_1, FLOW_2], refuses(9, 11), refuses(9, 11)),
    (&[HEADER, FLOW_2, FLOW_1], refuses(12, 26), refuses(9, 11)),
    (&[PORT_1, FLOW_1, FLOW_2], refuses(8, 41), refuses(8, 41)),
    (&[PORT_1, FLOW_2, FLOW_1], refuses(12, 26), refuses(8, 41)),
    (&[HEADER, PORT_1], refuses(8, 22), refuses(8, 22)),
    (&[PORT_1, HEADER], refuses(12, 11), refuses(8, 22)),
    (&[&K, JITTER_9], refuses(9, 52), refuses(9, 52)),
    (&[&K, JITTER_9, EXTRA_1], refuses(12, 61), refuses(9, 52)),
    (&[&K, EXTRA_2, JITTER_9], refuses(9, 59), refuses(9, 59)),
    (&[], refuses(1, 0), refuses(1, 0)),
];

pub fn run(tally: &mut Tally, held: &Planner) {
    for (fields, strict, loose) in ORDERS.iter().chain(LATER).chain(FAULTS) {
        let plan = fields.concat();
        tally.case(0, &plan);
        tally.same(format_args!("cp_load_strict"), ffi::load_strict(held, &plan).1, *strict);
        tally.same(format_args!("cp_load"), ffi::load(held, &plan).1, *loose);
        both(tally, held, &plan);
        both(tally, &ffi::empty(), &plan);
    }
}
