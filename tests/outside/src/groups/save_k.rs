//! K's fields and a few more in several orders, with the fields that are saved; and the longest plan.

use super::known::K;
use super::lent::first_other;
use super::save::{ask_save, saved};
use super::strict_k::{CLOCKS, EXTRA_1, EXTRA_2, FLOW_1, FLOW_2, FLOW_256, HEADER, JITTER_1, JITTER_2, NO_EXTRA_1, PORT_1, PORT_2};
use crate::answers::Answer;
use crate::ffi;
use crate::gen::{encode, sized};
use crate::model::read::read;
use crate::model::save::written;
use crate::report::Tally;

const JITTER_256: &[u8] = &[0x05, 0x00, 0x06, 0x01, 0x00, 0x00, 0x98, 0x96, 0x80];
const NO_CLOCKS: &[u8] = &[0x06, 0x00, 0x0C, 0, 0, 0, 0, 0, 0, 0, 0, 0, 0, 0, 0];
const DRIFT: &[u8] = &[0x06, 0x00, 0x0C, 0, 0, 0, 1, 0, 0, 0, 0, 0, 0, 0, 0];
const TIMING_JITTER: &[u8] = &[0x06, 0x00, 0x0C, 0, 0, 0, 0, 0, 0, 0x03, 0xE8, 0, 0, 0, 0];
const SYNC_ERROR: &[u8] = &[0x06, 0x00, 0x0C, 0, 0, 0, 0, 0, 0, 0, 0, 0, 0x0F, 0x42, 0x40];
/// Flow 2 over ports 2 and 1.
const BACK: &[u8] = &[0x03, 0x00, 0x0E, 0x00, 0x02, 0x00, 0x01, 0xAD, 0xB0, 0x00, 0x01, 0x02, 0x5D, 0x00, 0x02, 0x00, 0x01];

/// Fields one after the other, then those that are saved.
type Row = (&'static [&'static [u8]], &'static [&'static [u8]]);

const ROWS: &[Row] = &[
    (&[&K], &[&K]),
    (&[HEADER, PORT_1, FLOW_2, FLOW_1], &[&K]),
    (&[PORT_1, HEADER, FLOW_1, FLOW_2], &[&K]),
    (&[FLOW_1, FLOW_2, PORT_1, HEADER], &[&K]),
    (&[FLOW_2, FLOW_1, HEADER, PORT_1], &[&K]),
    (&[HEADER, PORT_1, FLOW_2], &[HEADER, PORT_1, FLOW_2]),
    (&[&K, PORT_2], &[HEADER, PORT_1, PORT_2, FLOW_1, FLOW_2]),
    (&[PORT_2, FLOW_256, &K], &[HEADER, PORT_1, PORT_2, FLOW_1, FLOW_2, FLOW_256]),
    (&[BACK, PORT_2, PORT_1, HEADER], &[HEADER, PORT_1, PORT_2, BACK]),
    (&[&K, EXTRA_1], &[&K, EXTRA_1]),
    (&[EXTRA_1, &K], &[&K, EXTRA_1]),
    (&[NO_EXTRA_1, &K], &[&K]),
    (&[EXTRA_2, PORT_2, EXTRA_1, &K], &[HEADER, PORT_1, PORT_2, FLOW_1, FLOW_2, EXTRA_1, EXTRA_2]),
    (&[EXTRA_2, PORT_2, NO_EXTRA_1, &K], &[HEADER, PORT_1, PORT_2, FLOW_1, FLOW_2, EXTRA_2]),
    (&[JITTER_1, &K], &[&K, JITTER_1]),
    (&[JITTER_2, &K], &[&K]),
    (&[JITTER_2, JITTER_1, &K], &[&K, JITTER_1]),
    (&[JITTER_256, FLOW_256, JITTER_1, &K], &[&K, FLOW_256, JITTER_1, JITTER_256]),
    (&[CLOCKS, &K], &[&K, CLOCKS]),
    (&[&K, NO_CLOCKS], &[&K]),
    (&[DRIFT, &K], &[&K, DRIFT]),
    (&[TIMING_JITTER, &K], &[&K, TIMING_JITTER]),
    (&[SYNC_ERROR, &K], &[&K, SYNC_ERROR]),
    (&[CLOCKS, JITTER_1, EXTRA_1, FLOW_2, FLOW_1, PORT_1, HEADER], &[&K, EXTRA_1, JITTER_1, CLOCKS]),
    (&[NO_CLOCKS, JITTER_2, NO_EXTRA_1, &K], &[&K]),
    (&[NO_CLOCKS, JITTER_1, JITTER_2, NO_EXTRA_1, &K], &[&K, JITTER_1]),
];

/// K with every kind of field, in strict order.
pub fn with_every_field() -> Vec<u8> {
    [&K, EXTRA_1, JITTER_1, CLOCKS].concat()
}

/// The longest plan that can be saved has 15,002 bytes.
fn longest(tally: &mut Tally) {
    let mut rng = tally.rng(1 << 50);
    let mut pieces = sized::longest();
    let want = encode(&pieces);
    rng.shuffle(&mut pieces);
    let bytes = encode(&pieces);
    tally.case(0, &bytes);
    let plan = read(&bytes).expect("a plan");
    let planner = ffi::load(&ffi::empty(), &bytes).0;
    tally.same(format_args!("bytes of the longest plan"), want.len(), 15_002);
    tally.same(format_args!("saved: first byte that differs"), first_other(&saved(&planner), &want), None);
    for length in (15_000..15_005).chain([0, 52, 16_384]) {
        ask_save(tally, &planner, Some(&plan), length, &mut rng);
    }
}

pub fn run(tally: &mut Tally) {
    let mut rng = tally.rng(1 << 51);
    for (given, kept) in ROWS {
        let (bytes, want) = (given.concat(), kept.concat());
        tally.case(0, &bytes);
        let plan = read(&bytes).expect("a plan");
        let planner = ffi::load(&ffi::empty(), &bytes).0;
        tally.same(format_args!("model: what is saved"), written(&plan), want.clone());
        let mut buffer = vec![0; want.len()];
        let answer = ffi::save(&planner, &mut buffer);
        tally.same(format_args!("cp_save"), answer, Answer::new(0, want.len() as u64, 0));
        tally.same(format_args!("first byte that differs after cp_save"), first_other(&buffer, &want), None);
        for length in 0..want.len() + 4 {
            ask_save(tally, &planner, Some(&plan), length, &mut rng);
        }
    }
    longest(tally);
}
