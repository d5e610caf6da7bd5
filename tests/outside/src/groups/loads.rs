//! Loads of good and damaged plans: answer, place, and the planner that is left; a refused load leaves every byte of it.

use super::clocks::with_clocks;
use super::extra::with_extra;
use super::jitter::with_jitter;
use super::known::K;
use crate::answers::{Answer, Planner};
use crate::ffi;
use crate::gen::{self, damage, encode, few, sized, strict, Piece};
use crate::model::read::{load_answer, read_as, Reading};
use crate::model::tables::tables_of;
use crate::report::Tally;

/// The same bytes at the very end of an allocation, at any alignment.
fn moved(plan: &[u8], shift: usize) -> Vec<u8> {
    let mut bytes = Vec::with_capacity(shift + plan.len());
    bytes.resize(shift, 3);
    bytes.extend(plan);
    bytes
}

/// A load compared with the model: the planner given, the plan, and the planner that comes back.
pub type Load = fn(&mut Tally, &Planner, &[u8]) -> Planner;

/// A load in either reading.
pub fn load_as(tally: &mut Tally, reading: Reading, before: &Planner, plan: &[u8]) -> Planner {
    let outcome = read_as(reading, plan);
    let want = load_answer(&outcome);
    let (call, load): (_, fn(&Planner, &[u8]) -> (Planner, Answer)) = match reading {
        Reading::Loose => ("load", ffi::load),
        Reading::Strict => ("load_strict", ffi::load_strict),
    };
    tally.saw(call, want.refusal);
    let shift = tally.passed as usize % 8;
    let (after, answer) = load(before, &moved(plan, shift)[shift..]);
    tally.same(format_args!("cp_{call}"), answer, want);
    if want.refusal != 0 {
        tally.same(format_args!("every byte of the planner is as it came to cp_{call}"), after.to_bytes() == before.to_bytes(), true);
    }
    let want = outcome.map_or(before.clone(), |held| tables_of(&held));
    tally.same(format_args!("planner after cp_{call}: first table and slot that differ"), after.differs(&want), None);
    after
}

/// A loose load.
pub fn one_load(tally: &mut Tally, before: &Planner, plan: &[u8]) -> Planner {
    load_as(tally, Reading::Loose, before, plan)
}

/// A plan cut at every byte, and with every byte changed in some ways.
pub fn every_byte(tally: &mut Tally, case: u64, plan: &[u8], planner: &Planner, load: Load) {
    for end in 0..plan.len() {
        tally.case(case, &plan[..end]);
        load(tally, planner, &plan[..end]);
    }
    for place in 0..plan.len() {
        for change in [plan[place] ^ 1, plan[place].wrapping_add(1), plan[place].wrapping_sub(1), 0, 255] {
            let mut changed = plan.to_vec();
            changed[place] = change;
            tally.case(case, &changed);
            load(tally, planner, &changed);
        }
    }
}

pub fn sizes(tally: &mut Tally, planner: &Planner, load: Load) {
    for case in 0..40 {
        let mut rng = tally.rng(1 << 40 | case);
        let good = gen::plan(&mut rng);
        for size in [0, 1, 2, 3, 16_383, 16_384, 16_385, 65_536 + 52, 100_000] {
            let plan = sized::sized(&mut rng, &good, size);
            tally.case(case, &plan);
            load(tally, planner, &plan);
        }
        for size in [16_383, 16_384, 16_385, 16_386] {
            for tag in [1, 2, 3, 4, 5, 6, 7, 0x11, 0x13] {
                let plan = sized::topped_up(&good, tag, size);
                tally.case(case, &plan);
                load(tally, planner, &plan);
            }
        }
    }
}

/// Routes of 16 hops with each pair of places alike.
fn pairs(tally: &mut Tally, planner: &Planner) {
    for first in 0..16 {
        for second in first + 1..16 {
            let mut route: Vec<u16> = (40..56).collect();
            route[second] = route[first];
            let mut pieces = vec![Piece::Flow { number: 256, period: 1_000, count: 1, length: 64, route }];
            pieces.extend((40..56).map(|number| Piece::Port { number, rate: 1, blocker: 0 }));
            pieces.push(Piece::Header { guard: 0, top: 1 });
            let plan = encode(&pieces);
            tally.case(0, &plan);
            one_load(tally, planner, &plan);
        }
    }
}

/// Every order of a few fields.
fn orders(tally: &mut Tally, planner: &Planner) {
    for plan in few::fields().iter().flat_map(|pieces| few::every_order(pieces)) {
        tally.case(0, &plan);
        one_load(tally, planner, &plan);
    }
}

/// Fields that say 0 extra bytes, a jitter of 0 or clocks of 0 leave the planner as it is without them.
fn without_zeros(tally: &mut Tally, planner: &Planner, good: &[Piece]) {
    let fewer = strict::without_needless(good);
    tally.saw("fields of 0, 1 for some", u32::from(fewer.len() < good.len()));
    let (one, other) = (ffi::load(planner, &encode(good)).0, ffi::load(planner, &encode(&fewer)).0);
    tally.same(format_args!("fields of 0 left out: first table and slot that differ"), one.differs(&other), None);
}

pub fn run(tally: &mut Tally) {
    let empty = ffi::empty();
    tally.same(format_args!("cp_clear: first table and slot that differ"), empty.differs(&Planner::zero()), None);
    let held = ffi::load(&empty, &K).0;
    sizes(tally, &held, one_load);
    pairs(tally, &held);
    orders(tally, &held);
    every_byte(tally, 0, &K, &held, one_load);
    every_byte(tally, 0, &with_extra(32, true), &held, one_load);
    every_byte(tally, 0, &with_jitter(1, 30_000, true), &held, one_load);
    every_byte(tally, 0, &with_jitter(2, 10_000_000, false), &held, one_load);
    every_byte(tally, 0, &with_clocks(100, 2, 1_000, true), &held, one_load);
    every_byte(tally, 0, &with_clocks(1_000, 1_000, 1_000_000, false), &held, one_load);
    for case in 0..tally.cases {
        let mut rng = tally.rng(case);
        let good = gen::plan(&mut rng);
        let before = if rng.chance(1, 4) { &empty } else { &held };
        let plan = encode(&good);
        tally.case(case, &plan);
        one_load(tally, before, &plan);
        without_zeros(tally, before, &good);
        if case % 50 == 0 && plan.len() < 300 {
            every_byte(tally, case, &plan, before, one_load);
        }
        for _ in 0..8 {
            let plan = damage::damaged(&mut rng, &good);
            tally.case(case, &plan);
            one_load(tally, before, &plan);
        }
    }
    tally.must_have_seen("load", &[0, 1, 2, 3, 4, 5, 6, 7, 8, 9]);
    tally.must_have_seen("fields of 0, 1 for some", &[0, 1]);
}
