//! Planners that no call made: 20 to every question, unless the rules accept the plan in their tables.

use super::{ask_all, known::K, loads::one_load};
use crate::answers::{Planner, PLANNER_BYTES, STRIDE};
use crate::ffi;
use crate::gen::{self, damage, encode};
use crate::model::spans::effort;
use crate::model::tables::plan_of;
use crate::report::Tally;
use crate::rng::Rng;

fn random_bytes(rng: &mut Rng) -> Planner {
    let mut bytes = [0; PLANNER_BYTES];
    let mask = rng.pick(&[0xFF, 0x7F, 0x0F, 0x01]);
    for byte in &mut bytes {
        *byte = rng.next() as u8 & mask;
    }
    Planner::from_bytes(bytes)
}

/// Slots in use, so that damage mostly hits something.
fn slot(rng: &mut Rng, used: &[usize], all: usize) -> usize {
    if used.is_empty() || rng.chance(1, 3) {
        return rng.index(all);
    }
    rng.pick(used)
}

fn damage_port(rng: &mut Rng, tables: &mut Planner) {
    let used: Vec<usize> = (0..64).filter(|slot| tables.rates[*slot] != 0).collect();
    let slot = slot(rng, &used, 64);
    match rng.below(3) {
        0 => tables.rates[slot] = rng.pick(&[0, 1, 2, 99_999, 100_000, 100_001, 1 << 31, u32::MAX]),
        1 => tables.blockings[slot] = rng.pick(&[0, 1, 63, 64, 65, 1999, 2000, 2001, u16::MAX]),
        _ => tables.extras[slot] = rng.pick(&[0, 1, 32, 63, 64, 65, 128, 255]),
    }
}

fn damage_flow(rng: &mut Rng, tables: &mut Planner) {
    let used: Vec<usize> = (0..256).filter(|slot| tables.hops[*slot] != 0).collect();
    let slot = slot(rng, &used, 256);
    let hops = usize::from(tables.hops[slot]).clamp(1, STRIDE);
    let route = slot * STRIDE;
    match rng.below(9) {
        0 => tables.periods[slot] = rng.pick(&[0, 1, 999, 1_000, 99_999_999, 100_000_000, 100_000_001, u32::MAX]),
        1 => tables.counts[slot] = rng.pick(&[0, 1, 2, 63, 64, 65, 256, u16::MAX]),
        2 => tables.lengths[slot] = rng.pick(&[0, 1, 63, 64, 65, 1999, 2000, 2001, u16::MAX]),
        3 => tables.hops[slot] = rng.pick(&[0, 1, 2, 15, 16, 17, 24, 25, 128, 255]),
        4 => tables.routes[route + rng.index(hops)] = rng.pick(&[0, 1, 63, 64, 65, 128, 255]),
        5 => tables.routes[route + rng.index(hops)] = tables.routes[route + rng.index(hops)],
        6 => tables.routes[route + rng.index(hops)] = rng.range(1, 64) as u8,
        7 => tables.jitters[slot] = rng.pick(&[0, 1, 30_000, 9_999_999, 10_000_000, 10_000_001, 1 << 31, u32::MAX]),
        _ => tables.routes[route + rng.index(STRIDE)] = rng.next() as u8,
    }
}

fn damage_clocks(rng: &mut Rng, tables: &mut Planner) {
    match rng.below(3) {
        0 => tables.drift = rng.pick(&[0, 1, 999, 1_000, 1_001, 1 << 16, u32::MAX]),
        1 => tables.timing_jitter = rng.pick(&[0, 1, 999, 1_000, 1_001, 1 << 16, u32::MAX]),
        _ => tables.sync_error = rng.pick(&[0, 1, 999_999, 1_000_000, 1_000_001, 1 << 31, u32::MAX]),
    }
}

/// A slot emptied: wholly, or all but one of its numbers.
fn empty_flow(rng: &mut Rng, tables: &mut Planner) {
    let used: Vec<usize> = (0..256).filter(|slot| tables.hops[*slot] != 0).collect();
    let slot = slot(rng, &used, 256);
    let keep = rng.below(8);
    tables.periods[slot] *= u32::from(keep == 0);
    tables.counts[slot] *= u16::from(keep == 1);
    tables.lengths[slot] *= u16::from(keep == 2);
    tables.hops[slot] *= u8::from(keep == 3);
    tables.jitters[slot] *= u32::from(keep == 4);
}

/// Bytes that no question may look at.
pub fn stir_unused(rng: &mut Rng, tables: &mut Planner) {
    for slot in 0..256 {
        for hop in usize::from(tables.hops[slot]).min(STRIDE)..STRIDE {
            tables.routes[slot * STRIDE + hop] = rng.next() as u8;
        }
    }
}

pub fn damage_one(rng: &mut Rng, tables: &mut Planner) {
    match rng.below(18) {
        0 => tables.guard = rng.pick(&[0, 1, 999_999, 1_000_000, 1_000_001, 1 << 31, u32::MAX]),
        1 => tables.top = rng.pick(&[0, 1, 2, 50_000, 99_999_999, 100_000_000, 100_000_001, u32::MAX]),
        2..=4 => damage_port(rng, tables),
        5..=11 => damage_flow(rng, tables),
        12 => empty_flow(rng, tables),
        13 => {
            let mut bytes = tables.to_bytes();
            bytes[rng.index(PLANNER_BYTES)] ^= 1 << rng.below(8);
            *tables = Planner::from_bytes(bytes);
        }
        14 => damage_clocks(rng, tables),
        15 => tables.form = rng.pick(&[0, 1, 1, 2, 256, 1 << 31, u32::MAX]),
        _ => stir_unused(rng, tables),
    }
}

/// K's tables with each number of extra bytes at its port, and with some at each port that it lacks.
fn extras_of_k(tally: &mut Tally, rng: &mut Rng) {
    let k = ffi::load(&ffi::empty(), &K).0;
    for slot in 0..64 {
        for extra in if slot == 0 { 0..=255 } else { 1..=1 } {
            let mut tables = k.clone();
            tables.extras[slot] = extra;
            tally.case(slot as u64, &tables.to_bytes());
            let refusal = if slot == 0 && extra <= 64 { 0 } else { 20 };
            let got = ffi::check(&tables, 1_000_000);
            tally.same(format_args!("extra {extra} in slot {slot}: cp_check(top)"), got.refusal, refusal);
            ask_all(tally, &tables, plan_of(&tables).as_ref(), rng);
        }
    }
}

/// K's tables with jitter in and out of range at its flows, and with some at each flow that it lacks.
fn jitters_of_k(tally: &mut Tally, rng: &mut Rng) {
    let k = ffi::load(&ffi::empty(), &K).0;
    for slot in 0..256 {
        let asked: &[u32] = match slot {
            0 | 1 => &[0, 1, 30_000, 38_000, 9_999_999, 10_000_000, 10_000_001, 1 << 24, 1 << 31, u32::MAX],
            _ => &[1],
        };
        for jitter in asked {
            let mut tables = k.clone();
            tables.jitters[slot] = *jitter;
            tally.case(slot as u64, &tables.to_bytes());
            let accepted = slot < 2 && *jitter <= 10_000_000;
            let got = ffi::check(&tables, 0);
            tally.same(format_args!("jitter {jitter} in slot {slot}: cp_check(0)"), got.refusal, if accepted { 10 } else { 20 });
            ask_all(tally, &tables, plan_of(&tables).as_ref(), rng);
        }
    }
}

/// K's tables with clocks in and out of their ranges.
fn clocks_of_k(tally: &mut Tally, rng: &mut Rng) {
    let k = ffi::load(&ffi::empty(), &K).0;
    let few = [0, 2, 1_000, 1_001, 1 << 31, u32::MAX];
    for drift in few {
        for timing_jitter in few {
            for sync_error in [0, 1_000, 1_000_000, 1_000_001, u32::MAX] {
                let tables = Planner { drift, timing_jitter, sync_error, ..k.clone() };
                tally.case(0, &tables.to_bytes());
                let accepted = drift <= 1_000 && timing_jitter <= 1_000 && sync_error <= 1_000_000;
                let (got, want) = (ffi::check(&tables, 0).refusal, if accepted { 10 } else { 20 });
                tally.same(format_args!("clocks {drift}, {timing_jitter}, {sync_error}: cp_check(0)"), got, want);
                ask_all(tally, &tables, plan_of(&tables).as_ref(), rng);
            }
        }
    }
}

/// Every question, and loads on top of such a planner.
pub fn ask(tally: &mut Tally, case: u64, tables: &Planner, rng: &mut Rng) {
    tally.case(case, &tables.to_bytes());
    let told = plan_of(tables);
    tally.saw("tables", u32::from(told.is_none()) * 20);
    if told.as_ref().map_or(true, |plan| effort(plan) < 40_000) {
        ask_all(tally, tables, told.as_ref(), rng);
    }
    if rng.chance(1, 4) {
        let good = gen::plan(rng);
        let bytes = if rng.chance(1, 2) { encode(&good) } else { damage::damaged(rng, &good) };
        let after = one_load(tally, tables, &bytes);
        let held = plan_of(&after);
        if held.as_ref().map_or(true, |plan| effort(plan) < 40_000) {
            ask_all(tally, &after, held.as_ref(), rng);
        }
    }
}

pub fn run(tally: &mut Tally) {
    let mut rng = tally.rng(u64::MAX);
    tally.case(0, &ffi::empty().to_bytes());
    tally.same(format_args!("the empty planner tells no plan"), plan_of(&ffi::empty()).is_none(), true);
    ask(tally, 0, &Planner::zero(), &mut rng);
    ask(tally, 0, &Planner::from_bytes([255; PLANNER_BYTES]), &mut rng);
    extras_of_k(tally, &mut rng);
    jitters_of_k(tally, &mut rng);
    clocks_of_k(tally, &mut rng);
    for case in 0..tally.cases {
        let mut rng = tally.rng(case);
        if rng.chance(1, 10) {
            let tables = random_bytes(&mut rng);
            ask(tally, case, &tables, &mut rng);
            continue;
        }
        let bytes = encode(&gen::plan(&mut rng));
        let mut tables = ffi::load(&ffi::empty(), &bytes).0;
        for _ in 0..rng.range(1, 3) {
            damage_one(&mut rng, &mut tables);
            ask(tally, case, &tables, &mut rng);
        }
    }
    tally.must_have_seen("tables", &[0, 20]);
}
