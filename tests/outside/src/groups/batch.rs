//! Batches: long rows of placing, serving and collecting against the model; the bound on the turns; batches that no call made.

use super::batch_foreign;
use super::known::K;
use crate::answers::{Answer, Batch, Slot, StepsAnswer};
use crate::ffi;
use crate::gen::{self, damage, encode, newer_damage};
use crate::model::batch::{self as model, Placed, SLOTS, TURN};
use crate::report::Tally;
use crate::rng::Rng;

/// Guard 1, top 40,000, a port of 1,000 Mbit/s and a flow of 105 bytes every 1,000 ns: 40 steps.
pub const FULL: [u8; 37] = [
    1, 0, 8, 0, 0, 0, 1, 0, 0, 0x9C, 0x40, 2, 0, 8, 0, 1, 0, 0, 3, 0xE8, 0, 0, 3, 0, 12, 0, 1, 0, 0, 3, 0xE8, 0, 1, 0, 0x69, 0, 1,
];

/// What a slot of the planner's batch holds, as a refusal's number, and its numbers: none, 26 with duration and steps, or the answer.
fn held(slot: &Slot) -> Option<StepsAnswer> {
    let answer = |refusal, first, second| Some(StepsAnswer::new(Answer::new(refusal, first, second), slot.steps));
    match slot.state {
        1 => answer(26, slot.duration, 0),
        2 => answer(0, slot.duration, 0),
        3 => answer(22, u64::from(slot.port), u64::from(slot.count)),
        _ => None,
    }
}

/// Every slot and the next one as the model has them.
fn compare(tally: &mut Tally, batch: &Batch, want: &model::Batch) {
    for slot in 0..SLOTS {
        let (got, want) = (held(&batch.slots[slot]), want.slots[slot].as_ref().map(Placed::reached));
        tally.same(format_args!("slot {slot}"), got, want);
    }
    tally.same(format_args!("the next slot"), batch.next, want.next());
}

fn place(tally: &mut Tally, batch: &mut Batch, want: &mut model::Batch, slot: u64, bytes: &[u8]) {
    let answer = want.place(slot, bytes);
    tally.saw("place", answer.refusal);
    let (left, got) = ffi::place(batch, slot, bytes);
    tally.same(format_args!("cp_batch_place({slot})"), got, answer);
    if answer.refusal == 0 {
        let fresh = ffi::load(&ffi::empty(), bytes).0;
        tally.same(format_args!("tables of slot {slot}"), left.slots[slot as usize].planner == fresh, true);
    } else {
        tally.same(format_args!("the batch after a refused place({slot})"), left == *batch, true);
    }
    *batch = left;
}

fn serve(tally: &mut Tally, batch: &mut Batch, want: &mut model::Batch) {
    let slot = want.serve();
    tally.saw("serve", slot as u32);
    let (left, got) = ffi::serve(batch);
    tally.same(format_args!("cp_batch_serve"), got, slot);
    if slot == SLOTS as u64 {
        tally.same(format_args!("the batch after an idle turn"), left == *batch, true);
    }
    *batch = left;
}

fn collect(tally: &mut Tally, batch: &mut Batch, want: &mut model::Batch, slot: u64) {
    let answer = want.collect(slot);
    tally.saw("collect", answer.refusal);
    let (left, got) = ffi::collect(batch, slot);
    tally.same(format_args!("cp_batch_collect({slot})"), got, answer);
    if [15, 28].contains(&answer.refusal) {
        tally.same(format_args!("the batch after a refused collect({slot})"), left == *batch, true);
    }
    *batch = left;
}

fn some_bytes(rng: &mut Rng) -> Vec<u8> {
    if rng.chance(1, 4) {
        return newer_damage::some(rng);
    }
    let good = gen::plan(rng);
    match rng.below(6) {
        0 => damage::damaged(rng, &good),
        1 => FULL.to_vec(),
        2 => K.to_vec(),
        _ => encode(&good),
    }
}

fn some_slot(rng: &mut Rng) -> u64 {
    match rng.below(12) {
        0 => rng.pick(&[8, 9, 255, 256, 1 << 32, (1 << 32) + 1, u64::MAX]),
        _ => rng.below(SLOTS as u64),
    }
}

/// A row of calls of every kind, with the turns that each plan took counted.
fn row(tally: &mut Tally, case: u64, calls: u64) {
    let mut rng = tally.rng(case);
    let (mut batch, mut want) = (ffi::empty_batch(), model::Batch::new());
    let mut waited = [0; SLOTS];
    let serving = rng.range(2, 9);
    for _ in 0..calls {
        let kind = rng.below(10);
        if kind < serving {
            serve(tally, &mut batch, &mut want);
            waited.iter_mut().for_each(|turns| *turns += 1);
        } else if rng.chance(1, 2) {
            let (slot, bytes) = (some_slot(&mut rng), some_bytes(&mut rng));
            tally.case(case, &bytes);
            let vacant = matches!(want.slots.get(slot as usize), Some(None));
            place(tally, &mut batch, &mut want, slot, &bytes);
            if vacant {
                waited[slot as usize] = 0;
            }
        } else {
            collect(tally, &mut batch, &mut want, some_slot(&mut rng));
        }
        compare(tally, &batch, &want);
        for (slot, placed) in want.slots.iter().enumerate() {
            if let Some(placed) = placed {
                let late = placed.is_pending() && waited[slot] >= placed.most_turns();
                tally.same(format_args!("slot {slot} is answered in time"), late, false);
                tally.same(format_args!("slot {slot}: turns of sixteen steps"), placed.reached().steps <= TURN * placed.turns, true);
            }
        }
    }
}

/// Eight times the plan of 40 steps: the last ends with turn 24.
fn eight_times(tally: &mut Tally) {
    let (mut batch, mut want) = (ffi::empty_batch(), model::Batch::new());
    compare(tally, &batch, &want);
    tally.case(0, &FULL);
    for slot in 0..SLOTS as u64 {
        place(tally, &mut batch, &mut want, slot, &FULL);
    }
    for turn in 1..=24 {
        tally.same(format_args!("slot 7 before turn {turn}"), held(&batch.slots[7]).map(|answer| answer.refusal), Some(26));
        serve(tally, &mut batch, &mut want);
        compare(tally, &batch, &want);
    }
    let end = StepsAnswer::new(Answer::new(22, 1, 1), 40);
    for slot in 0..SLOTS as u64 {
        tally.same(format_args!("collect({slot}) of 40 steps"), ffi::collect(&batch, slot).1, end);
        collect(tally, &mut batch, &mut want, slot);
    }
    serve(tally, &mut batch, &mut want);
    compare(tally, &batch, &want);
}

pub fn run(tally: &mut Tally) {
    eight_times(tally);
    for case in 0..tally.cases {
        row(tally, case, 60);
    }
    for case in 0..tally.cases / 50 {
        row(tally, 1 << 40 | case, 2_000);
    }
    batch_foreign::run(tally);
    tally.must_have_seen("place", &[0, 2, 15, 27]);
    tally.must_have_seen("serve", &[0, 1, 2, 3, 4, 5, 6, 7, 8]);
    tally.must_have_seen("collect", &[0, 15, 22, 28]);
}
