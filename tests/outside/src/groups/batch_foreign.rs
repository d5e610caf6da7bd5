//! Batches that no call made: what their slots are taken for.

use crate::answers::{Answer, Batch, Planner, Slot, StepsAnswer, BATCH_BYTES};
use crate::ffi;
use crate::gen::{self, encode};
use crate::model::fixed_point::fixed_point;
use crate::model::spans::effort;
use crate::model::tables::plan_of;
use crate::report::Tally;
use crate::rng::Rng;

fn steps_answer(refusal: u32, first: u64, second: u64, steps: u64) -> StepsAnswer {
    StepsAnswer::new(Answer::new(refusal, first, second), steps)
}

fn is_pending(slot: &Slot) -> bool {
    slot.state == 1 && slot.steps < slot.duration
}

/// The final answer, where the slot's state is one.
fn answer_in(slot: &Slot) -> Option<StepsAnswer> {
    match slot.state {
        2 => Some(steps_answer(0, slot.duration, 0, slot.steps)),
        3 => Some(steps_answer(22, u64::from(slot.port), u64::from(slot.count), slot.steps)),
        4 => Some(steps_answer(20, 0, 0, 0)),
        5 => Some(steps_answer(10, 0, 0, 0)),
        _ => None,
    }
}

/// What a turn makes of a pending slot: 26 with the duration and all steps, or the final answer.
fn turned(slot: &Slot) -> StepsAnswer {
    let mut answer = fixed_point(plan_of(&slot.planner).as_ref(), slot.duration, 16);
    if [0, 22, 26].contains(&answer.refusal) {
        answer.steps += slot.steps;
    }
    answer
}

fn some_slot(rng: &mut Rng, tables: &Planner) -> Slot {
    let mut planner = tables.clone();
    if rng.chance(1, 3) {
        planner.rates[rng.index(64)] = rng.pick(&[0, 1, 100_001]);
    }
    if rng.chance(1, 8) {
        planner.top = rng.pick(&[0, 1, 100_000_001]);
    }
    let top = u64::from(planner.top);
    let numbers = [0, 1, 2, 16, 17, top, top.wrapping_add(1), u64::MAX, u64::MAX - 15, 1 << 32, rng.range(1, top.max(1))];
    Slot {
        duration: rng.pick(&numbers),
        steps: rng.pick(&numbers),
        state: rng.pick(&[0, 1, 1, 1, 1, 2, 3, 4, 5, 6, 1 << 31, u32::MAX]),
        port: rng.next() as u32,
        count: rng.next() as u32,
        planner,
    }
}

fn some_batch(rng: &mut Rng) -> Batch {
    let bytes = encode(&gen::plan(rng));
    let tables = ffi::load(&ffi::empty(), &bytes).0;
    if plan_of(&tables).map_or(false, |plan| effort(&plan) > 10_000) {
        return some_batch(rng);
    }
    let mut batch = ffi::empty_batch();
    for slot in &mut batch.slots {
        *slot = some_slot(rng, &tables);
    }
    batch.next = rng.pick(&[0, 3, 7, 8, 9, 15, 1 << 32, u64::MAX, u64::MAX - 7]);
    batch
}

fn ask(tally: &mut Tally, batch: &Batch, bytes: &[u8]) {
    let round = (0..8).map(|i| ((u128::from(batch.next) + i) % 8) as usize);
    let want = round.into_iter().find(|slot| is_pending(&batch.slots[*slot]));
    let (left, told) = ffi::serve(batch);
    tally.same(format_args!("foreign: cp_batch_serve"), told, want.map_or(8, |slot| slot as u64));
    if let Some(slot) = want {
        let (got, want) = (&left.slots[slot], turned(&batch.slots[slot]));
        let reached = is_pending(got).then(|| steps_answer(26, got.duration, 0, got.steps));
        tally.saw("foreign turn", want.refusal);
        tally.same(format_args!("foreign: slot {slot} after its turn"), reached.or_else(|| answer_in(got)), Some(want));
        tally.same(format_args!("foreign: the next slot"), left.next, (slot as u64 + 1) % 8);
        tally.same(format_args!("foreign: the tables stay"), got.planner == batch.slots[slot].planner, true);
    } else {
        tally.same(format_args!("foreign: an idle turn"), left == *batch, true);
    }
    for slot in 0..8 {
        let held = &batch.slots[slot];
        let collected = ffi::collect(batch, slot as u64).1;
        tally.same(format_args!("foreign: collect {slot}"), collected, answer_in(held).unwrap_or(steps_answer(28, 0, 0, 0)));
        let placed = ffi::place(batch, slot as u64, bytes).1.refusal;
        let vacant = !is_pending(held) && answer_in(held).is_none();
        tally.same(format_args!("foreign: place {slot}"), placed, if vacant { 0 } else { 27 });
    }
}

pub fn run(tally: &mut Tally) {
    for case in 0..tally.cases {
        let mut rng = tally.rng(1 << 50 | case);
        let bytes = encode(&gen::plan(&mut rng));
        tally.case(case, &bytes);
        ask(tally, &some_batch(&mut rng), &bytes);
        let mut raw = vec![0; BATCH_BYTES];
        raw.iter_mut().for_each(|byte| *byte = rng.next() as u8 & 0x03);
        ask(tally, &Batch::from_bytes(&raw), &bytes);
    }
    tally.must_have_seen("foreign turn", &[0, 10, 20, 22, 26]);
}
