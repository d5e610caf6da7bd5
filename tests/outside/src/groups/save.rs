//! Saving: the answer and every byte of the buffer, for buffers around the length needed; that the strict reading of what is saved
//! holds the same plan; and that a strict plan is saved as it was.

use super::alike::alike;
use super::foreign::stir_unused;
use super::known::K;
use super::lent::{first_other, lend};
use super::loads::every_byte;
use super::save_k;
use super::strict::{another, random_planner};
use crate::answers::{Answer, Planner};
use crate::ffi;
use crate::gen::{self, encode, few, strict};
use crate::model::field::fields_of;
use crate::model::read::{load_answer, read, read_as, Reading};
use crate::model::save::{save, written};
use crate::model::tables::{plan_of, tables_of};
use crate::model::Plan;
use crate::report::{hex, Tally};
use crate::rng::Rng;

/// Saving into a buffer of a length.
pub fn ask_save(tally: &mut Tally, planner: &Planner, plan: Option<&Plan>, length: usize, rng: &mut Rng) {
    let model = |buffer: &[u8]| save(plan, buffer);
    tally.saw("save", model(&vec![0; length]).0.refusal);
    lend(tally, format_args!("cp_save"), length, rng, |buffer| ffi::save(planner, buffer), model);
}

/// Lengths of buffers: around the one needed, none, and any.
pub fn lengths(needed: usize, rng: &mut Rng) -> Vec<usize> {
    let around = needed.saturating_sub(2)..=needed + 2;
    around.chain([0, 1, rng.index(needed), needed + rng.index(1_000), 16_384, 70_000]).collect()
}

/// What a planner saves into a buffer that every plan fits, and whatever tables say; nothing where it is refused.
pub fn saved(planner: &Planner) -> Vec<u8> {
    let mut buffer = vec![0; 20_000];
    let answer = ffi::save(planner, &mut buffer);
    buffer.truncate(if answer.refusal == 0 { answer.first as usize } else { 0 });
    buffer
}

/// The strict reading of what is saved, over any planner: the plan that was saved, by its tables, its answers and its bytes.
fn read_again(tally: &mut Tally, planner: &Planner, plan: &Plan, rng: &mut Rng) {
    let bytes = saved(planner);
    let before = match rng.below(3) {
        0 => ffi::empty(),
        1 => random_planner(rng),
        _ => planner.clone(),
    };
    tally.same(format_args!("the plan in {}", hex(&bytes)), read_as(Reading::Strict, &bytes).as_ref(), Ok(plan));
    let (again, answer) = ffi::load_strict(&before, &bytes);
    tally.same(format_args!("cp_load_strict of what is saved"), answer, load_answer(&Ok(plan.clone())));
    let other = again.differs(&tables_of(plan));
    tally.same(format_args!("planner after it: first table and slot that differ"), other, None);
    tally.same(format_args!("saved again: first byte that differs"), first_other(&saved(&again), &bytes), None);
    alike(tally, "saved and read", &again, planner, plan, rng);
}

/// Whether a field, as bytes, says what its absence says.
fn says_nothing(field: &[u8]) -> bool {
    match field[0] {
        4 | 5 => field[5..].iter().all(|byte| *byte == 0),
        6 => field[3..].iter().all(|byte| *byte == 0),
        _ => false,
    }
}

/// A plan read strictly and then saved: its own bytes without the fields that say nothing; what was held where it is refused.
fn restored(tally: &mut Tally, before: &Planner, plan: &[u8]) -> Planner {
    let (after, answer) = ffi::load_strict(before, plan);
    let want = if answer.refusal == 0 {
        let kept: Vec<&[u8]> = fields_of(plan).into_iter().filter(|field| !says_nothing(field)).collect();
        tally.saw("a strict plan, 1 where a field says nothing", u32::from(kept.concat() != plan));
        kept.concat()
    } else {
        saved(before)
    };
    tally.same(format_args!("a strict plan saved: first byte that differs"), first_other(&saved(&after), &want), None);
    after
}

/// Every order of a few fields is saved as one and the same.
fn one_spelling(tally: &mut Tally) {
    for pieces in few::fields() {
        let want = encode(&strict::without_needless(&strict::sorted(&pieces)));
        for plan in few::every_order(&pieces) {
            let (planner, answer) = ffi::load(&ffi::empty(), &plan);
            tally.case(0, &plan);
            if answer.refusal == 0 {
                tally.same(format_args!("saved: first byte that differs"), first_other(&saved(&planner), &want), None);
            }
        }
    }
}

/// Two plans are saved as the same bytes where they are the same, and only there.
fn told_apart(tally: &mut Tally, planner: &Planner, plan: &Plan, other: &[u8]) {
    if let Ok(second) = read(other) {
        let differs = saved(&ffi::load(&ffi::empty(), other).0) != saved(planner);
        tally.saw("two plans, 1 where they are the same", u32::from(second == *plan));
        tally.same(format_args!("saved apart from {}", hex(other)), differs, second != *plan);
    }
}

/// Route entries behind a flow's hops say nothing: what is saved does not hang on them.
fn behind_hops(tally: &mut Tally, planner: &Planner, plan: &Plan, rng: &mut Rng) {
    let mut tables = planner.clone();
    stir_unused(rng, &mut tables);
    tally.same(format_args!("the plan in the tables"), plan_of(&tables).as_ref(), Some(plan));
    for length in lengths(written(plan).len(), rng) {
        ask_save(tally, &tables, Some(plan), length, rng);
    }
    read_again(tally, &tables, plan, rng);
}

/// Planners that hold no plan: 20, whatever the buffer.
fn no_plan(tally: &mut Tally) {
    let mut rng = tally.rng(u64::MAX);
    let out_of_range = Planner { drift: 1_001, ..ffi::load(&ffi::empty(), &K).0 };
    for planner in [ffi::empty(), random_planner(&mut rng), out_of_range] {
        tally.case(0, &planner.to_bytes());
        for length in (0..80).chain([16_384, 70_000]) {
            let mut buffer = vec![1; length];
            tally.same(format_args!("cp_save without a plan"), ffi::save(&planner, &mut buffer), Answer::refused(20));
            ask_save(tally, &planner, None, length, &mut rng);
        }
    }
}

pub fn run(tally: &mut Tally) {
    save_k::run(tally);
    no_plan(tally);
    one_spelling(tally);
    let held = ffi::load(&ffi::empty(), &K).0;
    every_byte(tally, 0, &K, &held, restored);
    every_byte(tally, 0, &save_k::with_every_field(), &held, restored);
    for case in 0..tally.cases {
        let mut rng = tally.rng(case);
        let good = gen::plan(&mut rng);
        let bytes = encode(&good);
        tally.case(case, &bytes);
        let plan = read(&bytes).expect("a good plan");
        let planner = ffi::load(&held, &bytes).0;
        for length in lengths(written(&plan).len(), &mut rng) {
            ask_save(tally, &planner, Some(&plan), length, &mut rng);
        }
        let want = encode(&strict::without_needless(&strict::sorted(&good)));
        tally.same(format_args!("saved: first byte that differs"), first_other(&saved(&planner), &want), None);
        read_again(tally, &planner, &plan, &mut rng);
        restored(tally, &planner, &encode(&strict::sorted(&good)));
        let other = another(&mut rng, &good);
        restored(tally, &planner, &other);
        told_apart(tally, &planner, &plan, &other);
        behind_hops(tally, &planner, &plan, &mut rng);
    }
    tally.must_have_seen("save", &[0, 13, 20]);
    tally.must_have_seen("a strict plan, 1 where a field says nothing", &[0, 1]);
    tally.must_have_seen("two plans, 1 where they are the same", &[0, 1]);
}
