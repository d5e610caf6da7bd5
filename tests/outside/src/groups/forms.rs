//! Plans of the newer form in both loads: the answer, the planner that comes back, that they are saved as they were, and that both
//! forms give the same answers to everything else.

use super::alike::same_answers;
use super::known::{found, rows, ROWS};
use super::lent::first_other;
use super::loads::every_byte;
use super::save::{ask_save, lengths, saved};
use super::strict::both;
use super::{ask_all, form_foreign, newer_fields};
use crate::alone::k::{bytes, newer, older};
use crate::alone::k_loaded;
use crate::answers::{Answer, Planner};
use crate::ffi;
use crate::gen;
use crate::gen::newer::{encode, merged, plan, split, Field};
use crate::gen::newer_damage::damaged;
use crate::gen::newer_faults::single;
use crate::gen::newer_sized::{around_the_most, with_hops};
use crate::model::read::read;
use crate::model::spans::effort;
use crate::model::tables::plan_of;
use crate::report::Tally;
use crate::rng::Rng;

/// K in the newer form: its rows, and every load of its fields.
fn of_k(tally: &mut Tally, held: &Planner) {
    let k = bytes(newer::K);
    tally.case(0, &k);
    let (planner, answer) = ffi::load(&ffi::empty(), &k);
    tally.same(format_args!("cp_load(K in the newer form)"), answer, Answer::new(0, 1, 2));
    rows(tally, &ROWS, |duration| ffi::check(&planner, duration), |duration| ffi::slack(&planner, 1, duration));
    found(tally, &planner, 72_000, 142_000, [7_000, 14_000]);
    for (fields, want) in k_loaded::rows() {
        let plan = bytes(&fields);
        tally.case(0, &plan);
        tally.same(format_args!("cp_load: {fields:?}"), ffi::load(held, &plan).1, want);
        tally.same(format_args!("cp_load_strict: {fields:?}"), ffi::load_strict(held, &plan).1, want);
        for before in [held, &ffi::empty(), &planner] {
            kept(tally, before, &plan);
        }
    }
}

/// A load of any bytes, in both readings: a plan of the newer form is then saved as its own bytes, and after a refusal what was held.
fn kept(tally: &mut Tally, before: &Planner, plan: &[u8]) -> Planner {
    let after = both(tally, before, plan);
    let refused = ffi::load_strict(before, plan).1.refusal != 0;
    if refused {
        tally.same(format_args!("saved after a refused load: first byte that differs"), first_other(&saved(&after), &saved(before)), None);
    } else if plan.first() == Some(&0x11) {
        tally.same(format_args!("saved: first byte that differs"), first_other(&saved(&after), plan), None);
    }
    after
}

/// Routes of 1 to 64 ports, and plans of about 16,384 bytes.
fn ends(tally: &mut Tally, held: &Planner) {
    let mut rng = tally.rng(1 << 54);
    for hops in 1..=64 {
        let plan = encode(&with_hops(&[hops]));
        tally.case(hops, &plan);
        let refusal = if hops <= 24 { 0 } else { 4 };
        tally.same(format_args!("cp_load with {hops} ports in a route"), ffi::load(held, &plan).1.refusal, refusal);
        kept(tally, held, &plan);
        let old = gen::encode(&split(&with_hops(&[hops])));
        tally.case(hops, &old);
        let refusal = if hops <= 16 { 0 } else { 4 };
        tally.same(format_args!("cp_load with {hops} ports in an old route"), ffi::load(held, &old).1.refusal, refusal);
        kept(tally, held, &old);
    }
    for (size, fields) in around_the_most() {
        let plan = encode(&fields);
        tally.case(size as u64, &plan);
        let refusal = u32::from(size > 16_384);
        tally.same(format_args!("cp_load of {size} bytes"), ffi::load(held, &plan).1.refusal, refusal);
        let after = kept(tally, held, &plan);
        ask_all(tally, &after, plan_of(&after).as_ref(), &mut rng);
        for length in lengths(size, &mut rng) {
            ask_save(tally, &after, plan_of(&after).as_ref(), length, &mut rng);
        }
    }
}

/// A good plan of the newer form, and the same in the older form where its routes allow it.
fn good(tally: &mut Tally, before: &Planner, fields: &[Field], rng: &mut Rng) -> Planner {
    let bytes = encode(fields);
    let planner = kept(tally, before, &bytes);
    let plan = read(&bytes).expect("a good plan");
    let longest = fields.iter().map(Field::hops).max().expect("a flow");
    tally.saw("ports in a route", longest as u32);
    for length in lengths(bytes.len(), rng) {
        ask_save(tally, &planner, Some(&plan), length, rng);
    }
    if effort(&plan) < 40_000 {
        ask_all(tally, &planner, Some(&plan), rng);
    }
    if longest <= 16 {
        let mut pieces = split(fields);
        rng.shuffle(&mut pieces);
        let old = ffi::load(&planner, &gen::encode(&pieces)).0;
        same_answers(tally, "in the newer form", &planner, &old, &plan, rng);
        let want = gen::encode(&split(fields));
        tally.same(format_args!("an old plan after a new one, saved: first byte that differs"), first_other(&saved(&old), &want), None);
    }
    planner
}

pub fn run(tally: &mut Tally) {
    let held = ffi::load(&ffi::empty(), &bytes(older::K)).0;
    of_k(tally, &held);
    ends(tally, &held);
    every_byte(tally, 0, &bytes(newer::K), &held, kept);
    every_byte(tally, 0, &bytes(&[newer::CLOCKED, newer::PORT_1_EXTRA, newer::PORT_2, newer::FLOW_1_LATE, newer::FLOW_256]), &held, kept);
    let mut before = held;
    for case in 0..tally.cases {
        let mut rng = tally.rng(case);
        let fields = merged(&plan(&mut rng));
        tally.case(case, &encode(&fields));
        before = good(tally, &before, &fields, &mut rng);
        for (plan, refusal, place) in single(&mut rng, &fields) {
            tally.case(case, &plan);
            tally.same(format_args!("cp_load with one fault"), ffi::load(&before, &plan).1, Answer::new(refusal, place as u64, 0));
            kept(tally, &before, &plan);
        }
        for _ in 0..4 {
            let plan = damaged(&mut rng, &fields);
            tally.case(case, &plan);
            kept(tally, &before, &plan);
        }
    }
    newer_fields::run(tally);
    form_foreign::run(tally);
    tally.must_have_seen("load", &[0, 1, 2, 3, 4, 5, 6, 7, 8, 9, 12]);
    tally.must_have_seen("load_strict", &[0, 1, 2, 3, 4, 5, 6, 7, 8, 9, 12]);
    tally.must_have_seen("ports in a route", &[1, 16, 17, 24]);
}
