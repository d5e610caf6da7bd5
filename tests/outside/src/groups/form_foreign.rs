//! Planners of either form that no call made: 20 to every question where the form's number is none, and where a route of the older form
//! has over sixteen ports. Where the newer form's tables say more than 16,384 bytes, they are answered as the plan that they say.

use super::foreign::{ask, damage_one};
use super::save::{ask_save, saved};
use crate::answers::{Answer, Planner, STRIDE};
use crate::ffi;
use crate::gen::newer::{encode, merged, plan, Field};
use crate::gen::newer_sized::{around_the_most, with_hops, with_total};
use crate::model::tables::plan_of;
use crate::model::Form;
use crate::report::Tally;
use crate::rng::Rng;

/// Every question; the plain one at 0 is answered 10 where a plan is held.
fn answered(tally: &mut Tally, case: u64, tables: &Planner, refusal: u32, rng: &mut Rng) {
    tally.case(case, &tables.to_bytes());
    tally.same(format_args!("cp_check(0)"), ffi::check(tables, 0), Answer::refused(refusal));
    ask(tally, case, tables, rng);
}

/// Tables as a load leaves them, with every small number for their form, and with ones that look alike in fewer bits.
fn numbers(tally: &mut Tally, rng: &mut Rng) {
    for hops in [16, 17, 24] {
        let tables = ffi::load(&ffi::empty(), &encode(&with_hops(&[hops]))).0;
        for form in (0..20).chain([255, 256, 257, 1 << 16, (1 << 16) + 1, 1 << 31, (1 << 31) + 1, u32::MAX]) {
            let held = form == 1 || form == 0 && hops <= 16;
            let other = Planner { form, ..tables.clone() };
            answered(tally, form.into(), &other, if held { 10 } else { 20 }, rng);
        }
    }
}

/// So many hops in a slot, over the first ports of 64.
fn hops(tally: &mut Tally, rng: &mut Rng) {
    for (form, most) in [(0, 16), (1, 24)] {
        for hops in 0..=STRIDE as u8 + 1 {
            let mut tables = ffi::load(&ffi::empty(), &encode(&with_hops(&[1, 1]))).0;
            tables.form = form;
            tables.hops[1] = hops;
            for hop in 0..STRIDE {
                tables.routes[STRIDE + hop] = hop as u8 + 1;
            }
            answered(tally, hops.into(), &tables, if (1..=most).contains(&hops) { 10 } else { 20 }, rng);
        }
    }
}

/// A route of over sixteen ports in each slot but the first: as good in the newer form as it is none in the older.
fn slots(tally: &mut Tally, rng: &mut Rng) {
    let k = ffi::load(&ffi::empty(), &encode(&with_hops(&[1]))).0;
    for slot in 1..256 {
        let mut tables = k.clone();
        put(&mut tables, &with_hops(&[17])[65], slot);
        for (form, refusal) in [(0, 20), (1, 10)] {
            tables.form = form;
            tally.case(slot as u64, &tables.to_bytes());
            tally.same(format_args!("cp_check(0), slot {slot} in form {form}"), ffi::check(&tables, 0), Answer::refused(refusal));
        }
        if slot % 64 == 63 {
            answered(tally, slot as u64, &tables, 10, rng);
        }
    }
}

/// A flow field's numbers in a slot.
fn put(tables: &mut Planner, flow: &Field, slot: usize) {
    let numbers: Vec<u64> = flow.numbers.iter().map(|(number, _)| *number).collect();
    tables.periods[slot] = numbers[1] as u32;
    tables.counts[slot] = numbers[2] as u16;
    tables.lengths[slot] = numbers[3] as u16;
    tables.jitters[slot] = numbers[4] as u32;
    tables.hops[slot] = flow.hops() as u8;
    for (hop, port) in numbers[5..].iter().enumerate() {
        tables.routes[slot * STRIDE + hop] = *port as u8;
    }
}

/// Tables that say so many bytes: the plan's first flow as it is loaded, and the others put into their slots.
fn tables_with(fields: &[Field]) -> Planner {
    let first = fields.iter().position(|field| field.hops() > 0).expect("a flow");
    let mut tables = ffi::load(&ffi::empty(), &encode(&fields[..first + 1])).0;
    for (slot, flow) in fields[first..].iter().enumerate() {
        put(&mut tables, flow, slot);
    }
    tables
}

/// Tables that say about 16,384 bytes, and the most that there are, 17,495: they are saved, and no load takes more than 16,384.
fn sizes(tally: &mut Tally, rng: &mut Rng) {
    let mut all = around_the_most();
    all.push((17_495, with_total(64, 256 * 24)));
    for (size, fields) in all {
        let tables = tables_with(&fields);
        answered(tally, size as u64, &tables, 10, rng);
        let told = plan_of(&tables);
        tally.same(format_args!("model: the form told"), told.as_ref().map(|plan| plan.form), Some(Form::Newer));
        for length in [0, 16_383, 16_384, 16_385, size - 1, size, size + 1, 20_000] {
            ask_save(tally, &tables, told.as_ref(), length, rng);
        }
        let saved = saved(&tables);
        tally.same(format_args!("saved as the fields"), saved == encode(&fields), true);
        let refusal = u32::from(size > 16_384);
        tally.same(format_args!("cp_load of what is saved"), ffi::load(&ffi::empty(), &saved).1.refusal, refusal);
        for other in [0, 2, 3] {
            answered(tally, size as u64, &Planner { form: other, ..tables.clone() }, 20, rng);
        }
    }
}

pub fn run(tally: &mut Tally) {
    let mut rng = tally.rng(u64::MAX - 1);
    numbers(tally, &mut rng);
    hops(tally, &mut rng);
    slots(tally, &mut rng);
    sizes(tally, &mut rng);
    for case in 0..tally.cases {
        let mut rng = tally.rng(1 << 52 | case);
        let mut tables = ffi::load(&ffi::empty(), &encode(&merged(&plan(&mut rng)))).0;
        for _ in 0..rng.range(1, 3) {
            if rng.chance(1, 4) {
                tables.form = rng.pick(&[0, 0, 1, 2, 3, 257, u32::MAX]);
            } else {
                damage_one(&mut rng, &mut tables);
            }
            ask(tally, case, &tables, &mut rng);
        }
    }
}
