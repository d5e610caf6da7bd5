//! Reading the newer form: the answers of both loads, and that what is held is written as the very bytes that were read.

use super::k::{bytes, newer, older};
use super::k_loaded;
use crate::gen::newer::{encode, merged, plan, split, Field, FLOW};
use crate::gen::newer_damage::damaged;
use crate::gen::newer_faults::single;
use crate::gen::newer_sized::{around_the_most, with_hops};
use crate::gen::{self, Piece};
use crate::model::read::{load_answer, read_as, Reading};
use crate::model::save::written;
use crate::model::tables::{plan_of, tables_of};
use crate::model::{Form, Plan};
use crate::report::{hex, Tally};

type Outcome = Result<Plan, (u32, usize)>;

/// Where fields start, by their lengths alone, and the end.
fn starts(plan: &[u8]) -> Vec<usize> {
    let (mut starts, mut offset) = (Vec::new(), 0);
    while offset < plan.len() {
        starts.push(offset);
        let length = |place: usize| plan.get(place).map_or(0, |byte| usize::from(*byte));
        offset += 3 + 256 * length(offset + 1) + length(offset + 2);
    }
    starts
}

/// A plan of the newer form in both loads: the same of each, at the start of a field where it is refused; held, it is written as it was.
fn both(tally: &mut Tally, plan: &[u8]) -> Outcome {
    let outcome = read_as(Reading::Loose, plan);
    tally.same(format_args!("strictly"), &read_as(Reading::Strict, plan), &outcome);
    tally.saw("load", load_answer(&outcome).refusal);
    match &outcome {
        Ok(held) => {
            tally.same(format_args!("the form held"), held.form, Form::Newer);
            tally.same(format_args!("written as it was"), hex(&written(held)), hex(plan));
            tally.same(format_args!("told by its tables"), plan_of(&tables_of(held)).as_ref(), Some(held));
            let old = read_as(Reading::Loose, &written(&held.in_form(Form::Older)));
            let longest = held.flows.values().map(|flow| flow.route.len()).max();
            let want = (longest <= Some(16)).then(|| held.in_form(Form::Older));
            tally.same(format_args!("the same parts in the older form"), old.ok(), want);
        }
        Err((1, place)) => tally.same(format_args!("place of 1"), *place, 0),
        Err((8, place)) => tally.same(format_args!("place of 8"), *place, plan.len()),
        Err((_, place)) => tally.same(format_args!("place {place} starts a field"), starts(plan).contains(place), true),
    }
    outcome
}

/// A plan that starts with any byte.
fn any(tally: &mut Tally, case: u64, plan: &[u8]) {
    tally.case(case, plan);
    if Form::of(plan) == Form::Newer {
        let _ = both(tally, plan);
    } else if let Ok(held) = read_as(Reading::Loose, plan) {
        tally.same(format_args!("the form held"), held.form, Form::Older);
    }
}

fn rows_of_k(tally: &mut Tally) {
    let (new, old) = (bytes(newer::K), bytes(older::K));
    tally.same(format_args!("bytes of K"), (new.len(), old.len()), (74, 52));
    let parts = read_as(Reading::Loose, &new).map(|held| held.in_form(Form::Older));
    tally.same(format_args!("K's parts"), parts, read_as(Reading::Loose, &old));
    for (fields, want) in k_loaded::rows() {
        let plan = bytes(&fields);
        tally.case(0, &plan);
        for reading in [Reading::Loose, Reading::Strict] {
            tally.same(format_args!("{reading:?}: {fields:?}"), load_answer(&read_as(reading, &plan)), want);
        }
        any(tally, 0, &plan);
    }
}

/// Routes of 1 to 64 ports, of which 24 are the most in the newer form and 16 in the older.
fn routes(tally: &mut Tally) {
    for hops in 1..=64 {
        let fields = with_hops(&[hops]);
        let plan = encode(&fields);
        tally.case(hops, &plan);
        let place = plan.len() - fields[65].bytes().len();
        let want = if hops <= 24 { None } else { Some((4, place)) };
        let got = both(tally, &plan).err();
        tally.same(format_args!("{hops} ports in the newer form"), got, want);
        let old = gen::encode(&split(&fields));
        let place = gen::encode(&split(&fields)[..65]).len();
        let want = if hops <= 16 { None } else { Some((4, place)) };
        tally.same(format_args!("{hops} ports in the older form"), read_as(Reading::Loose, &old).err(), want);
    }
}

/// Plans of about 16,384 bytes.
fn sizes(tally: &mut Tally) {
    for (size, fields) in around_the_most() {
        let plan = encode(&fields);
        tally.case(size as u64, &plan);
        tally.same(format_args!("bytes of the plan"), plan.len(), size);
        let want = (size > 16_384).then_some((1, 0));
        let got = both(tally, &plan).err();
        tally.same(format_args!("a plan of {size} bytes"), got, want);
    }
}

/// A plan cut at every byte, and with every byte changed in some ways.
fn every_byte(tally: &mut Tally, plan: &[u8]) {
    for end in 0..plan.len() {
        any(tally, end as u64, &plan[..end]);
    }
    for place in 0..plan.len() {
        for change in [plan[place] ^ 1, plan[place] ^ 0x10, plan[place].wrapping_add(1), plan[place].wrapping_sub(1), 0, 255] {
            let mut changed = plan.to_vec();
            changed[place] = change;
            any(tally, place as u64, &changed);
        }
    }
}

/// A good plan, in the newer form and, where its routes allow it, in the older.
fn good(tally: &mut Tally, case: u64, pieces: &[Piece], fields: &[Field]) {
    let plan = encode(fields);
    tally.case(case, &plan);
    let held = both(tally, &plan);
    let flows = fields.iter().filter(|field| field.tag == FLOW).count();
    let counted = (fields.len() - flows - 1, flows);
    tally.same(format_args!("what is held"), held.as_ref().ok().map(|held| (held.ports.len(), held.flows.len())), Some(counted));
    let longest = fields.iter().map(Field::hops).max().expect("a flow");
    tally.saw("ports in a route", longest as u32);
    if longest <= 16 {
        let old = read_as(Reading::Loose, &gen::encode(pieces));
        tally.same(format_args!("the same parts"), held.map(|held| held.in_form(Form::Older)), old);
    }
}

pub fn run(tally: &mut Tally) {
    rows_of_k(tally);
    routes(tally);
    sizes(tally);
    every_byte(tally, &bytes(newer::K));
    every_byte(tally, &bytes(&[newer::CLOCKED, newer::PORT_1_EXTRA, newer::PORT_2, newer::FLOW_1_LATE, newer::FLOW_256]));
    for case in 0..tally.cases {
        let mut rng = tally.rng(case);
        let pieces = plan(&mut rng);
        let fields = merged(&pieces);
        good(tally, case, &pieces, &fields);
        for (plan, refusal, place) in single(&mut rng, &fields) {
            tally.case(case, &plan);
            let got = both(tally, &plan).err();
            tally.same(format_args!("one fault"), got, Some((refusal, place)));
        }
        for _ in 0..4 {
            any(tally, case, &damaged(&mut rng, &fields));
        }
    }
    tally.must_have_seen("load", &[0, 1, 2, 3, 4, 5, 6, 7, 8, 9, 12]);
    tally.must_have_seen("ports in a route", &[1, 16, 17, 24]);
}
