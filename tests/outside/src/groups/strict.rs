//! The strict reading beside the loose one: answer, place, and the planner that comes back; and that the fields of a plan have one
//! strict spelling.

use super::clocks::with_all;
use super::known::K;
use super::loads::{every_byte, load_as, one_load, sizes};
use super::{ask_all, strict_k};
use crate::answers::{Answer, Planner, PLANNER_BYTES};
use crate::ffi;
use crate::gen::lighter::retold;
use crate::gen::strict::{disturbed, exchanged, one_moved, sorted};
use crate::gen::{self, damage, encode, few, Piece};
use crate::model::field::fields_of;
use crate::model::read::{read, Reading};
use crate::model::tables::plan_of;
use crate::report::Tally;
use crate::rng::Rng;

/// Both readings; what comes back is the planner that the strict one left.
pub fn both(tally: &mut Tally, before: &Planner, plan: &[u8]) -> Planner {
    one_load(tally, before, plan);
    load_as(tally, Reading::Strict, before, plan)
}

/// A plan out of order in one place: 12 at its tag, and the loose reading holds it.
fn late(tally: &mut Tally, before: &Planner, pieces: &[Piece], place: usize) {
    let plan = encode(pieces);
    let offset = encode(&pieces[..place]).len() as u64;
    tally.same(format_args!("cp_load_strict of one late"), ffi::load_strict(before, &plan).1, Answer::new(12, offset, 0));
    tally.same(format_args!("cp_load of one late"), ffi::load(before, &plan).1.refusal, 0);
    both(tally, before, &plan);
}

/// Every order of a few fields: where the loose reading holds one of them it holds all, and the strict one holds one alone.
fn spellings(tally: &mut Tally, planner: &Planner) {
    for pieces in few::fields() {
        let mut held = Vec::new();
        for plan in few::every_order(&pieces) {
            tally.case(0, &plan);
            both(tally, planner, &plan);
            if ffi::load_strict(planner, &plan).1.refusal == 0 {
                held.push(plan);
            }
        }
        let plan = encode(&sorted(&pieces));
        tally.case(0, &plan);
        let want = if read(&plan).is_ok() { vec![plan] } else { Vec::new() };
        tally.same(format_args!("the orders that cp_load_strict holds"), held, want);
    }
}

/// The fields of a plan that is read, as bytes, in an order that does not hang on theirs.
fn unordered(plan: &[u8]) -> Vec<&[u8]> {
    let mut fields = fields_of(plan);
    fields.sort_unstable();
    fields
}

/// Of two plans that the strict reading holds, the bytes are equal where the fields are, and only there.
fn told_apart(tally: &mut Tally, one: &[u8], other: &[u8]) {
    let holds = |plan: &[u8]| ffi::load_strict(&ffi::empty(), plan).1.refusal == 0;
    if !holds(one) || !holds(other) {
        return;
    }
    tally.saw("two strict plans, 1 where they have the same fields", u32::from(one == other));
    tally.same(format_args!("equal fields as {}", crate::report::hex(other)), unordered(one) == unordered(other), one == other);
}

/// Another plan in strict order, with the same fields or almost the same.
pub fn another(rng: &mut Rng, good: &[Piece]) -> Vec<u8> {
    let mut pieces = good.to_vec();
    rng.shuffle(&mut pieces);
    match rng.below(4) {
        0 => {}
        1 => pieces = retold(rng, pieces),
        2 => {
            let mut bytes = encode(&sorted(&pieces));
            let place = rng.index(bytes.len());
            bytes[place] ^= 1 << rng.below(3);
            return bytes;
        }
        _ => pieces = gen::plan(rng),
    }
    encode(&sorted(&pieces))
}

/// A good plan in strict order, in others, and out of order in one place.
fn in_orders(tally: &mut Tally, case: u64, before: &Planner, good: &[Piece], rng: &mut Rng) {
    let strict = sorted(good);
    let plan = encode(&strict);
    tally.case(case, &plan);
    let answer = ffi::load_strict(before, &plan).1;
    tally.same(format_args!("cp_load_strict in strict order"), answer, ffi::load(before, &plan).1);
    both(tally, before, &plan);
    told_apart(tally, &plan, &another(rng, good));
    let mut pieces = good.to_vec();
    for _ in 0..2 {
        rng.shuffle(&mut pieces);
        let other = encode(&pieces);
        tally.case(case, &other);
        both(tally, before, &other);
        let holds = ffi::load_strict(before, &other).1.refusal == 0;
        tally.same(format_args!("cp_load_strict holds another order"), holds, other == plan);
    }
    for (pieces, place) in [exchanged(rng, &strict), one_moved(rng, &strict)] {
        tally.case(case, &encode(&pieces));
        late(tally, before, &pieces, place);
    }
}

/// A plan near a strict one, with its faults.
fn faulty(rng: &mut Rng, good: &[Piece]) -> Vec<u8> {
    let strict = sorted(good);
    match rng.below(4) {
        0 => damage::damaged(rng, good),
        1 => damage::damaged(rng, &strict),
        2 => {
            let pieces = disturbed(rng, &strict);
            damage::damaged(rng, &pieces)
        }
        _ => encode(&disturbed(rng, &strict)),
    }
}

/// A planner of bytes by chance: it holds no plan.
pub fn random_planner(rng: &mut Rng) -> Planner {
    let mut bytes = [0; PLANNER_BYTES];
    bytes.iter_mut().for_each(|byte| *byte = rng.next() as u8);
    Planner::from_bytes(bytes)
}

pub fn run(tally: &mut Tally) {
    let (empty, held) = (ffi::empty(), ffi::load(&ffi::empty(), &K).0);
    strict_k::run(tally, &held);
    spellings(tally, &held);
    sizes(tally, &held, both);
    every_byte(tally, 0, &K, &held, both);
    every_byte(tally, 0, &with_all(), &held, both);
    for case in 0..tally.cases {
        let mut rng = tally.rng(case);
        let good = gen::plan(&mut rng);
        let before = match rng.below(8) {
            0 => empty.clone(),
            1 => random_planner(&mut rng),
            _ => held.clone(),
        };
        in_orders(tally, case, &before, &good, &mut rng);
        for _ in 0..6 {
            let plan = faulty(&mut rng, &good);
            tally.case(case, &plan);
            let after = both(tally, &before, &plan);
            if rng.chance(1, 16) {
                ask_all(tally, &after, plan_of(&after).as_ref(), &mut rng);
            }
        }
    }
    tally.must_have_seen("load_strict", &[0, 1, 2, 3, 4, 5, 6, 7, 8, 9, 12]);
    tally.must_have_seen("two strict plans, 1 where they have the same fields", &[0, 1]);
}
