//! The same fields in another order: the same answers to every question.

use super::alike::alike;
use crate::ffi;
use crate::gen::{self, encode};
use crate::model::read::read;
use crate::report::Tally;

pub fn run(tally: &mut Tally) {
    for case in 0..tally.cases {
        let mut rng = tally.rng(case);
        let mut pieces = gen::plan(&mut rng);
        let first = encode(&pieces);
        let plan = read(&first).expect("a good plan");
        tally.saw("extra bytes, 1 for some", u32::from(gen::has_extra(&pieces)));
        tally.saw("jitter, 1 for some", u32::from(gen::has_jitter(&pieces)));
        tally.saw("clocks, 2 where they widen top", gen::clocks_kind(&pieces, plan.top));
        let (one, counted) = ffi::load(&ffi::empty(), &first);
        for turn in 0..3 {
            match turn {
                0 => pieces.reverse(),
                _ => rng.shuffle(&mut pieces),
            }
            let bytes = encode(&pieces);
            tally.case(case, &bytes);
            let (other, answer) = ffi::load(&one, &bytes);
            tally.same(format_args!("cp_load in another order"), answer, counted);
            tally.same(format_args!("planner in another order: first table that differs"), other.differs(&one), None);
            alike(tally, "in another order", &other, &one, &plan, &mut rng);
        }
    }
    tally.must_have_seen("extra bytes, 1 for some", &[0, 1]);
    tally.must_have_seen("jitter, 1 for some", &[0, 1]);
    tally.must_have_seen("clocks, 2 where they widen top", &[0, 1, 2]);
}
