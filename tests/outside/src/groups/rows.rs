//! Rows of loads in either reading, good and bad and of either form, on one planner, with questions between them.

use super::{ask_all, loads::load_as};
use crate::ffi;
use crate::gen::{self, damage, encode, newer_damage, sized, strict};
use crate::model::read::{read_as, Reading};
use crate::model::Plan;
use crate::report::Tally;

pub fn run(tally: &mut Tally) {
    for case in 0..tally.cases {
        let mut rng = tally.rng(case);
        let mut planner = ffi::empty();
        let mut held: Option<Plan> = None;
        tally.case(case, &[]);
        ask_all(tally, &planner, None, &mut rng);
        let good = gen::plan(&mut rng);
        for _ in 0..rng.range(2, 8) {
            let reading = rng.pick(&[Reading::Loose, Reading::Strict]);
            let mut other = gen::plan(&mut rng);
            if rng.chance(2, 3) {
                other = strict::sorted(&other);
            }
            let bytes = match rng.below(8) {
                _ if rng.chance(1, 3) => newer_damage::some(&mut rng),
                0..=2 => encode(&other),
                3 => damage::damaged(&mut rng, &good),
                4 => sized::sized(&mut rng, &good, 16_385),
                5 => Vec::new(),
                _ => damage::damaged(&mut rng, &other),
            };
            tally.case(case, &bytes);
            planner = load_as(tally, reading, &planner, &bytes);
            if let Ok(plan) = read_as(reading, &bytes) {
                tally.saw("held, by form", plan.form.number());
                held = Some(plan);
            }
            ask_all(tally, &planner, held.as_ref(), &mut rng);
        }
    }
    tally.must_have_seen("held, by form", &[0, 1]);
    tally.must_have_seen("load", &[0, 1]);
    tally.must_have_seen("load_strict", &[0, 1, 12]);
    tally.must_have_seen("check", &[0, 10, 20, 21]);
    tally.must_have_seen("slack", &[0, 10, 20, 24]);
    tally.must_have_seen("least", &[0, 11, 20, 22]);
    tally.must_have_seen("margin_safe", &[0, 11, 20, 23]);
    tally.must_have_seen("fixed_point", &[0, 10, 20, 22, 26]);
    tally.must_have_seen("span", &[0, 10, 20, 25]);
    tally.must_have_seen("spans", &[0, 13, 20]);
    tally.must_have_seen("save", &[0, 13, 20]);
    tally.must_have_seen("gates", &[0, 10, 13, 18, 20, 21]);
    tally.must_have_seen("reprice", &[0, 10, 11, 17, 20, 29]);
}
