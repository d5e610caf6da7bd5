//! K and its neighbours from several starts, with the steps worked out by hand.

use super::jitter::with_jitter;
use super::known::{with_blocker, with_port_2, with_top, K};
use crate::answers::{Answer, StepsAnswer};
use crate::ffi;
use crate::model::fixed_point::{fixed_point, most_steps};
use crate::model::read::read;
use crate::report::Tally;

const ALL: u64 = u64::MAX;

/// A start and a number of steps, then the refusal, the first two numbers and the steps that come back.
type Row = (u64, u64, u32, [u64; 2], u64);

const OF_K: &[Row] = &[
    (1, ALL, 0, [72_000, 0], 2),
    (1, 2, 0, [72_000, 0], 2),
    (1, 1, 26, [72_000, 0], 1),
    (1, 0, 26, [1, 0], 0),
    (71_999, ALL, 0, [72_000, 0], 2),
    (72_000, ALL, 0, [72_000, 0], 1),
    (72_000, 0, 26, [72_000, 0], 0),
    (110_000, 1, 0, [110_000, 0], 1),
    (110_001, 1, 26, [142_000, 0], 1),
    (110_001, 16, 0, [142_000, 0], 2),
    (142_000, 1, 0, [142_000, 0], 1),
    (1_000_000, 1, 0, [1_000_000, 0], 1),
    (1_000_000, 0, 26, [1_000_000, 0], 0),
    (0, ALL, 10, [0, 0], 0),
    (0, 0, 10, [0, 0], 0),
    (1_000_001, ALL, 10, [0, 0], 0),
    (ALL, 0, 10, [0, 0], 0),
];

/// Needs one after the other: 192,000, 262,000, 332,000, 402,000, 422,000.
const WITH_BLOCKER: &[Row] = &[
    (1, ALL, 0, [422_000, 0], 6),
    (1, 5, 26, [422_000, 0], 5),
    (1, 4, 26, [402_000, 0], 4),
    (1, 3, 26, [332_000, 0], 3),
    (1, 2, 26, [262_000, 0], 2),
    (1, 1, 26, [192_000, 0], 1),
    (332_000, 16, 0, [422_000, 0], 3),
];

/// Needs one after the other: 72,000, 92,000.
const WITH_JITTER: &[Row] = &[(1, ALL, 0, [92_000, 0], 3), (1, 2, 26, [92_000, 0], 2), (1, 1, 26, [72_000, 0], 1)];

const TOP_71_999: &[Row] = &[
    (1, ALL, 22, [1, 1], 1),
    (1, 1, 22, [1, 1], 1),
    (1, 0, 26, [1, 0], 0),
    (71_999, ALL, 22, [1, 1], 1),
    (72_000, ALL, 10, [0, 0], 0),
];

/// From the end of the first span on there is no other up to this top.
const TOP_120_000: &[Row] = &[
    (1, ALL, 0, [72_000, 0], 2),
    (110_000, ALL, 0, [110_000, 0], 1),
    (110_001, ALL, 22, [1, 1], 1),
    (110_001, 0, 26, [110_001, 0], 0),
    (120_000, ALL, 22, [1, 1], 1),
];

pub fn run(tally: &mut Tally) {
    for (bytes, rows) in [
        (K.to_vec(), OF_K),
        (with_port_2(), OF_K),
        (with_blocker(), WITH_BLOCKER),
        (with_jitter(1, 30_000, false), WITH_JITTER),
        (with_top(71_999), TOP_71_999),
        (with_top(120_000), TOP_120_000),
    ] {
        tally.case(0, &bytes);
        let plan = read(&bytes).expect("a plan");
        let planner = ffi::load(&ffi::empty(), &bytes).0;
        for (start, steps, refusal, [first, second], used) in rows.iter().copied() {
            let want = StepsAnswer::new(Answer::new(refusal, first, second), used);
            tally.same(format_args!("cp_fixed_point({start}, {steps})"), ffi::fixed_point(&planner, start, steps), want);
            tally.same(format_args!("model: from {start}, {steps} steps"), fixed_point(Some(&plan), start, steps), want);
        }
    }
    tally.case(0, &K);
    let k = read(&K).expect("K is a plan");
    tally.same(format_args!("model: the most steps of K"), most_steps(&k), 2 + 9 + 9);
}
