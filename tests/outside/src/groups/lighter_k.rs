//! K with more in every respect, and a plan lighter in every respect at once: the numbers worked out by hand.

use super::known::{found, rows, Row};
use super::lighter::{compared, is_no_worse, Call, Side, ACCEPTING_ALL};
use crate::answers::Answer;
use crate::ffi;
use crate::gen::Piece;
use crate::model::lighter::{eased, RESPECTS};
use crate::model::spans::{search, Search};
use crate::model::{check, slack};
use crate::report::Tally;

/// Two spans, 56,920 to 69,991 and from 79,480 on.
const ROWS_HEAVY: [Row; 10] = [
    (56_919, 21, Some(-200)),
    (56_920, 0, Some(0)),
    (69_991, 0, Some(2_614_200)),
    (69_992, 21, Some(-1_897_600)),
    (79_479, 21, Some(-200)),
    (79_480, 0, Some(0)),
    (109_987, 0, Some(6_101_400)),
    (109_988, 0, Some(845_600)),
    (0, 10, None),
    (1_000_001, 10, None),
];

/// One span, from 14,019 on.
const ROWS_LIGHT: [Row; 8] = [
    (14_018, 21, Some(-40)),
    (14_019, 0, Some(180)),
    (56_919, 0, Some(9_438_180)),
    (69_992, 0, Some(12_314_240)),
    (89_994, 0, Some(16_714_680)),
    (89_995, 0, Some(14_826_900)),
    (0, 10, None),
    (1_000_001, 10, None),
];

/// K with rate 200, a blocker, two frames in a period and jitter for flow 1, extra bytes, and clocks.
fn heavy() -> Vec<Piece> {
    vec![
        Piece::Header { guard: 1_000, top: 1_000_000 },
        Piece::Port { number: 1, rate: 200, blocker: 100 },
        Piece::Flow { number: 1, period: 100_000, count: 2, length: 230, route: vec![1] },
        Piece::Flow { number: 2, period: 110_000, count: 1, length: 605, route: vec![1] },
        Piece::Extra { number: 1, extra: 32 },
        Piece::Jitter { number: 1, jitter: 30_000 },
        Piece::Clocks { drift: 100, timing_jitter: 2, sync_error: 1_000 },
    ]
}

/// Flow 1 alone, its frames of this length, and every other number easier.
fn light(length: u16) -> Vec<Piece> {
    vec![
        Piece::Header { guard: 900, top: 1_000_000 },
        Piece::Port { number: 1, rate: 220, blocker: 64 },
        Piece::Flow { number: 1, period: 110_000, count: 1, length, route: vec![1] },
        Piece::Extra { number: 1, extra: 16 },
        Piece::Jitter { number: 1, jitter: 20_000 },
        Piece::Clocks { drift: 50, timing_jitter: 1, sync_error: 500 },
    ]
}

/// The rows, and what the searches find, with the demand there: by the library and by the model.
fn answers(tally: &mut Tally, side: &Side, table: &[Row], least: u64, safe: u64, demands: [u64; 2]) {
    tally.case(0, &side.bytes);
    let (planner, plan) = (&side.planner, Some(&side.plan));
    rows(tally, table, |duration| ffi::check(planner, duration), |duration| ffi::slack(planner, 1, duration));
    found(tally, planner, least, safe, demands);
    rows(tally, table, |duration| check(plan, duration), |duration| slack(plan, 1, duration));
    for (which, duration, demand) in [(Search::Least, least, demands[0]), (Search::MarginSafe, safe, demands[1])] {
        let (answer, scratch) = search(plan.zip(Some(&side.spans[..])), which, &[0; 64]);
        tally.same(format_args!("model: {which:?}"), answer, Answer::new(0, duration, 0));
        tally.same(format_args!("model: demand after {which:?}"), scratch[0], demand);
    }
}

pub fn run(tally: &mut Tally) {
    let (first, second) = (Side::of(&heavy()), Side::of(&light(200)));
    answers(tally, &first, &ROWS_HEAVY, 56_920, 79_480, [9_768, 14_280]);
    answers(tally, &second, &ROWS_LIGHT, 14_019, 14_019, [1_888, 1_888]);
    let near = (14_000..14_040).chain(56_900..56_940).chain(69_970..70_010).chain(79_460..79_500);
    let asked: Vec<u64> = near.chain((0..1_000_500).step_by(499)).collect();
    is_no_worse(tally, (&first, &second), &RESPECTS, &asked, ACCEPTING_ALL);
    let longer = Side::of(&light(2_000));
    tally.case(1, &longer.bytes);
    tally.same(format_args!("model: longer frames than {first}"), eased(&first.plan, &longer.plan), None);
    let worse: Vec<Call> = compared(&first, &longer, &asked).iter().filter(|one| !one.no_worse()).map(|one| one.call).collect();
    for call in [Call::Check(56_920), Call::Check(69_991), Call::Least, Call::MarginSafe] {
        tally.same(format_args!("longer frames: {call:?} is found worse than {first}"), worse.contains(&call), true);
    }
}
