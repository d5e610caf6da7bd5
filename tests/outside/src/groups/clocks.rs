//! K with clocks that differ: the numbers worked out by hand, and refusals of the field.

use super::jitter::with_jitter;
use super::known::{found, rows, Row, K, ROWS};
use crate::answers::{Answer, Planner};
use crate::ffi;
use crate::model::read::read;
use crate::model::Clocks;
use crate::report::Tally;

/// K with clocks of 100, 2 and 1,000: frames are counted over a ten-thousandth and 2 ns more, rounded up.
pub const ROWS_WITH_CLOCKS: [Row; 15] = [
    (1_000, 21, Some(-7_000_000)),
    (71_999, 21, Some(-100)),
    (72_000, 0, Some(0)),
    (99_988, 0, Some(2_798_800)),
    (99_989, 0, Some(798_900)),
    (109_987, 0, Some(1_798_700)),
    (109_988, 21, Some(-3_201_200)),
    (141_999, 21, Some(-100)),
    (142_000, 0, Some(0)),
    (199_978, 0, Some(5_797_800)),
    (199_979, 0, Some(3_797_900)),
    (219_976, 0, Some(5_797_600)),
    (219_977, 0, Some(797_700)),
    (0, 10, None),
    (1_000_001, 10, None),
];

/// K with clocks of 1,000, 1,000 and 5: frames are counted over twice the synchronization error more, 10 ns.
pub const ROWS_BY_ERROR: [Row; 8] = [
    (71_999, 21, Some(-100)),
    (72_000, 0, Some(0)),
    (99_990, 0, Some(2_799_000)),
    (99_991, 0, Some(799_100)),
    (109_990, 0, Some(1_799_000)),
    (109_991, 21, Some(-3_200_900)),
    (141_999, 21, Some(-100)),
    (142_000, 0, Some(0)),
];

/// K with clocks of 100, 2 and 1,000, 32 extra bytes at port 1 and jitter of 30,000 for flow 1.
pub const ROWS_WITH_ALL: [Row; 12] = [
    (99_679, 21, Some(-100)),
    (99_680, 0, Some(0)),
    (109_987, 0, Some(1_030_700)),
    (109_988, 21, Some(-4_225_200)),
    (152_239, 21, Some(-100)),
    (152_240, 0, Some(0)),
    (169_981, 0, Some(1_774_100)),
    (169_982, 21, Some(-481_800)),
    (174_799, 21, Some(-100)),
    (174_800, 0, Some(0)),
    (219_976, 0, Some(4_517_600)),
    (219_977, 21, Some(-738_300)),
];

/// Drift, timing jitter and synchronization error, a duration, and the length over which its frames are counted.
pub const WIDENED: [([u64; 3], u64, u64); 16] = [
    ([0, 0, 0], 72_000, 72_000),
    ([0, 0, 5_000], 72_000, 72_000),
    ([1_000, 1_000, 0], 72_000, 72_000),
    ([100, 2, 1_000], 1, 4),
    ([100, 2, 1_000], 10_000, 10_003),
    ([100, 2, 1_000], 10_001, 10_005),
    ([100, 2, 1_000], 109_987, 110_000),
    ([100, 2, 1_000], 19_980_000, 19_982_000),
    ([100, 2, 1_000], 19_980_001, 19_982_001),
    ([100, 2, 1_000], 100_000_000, 100_002_000),
    ([1_000, 1_000, 1_000_000], 100_000_000, 100_101_000),
    ([1_000, 1_000, 5_000], 109_000, 110_109),
    ([1_000, 0, 1_000_000], 1_000, 1_001),
    ([1_000, 0, 1_000_000], 1_001, 1_003),
    ([0, 7, 1_000_000], 5, 12),
    ([1_000, 1_000, 5], 109_990, 110_000),
];

/// Clocks as a field.
fn clocks_field(drift: u32, timing_jitter: u32, sync_error: u32) -> Vec<u8> {
    let numbers = [drift, timing_jitter, sync_error];
    [vec![0x06, 0x00, 0x0C], numbers.iter().flat_map(|number| number.to_be_bytes()).collect()].concat()
}

/// K with a field for clocks, at the end of the bytes or before all others.
pub fn with_clocks(drift: u32, timing_jitter: u32, sync_error: u32, first: bool) -> Vec<u8> {
    let field = clocks_field(drift, timing_jitter, sync_error);
    if first {
        return [&field[..], &K].concat();
    }
    [&K[..], &field].concat()
}

/// K with clocks, 32 extra bytes and jitter of 30,000 for flow 1.
pub fn with_all() -> Vec<u8> {
    let extra = [0x04, 0x00, 0x04, 0x00, 0x01, 0x00, 0x20];
    [&clocks_field(100, 2, 1_000)[..], &with_jitter(1, 30_000, false), &extra].concat()
}

fn loaded(tally: &mut Tally, case: u64, before: &Planner, bytes: &[u8]) -> Planner {
    tally.case(case, bytes);
    let (planner, answer) = ffi::load(before, bytes);
    tally.same(format_args!("cp_load"), answer, Answer::new(0, 1, 2));
    planner
}

fn answers(tally: &mut Tally, k: &Planner) {
    let ask = |tally: &mut Tally, planner: &Planner, table: &[Row]| {
        rows(tally, table, |duration| ffi::check(planner, duration), |duration| ffi::slack(planner, 1, duration));
    };
    for first in [false, true] {
        let apart = loaded(tally, 14, k, &with_clocks(100, 2, 1_000, first));
        ask(tally, &apart, &ROWS_WITH_CLOCKS);
        found(tally, &apart, 72_000, 142_000, [7_000, 14_000]);
        let by_error = loaded(tally, 14, k, &with_clocks(1_000, 1_000, 5, first));
        ask(tally, &by_error, &ROWS_BY_ERROR);
        found(tally, &by_error, 72_000, 142_000, [7_000, 14_000]);
        for (drift, timing_jitter, sync_error) in [(0, 0, 5_000), (1_000, 1_000, 0), (0, 0, 0)] {
            let as_k = loaded(tally, 15, &apart, &with_clocks(drift, timing_jitter, sync_error, first));
            ask(tally, &as_k, &ROWS);
            found(tally, &as_k, 72_000, 142_000, [7_000, 14_000]);
        }
        let equal = loaded(tally, 16, &apart, &with_clocks(0, 0, 0, first));
        tally.same(format_args!("K with clocks of 0: first table that differs from K's"), equal.differs(k), None);
    }
    let all = loaded(tally, 17, k, &with_all());
    ask(tally, &all, &ROWS_WITH_ALL);
    found(tally, &all, 99_680, 227_360, [9_768, 22_536]);
}

/// Fields after K's 52 bytes, with the refusal and its place; 0 and 1 for none.
fn refusals(tally: &mut Tally) {
    let (field, zero) = (clocks_field(100, 2, 1_000), clocks_field(0, 0, 0));
    let shorter = [&[0x06, 0x00, 0x0B][..], &field[3..14]].concat();
    let longer = [&[0x06, 0x00, 0x0D][..], &field[3..], &[0]].concat();
    for (more, refusal, place) in [
        (vec![&field[..], &field], 6, 67),
        (vec![&zero[..], &field], 6, 67),
        (vec![&zero[..], &zero], 6, 67),
        (vec![&clocks_field(1_000, 1_000, 1_000_000)[..]], 0, 1),
        (vec![&clocks_field(1_001, 0, 0)[..]], 5, 52),
        (vec![&clocks_field(0, 1_001, 0)[..]], 5, 52),
        (vec![&clocks_field(0, 0, 1_000_001)[..]], 5, 52),
        (vec![&zero[..], &clocks_field(1_001, 0, 0)], 5, 67),
        (vec![&shorter[..]], 4, 52),
        (vec![&longer[..]], 4, 52),
        (vec![&longer[..15]], 2, 52),
        (vec![&field[..14]], 2, 52),
    ] {
        let bytes = [&K[..], &more.concat()].concat();
        tally.case(18, &bytes);
        let answer = ffi::load(&ffi::empty(), &bytes).1;
        tally.same(format_args!("cp_load"), answer, Answer::new(refusal, place, if refusal == 0 { 2 } else { 0 }));
        let want = if refusal == 0 { None } else { Some((refusal, place as usize)) };
        tally.same(format_args!("model: the refusal"), read(&bytes).err(), want);
    }
}

/// The widened durations of the table; more than the duration where clocks differ enough, never less, and rising with it.
pub fn widening(tally: &mut Tally) {
    tally.case(19, &[]);
    for ([drift, timing_jitter, sync_error], duration, length) in WIDENED {
        let clocks = Clocks { drift, timing_jitter, sync_error };
        tally.same(format_args!("{clocks:?} widen {duration}"), clocks.widened(duration), length);
        let rises = (1..200_000).all(|at| clocks.widened(at) >= at && clocks.widened(at) < clocks.widened(at + 1));
        tally.same(format_args!("{clocks:?}: a longer duration is longer when widened"), rises, true);
    }
}

pub fn run(tally: &mut Tally, k: &Planner) {
    answers(tally, k);
    refusals(tally);
}
