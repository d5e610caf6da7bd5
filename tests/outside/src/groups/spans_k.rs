//! The spans of K and of its neighbours, worked out by hand, asked one by one and in lists of several sizes.

use super::clocks::with_all;
use super::jitter::with_jitter;
use super::known::{with_blocker, with_port_2, with_top, K};
use crate::answers::{Answer, SpanRecord};
use crate::ffi;
use crate::gen::{encode, Piece};
use crate::model::read::read;
use crate::model::spans::{scanned, spans, Span};
use crate::model::usable::{list_spans, span};
use crate::report::Tally;

const OF_K: [Span; 2] = [(72_000, 110_000), (142_000, 1_000_000)];

/// What stands in a record that no call writes.
const MARK: SpanRecord = SpanRecord { first: 7, last: 8 };

/// One flow of 65 bytes every 1,000 ns at 10,000 Mbit/s with a guard band of 433 ns: 1,001 alone is refused behind 934.
fn one_ns_gap() -> Vec<u8> {
    encode(&[
        Piece::Header { guard: 433, top: 10_000 },
        Piece::Port { number: 1, rate: 10_000, blocker: 0 },
        Piece::Flow { number: 1, period: 1_000, count: 1, length: 65, route: vec![1] },
    ])
}

/// A duration of K, then the refusal and the span.
const ROWS: [(u64, u32, Span); 14] = [
    (1, 0, OF_K[0]),
    (71_999, 0, OF_K[0]),
    (72_000, 0, OF_K[0]),
    (72_001, 0, OF_K[0]),
    (110_000, 0, OF_K[0]),
    (110_001, 0, OF_K[1]),
    (141_999, 0, OF_K[1]),
    (142_000, 0, OF_K[1]),
    (999_999, 0, OF_K[1]),
    (1_000_000, 0, OF_K[1]),
    (0, 10, (0, 0)),
    (1_000_001, 10, (0, 0)),
    ((1 << 32) + 72_000, 10, (0, 0)),
    (u64::MAX, 10, (0, 0)),
];

/// Every span by its ends and by what lies before it, then the list in sizes from none to more than there are.
fn has(tally: &mut Tally, bytes: &[u8], want: &[Span]) {
    tally.case(0, bytes);
    let plan = read(bytes).expect("a plan");
    let planner = ffi::load(&ffi::empty(), bytes).0;
    tally.same(format_args!("model: the spans"), &spans(&plan)[..], want);
    tally.same(format_args!("model: by a scan"), &scanned(&plan)[..], want);
    let mut from = 1;
    for (first, last) in want.iter().copied() {
        for duration in [from, (from + first) / 2, first, (first + last) / 2, last] {
            tally.same(format_args!("cp_span({duration})"), ffi::span(&planner, duration), Answer::new(0, first, last));
        }
        from = last + 1;
    }
    for duration in [from, plan.top].iter().copied().filter(|duration| from <= plan.top && *duration <= plan.top) {
        tally.same(format_args!("cp_span({duration}) behind the last"), ffi::span(&planner, duration), Answer::refused(25));
    }
    for size in 0..want.len() + 4 {
        let mut list = vec![MARK; size];
        let mut after = list.clone();
        let count = want.len() as u64;
        let answer = if size < want.len() { Answer::new(13, count, 0) } else { Answer::new(0, count, 0) };
        if size >= want.len() {
            for (record, (first, last)) in after.iter_mut().zip(want) {
                *record = SpanRecord { first: *first, last: *last };
            }
        }
        tally.same(format_args!("model: a list of {size}"), list_spans(Some((&plan, want)), &list), (answer, after.clone()));
        tally.same(format_args!("cp_spans(list of {size})"), ffi::spans(&planner, &mut list), answer);
        tally.same(format_args!("the list of {size} after it"), &list, &after);
    }
}

pub fn run(tally: &mut Tally) {
    tally.case(0, &K);
    let (plan, k) = (read(&K).expect("a plan"), ffi::load(&ffi::empty(), &K).0);
    for (duration, refusal, (first, last)) in ROWS {
        let want = Answer::new(refusal, first, last);
        tally.same(format_args!("cp_span({duration})"), ffi::span(&k, duration), want);
        tally.same(format_args!("model: the span at {duration}"), span(Some((&plan, &OF_K)), duration), want);
        tally.same(format_args!("cp_span({duration}) without a plan"), ffi::span(&ffi::empty(), duration), Answer::refused(20));
    }
    has(tally, &K, &OF_K);
    has(tally, &with_port_2(), &OF_K);
    has(tally, &with_blocker(), &[(422_000, 440_000), (472_000, 1_000_000)]);
    has(tally, &with_jitter(2, 38_000, false), &[(72_000, 72_000), (142_000, 182_000), (192_000, 200_000), (212_000, 1_000_000)]);
    has(tally, &with_all(), &[(99_680, 109_987), (152_240, 169_981), (174_800, 219_976), (227_360, 1_000_000)]);
    has(tally, &one_ns_gap(), &[(934, 1_000), (1_002, 10_000)]);
    for (top, want) in [
        (50_000, &[][..]),
        (71_999, &[]),
        (72_000, &[(72_000, 72_000)]),
        (100_000, &[(72_000, 100_000)]),
        (110_000, &[(72_000, 110_000)]),
        (110_001, &[(72_000, 110_000)]),
        (141_999, &[(72_000, 110_000)]),
        (142_000, &[(72_000, 110_000), (142_000, 142_000)]),
    ] {
        has(tally, &with_top(top), want);
    }
}
