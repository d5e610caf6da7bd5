//! The questions for spans, measured: one span and the list, by the planner and by the same method in Rust.

use crate::answers::{Answer, Planner, SpanRecord};
use crate::{ffi, spans};

#[inline(never)]
extern "C" fn same_span(planner: &Planner, duration: u64, evaluations: &mut u64) -> Answer {
    let (answer, made) = spans::span(planner, duration);
    *evaluations = made;
    answer
}

#[inline(never)]
extern "C" fn same_spans(planner: &Planner, list: *mut SpanRecord, size: usize, evaluations: &mut u64) -> Answer {
    let (answer, made) = spans::spans(planner, unsafe { std::slice::from_raw_parts_mut(list, size) });
    *evaluations = made;
    answer
}

/// The span at 1 ns, the one at top, or all of them: the answer, and the evaluations, which the planner does not tell. What callgrind
/// counts: from here to the return.
#[no_mangle]
#[inline(never)]
pub fn measured_spans(part: &str, planner: &Planner, list: &mut [SpanRecord]) -> (Answer, u64) {
    let (top, mut evaluations) = (u64::from(planner.top), 0);
    let answer = match part {
        "span-first" => ffi::span(planner, 1),
        "span-top" => ffi::span(planner, top),
        "spans" => ffi::spans(planner, list),
        "same-span-first" => same_span(planner, 1, &mut evaluations),
        "same-span-top" => same_span(planner, top, &mut evaluations),
        "same-spans" => same_spans(planner, list.as_mut_ptr(), list.len(), &mut evaluations),
        other => panic!("no such part: {other}"),
    };
    (answer, evaluations)
}

/// As many records as the plan has spans.
pub fn room(planner: &Planner) -> Vec<SpanRecord> {
    let count = ffi::spans(planner, &mut []).first;
    vec![SpanRecord { first: 7, last: 8 }; count as usize]
}

/// The larger of two quotients, each as a pair.
fn worse(one: (u64, u64), other: (u64, u64)) -> (u64, u64) {
    if one.0 * other.1 < other.0 * one.1 {
        return other;
    }
    one
}

/// Evaluations against the fewest pieces that cover a span: how many spans, their pieces, and the evaluations of a pass over all; then
/// evaluations and pieces of the worst span of one piece, and of the worst of more, each asked for from its first and from its last.
pub fn against_pieces(planner: &Planner) -> String {
    let mut list = room(planner);
    let evaluations = spans::spans(planner, &mut list).1 / if list.is_empty() { 1 } else { 2 };
    let (mut covered, mut single, mut longer) = (0, (0, 1), (0, 1));
    for span in &list {
        let fewest = spans::pieces(planner, *span);
        covered += fewest;
        let worst = if fewest == 1 { &mut single } else { &mut longer };
        for duration in [span.first, span.last] {
            *worst = worse(*worst, (spans::span(planner, duration).1, fewest));
        }
    }
    format!("{} {covered} {evaluations} {}/{} {}/{}", list.len(), single.0, single.1, longer.0, longer.1)
}
