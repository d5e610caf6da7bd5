//! The two questions about spans (document 02): the first that ends at a duration or later, and all of them into a list of records.

use super::spans::Span;
use super::Plan;
use crate::answers::{Answer, SpanRecord};

/// The first span that ends at a duration or later.
pub fn span(held: Option<(&Plan, &[Span])>, duration: u64) -> Answer {
    let (plan, spans) = match held {
        Some(held) => held,
        None => return Answer::refused(20),
    };
    if !plan.in_reach(duration) {
        return Answer::refused(10);
    }
    // Spans rise, so those that end before the duration come first.
    match spans.get(spans.partition_point(|span| span.1 < duration)) {
        Some(span) => Answer::new(0, span.0, span.1),
        None => Answer::refused(25),
    }
}

/// All spans, rising: the answer, and the list after it.
pub fn list_spans(held: Option<(&Plan, &[Span])>, list: &[SpanRecord]) -> (Answer, Vec<SpanRecord>) {
    let mut after = list.to_vec();
    let spans = match held {
        Some((_, spans)) => spans,
        None => return (Answer::refused(20), after),
    };
    let count = spans.len() as u64;
    if list.len() < spans.len() {
        return (Answer::new(13, count, 0), after);
    }
    for (record, (first, last)) in after.iter_mut().zip(spans) {
        *record = SpanRecord { first: *first, last: *last };
    }
    (Answer::new(0, count, 0), after)
}
