//! The nearest admissible durations: the largest at or below a duration, and the least at or above it.

use super::spans::Span;
use super::Plan;
use crate::answers::Answer;

/// Both, 0 for none, by the spans that the walk over the rises of the demand finds.
pub fn nearest(held: Option<(&Plan, &[Span])>, duration: u64) -> Answer {
    let (plan, spans) = match held {
        Some(held) => held,
        None => return Answer::refused(20),
    };
    if !plan.in_reach(duration) {
        return Answer::refused(10);
    }
    // Spans rise: those that begin at the duration or before come first, and those that end before it first of these.
    let begun = spans.partition_point(|span| span.0 <= duration);
    let ended = spans.partition_point(|span| span.1 < duration);
    let below = begun.checked_sub(1).map_or(0, |place| spans[place].1.min(duration));
    let above = spans.get(ended).map_or(0, |span| span.0.max(duration));
    Answer::new(0, below, above)
}

/// The same of each duration from 0 on, by trying one after the other, for small tops.
pub fn tried(plan: &Plan) -> Vec<Answer> {
    let good: Vec<bool> = (0..=plan.top).map(|one| one > 0 && plan.failing(one).is_empty()).collect();
    let (mut answers, mut above) = (vec![Answer::refused(10); good.len() + 2], 0);
    for duration in (1..good.len()).rev() {
        above = if good[duration] { duration as u64 } else { above };
        answers[duration] = Answer::new(0, 0, above);
    }
    for duration in 1..good.len() {
        answers[duration].first = if good[duration] { duration as u64 } else { answers[duration - 1].first };
    }
    answers
}
