//! Both searches by trying one duration after the other, on the planner's own tables.

use crate::answers::{Answer, Planner};
use crate::valid::valid_plan;
use crate::jump::{demands, fails, refused_at_top, window, PORTS};

fn admissible(planner: &Planner, duration: u64, scratch: &mut [u64; PORTS]) -> bool {
    demands::<true>(planner, duration, scratch);
    let span = window(planner, duration);
    (0..PORTS).all(|slot| !fails(planner, slot, span, scratch[slot]))
}

/// Durations from 1 up, at most so many: the answer if it was reached, and how many were tried.
pub fn least(planner: &Planner, scratch: &mut [u64; PORTS], most: u64) -> (Option<Answer>, u64) {
    if !valid_plan(planner) {
        return (Some(Answer::refused(20)), 0);
    }
    let top = planner.top as u64;
    for duration in 1..=top.min(most) {
        if admissible(planner, duration, scratch) {
            return (Some(Answer::new(0, duration, 0)), duration);
        }
    }
    let answer = (top <= most).then(|| refused_at_top::<true>(22, planner, scratch));
    (answer, top.min(most))
}

/// Durations from top down, at most so many.
pub fn margin_safe(planner: &Planner, scratch: &mut [u64; PORTS], most: u64) -> (Option<Answer>, u64) {
    if !valid_plan(planner) {
        return (Some(Answer::refused(20)), 0);
    }
    let top = planner.top as u64;
    let mut tried = 0;
    for duration in (1..=top).rev().take(most as usize) {
        tried += 1;
        if !admissible(planner, duration, scratch) {
            if duration == top {
                return (Some(refused_at_top::<true>(23, planner, scratch)), tried);
            }
            demands::<true>(planner, duration + 1, scratch);
            return (Some(Answer::new(0, duration + 1, 0)), tried);
        }
    }
    let answer = (tried == top).then(|| Answer::new(0, 1, 0));
    (answer, tried)
}
