//! The gate control list of two cycles (document 02), as fields of tag 21.

use super::save::{into_buffer, put};
use super::{check, Plan};
use crate::answers::Answer;

const TAG: u8 = 0x21;
const QUEUES: u64 = 8;

/// Gate states and the ns for which they hold, one after the other: in the first cycle the even queue opens, in the second the odd.
fn entries(plan: &Plan, duration: u64, even: u64, odd: u64) -> Vec<(u64, u64)> {
    let bit = |queue: u64| 2u64.pow(queue as u32);
    let others: u64 = (0..QUEUES).filter(|queue| ![even, odd].contains(queue)).map(bit).sum();
    let (guard, window) = (plan.guard, plan.window(duration));
    let cycle = |queue| [(others, guard), (others + bit(queue), window), (others, guard)];
    [cycle(even), cycle(odd)].concat().into_iter().filter(|(_, interval)| *interval > 0).collect()
}

/// The list as bytes, for a duration that is admissible and two queues that there are.
pub fn written(plan: &Plan, duration: u64, even: u64, odd: u64) -> Vec<u8> {
    let mut out = Vec::new();
    for (states, interval) in entries(plan, duration, even, odd) {
        put(&mut out, TAG, &[(states, 1), (interval, 4)]);
    }
    out
}

/// The question.
pub fn gates(held: Option<&Plan>, duration: u64, even: u64, odd: u64, buffer: &[u8]) -> (Answer, Vec<u8>) {
    let checked = check(held, duration);
    match held {
        Some(plan) if checked.refusal == 0 => {
            if even >= QUEUES || odd >= QUEUES || even == odd {
                return (Answer::refused(18), buffer.to_vec());
            }
            into_buffer(&written(plan, duration, even, odd), buffer)
        }
        _ => (checked, buffer.to_vec()),
    }
}
