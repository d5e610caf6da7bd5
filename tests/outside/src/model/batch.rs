//! A batch of eight plans searched in turn. Each plan's iteration is worked out whole when it is placed; a turn only counts.

use super::fixed_point::{iteration, Iteration};
use super::read::{load_answer, read};
use crate::answers::{Answer, StepsAnswer};
use std::collections::VecDeque;

pub const SLOTS: usize = 8;
pub const TURN: u64 = 16;

/// A placed plan: its whole iteration from 1 ns on, and the turns that it was given.
pub struct Placed {
    pub iteration: Iteration,
    pub turns: u64,
}

impl Placed {
    pub fn reached(&self) -> StepsAnswer {
        self.iteration.after(TURN * self.turns)
    }

    pub fn is_pending(&self) -> bool {
        self.reached().refusal == 26
    }

    /// The turns within which it has its final answer.
    pub fn most_turns(&self) -> u64 {
        let steps = self.iteration.steps();
        SLOTS as u64 * (steps / TURN + u64::from(steps % TURN != 0))
    }
}

pub struct Batch {
    pub slots: Vec<Option<Placed>>,
    /// The slots in the order in which a turn looks at them.
    order: VecDeque<usize>,
}

impl Batch {
    pub fn new() -> Batch {
        Batch { slots: (0..SLOTS).map(|_| None).collect(), order: (0..SLOTS).collect() }
    }

    pub fn next(&self) -> u64 {
        self.order[0] as u64
    }

    pub fn place(&mut self, slot: u64, bytes: &[u8]) -> Answer {
        let slot = match self.slots.get_mut(slot as usize) {
            None => return Answer::refused(15),
            Some(Some(_)) => return Answer::refused(27),
            Some(slot) => slot,
        };
        let outcome = read(bytes);
        if let Ok(plan) = &outcome {
            *slot = Some(Placed { iteration: iteration(plan, 1), turns: 0 });
        }
        load_answer(&outcome)
    }

    /// The slot served; 8 for none.
    pub fn serve(&mut self) -> u64 {
        let pending = |slot: &usize| matches!(&self.slots[*slot], Some(placed) if placed.is_pending());
        let passed = match self.order.iter().position(pending) {
            None => return SLOTS as u64,
            Some(passed) => passed,
        };
        self.order.rotate_left(passed + 1);
        let slot = self.order[SLOTS - 1];
        self.slots[slot].as_mut().expect("a plan").turns += 1;
        slot as u64
    }

    pub fn collect(&mut self, slot: u64) -> StepsAnswer {
        let slot = match self.slots.get_mut(slot as usize) {
            None => return StepsAnswer::new(Answer::refused(15), 0),
            Some(slot) => slot,
        };
        match slot.take() {
            Some(placed) if !placed.is_pending() => placed.iteration.whole(),
            kept => {
                *slot = kept;
                StepsAnswer::new(Answer::refused(28), 0)
            }
        }
    }
}
