//! The fixed-point iteration: from a duration to the largest need there, until that is no more.

use super::Plan;
use crate::answers::{Answer, StepsAnswer};

/// What the crossed port that needs most needs at a duration.
fn largest_need(plan: &Plan, duration: u64) -> u64 {
    let need = |(number, demand): (u64, u64)| {
        let port = &plan.ports[&number];
        let taken = 1000 * (demand + port.blocker_bits());
        2 * plan.guard + taken / port.rate + u64::from(taken % port.rate != 0)
    };
    plan.demands(duration).into_iter().map(need).max().expect("a crossed port")
}

/// A whole iteration.
pub struct Iteration {
    /// The duration before each step, that is before the first one the start.
    pub reached: Vec<u64>,
    pub end: Answer,
}

impl Iteration {
    pub fn steps(&self) -> u64 {
        self.reached.len() as u64
    }

    pub fn whole(&self) -> StepsAnswer {
        StepsAnswer::new(self.end, self.steps())
    }

    /// What so many steps give: the end where it is reached, otherwise the duration before the next step.
    pub fn after(&self, steps: u64) -> StepsAnswer {
        if steps >= self.steps() {
            return self.whole();
        }
        StepsAnswer::new(Answer::new(26, self.reached[steps as usize], 0), steps)
    }
}

/// All steps from a start within 1 to top.
pub fn iteration(plan: &Plan, start: u64) -> Iteration {
    let mut reached = vec![start];
    loop {
        let duration = reached[reached.len() - 1];
        let need = largest_need(plan, duration);
        if need <= duration {
            return Iteration { reached, end: Answer::new(0, duration, 0) };
        }
        if need > plan.top {
            return Iteration { reached, end: plan.refuse_failing(22, plan.top) };
        }
        reached.push(need);
    }
}

/// The question.
pub fn fixed_point(held: Option<&Plan>, start: u64, steps: u64) -> StepsAnswer {
    match held {
        None => StepsAnswer::new(Answer::refused(20), 0),
        Some(plan) if !plan.in_reach(start) => StepsAnswer::new(Answer::refused(10), 0),
        Some(plan) => iteration(plan, start).after(steps),
    }
}

/// What no iteration takes more steps than: two, and each time that a period begins after the first, up to the widened top.
pub fn most_steps(plan: &Plan) -> u64 {
    let length = plan.clocks.widened(plan.top);
    let again = |reach: u64, period: u64| reach / period + u64::from(reach % period != 0) - 1;
    2 + plan.flows.values().map(|flow| again(length + flow.jitter, flow.period)).sum::<u64>()
}
