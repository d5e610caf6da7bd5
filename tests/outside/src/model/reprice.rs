//! Another frame length for one flow (document 02): the spares along its route are those of a plan with that length.

use super::{slack, Plan};
use crate::answers::Answer;

/// The plan with another length for one of its flows.
pub fn relengthed(plan: &Plan, flow: u64, length: u64) -> Plan {
    let mut other = plan.clone();
    if let Some(flow) = other.flows.get_mut(&flow) {
        flow.length = length;
    }
    other
}

/// The answer, and the list after it.
pub fn reprice(held: Option<&Plan>, duration: u64, flow: u64, length: u64, list: &[i64]) -> (Answer, Vec<i64>) {
    let refused = |refusal| (Answer::refused(refusal), list.to_vec());
    let plan = match held {
        Some(plan) => plan,
        None => return refused(20),
    };
    if !plan.in_reach(duration) {
        return refused(10);
    }
    if list.len() < 64 {
        return refused(11);
    }
    if !(64..=2000).contains(&length) {
        return refused(17);
    }
    let route = match plan.flows.get(&flow) {
        Some(flow) => &flow.route,
        None => return refused(29),
    };
    let other = relengthed(plan, flow, length);
    let mut after = list.to_vec();
    for port in route {
        after[*port as usize - 1] = slack(Some(&other), *port, duration).slack;
    }
    (Answer::new(0, 0, 0), after)
}
