//! Planner values: the one that a load makes of a plan, which ones hold a plan that the rules accept, and the plan that such a one tells.

use super::field::repeats;
use super::values::{clocks_fit, flow_fits, header_fits, port_fits};
use super::{Clocks, Flow, Form, Plan, Port};
use crate::answers::{Planner, STRIDE};
use std::collections::BTreeMap;

fn ports_of(tables: &Planner) -> Option<BTreeMap<u64, Port>> {
    let mut ports = BTreeMap::new();
    for slot in 0..64 {
        let (rate, blocker) = (u64::from(tables.rates[slot]), u64::from(tables.blockings[slot]));
        let extra = u64::from(tables.extras[slot]);
        if (rate, blocker, extra) == (0, 0, 0) {
            continue;
        }
        let port = Port { rate, blocker, extra };
        if !port_fits(&port) {
            return None;
        }
        ports.insert(slot as u64 + 1, port);
    }
    Some(ports)
}

/// The flow of a slot: none for a value no load leaves, an empty one for an absent flow.
fn flow_of(tables: &Planner, slot: usize, form: Form, ports: &BTreeMap<u64, Port>) -> Option<Option<Flow>> {
    let hops = usize::from(tables.hops[slot]);
    let period = u64::from(tables.periods[slot]);
    let (count, length) = (u64::from(tables.counts[slot]), u64::from(tables.lengths[slot]));
    let jitter = u64::from(tables.jitters[slot]);
    if (hops, period, count, length, jitter) == (0, 0, 0, 0, 0) {
        return Some(None);
    }
    if !(1..=form.most_hops()).contains(&hops) {
        return None;
    }
    let route: Vec<u64> = tables.routes[slot * STRIDE..][..hops].iter().map(|port| u64::from(*port)).collect();
    let flow = Flow { period, count, length, jitter, route };
    let sound = !repeats(&flow.route) && flow.route.iter().all(|port| ports.contains_key(port));
    (flow_fits(&flow) && sound).then_some(Some(flow))
}

/// The plan in a planner's tables, or none where the rules accept no such tables, whatever their form. How many bytes it would have is
/// not asked.
pub fn plan_of(tables: &Planner) -> Option<Plan> {
    let form = Form::ALL.into_iter().find(|form| form.number() == tables.form)?;
    let (guard, top) = (u64::from(tables.guard), u64::from(tables.top));
    let clocks = Clocks {
        drift: u64::from(tables.drift),
        timing_jitter: u64::from(tables.timing_jitter),
        sync_error: u64::from(tables.sync_error),
    };
    if !header_fits(guard, top) || !clocks_fit(&clocks) {
        return None;
    }
    let ports = ports_of(tables)?;
    let mut flows = BTreeMap::new();
    for slot in 0..256 {
        if let Some(flow) = flow_of(tables, slot, form, &ports)? {
            flows.insert(slot as u64 + 1, flow);
        }
    }
    (!flows.is_empty()).then_some(Plan { form, guard, top, clocks, ports, flows })
}

/// The tables that hold a plan: port n and flow n in slot n - 1, routes a stride apart, all else 0.
pub fn tables_of(plan: &Plan) -> Planner {
    let mut tables = Planner::zero();
    tables.form = plan.form.number();
    tables.guard = plan.guard as u32;
    tables.top = plan.top as u32;
    tables.drift = plan.clocks.drift as u32;
    tables.timing_jitter = plan.clocks.timing_jitter as u32;
    tables.sync_error = plan.clocks.sync_error as u32;
    for (number, port) in &plan.ports {
        tables.rates[*number as usize - 1] = port.rate as u32;
        tables.blockings[*number as usize - 1] = port.blocker as u16;
        tables.extras[*number as usize - 1] = port.extra as u8;
    }
    for (number, flow) in &plan.flows {
        let slot = *number as usize - 1;
        tables.periods[slot] = flow.period as u32;
        tables.counts[slot] = flow.count as u16;
        tables.lengths[slot] = flow.length as u16;
        tables.jitters[slot] = flow.jitter as u32;
        tables.hops[slot] = flow.route.len() as u8;
        for (hop, port) in flow.route.iter().enumerate() {
            tables.routes[slot * STRIDE + hop] = *port as u8;
        }
    }
    tables
}
