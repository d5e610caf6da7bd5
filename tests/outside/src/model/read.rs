//! Reading a plan's bytes of either form, loosely or strictly, with refusals 1 to 9 and 12.

use super::field::{field_at, repeats, Field};
use super::{Clocks, Flow, Form, Plan, Port};
use crate::answers::Answer;
use std::collections::BTreeMap;

#[derive(Clone, Copy, PartialEq, Eq, Debug)]
pub enum Reading {
    /// Fields in any order.
    Loose,
    /// No field behind one that it should have stood before.
    Strict,
}

#[derive(Default)]
struct Gathered {
    header: Option<(u64, u64, Clocks)>,
    clocks: Option<Clocks>,
    ports: BTreeMap<u64, Port>,
    flows: BTreeMap<u64, Flow>,
    /// Extra bytes by port, each with the offset of its tag.
    extras: BTreeMap<u64, (u64, usize)>,
    /// Jitter by flow, likewise.
    jitters: BTreeMap<u64, (u64, usize)>,
    tags: BTreeMap<usize, u64>,
    /// The rank of each field taken so far.
    ranks: Vec<(u8, u64)>,
}

impl Gathered {
    /// Tests 6, 12 where order is asked for, and 7; then the field is kept.
    fn take(&mut self, field: Field, offset: usize, in_order: bool) -> Result<(), u32> {
        let again = match &field {
            Field::Header { .. } => self.header.is_some(),
            Field::Port { number, .. } => self.ports.contains_key(number),
            Field::Flow { number, .. } => self.flows.contains_key(number),
            Field::Extra { number, .. } => self.extras.contains_key(number),
            Field::Jitter { number, .. } => self.jitters.contains_key(number),
            Field::Clocks(_) => self.clocks.is_some(),
        };
        if again {
            return Err(6);
        }
        let rank = field.rank();
        if in_order && self.ranks.iter().any(|in_front| *in_front > rank) {
            return Err(12);
        }
        self.ranks.push(rank);
        match field {
            Field::Header { guard, top, clocks } => self.header = Some((guard, top, clocks)),
            Field::Clocks(clocks) => self.clocks = Some(clocks),
            Field::Port { number, port } => {
                self.ports.insert(number, port);
            }
            Field::Extra { number, bytes } => {
                self.extras.insert(number, (bytes, offset));
            }
            Field::Jitter { number, jitter } => {
                self.jitters.insert(number, (jitter, offset));
            }
            Field::Flow { flow, .. } if repeats(&flow.route) => return Err(7),
            Field::Flow { number, flow } => {
                self.flows.insert(number, flow);
                self.tags.insert(offset, number);
            }
        }
        Ok(())
    }

    /// Tests 8 and 9, routes before jitter before extra bytes; then each flow and each port gets its own.
    fn close(mut self, form: Form, plan_length: usize) -> Result<Plan, (u32, usize)> {
        let (guard, top, clocks) = self.header.ok_or((8, plan_length))?;
        if self.flows.is_empty() {
            return Err((8, plan_length));
        }
        let astray = |flow: &Flow| flow.route.iter().any(|port| !self.ports.contains_key(port));
        if let Some((offset, _)) = self.tags.iter().find(|(_, number)| astray(&self.flows[number])) {
            return Err((9, *offset));
        }
        let late = first_lost(&self.jitters, |flow| !self.flows.contains_key(&flow));
        if let Some(offset) = late.or_else(|| first_lost(&self.extras, |port| !self.ports.contains_key(&port))) {
            return Err((9, offset));
        }
        for (flow, (jitter, _)) in self.jitters {
            self.flows.get_mut(&flow).expect("a known flow").jitter = jitter;
        }
        for (port, (bytes, _)) in self.extras {
            self.ports.get_mut(&port).expect("a known port").extra = bytes;
        }
        Ok(Plan { form, guard, top, clocks: self.clocks.unwrap_or(clocks), ports: self.ports, flows: self.flows })
    }
}

/// The first tag among fields that are kept by number, of those whose number is absent.
fn first_lost(fields: &BTreeMap<u64, (u64, usize)>, absent: impl Fn(u64) -> bool) -> Option<usize> {
    fields.iter().filter(|(number, _)| absent(**number)).map(|(_, (_, offset))| *offset).min()
}

/// A plan from its bytes read loosely, or the refusal and its place.
pub fn read(plan: &[u8]) -> Result<Plan, (u32, usize)> {
    read_as(Reading::Loose, plan)
}

/// A plan from its bytes in either reading; its first byte says of which form it is.
pub fn read_as(reading: Reading, plan: &[u8]) -> Result<Plan, (u32, usize)> {
    read_form(Form::of(plan), reading, plan)
}

/// A plan from its bytes by the tags of one form, whatever its first byte is. The newer form has one order in either
/// reading.
pub fn read_form(form: Form, reading: Reading, plan: &[u8]) -> Result<Plan, (u32, usize)> {
    if plan.is_empty() || plan.len() > 16_384 {
        return Err((1, 0));
    }
    let in_order = form == Form::Newer || reading == Reading::Strict;
    let mut gathered = Gathered::default();
    let mut offset = 0;
    while offset < plan.len() {
        let (field, after) = field_at(form, plan, offset).map_err(|refusal| (refusal, offset))?;
        gathered.take(field, offset, in_order).map_err(|refusal| (refusal, offset))?;
        offset = after;
    }
    gathered.close(form, plan.len())
}

/// What the load must answer.
pub fn load_answer(outcome: &Result<Plan, (u32, usize)>) -> Answer {
    match outcome {
        Ok(plan) => Answer::new(0, plan.ports.len() as u64, plan.flows.len() as u64),
        Err((refusal, place)) => Answer::new(*refusal, *place as u64, 0),
    }
}
