//! One field of a plan's bytes, with refusals 2 to 5, and the test for a port twice in a route.

use super::values::{number, numbers_of};
use super::{Clocks, Flow, Form, Port};
use crate::answers::{FieldRead, NUMBERS};
use std::collections::BTreeSet;

/// A field once read. In the newer form the header has the clocks, a port its extra bytes and a flow its jitter. In the older form these
/// are fields of their own, and 0 in a header, a port and a flow.
#[derive(Clone, Debug)]
pub enum Field {
    Header { guard: u64, top: u64, clocks: Clocks },
    Port { number: u64, port: Port },
    Flow { number: u64, flow: Flow },
    /// Bytes more per frame at the port of this number.
    Extra { number: u64, bytes: u64 },
    /// The release jitter of the flow of this number.
    Jitter { number: u64, jitter: u64 },
    Clocks(Clocks),
}

impl Field {
    /// Where the strict order puts a field: by tag, within a tag by number (0 for a field that has none).
    pub fn rank(&self) -> (u8, u64) {
        match self {
            Field::Header { .. } => (1, 0),
            Field::Port { number, .. } => (2, *number),
            Field::Flow { number, .. } => (3, *number),
            Field::Extra { number, .. } => (4, *number),
            Field::Jitter { number, .. } => (5, *number),
            Field::Clocks(_) => (6, 0),
        }
    }

    /// The numbers that cp_field tells; those of a route are its ports counted.
    fn told(&self, form: Form) -> Vec<u64> {
        match self {
            Field::Header { guard, top, clocks } => vec![*guard, *top, clocks.drift, clocks.timing_jitter, clocks.sync_error],
            Field::Port { number, port } => vec![*number, port.rate, port.blocker, port.extra],
            Field::Flow { number, flow } => {
                let mut numbers = vec![*number, flow.period, flow.count, flow.length];
                numbers.extend((form == Form::Newer).then_some(flow.jitter));
                numbers.push(flow.route.len() as u64);
                numbers
            }
            Field::Extra { number, bytes } => vec![*number, *bytes],
            Field::Jitter { number, jitter } => vec![*number, *jitter],
            Field::Clocks(clocks) => vec![clocks.drift, clocks.timing_jitter, clocks.sync_error],
        }
    }
}

/// The lengths of a tag: the least, and how many times 2 bytes more may come, for a port each. None where a form has no such tag.
fn lengths(form: Form, tag: u8) -> Option<(usize, usize)> {
    let more = form.most_hops() - 1;
    match (form, tag) {
        (Form::Older, 0x01 | 0x02) => Some((8, 0)),
        (Form::Older, 0x03) => Some((12, more)),
        (Form::Older, 0x04) => Some((4, 0)),
        (Form::Older, 0x05) => Some((6, 0)),
        (Form::Older, 0x06) => Some((12, 0)),
        (Form::Newer, 0x11) => Some((20, 0)),
        (Form::Newer, 0x12) => Some((10, 0)),
        (Form::Newer, 0x13) => Some((16, more)),
        _ => None,
    }
}

/// The field at an offset and the offset after it, by tests 2 to 5 with the tags of a form.
pub fn field_at(form: Form, plan: &[u8], offset: usize) -> Result<(Field, usize), u32> {
    let rest = plan.get(offset..).unwrap_or(&[]);
    let head = rest.get(..3).ok_or(2u32)?;
    let (tag, length) = (head[0], number(&head[1..]) as usize);
    let value = rest[3..].get(..length).ok_or(2u32)?;
    let (least, more) = lengths(form, tag).ok_or(3u32)?;
    if !(0..=more).any(|ports| length == least + 2 * ports) {
        return Err(4);
    }
    let field = numbers_of(tag, value).ok_or(5u32)?;
    Ok((field, offset + 3 + length))
}

/// The fields of a plan that a form reads, each with its offset.
pub fn fields_at(form: Form, plan: &[u8]) -> Vec<(usize, Field)> {
    let (mut fields, mut offset) = (Vec::new(), 0);
    while offset < plan.len() {
        let (field, after) = field_at(form, plan, offset).expect("a field");
        fields.push((offset, field));
        offset = after;
    }
    fields
}

/// The fields of a plan that is read, as bytes, one after the other.
pub fn fields_of(plan: &[u8]) -> Vec<&[u8]> {
    let mut starts: Vec<usize> = fields_at(Form::of(plan), plan).into_iter().map(|(offset, _)| offset).collect();
    starts.push(plan.len());
    starts.windows(2).map(|ends| &plan[ends[0]..ends[1]]).collect()
}

/// What cp_field must answer: the plan's first byte says which tags are known, whatever the offset.
pub fn field_read(plan: &[u8], offset: usize) -> FieldRead {
    let form = Form::of(plan);
    let (field, after) = match field_at(form, plan, offset) {
        Err(refusal) => return FieldRead { refusal, tag: 0, offset: offset as u64, numbers: [0; NUMBERS] },
        Ok(found) => found,
    };
    let mut numbers = field.told(form);
    numbers.resize(NUMBERS, 0);
    let tag = u32::from(field.rank().0) + if form == Form::Newer { 0x10 } else { 0 };
    FieldRead { refusal: 0, tag, offset: after as u64, numbers: numbers.try_into().expect("so many numbers") }
}

pub fn repeats(route: &[u64]) -> bool {
    route.iter().collect::<BTreeSet<_>>().len() < route.len()
}

/// What cp_repeats must answer for the value of a flow field: where the tag is not that of the newer form, the older one's counts.
pub fn value_repeats(tag: u32, value: &[u8]) -> bool {
    let from = if tag == 0x13 { 14 } else { 10 };
    let route: Vec<u64> = value.get(from..).unwrap_or(&[]).chunks_exact(2).map(number).collect();
    repeats(&route)
}
