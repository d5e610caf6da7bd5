//! A plan written in strict order in the form in which it was read, without the fields that say what their absence says
//! (document 02), and how a writer of fields answers and fills its buffer.

use super::{Form, Plan};
use crate::answers::Answer;

/// A field: its tag, and the numbers of its value, each with how many bytes it has.
pub fn put(out: &mut Vec<u8>, tag: u8, numbers: &[(u64, u32)]) {
    let length = numbers.iter().map(|(_, bytes)| u64::from(*bytes)).sum();
    out.push(tag);
    for (number, bytes) in [(length, 2)].iter().chain(numbers) {
        out.extend((0..*bytes).rev().map(|place| (number / 256u64.pow(place) % 256) as u8));
    }
}

/// The bytes of a plan in strict order.
pub fn written(plan: &Plan) -> Vec<u8> {
    match plan.form {
        Form::Older => in_older(plan),
        Form::Newer => in_newer(plan),
    }
}

/// The header with the clocks, each port with its extra bytes, each flow with its jitter.
fn in_newer(plan: &Plan) -> Vec<u8> {
    let (mut out, clocks) = (Vec::new(), plan.clocks);
    let numbers = [plan.guard, plan.top, clocks.drift, clocks.timing_jitter, clocks.sync_error];
    put(&mut out, 0x11, &numbers.map(|number| (number, 4)));
    for (number, port) in &plan.ports {
        put(&mut out, 0x12, &[(*number, 2), (port.rate, 4), (port.blocker, 2), (port.extra, 2)]);
    }
    for (number, flow) in &plan.flows {
        let mut numbers = vec![(*number, 2), (flow.period, 4), (flow.count, 2), (flow.length, 2), (flow.jitter, 4)];
        numbers.extend(flow.route.iter().map(|port| (*port, 2)));
        put(&mut out, 0x13, &numbers);
    }
    out
}

fn in_older(plan: &Plan) -> Vec<u8> {
    let mut out = Vec::new();
    put(&mut out, 1, &[(plan.guard, 4), (plan.top, 4)]);
    for (number, port) in &plan.ports {
        put(&mut out, 2, &[(*number, 2), (port.rate, 4), (port.blocker, 2)]);
    }
    for (number, flow) in &plan.flows {
        let mut numbers = vec![(*number, 2), (flow.period, 4), (flow.count, 2), (flow.length, 2)];
        numbers.extend(flow.route.iter().map(|port| (*port, 2)));
        put(&mut out, 3, &numbers);
    }
    for (number, port) in plan.ports.iter().filter(|(_, port)| port.extra > 0) {
        put(&mut out, 4, &[(*number, 2), (port.extra, 2)]);
    }
    for (number, flow) in plan.flows.iter().filter(|(_, flow)| flow.jitter > 0) {
        put(&mut out, 5, &[(*number, 2), (flow.jitter, 4)]);
    }
    let clocks = plan.clocks;
    if !clocks.are_equal() {
        put(&mut out, 6, &[(clocks.drift, 4), (clocks.timing_jitter, 4), (clocks.sync_error, 4)]);
    }
    out
}

/// What a writer of these bytes answers, and the buffer after it: 13 where the buffer is shorter.
pub fn into_buffer(bytes: &[u8], buffer: &[u8]) -> (Answer, Vec<u8>) {
    let needed = bytes.len() as u64;
    match buffer.get(bytes.len()..) {
        None => (Answer::new(13, needed, 0), buffer.to_vec()),
        Some(rest) => (Answer::new(0, needed, 0), [bytes, rest].concat()),
    }
}

/// Saving the held plan.
pub fn save(held: Option<&Plan>, buffer: &[u8]) -> (Answer, Vec<u8>) {
    match held {
        None => (Answer::refused(20), buffer.to_vec()),
        Some(plan) => into_buffer(&written(plan), buffer),
    }
}
