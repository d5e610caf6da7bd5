//! A plan as text: a line for each thing that it says, without what its absence says.

use super::save::into_buffer;
use super::{Flow, Form, Plan, Port};
use crate::answers::Answer;

/// A word and its number, unless its absence says the same.
fn pair(word: &str, number: u64, absent: Option<u64>) -> String {
    match absent {
        Some(absent) if absent == number => String::new(),
        _ => format!(" {word} {number}"),
    }
}

fn port_line(number: u64, port: &Port) -> String {
    let pairs = [pair("rate", port.rate, None), pair("blocker", port.blocker, Some(0)), pair("extra", port.extra, Some(0))];
    format!("port {number}{}\n", pairs.concat())
}

fn flow_line(number: u64, flow: &Flow) -> String {
    let pairs = [
        pair("period", flow.period, None),
        pair("count", flow.count, Some(1)),
        pair("length", flow.length, None),
        pair("jitter", flow.jitter, Some(0)),
    ];
    let route: Vec<String> = flow.route.iter().map(|port| format!(" {port}")).collect();
    format!("flow {number}{} route{}\n", pairs.concat(), route.concat())
}

/// The line of the form, guard and top, ports and flows by rising number, clocks.
pub fn text_of(plan: &Plan) -> Vec<u8> {
    let mut lines = Vec::new();
    if plan.form == Form::Newer {
        lines.push("format 2\n".to_string());
    }
    lines.push(format!("guard {}\ntop {}\n", plan.guard, plan.top));
    lines.extend(plan.ports.iter().map(|(number, port)| port_line(*number, port)));
    lines.extend(plan.flows.iter().map(|(number, flow)| flow_line(*number, flow)));
    let clocks = plan.clocks;
    if !clocks.are_equal() {
        lines.push(format!("clocks drift {} timing {} sync {}\n", clocks.drift, clocks.timing_jitter, clocks.sync_error));
    }
    lines.concat().into_bytes()
}

/// The text of the held plan.
pub fn text(held: Option<&Plan>, buffer: &[u8]) -> (Answer, Vec<u8>) {
    match held {
        None => (Answer::refused(20), buffer.to_vec()),
        Some(plan) => into_buffer(&text_of(plan), buffer),
    }
}
