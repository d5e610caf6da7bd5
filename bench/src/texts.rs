//! A plan as text, and a text as a plan's bytes: the planner and the same work in safe Rust, one call a process.

use crate::answers::{Answer, EncodeAnswer, Planner};
use crate::{ffi, plans, text, told, BUFFER};

/// Bytes of a buffer that every text fits.
const TEXT: usize = 65_536;

#[inline(never)]
extern "C" fn write(planner: &Planner, buffer: &mut [u8; TEXT]) -> Answer {
    text::write(planner, buffer)
}

/// The held plan as text, counted as the searches are.
#[no_mangle]
#[inline(never)]
fn measured_text(part: &str, planner: &Planner, buffer: &mut [u8; TEXT]) -> Answer {
    match part {
        "text" => ffi::text(planner, buffer),
        _ => write(planner, buffer),
    }
}

#[allow(improper_ctypes_definitions)]
#[inline(never)]
extern "C" fn encode(text: &[u8], buffer: &mut [u8; BUFFER]) -> EncodeAnswer {
    text::encode(text, buffer)
}

/// A text as the plan's bytes, counted likewise.
#[no_mangle]
#[inline(never)]
fn measured_encode(part: &str, text: &[u8], buffer: &mut [u8; BUFFER]) -> EncodeAnswer {
    match part {
        "encode" => ffi::encode(text, buffer),
        _ => encode(text, buffer),
    }
}

fn planner_of(name: &str) -> Planner {
    let plan = plans::texts().into_iter().find(|plan| plan.0 == name).expect("no such plan").1;
    let (planner, loaded) = ffi::load(&ffi::empty(), &plan);
    assert_eq!(loaded.refusal, 0, "the plan is refused: {loaded:?}");
    planner
}

fn text_of(planner: &Planner) -> Vec<u8> {
    let mut text = vec![0; TEXT];
    let answer = ffi::text(planner, &mut text);
    assert_eq!(answer.refusal, 0, "no text: {answer:?}");
    text.truncate(answer.first as usize);
    text
}

/// The names of the plans, with the bytes of each and of its text.
pub fn list() {
    for (name, plan) in plans::texts() {
        println!("{name} {} {}", plan.len(), text_of(&planner_of(name)).len());
    }
}

/// A part on a plan: the answer, and one number for every byte of the buffer.
pub fn told_of(part: &str, name: &str) -> String {
    let planner = planner_of(name);
    if part.starts_with("text") {
        let mut buffer = [7; TEXT];
        let answer = measured_text(part, &planner, &mut buffer);
        return told(answer, buffer.into_iter().map(u64::from));
    }
    let mut buffer = [7; BUFFER];
    let answer = measured_encode(part, &text_of(&planner), &mut buffer);
    let numbers = [answer.line, answer.fault, answer.item].into_iter().map(u64::from);
    told(Answer::new(answer.refusal, answer.value, 0), numbers.chain(buffer.into_iter().map(u64::from)))
}
