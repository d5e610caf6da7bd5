//! A plan's text in safe Rust: read into fresh tables and written as the plan's strict bytes, and the tables written as text.

mod grammar;
mod line;
mod reader;
mod words;
mod writer;

use crate::answers::{Answer, EncodeAnswer, Planner};
use crate::{newer, writer as older};
pub use writer::write;

const BAD_TEXT: u32 = 30;

/// The tables' plan as its bytes in strict order; they need not be tested again.
fn save(planner: &Planner, buffer: &mut [u8]) -> Answer {
    match planner.form {
        0 => older::put_plan(planner, buffer),
        _ => newer::put_plan(planner, buffer),
    }
}

/// The answer `encode` gives.
pub fn encode(text: &[u8], buffer: &mut [u8]) -> EncodeAnswer {
    let mut tables = Planner::zero();
    match reader::read(text, &mut tables) {
        Ok(()) => {
            let saved = save(&tables, buffer);
            EncodeAnswer { refusal: saved.refusal, line: 0, fault: 0, item: 0, value: saved.first }
        }
        Err((line, refused)) => {
            EncodeAnswer { refusal: BAD_TEXT, line, fault: refused.fault, item: refused.item, value: refused.value }
        }
    }
}
