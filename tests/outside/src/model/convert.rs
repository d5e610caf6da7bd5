//! The converters (document 02): a plan's bytes written in the other form, with the reading numbers, 16 and 13.

use super::field::{fields_at, Field};
use super::read::{read_form, Reading};
use super::save::{into_buffer, written};
use super::Form;
use crate::answers::Answer;

/// The tag of the first flow with more ports than a route of the other form has.
fn first_too_long(from: Form, plan: &[u8]) -> Option<usize> {
    let most = from.other().most_hops();
    let too_long = |field: &Field| matches!(field, Field::Flow { flow, .. } if flow.route.len() > most);
    fields_at(from, plan).into_iter().find(|(_, field)| too_long(field)).map(|(offset, _)| offset)
}

/// The plan in the other form, or the refusal and its place.
pub fn converted(from: Form, plan: &[u8]) -> Result<Vec<u8>, (u32, usize)> {
    let held = read_form(from, Reading::Loose, plan)?;
    match first_too_long(from, plan) {
        Some(offset) => Err((16, offset)),
        None => Ok(written(&held.in_form(from.other()))),
    }
}

/// What a converter answers, and the buffer after it.
pub fn convert(from: Form, plan: &[u8], buffer: &[u8]) -> (Answer, Vec<u8>) {
    match converted(from, plan) {
        Ok(bytes) => into_buffer(&bytes, buffer),
        Err((refusal, place)) => (Answer::new(refusal, place as u64, 0), buffer.to_vec()),
    }
}
