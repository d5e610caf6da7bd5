//! A field written alone: its bytes, read again by the model's own reader, then 13.

use super::field::{field_at, value_repeats};
use super::save::into_buffer;
use super::Form;
use crate::answers::Answer;

/// The tags that have a writer, with the bytes of each of their numbers.
pub const WIDTHS: [(u8, &[usize]); 9] = [
    (0x01, &[4, 4]),
    (0x02, &[2, 4, 2]),
    (0x03, &[2, 4, 2, 2]),
    (0x04, &[2, 2]),
    (0x05, &[2, 4]),
    (0x06, &[4, 4, 4]),
    (0x11, &[4, 4, 4, 4, 4]),
    (0x12, &[2, 4, 2, 2]),
    (0x13, &[2, 4, 2, 2, 4]),
];

/// The bytes of each number of a tag.
pub fn widths(tag: u8) -> &'static [usize] {
    WIDTHS.iter().find(|(other, _)| *other == tag).expect("a writer").1
}

/// Whether a tag is a flow's: the others have no route.
pub fn has_route(tag: u8) -> bool {
    tag & 0x0F == 3
}

/// The field's bytes, or the refusal. A number that its bytes do not hold is out of range, after the test of the length.
fn bytes(tag: u8, numbers: &[u32], route: &[u8]) -> Result<Vec<u8>, u32> {
    let form = if tag < 0x10 { Form::Older } else { Form::Newer };
    let mut value = Vec::new();
    for (number, width) in numbers.iter().zip(widths(tag)) {
        value.extend(&number.to_be_bytes()[4 - width..]);
    }
    value.extend(route.iter().flat_map(|port| u16::from(*port).to_be_bytes()));
    let length = u16::try_from(value.len()).map_err(|_| 4u32)?;
    let field = [&[tag][..], &length.to_be_bytes(), &value].concat();
    let too_wide = numbers.iter().zip(widths(tag)).any(|(number, width)| u64::from(*number) >= 1 << (8 * width));
    match field_at(form, &field, 0) {
        Err(refusal) => Err(refusal),
        Ok(_) if too_wide => Err(5),
        Ok(_) if has_route(tag) && value_repeats(u32::from(tag), &value) => Err(7),
        Ok(_) => Ok(field),
    }
}

/// What the writer of a tag answers, and the buffer after it.
pub fn write(tag: u8, numbers: &[u32], route: &[u8], buffer: &[u8]) -> (Answer, Vec<u8>) {
    match bytes(tag, numbers, route) {
        Ok(field) => into_buffer(&field, buffer),
        Err(refusal) => (Answer::new(refusal, 0, 0), buffer.to_vec()),
    }
}
