//! A buffer lent to a writer, amid bytes that are not lent.

use crate::answers::Answer;
use crate::report::Tally;
use crate::rng::Rng;
use std::fmt::Arguments;

/// Bytes by chance.
fn pattern(rng: &mut Rng, length: usize) -> Vec<u8> {
    let mut bytes: Vec<u8> = (0..length / 8 + 1).flat_map(|_| rng.next().to_le_bytes()).collect();
    bytes.truncate(length);
    bytes
}

/// The first byte that differs, with what it is and what it should be.
pub fn first_other(got: &[u8], want: &[u8]) -> Option<(usize, Option<u8>, Option<u8>)> {
    let all = 0..got.len().max(want.len());
    all.map(|place| (place, got.get(place).copied(), want.get(place).copied())).find(|(_, one, other)| one != other)
}

/// A writer on a buffer of a length, at any alignment: its answer, and every byte of the buffer and around it.
pub fn lend(
    tally: &mut Tally,
    call: Arguments,
    length: usize,
    rng: &mut Rng,
    writer: impl FnOnce(&mut [u8]) -> Answer,
    model: impl FnOnce(&[u8]) -> (Answer, Vec<u8>),
) {
    let before = pattern(rng, length + 64);
    let from = 16 + rng.index(16);
    let (want, buffer) = model(&before[from..from + length]);
    let expected = [&before[..from], &buffer, &before[from + length..]].concat();
    let mut memory = before;
    let got = writer(&mut memory[from..from + length]);
    tally.same(format_args!("{call}, buffer of {length}"), got, want);
    let other = first_other(&memory, &expected).map(|(place, is, should)| (place as isize - from as isize, is, should));
    tally.same(format_args!("first byte that differs after {call}, buffer of {length}"), other, None);
}
