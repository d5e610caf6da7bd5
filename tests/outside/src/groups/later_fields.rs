//! cp_field on the fields of document 02: lengths and numbers near the ends of what is allowed.

use super::fields::ask;
use crate::answers::NUMBERS;
use crate::ffi;
use crate::gen::Piece;
use crate::report::Tally;

/// Fields of a tag of every length up to 20, all in range: 4 for all lengths but one.
fn lengths(tally: &mut Tally, tag: u8, allowed: u16) {
    for length in 0..=20u16 {
        let mut plan = vec![tag];
        plan.extend(length.to_be_bytes());
        plan.extend((0..length).map(|place| u8::from(place == 1 && tag != 6)));
        tally.case(0, &plan);
        ask(tally, &plan, 0);
        let refusal = ffi::field(&plan, 0).refusal;
        tally.same(format_args!("tag {tag}: the refusal at length {length}"), refusal, if length == allowed { 0 } else { 4 });
    }
}

/// A field alone: its numbers, or 5 where one is out of range.
fn told(tally: &mut Tally, piece: &Piece, numbers: [u64; 3], fits: bool) {
    let plan = piece.bytes();
    tally.case(0, &plan);
    ask(tally, &plan, 0);
    let got = ffi::field(&plan, 0);
    tally.same(format_args!("the refusal"), got.refusal, if fits { 0 } else { 5 });
    let numbers = if fits { numbers } else { [0; 3] };
    tally.same(format_args!("the numbers"), &got.numbers[..3], &numbers[..]);
    tally.same(format_args!("the other numbers"), &got.numbers[3..], &[0; NUMBERS - 3][..]);
}

fn extras(tally: &mut Tally) {
    for number in (0..=66).chain([128, 255, 256, 257, 320, 1 << 15, u16::MAX]) {
        for extra in (0..=66).chain([128, 255, 256, 257, 320, 1 << 15, u16::MAX]) {
            let fits = (1..=64).contains(&number) && (0..=64).contains(&extra);
            told(tally, &Piece::Extra { number, extra }, [number.into(), extra.into(), 0], fits);
        }
    }
}

fn jitters(tally: &mut Tally) {
    for number in [0, 1, 2, 64, 65, 127, 128, 255, 256, 257, 258, 512, 1 << 15, u16::MAX] {
        for jitter in [0, 1, 255, 256, 65_535, 65_536, 9_999_999, 10_000_000, 10_000_001, 1 << 24, 1 << 31, u32::MAX] {
            let fits = (1..=256).contains(&number) && (0..=10_000_000).contains(&jitter);
            told(tally, &Piece::Jitter { number, jitter }, [number.into(), jitter.into(), 0], fits);
        }
    }
}

fn clocks(tally: &mut Tally) {
    let few = [0, 1, 2, 255, 256, 999, 1_000, 1_001, 1_256, 65_536, 1 << 31, u32::MAX];
    for drift in few {
        for timing_jitter in few {
            for sync_error in [0, 1, 1_000, 1_001, 65_536, 999_999, 1_000_000, 1_000_001, 1 << 24, 1 << 31, u32::MAX] {
                let piece = Piece::Clocks { drift, timing_jitter, sync_error };
                let fits = drift <= 1_000 && timing_jitter <= 1_000 && sync_error <= 1_000_000;
                told(tally, &piece, [drift.into(), timing_jitter.into(), sync_error.into()], fits);
            }
        }
    }
}

pub fn run(tally: &mut Tally) {
    lengths(tally, 4, 4);
    lengths(tally, 5, 6);
    lengths(tally, 6, 12);
    extras(tally);
    jitters(tally);
    clocks(tally);
}
