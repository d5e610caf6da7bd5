//! K with release jitter of a flow: the numbers worked out by hand, and refusals of the field.

use super::known::{found, rows, Row, K};
use crate::answers::{Answer, Planner};
use crate::ffi;
use crate::model::read::read;
use crate::report::Tally;

/// K with jitter of 30,000 for flow 1: it brings two frames from 70,001 on and three from 170,001 on.
pub const ROWS_FLOW_1: [Row; 13] = [
    (1_000, 21, Some(-7_000_000)),
    (70_000, 21, Some(-200_000)),
    (70_001, 21, Some(-2_199_900)),
    (91_999, 21, Some(-100)),
    (92_000, 0, Some(0)),
    (110_000, 0, Some(1_800_000)),
    (110_001, 21, Some(-3_199_900)),
    (141_999, 21, Some(-100)),
    (142_000, 0, Some(0)),
    (170_000, 0, Some(2_800_000)),
    (170_001, 0, Some(800_100)),
    (220_001, 0, Some(800_100)),
    (1_000_001, 10, None),
];

/// K with jitter of 38,000 for flow 2: it brings two frames from 72,001 on and three from 182,001 on.
pub const ROWS_FLOW_2: [Row; 15] = [
    (71_999, 21, Some(-100)),
    (72_000, 0, Some(0)),
    (72_001, 21, Some(-4_999_900)),
    (100_000, 21, Some(-2_200_000)),
    (141_999, 21, Some(-100)),
    (142_000, 0, Some(0)),
    (182_000, 0, Some(4_000_000)),
    (182_001, 21, Some(-999_900)),
    (191_999, 21, Some(-100)),
    (192_000, 0, Some(0)),
    (200_000, 0, Some(800_000)),
    (200_001, 21, Some(-1_199_900)),
    (211_999, 21, Some(-100)),
    (212_000, 0, Some(0)),
    (0, 10, None),
];

/// Release jitter of a flow, as a field.
fn jitter_field(flow: u16, jitter: u32) -> Vec<u8> {
    [&[0x05, 0x00, 0x06][..], &flow.to_be_bytes(), &jitter.to_be_bytes()].concat()
}

/// K with a field for a flow's jitter, at the end of the bytes or before all others.
pub fn with_jitter(flow: u16, jitter: u32, first: bool) -> Vec<u8> {
    let field = jitter_field(flow, jitter);
    if first {
        return [&field[..], &K].concat();
    }
    [&K[..], &field].concat()
}

/// K with jitter, before its flow and after it; with 0 it is K.
fn answers(tally: &mut Tally, k: &Planner) {
    for first in [false, true] {
        let bytes = with_jitter(1, 30_000, first);
        tally.case(8, &bytes);
        let (late, answer) = ffi::load(k, &bytes);
        tally.same(format_args!("cp_load(K with jitter 30,000)"), answer, Answer::new(0, 1, 2));
        rows(tally, &ROWS_FLOW_1, |duration| ffi::check(&late, duration), |duration| ffi::slack(&late, 1, duration));
        found(tally, &late, 92_000, 142_000, [9_000, 14_000]);
        let bytes = with_jitter(2, 38_000, first);
        tally.case(9, &bytes);
        let (late, answer) = ffi::load(&late, &bytes);
        tally.same(format_args!("cp_load(K with jitter 38,000)"), answer, Answer::new(0, 1, 2));
        rows(tally, &ROWS_FLOW_2, |duration| ffi::check(&late, duration), |duration| ffi::slack(&late, 1, duration));
        found(tally, &late, 72_000, 212_000, [7_000, 21_000]);
        let bytes = with_jitter(1, 0, first);
        tally.case(10, &bytes);
        let (same, answer) = ffi::load(&late, &bytes);
        tally.same(format_args!("cp_load(K with jitter 0)"), answer, Answer::new(0, 1, 2));
        tally.same(format_args!("K with jitter 0: first table that differs from K's"), same.differs(k), None);
        found(tally, &same, 72_000, 142_000, [7_000, 14_000]);
    }
    let both = [with_jitter(1, 30_000, false), vec![0x04, 0x00, 0x04, 0x00, 0x01, 0x00, 0x20]].concat();
    tally.case(11, &both);
    let (longer, answer) = ffi::load(k, &both);
    tally.same(format_args!("cp_load(K with jitter 30,000 and 32 extra bytes)"), answer, Answer::new(0, 1, 2));
    found(tally, &longer, 99_680, 227_360, [9_768, 22_536]);
}

/// Fields after K's 52 bytes, with the refusal and its place.
fn refusals(tally: &mut Tally) {
    let astray = [0x03, 0x00, 0x0C, 0x00, 0x03, 0x00, 0x01, 0x86, 0xA0, 0x00, 0x01, 0x00, 0xE6, 0x00, 0x09];
    let port_9 = [0x04, 0x00, 0x04, 0x00, 0x09, 0x00, 0x00];
    let (field, zero, other) = (jitter_field(1, 30_000), jitter_field(1, 0), jitter_field(9, 0));
    let shorter = [0x05, 0x00, 0x05, 0x00, 0x01, 0x00, 0x00, 0x75];
    let longer = [0x05, 0x00, 0x07, 0x00, 0x01, 0x00, 0x00, 0x75, 0x30, 0x00];
    for (more, refusal, place) in [
        (vec![&field[..], &field], 6, 61),
        (vec![&zero[..], &field], 6, 61),
        (vec![&zero[..], &zero], 6, 61),
        (vec![&other[..], &field, &other], 6, 70),
        (vec![&other[..]], 9, 52),
        (vec![&field[..], &jitter_field(256, 1), &other], 9, 61),
        (vec![&other[..], &astray], 9, 61),
        (vec![&astray[..], &other], 9, 52),
        (vec![&port_9[..], &other], 9, 59),
        (vec![&other[..], &port_9], 9, 52),
        (vec![&port_9[..], &other, &astray], 9, 68),
        (vec![&other[..], &jitter_field(0, 30_000)], 5, 61),
        (vec![&jitter_field(257, 0)[..]], 5, 52),
        (vec![&jitter_field(1, 10_000_001)[..]], 5, 52),
        (vec![&shorter[..]], 4, 52),
        (vec![&longer[..]], 4, 52),
        (vec![&longer[..9]], 2, 52),
        (vec![&field[..8]], 2, 52),
    ] {
        let bytes = [&K[..], &more.concat()].concat();
        tally.case(12, &bytes);
        let answer = ffi::load(&ffi::empty(), &bytes).1;
        tally.same(format_args!("cp_load"), answer, Answer::new(refusal, place, 0));
        tally.same(format_args!("model: the refusal"), read(&bytes).err(), Some((refusal, place as usize)));
    }
    let bytes = with_jitter(2, 10_000_000, false);
    tally.case(13, &bytes);
    let answer = ffi::load(&ffi::empty(), &bytes).1;
    tally.same(format_args!("cp_load(K with jitter 10,000,000)"), answer, Answer::new(0, 1, 2));
}

pub fn run(tally: &mut Tally, k: &Planner) {
    answers(tally, k);
    refusals(tally);
}
