//! K with extra bytes at its port: the numbers worked out by hand, and refusals of the field.

use super::known::{found, rows, with_blocker, with_port_2, Row, K};
use crate::answers::{Answer, Planner};
use crate::ffi;
use crate::model::read::read;
use crate::report::Tally;

/// K with 32 extra bytes at port 1, where its frames have 2,256 and 5,256 bits.
pub const ROWS_WITH_EXTRA: [Row; 11] = [
    (77_119, 21, Some(-100)),
    (77_120, 0, Some(0)),
    (110_000, 0, Some(1_032_000)),
    (110_001, 21, Some(-4_223_900)),
    (152_239, 21, Some(-100)),
    (152_240, 0, Some(0)),
    (220_000, 0, Some(4_520_000)),
    (220_001, 21, Some(-735_900)),
    (227_359, 21, Some(-100)),
    (227_360, 0, Some(0)),
    (1_000_001, 10, None),
];

/// Extra bytes at a port, as a field.
fn extra_field(port: u8, extra: u8) -> [u8; 7] {
    [0x04, 0x00, 0x04, 0x00, port, 0x00, extra]
}

/// K with a field for extra bytes at port 1, at the end of the bytes or before all others.
pub fn with_extra(extra: u8, first: bool) -> Vec<u8> {
    let field = extra_field(1, extra);
    if first {
        return [&field[..], &K].concat();
    }
    [&K[..], &field].concat()
}

/// K with extra bytes, before its port and after it; with 0 it is K.
fn answers(tally: &mut Tally, k: &Planner) {
    for first in [false, true] {
        let bytes = with_extra(32, first);
        tally.case(3, &bytes);
        let (longer, answer) = ffi::load(k, &bytes);
        tally.same(format_args!("cp_load(K with 32 extra bytes)"), answer, Answer::new(0, 1, 2));
        rows(tally, &ROWS_WITH_EXTRA, |duration| ffi::check(&longer, duration), |duration| ffi::slack(&longer, 1, duration));
        found(tally, &longer, 77_120, 227_360, [7_512, 22_536]);
        let bytes = with_extra(0, first);
        tally.case(4, &bytes);
        let (same, answer) = ffi::load(&longer, &bytes);
        tally.same(format_args!("cp_load(K with 0 extra bytes)"), answer, Answer::new(0, 1, 2));
        tally.same(format_args!("K with 0 extra bytes: first table that differs from K's"), same.differs(k), None);
        found(tally, &same, 72_000, 142_000, [7_000, 14_000]);
    }
    let bytes = [&with_blocker()[..], &extra_field(1, 32)].concat();
    tally.case(5, &bytes);
    let (blocked, answer) = ffi::load(k, &bytes);
    tally.same(format_args!("cp_load(K with blocker 1,480 and 32 extra bytes)"), answer, Answer::new(0, 1, 2));
    found(tally, &blocked, 522_720, 575_280, [39_816, 45_072]);
    let bytes = [&with_port_2()[..], &extra_field(2, 64)].concat();
    tally.case(6, &bytes);
    let (wider, answer) = ffi::load(k, &bytes);
    tally.same(format_args!("cp_load(K with port 2 and 64 extra bytes there)"), answer, Answer::new(0, 2, 2));
    found(tally, &wider, 72_000, 142_000, [7_000, 14_000]);
}

/// Fields after K's 52 bytes, with the refusal and its place.
fn refusals(tally: &mut Tally) {
    let astray = [0x03, 0x00, 0x0C, 0x00, 0x03, 0x00, 0x01, 0x86, 0xA0, 0x00, 0x01, 0x00, 0xE6, 0x00, 0x09];
    let (field, zero, other) = (extra_field(1, 32), extra_field(1, 0), extra_field(9, 0));
    let longer = [0x04, 0x00, 0x05, 0x00, 0x01, 0x00, 0x20, 0x00];
    for (more, refusal, place) in [
        (vec![&field[..], &field], 6, 59),
        (vec![&zero[..], &field], 6, 59),
        (vec![&zero[..], &zero], 6, 59),
        (vec![&other[..], &field, &other], 6, 66),
        (vec![&other[..]], 9, 52),
        (vec![&field[..], &extra_field(64, 1), &other], 9, 59),
        (vec![&other[..], &astray], 9, 59),
        (vec![&astray[..], &other], 9, 52),
        (vec![&other[..], &extra_field(0, 32)], 5, 59),
        (vec![&extra_field(65, 0)[..]], 5, 52),
        (vec![&extra_field(1, 65)[..]], 5, 52),
        (vec![&longer[..]], 4, 52),
        (vec![&longer[..7]], 2, 52),
        (vec![&field[..6]], 2, 52),
    ] {
        let bytes = [&K[..], &more.concat()].concat();
        tally.case(7, &bytes);
        let answer = ffi::load(&ffi::empty(), &bytes).1;
        tally.same(format_args!("cp_load"), answer, Answer::new(refusal, place, 0));
        tally.same(format_args!("model: the refusal"), read(&bytes).err(), Some((refusal, place as usize)));
    }
}

pub fn run(tally: &mut Tally, k: &Planner) {
    answers(tally, k);
    refusals(tally);
}
