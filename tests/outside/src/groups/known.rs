//! Plan K and its neighbours, with the numbers that the papers give.

use super::{clocks, extra, jitter};
use crate::answers::{Answer, Planner, SlackAnswer};
use crate::ffi;
use crate::report::Tally;

/// K, 52 bytes.
pub const K: [u8; 52] = [
    0x01, 0x00, 0x08, 0x00, 0x00, 0x03, 0xE8, 0x00, 0x0F, 0x42, 0x40, //
    0x02, 0x00, 0x08, 0x00, 0x01, 0x00, 0x00, 0x00, 0x64, 0x00, 0x00, //
    0x03, 0x00, 0x0C, 0x00, 0x01, 0x00, 0x01, 0x86, 0xA0, 0x00, 0x01, 0x00, 0xE6, 0x00, 0x01, //
    0x03, 0x00, 0x0C, 0x00, 0x02, 0x00, 0x01, 0xAD, 0xB0, 0x00, 0x01, 0x02, 0x5D, 0x00, 0x01,
];

/// Duration, refusal of the plain question, spare of port 1 where it is named.
pub type Row = (u64, u32, Option<i64>);

/// The rows of document 01.
pub const ROWS: [Row; 11] = [
    (71_999, 21, None),
    (72_000, 0, Some(0)),
    (100_000, 0, Some(2_800_000)),
    (110_000, 0, None),
    (110_001, 21, None),
    (120_000, 21, Some(-2_200_000)),
    (141_999, 21, None),
    (142_000, 0, Some(0)),
    (1_000, 21, Some(-7_000_000)),
    (0, 10, None),
    (1_000_001, 10, None),
];

pub fn with_blocker() -> Vec<u8> {
    let mut bytes = K.to_vec();
    bytes[20..22].copy_from_slice(&1480u16.to_be_bytes());
    bytes
}

pub fn with_port_2() -> Vec<u8> {
    let mut bytes = K.to_vec();
    bytes.extend([0x02, 0x00, 0x08, 0x00, 0x02, 0x00, 0x00, 0x00, 0x01, 0x07, 0xD0]);
    bytes
}

pub fn with_top(top: u32) -> Vec<u8> {
    let mut bytes = K.to_vec();
    bytes[7..11].copy_from_slice(&top.to_be_bytes());
    bytes
}

/// Rows, whoever answers them.
pub fn rows(tally: &mut Tally, rows: &[Row], check: impl Fn(u64) -> Answer, slack: impl Fn(u64) -> SlackAnswer) {
    for (duration, refusal, spare) in rows.iter().copied() {
        let want = match refusal {
            21 => Answer::new(21, 1, 1),
            other => Answer::refused(other),
        };
        tally.same(format_args!("K: check({duration})"), check(duration), want);
        if let Some(spare) = spare {
            let want = SlackAnswer { refusal: 0, slack: spare };
            tally.same(format_args!("K: slack(1, {duration})"), slack(duration), want);
        }
        if refusal == 10 {
            tally.same(format_args!("K: slack(1, {duration})"), slack(duration), SlackAnswer::refused(10));
        }
    }
}

pub fn found(tally: &mut Tally, planner: &Planner, least: u64, safe: u64, demands: [u64; 2]) {
    let mut scratch = [7; 66];
    let answer = ffi::least(planner, &mut scratch);
    tally.same(format_args!("cp_least"), answer, Answer::new(0, least, 0));
    tally.same(format_args!("demand of port 1 after cp_least"), scratch[0], demands[0]);
    tally.same(format_args!("other demands after cp_least"), &scratch[1..64], &[0; 63][..]);
    tally.same(format_args!("past the 64th after cp_least"), &scratch[64..], &[7; 2][..]);
    let mut scratch = [8; 66];
    let answer = ffi::margin_safe(planner, &mut scratch);
    tally.same(format_args!("cp_margin_safe"), answer, Answer::new(0, safe, 0));
    tally.same(format_args!("demand of port 1 after cp_margin_safe"), scratch[0], demands[1]);
    tally.same(format_args!("other demands after cp_margin_safe"), &scratch[1..64], &[0; 63][..]);
    tally.same(format_args!("past the 64th after cp_margin_safe"), &scratch[64..], &[8; 2][..]);
}

fn refusals(tally: &mut Tally) {
    let empty = ffi::empty();
    for (bytes, refusal, place) in [
        (&[0x04, 0x00, 0x01][..], 2, 0),
        (&[0x04, 0x00, 0x00][..], 4, 0),
        (&[0x07, 0x00, 0x01][..], 2, 0),
        (&[0x07, 0x00, 0x00][..], 3, 0),
        (&[][..], 1, 0),
        (&K[..51], 2, 37),
        (&K[..37], 0, 1),
        (&K[..22], 8, 22),
        (&K[11..], 8, 41),
    ] {
        tally.case(0, bytes);
        let (after, answer) = ffi::load(&empty, bytes);
        let second = u64::from(refusal == 0);
        tally.same(format_args!("cp_load"), answer, Answer::new(refusal, place, second));
        if refusal != 0 {
            tally.same(format_args!("planner after a refused load is the one given"), after == empty, true);
        }
    }
}

pub fn run(tally: &mut Tally) {
    let empty = ffi::empty();
    tally.case(0, &K);
    let (planner, answer) = ffi::load(&empty, &K);
    tally.same(format_args!("cp_load(K)"), answer, Answer::new(0, 1, 2));
    rows(tally, &ROWS, |duration| ffi::check(&planner, duration), |duration| ffi::slack(&planner, 1, duration));
    found(tally, &planner, 72_000, 142_000, [7_000, 14_000]);
    for port in [0, 2, 64, 65, u64::MAX] {
        tally.same(format_args!("slack({port}, 72000)"), ffi::slack(&planner, port, 72_000), SlackAnswer::refused(24));
    }
    let bytes = with_blocker();
    tally.case(1, &bytes);
    let (blocked, answer) = ffi::load(&planner, &bytes);
    tally.same(format_args!("cp_load(K with blocker 1,480)"), answer, Answer::new(0, 1, 2));
    found(tally, &blocked, 422_000, 472_000, [30_000, 35_000]);
    let bytes = with_port_2();
    tally.case(2, &bytes);
    let (wider, answer) = ffi::load(&planner, &bytes);
    tally.same(format_args!("cp_load(K with port 2)"), answer, Answer::new(0, 2, 2));
    found(tally, &wider, 72_000, 142_000, [7_000, 14_000]);
    tally.same(format_args!("slack(2, 72000)"), ffi::slack(&wider, 2, 72_000), SlackAnswer::refused(24));
    refusals(tally);
    extra::run(tally, &planner);
    jitter::run(tally, &planner);
    clocks::run(tally, &planner);
}
