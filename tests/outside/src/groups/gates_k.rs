//! K's gate control lists worked out by hand, with and without its guard band; and the order of the refusals.

use super::gates::ask_gates;
use super::known::K;
use super::lent::first_other;
use crate::answers::{Answer, Planner};
use crate::ffi;
use crate::model::gates::gates;
use crate::model::read::read;
use crate::model::Plan;
use crate::report::Tally;

/// A duration, the even and the odd queue, then gate states and intervals.
type List = (u64, u64, u64, &'static [(u8, u32)]);

const LISTS: [List; 6] = [
    (100_000, 2, 3, &[(0xF3, 1_000), (0xF7, 98_000), (0xF3, 1_000), (0xF3, 1_000), (0xFB, 98_000), (0xF3, 1_000)]),
    (72_000, 0, 1, &[(0xFC, 1_000), (0xFD, 70_000), (0xFC, 1_000), (0xFC, 1_000), (0xFE, 70_000), (0xFC, 1_000)]),
    (110_000, 3, 2, &[(0xF3, 1_000), (0xFB, 108_000), (0xF3, 1_000), (0xF3, 1_000), (0xF7, 108_000), (0xF3, 1_000)]),
    (142_000, 7, 0, &[(0x7E, 1_000), (0xFE, 140_000), (0x7E, 1_000), (0x7E, 1_000), (0x7F, 140_000), (0x7E, 1_000)]),
    (142_001, 4, 6, &[(0xAF, 1_000), (0xBF, 140_001), (0xAF, 1_000), (0xAF, 1_000), (0xEF, 140_001), (0xAF, 1_000)]),
    (1_000_000, 5, 7, &[(0x5F, 1_000), (0x7F, 998_000), (0x5F, 1_000), (0x5F, 1_000), (0xDF, 998_000), (0x5F, 1_000)]),
];

const WITHOUT_GUARD: [List; 3] = [
    (70_000, 5, 6, &[(0xBF, 70_000), (0xDF, 70_000)]),
    (100_000, 2, 3, &[(0xF7, 100_000), (0xFB, 100_000)]),
    (1_000_000, 0, 7, &[(0x7F, 1_000_000), (0xFE, 1_000_000)]),
];

/// A duration, two queues and the length of the buffer, then the refusal and its numbers.
type Row = ((u64, u64, u64), usize, u32, [u64; 2]);

const REFUSALS: [Row; 26] = [
    ((0, 2, 3), 48, 10, [0, 0]),
    ((1_000_001, 2, 3), 48, 10, [0, 0]),
    ((u64::MAX, 2, 3), 48, 10, [0, 0]),
    (((1 << 32) + 100_000, 2, 3), 48, 10, [0, 0]),
    ((0, 8, 8), 0, 10, [0, 0]),
    ((1_000, 2, 3), 48, 21, [1, 1]),
    ((71_999, 2, 3), 48, 21, [1, 1]),
    ((110_001, 2, 3), 48, 21, [1, 1]),
    ((120_000, 2, 3), 48, 21, [1, 1]),
    ((141_999, 8, 3), 48, 21, [1, 1]),
    ((120_000, 2, 2), 0, 21, [1, 1]),
    ((100_000, 8, 3), 48, 18, [0, 0]),
    ((100_000, 2, 8), 48, 18, [0, 0]),
    ((100_000, 2, 2), 48, 18, [0, 0]),
    ((100_000, 0, 0), 48, 18, [0, 0]),
    ((100_000, 8, 9), 48, 18, [0, 0]),
    ((100_000, 258, 3), 48, 18, [0, 0]),
    ((100_000, 2, (1 << 32) + 3), 48, 18, [0, 0]),
    ((100_000, u64::MAX, 3), 48, 18, [0, 0]),
    ((100_000, 2, u64::MAX), 48, 18, [0, 0]),
    ((100_000, u64::MAX, u64::MAX), 48, 18, [0, 0]),
    ((100_000, 8, 3), 0, 18, [0, 0]),
    ((100_000, 2, 2), 47, 18, [0, 0]),
    ((100_000, 2, 3), 47, 13, [48, 0]),
    ((100_000, 2, 3), 16, 13, [48, 0]),
    ((100_000, 2, 3), 0, 13, [48, 0]),
];

fn without_guard() -> Vec<u8> {
    let mut bytes = K.to_vec();
    bytes[3..7].fill(0);
    bytes
}

fn list_of(entries: &[(u8, u32)]) -> Vec<u8> {
    let field = |(states, interval): &(u8, u32)| [vec![0x21, 0x00, 0x05, *states], interval.to_be_bytes().to_vec()].concat();
    entries.iter().flat_map(field).collect()
}

/// A list from the table, and buffers of every length up to some bytes more than it has.
fn one_list(tally: &mut Tally, planner: &Planner, plan: &Plan, list: &List) {
    let (duration, even, odd, entries) = *list;
    let want = list_of(entries);
    let mut rng = tally.rng(1 << 50 | duration);
    let mut buffer = vec![0; want.len()];
    let answer = ffi::gates(planner, duration, even, odd, &mut buffer);
    tally.same(format_args!("cp_gates({duration}, {even}, {odd})"), answer, Answer::new(0, want.len() as u64, 0));
    tally.same(format_args!("first byte that differs after cp_gates({duration}, {even}, {odd})"), first_other(&buffer, &want), None);
    tally.same(format_args!("model: the list"), gates(Some(plan), duration, even, odd, &vec![0; want.len()]).1, want);
    for length in 0..60 {
        ask_gates(tally, planner, Some(plan), (duration, even, odd), length, &mut rng);
    }
}

pub fn run(tally: &mut Tally) {
    for (bytes, lists) in [(K.to_vec(), &LISTS[..]), (without_guard(), &WITHOUT_GUARD)] {
        tally.case(0, &bytes);
        let plan = read(&bytes).expect("a plan");
        let planner = ffi::load(&ffi::empty(), &bytes).0;
        lists.iter().for_each(|list| one_list(tally, &planner, &plan, list));
    }
    tally.case(0, &K);
    let (plan, planner) = (read(&K).expect("a plan"), ffi::load(&ffi::empty(), &K).0);
    for ((duration, even, odd), length, refusal, [first, second]) in REFUSALS {
        let (mut buffer, want) = (vec![7; length], Answer::new(refusal, first, second));
        let got = ffi::gates(&planner, duration, even, odd, &mut buffer);
        tally.same(format_args!("cp_gates({duration}, {even}, {odd}), buffer of {length}"), got, want);
        tally.same(format_args!("the buffer after it"), &buffer, &vec![7; length]);
        tally.same(format_args!("model: ({duration}, {even}, {odd})"), gates(Some(&plan), duration, even, odd, &buffer).0, want);
        let none = ffi::gates(&ffi::empty(), duration, even, odd, &mut buffer);
        tally.same(format_args!("cp_gates without a plan"), none, Answer::refused(20));
    }
    let unguarded = ffi::load(&ffi::empty(), &without_guard()).0;
    for length in 0..16 {
        let got = ffi::gates(&unguarded, 100_000, 2, 3, &mut vec![7; length]);
        tally.same(format_args!("cp_gates without a guard band, buffer of {length}"), got, Answer::new(13, 16, 0));
    }
}
