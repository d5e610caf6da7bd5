//! cp_field on fields of the newer form: the plan's first byte says which tags are known, whatever the offset.

use super::fields::{ask, offsets};
use crate::alone::k::{bytes, newer, older};
use crate::ffi;
use crate::gen::newer::{encode, merged, plan};
use crate::gen::newer_damage::damaged;
use crate::report::Tally;

fn told(tally: &mut Tally, plan: &[u8], offset: usize, tag: u32, numbers: [u64; 6]) {
    tally.case(0, plan);
    let got = ffi::field(plan, offset);
    tally.same(format_args!("cp_field({offset})"), (got.refusal, got.tag, got.numbers), (0, tag, numbers));
    ask(tally, plan, offset);
}

fn refused(tally: &mut Tally, plan: &[u8], offset: usize, refusal: u32) {
    tally.case(0, plan);
    tally.same(format_args!("cp_field({offset})"), ffi::field(plan, offset).refusal, refusal);
    ask(tally, plan, offset);
}

/// K's fields and their neighbours.
fn of_k(tally: &mut Tally) {
    let k = bytes(&[newer::CLOCKED, newer::PORT_1_EXTRA, newer::FLOW_1_LATE, newer::FLOW_2]);
    told(tally, &k, 0, 0x11, [1_000, 1_000_000, 100, 2, 1_000, 0]);
    told(tally, &k, 23, 0x12, [1, 100, 0, 32, 0, 0]);
    told(tally, &k, 36, 0x13, [1, 100_000, 1, 230, 30_000, 1]);
    told(tally, &k, 55, 0x13, [2, 110_000, 1, 605, 0, 1]);
    let old = bytes(&[older::HEADER, older::PORT_1, newer::PORT_1, newer::FLOW_1, newer::HEADER]);
    told(tally, &old, 11, 0x02, [1, 100, 0, 0, 0, 0]);
    for offset in [22, 35, 54] {
        refused(tally, &old, offset, 3);
    }
    let others = [older::HEADER, older::PORT_1, older::FLOW_1, older::EXTRA_1, older::JITTER_1, older::CLOCKS];
    let new = bytes(&[&[newer::HEADER][..], &others, &[newer::PORT_2]].concat());
    for offset in [23, 34, 45, 60, 67, 76] {
        refused(tally, &new, offset, 3);
    }
    told(tally, &new, 91, 0x12, [2, 100, 0, 0, 0, 0]);
    let port_first = bytes(&[newer::PORT_1, newer::HEADER]);
    refused(tally, &port_first, 0, 3);
    refused(tally, &port_first, 13, 3);
}

/// Fields of a tag of every length up to 100, behind a header, with numbers in range: 4 for all but those that the tag has.
fn lengths(tally: &mut Tally, tag: u8, numbers: &[u8], allowed: impl Fn(u16) -> bool) {
    for length in 0..=100u16 {
        let mut value = numbers.to_vec();
        value.extend((1..=64u16).flat_map(|port| port.to_be_bytes()));
        let field = [&[tag][..], &length.to_be_bytes(), &value[..usize::from(length)]].concat();
        let plan = [bytes(&[newer::HEADER]), field].concat();
        tally.case(0, &plan);
        let refusal = if allowed(length) { 0 } else { 4 };
        tally.same(format_args!("tag {tag:x}: the refusal at length {length}"), ffi::field(&plan, 23).refusal, refusal);
        ask(tally, &plan, 23);
    }
}

pub fn run(tally: &mut Tally) {
    of_k(tally);
    lengths(tally, 0x11, &bytes(&[newer::CLOCKED])[3..], |length| length == 20);
    lengths(tally, 0x12, &bytes(&[newer::PORT_1_EXTRA])[3..], |length| length == 10);
    lengths(tally, 0x13, &bytes(&[newer::FLOW_1_LATE])[3..17], |length| length % 2 == 0 && (16..=62).contains(&length));
    for case in 0..tally.cases {
        let mut rng = tally.rng(1 << 53 | case);
        let fields = merged(&plan(&mut rng));
        for plan in [encode(&fields), damaged(&mut rng, &fields)] {
            tally.case(case, &plan);
            for offset in offsets(&plan, &mut rng) {
                ask(tally, &plan, offset);
            }
        }
    }
    tally.must_have_seen("tag", &[0x11, 0x12, 0x13]);
    tally.must_have_seen("field", &[0, 2, 3, 4, 5]);
}
