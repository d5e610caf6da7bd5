//! The writers of single fields, on good numbers and bad ones and buffers of every length around the need: the answer and every byte of
//! the buffer; and plans put together from their fields.

use super::lent::lend;
use crate::answers::Answer;
use crate::ffi;
use crate::gen::{self, encode, newer};
use crate::model::field::{field_read, fields_of};
use crate::model::write::{has_route, widths, write, WIDTHS};
use crate::report::Tally;
use crate::rng::Rng;

const NAMES: [&str; 9] = ["header", "port", "flow", "extra", "jitter", "clocks", "header2", "port2", "flow2"];

/// The ranges of each tag's numbers.
fn ranges(tag: u8) -> &'static [(u64, u64)] {
    match tag {
        0x01 => &[(0, 1_000_000), (1, 100_000_000)],
        0x02 => &[(1, 64), (1, 100_000), (64, 2_000)],
        0x03 => &[(1, 256), (1_000, 100_000_000), (1, 64), (64, 2_000)],
        0x04 => &[(1, 64), (0, 64)],
        0x05 => &[(1, 256), (0, 10_000_000)],
        0x06 => &[(0, 1_000), (0, 1_000), (0, 1_000_000)],
        0x11 => &[(0, 1_000_000), (1, 100_000_000), (0, 1_000), (0, 1_000), (0, 1_000_000)],
        0x12 => &[(1, 64), (1, 100_000), (64, 2_000), (0, 64)],
        _ => &[(1, 256), (1_000, 100_000_000), (1, 64), (64, 2_000), (0, 10_000_000)],
    }
}

/// A number in a range or at its ends; now and then one beside it, one that a cut to 2 bytes brings back, 0, or any.
fn number(rng: &mut Rng, (low, high): (u64, u64), bad: bool) -> u32 {
    let good = if rng.chance(1, 3) { rng.pick(&[low, high]) } else { rng.range(low, high) };
    let number = match rng.below(6) {
        _ if !bad => good,
        0 => low.saturating_sub(1),
        1 => high + 1,
        2 => good + 65_536 * rng.range(1, 65_535),
        3 => 0,
        4 => u64::from(u32::MAX),
        _ => rng.next(),
    };
    number as u32
}

/// A route: of the lengths that there may be, or beside them, or long; now and then with a port twice or out of range.
fn route(rng: &mut Rng) -> Vec<u8> {
    let hops = match rng.below(8) {
        0 => rng.pick(&[0, 15, 16, 17, 23, 24, 25, 26, 64]),
        1 => rng.pick(&[65, 255, 256, 300, 16_384, 32_760, 32_761, 32_768, 70_000]),
        _ => rng.range(1, 24),
    } as usize;
    let ports = rng.numbers(64, 64);
    let mut route: Vec<u8> = (0..hops).map(|hop| ports[hop % 64] as u8).collect();
    if hops > 0 {
        let (one, other) = (rng.index(hops), rng.index(hops));
        match rng.below(8) {
            0 => route[one] = route[other],
            1 => route[one] = rng.pick(&[0, 65, 128, 255]),
            _ => {}
        }
    }
    route
}

fn ask(tally: &mut Tally, tag: u8, numbers: &[u32], route: &[u8], length: usize, rng: &mut Rng) {
    let name = NAMES[WIDTHS.iter().position(|(other, _)| *other == tag).expect("a writer")];
    tally.saw(name, write(tag, numbers, route, &vec![0; length]).0.refusal);
    let call = |buffer: &mut [u8]| ffi::write(tag, numbers, route, buffer);
    let ports = &route[..route.len().min(40)];
    let model = |buffer: &[u8]| write(tag, numbers, route, buffer);
    lend(tally, format_args!("cp_write_{name}({numbers:?}, {ports:?})"), length, rng, call, model);
}

/// A field by chance, with one number or several that are bad, or none.
fn any_field(tally: &mut Tally, tag: u8, rng: &mut Rng) {
    let how_bad = rng.pick(&[0, 0, 1, 1, 4]);
    let mut numbers = Vec::new();
    for range in ranges(tag) {
        let bad = rng.chance(how_bad, 4);
        numbers.push(number(rng, *range, bad));
    }
    let route = if has_route(tag) { route(rng) } else { Vec::new() };
    let needed = 3 + widths(tag).iter().sum::<usize>() + 2 * route.len().min(32);
    tally.case(u64::from(tag), &route[..route.len().min(64)]);
    for length in [0, needed - 1, needed, needed + 1, rng.index(needed + 40)] {
        ask(tally, tag, &numbers, &route, length, rng);
    }
}

/// The tag, the numbers and the route in a field's bytes.
fn taken_apart(field: &[u8]) -> (u8, Vec<u32>, Vec<u8>) {
    let tag = field[0];
    let (mut numbers, mut at) = (Vec::new(), 3);
    for width in widths(tag) {
        numbers.push(field[at..at + width].iter().fold(0, |sum, byte| sum * 256 + u32::from(*byte)));
        at += width;
    }
    (tag, numbers, field[at..].chunks_exact(2).map(|port| port[1]).collect())
}

/// A plan put together from its fields, each into what remains of a buffer, is the plan again; and the reader tells the numbers given.
fn put_together(tally: &mut Tally, case: u64, plan: &[u8], rng: &mut Rng) {
    tally.case(case, plan);
    let mut buffer = vec![0xA5; plan.len() + rng.index(8)];
    let mut at = 0;
    for field in fields_of(plan) {
        let (tag, numbers, route) = taken_apart(field);
        let answer = ffi::write(tag, &numbers, &route, &mut buffer[at..]);
        tally.same(format_args!("the writer of tag {tag:#x}"), answer, Answer::new(0, field.len() as u64, 0));
        at += field.len();
        let told = field_read(plan, at - field.len());
        let kept: Vec<u64> = numbers.iter().map(|number| u64::from(*number)).collect();
        tally.same(format_args!("the numbers of tag {tag:#x}"), &told.numbers[..kept.len()], &kept[..]);
    }
    tally.same(format_args!("the plan from its fields"), &buffer[..at], plan);
    tally.same(format_args!("the bytes behind it"), buffer[at..].iter().all(|byte| *byte == 0xA5), true);
}

pub fn run(tally: &mut Tally) {
    for case in 0..tally.cases {
        let mut rng = tally.rng(case);
        for (tag, _) in WIDTHS {
            any_field(tally, tag, &mut rng);
        }
        put_together(tally, case, &encode(&gen::plan(&mut rng)), &mut rng);
        put_together(tally, case, &newer::encode(&newer::merged(&newer::plan(&mut rng))), &mut rng);
    }
    for name in NAMES {
        tally.must_have_seen(name, &[0, 5, 13]);
    }
    for name in ["flow", "flow2"] {
        tally.must_have_seen(name, &[4, 7]);
    }
}
