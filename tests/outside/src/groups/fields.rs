//! cp_field at many offsets of good and damaged plans, and cp_repeats.

use super::later_fields;
use crate::ffi;
use crate::gen::{self, damage::damaged, encode};
use crate::model::field::{field_read, value_repeats};
use crate::model::Form;
use crate::report::Tally;
use crate::rng::Rng;

pub fn ask(tally: &mut Tally, plan: &[u8], offset: usize) {
    let want = field_read(plan, offset);
    tally.saw("field", want.refusal);
    tally.saw("tag", want.tag);
    tally.same(format_args!("cp_field(offset {offset})"), ffi::field(plan, offset), want);
}

/// Every field start, every offset of short plans, and offsets past the end.
pub fn offsets(plan: &[u8], rng: &mut Rng) -> Vec<usize> {
    let end = plan.len();
    let mut asked = vec![0, end, end + 1, end + 2, end + 3, end + 65_536, 1 << 32];
    asked.extend([usize::MAX, usize::MAX - 1, usize::MAX - 2, usize::MAX - 3, usize::MAX / 2, usize::MAX / 2 + 1]);
    asked.extend((1..=4).map(|back| end.saturating_sub(back)));
    if end <= 200 {
        asked.extend(0..end);
    }
    let mut start = 0;
    while start < end {
        asked.push(start);
        let read = field_read(plan, start);
        if read.refusal != 0 {
            break;
        }
        start = read.offset as usize;
    }
    asked.extend((0..10).map(|_| rng.index(end + 4)));
    asked
}

/// The tags of flows, and numbers that count as the older one's.
const TAGS: [u32; 12] = [0x03, 0x13, 0, 1, 0x02, 0x10, 0x12, 0x14, 0x103, 0x113, 1 << 31, u32::MAX];

fn ask_repeats(tally: &mut Tally, value: &[u8], tag: u32) {
    tally.case(0, value);
    let want = u8::from(value_repeats(tag, value));
    tally.saw(if tag == 0x13 { "repeats of the newer form" } else { "repeats" }, u32::from(want));
    tally.same(format_args!("cp_repeats({tag:#x}) of {} bytes", value.len()), ffi::repeats(tag, value), want);
}

/// A value by the tag of either form's flows, and by another number.
fn by_tags(tally: &mut Tally, value: &[u8], rng: &mut Rng) {
    for tag in [0x03, 0x13, rng.pick(&TAGS)] {
        ask_repeats(tally, value, tag);
    }
}

/// A flow's value in front of its route, in either form.
fn in_front(rng: &mut Rng) -> Vec<u8> {
    (0..rng.pick(&[10, 14])).map(|_| rng.next() as u8).collect()
}

/// Values of flow fields with routes of up to as many ports as there may be.
fn routes(tally: &mut Tally, rng: &mut Rng) {
    let most = Form::Newer.most_hops();
    let hops = rng.range(0, most as u64) as usize;
    let mut value = in_front(rng);
    let ports = rng.numbers(most, 64);
    let mut route: Vec<u16> = ports[..hops].to_vec();
    if hops > 1 {
        let (one, other) = (rng.index(hops), rng.index(hops));
        match rng.below(4) {
            0 => route[one] = route[other],
            1 => route[hops - 1] = route[0],
            2 => route[one] = route[(one + 1) % hops],
            _ => {}
        }
    }
    value.extend(route.iter().flat_map(|port| port.to_be_bytes()));
    by_tags(tally, &value, rng);
}

/// Any row of bytes, most of them no flow field's value.
fn any_bytes(tally: &mut Tally, rng: &mut Rng) {
    let length = match rng.below(4) {
        0 => rng.pick(&[0, 1, 2, 9, 10, 11, 12, 13, 14, 15, 16, 17, 18, 43, 44, 45, 62, 63, 64, 300, 65_546, 70_000]),
        1 => rng.range(0, 60),
        _ => rng.range(10, 300),
    };
    let mask = rng.pick(&[0x01, 0x03, 0x1F, 0xFF]);
    let value: Vec<u8> = (0..length).map(|_| rng.next() as u8 & mask).collect();
    by_tags(tally, &value, rng);
}

/// So many different ports, then with one of them in another's place too; each also with an odd byte behind.
fn long_routes(tally: &mut Tally, rng: &mut Rng, ports: usize) {
    let (start, step) = (rng.next() as u16, rng.next() as u16 | 1);
    let mut route: Vec<u16> = (0..ports).map(|hop| start.wrapping_add(step.wrapping_mul(hop as u16))).collect();
    let (one, other) = (rng.index(ports), rng.index(ports));
    for _ in 0..2 {
        let mut value = in_front(rng);
        let front = value.len();
        value.extend(route.iter().flat_map(|port| port.to_be_bytes()));
        by_tags(tally, &value, rng);
        value.push(value[front]);
        by_tags(tally, &value, rng);
        route[one] = route[other];
    }
}

fn long_rows(tally: &mut Tally) {
    let mut rng = tally.rng(u64::MAX);
    for length in [0, 1, 2, 3, 16_384, 16_385, 70_000] {
        for tag in [0, 1, 2, 3, 4, 5, 6, 7, 0x10, 0x11, 0x12, 0x13, 0x14] {
            let mut plan = vec![0; length];
            if length > 2 {
                plan[..3].copy_from_slice(&[tag, 0xFF, 0xFF]);
            }
            tally.case(0, &plan[..length.min(16)]);
            for offset in offsets(&plan, &mut rng) {
                ask(tally, &plan, offset);
            }
        }
    }
}

/// Flow fields of every length up to 100 bytes, with numbers in range and as many ports as fit: 4 for all but sixteen of them.
fn lengths(tally: &mut Tally) {
    for length in 0..=100u16 {
        let mut plan = vec![0x03];
        plan.extend(length.to_be_bytes());
        let mut value = vec![0, 1, 0, 1, 0x86, 0xA0, 0, 1, 0, 230];
        value.extend((1..=64u16).flat_map(|port| port.to_be_bytes()));
        plan.extend(&value[..usize::from(length)]);
        tally.case(0, &plan);
        ask(tally, &plan, 0);
        let got = ffi::field(&plan, 0);
        let hops = (1..=16).find(|hops| 10 + 2 * hops == u64::from(length));
        tally.same(format_args!("the refusal at length {length}"), got.refusal, if hops.is_some() { 0 } else { 4 });
        tally.same(format_args!("the ports at length {length}"), got.numbers[4], hops.unwrap_or(0));
    }
}

/// Ports behind ten bytes, or behind a jitter too: whether one stands twice by the older flow's tag, and by the newer one's.
fn tags(tally: &mut Tally) {
    let rows: [(&[u8], bool, bool); 5] = [
        (&[0, 1, 0, 2, 0, 1], true, false),
        (&[0, 7, 0, 7, 0, 1, 0, 2], true, false),
        (&[0, 8, 0, 9, 0, 1, 0, 2], false, false),
        (&[0, 8, 0, 1, 0, 1, 0, 2], true, false),
        (&[0, 8, 0, 9, 0, 1, 0, 2, 0, 1], true, true),
    ];
    for (route, older, newer) in rows {
        let value = [&[0; 10][..], route].concat();
        for tag in TAGS {
            ask_repeats(tally, &value, tag);
            let twice = if tag == 0x13 { newer } else { older };
            tally.same(format_args!("cp_repeats({tag:#x}) of {route:?}"), ffi::repeats(tag, &value), u8::from(twice));
        }
    }
}

pub fn run(tally: &mut Tally) {
    long_rows(tally);
    lengths(tally);
    tags(tally);
    later_fields::run(tally);
    for case in 0..tally.cases {
        let mut rng = tally.rng(case);
        let good = gen::plan(&mut rng);
        for plan in [encode(&good), damaged(&mut rng, &good)] {
            tally.case(case, &plan);
            for offset in offsets(&plan, &mut rng) {
                ask(tally, &plan, offset);
            }
        }
        for _ in 0..20 {
            routes(tally, &mut rng);
        }
        for _ in 0..10 {
            any_bytes(tally, &mut rng);
        }
        let ports = rng.spread(1, 400) as usize;
        long_routes(tally, &mut rng, ports);
    }
    let mut rng = tally.rng(1 << 40);
    long_routes(tally, &mut rng, 20_000);
    tally.must_have_seen("field", &[0, 2, 3, 4, 5]);
    tally.must_have_seen("tag", &[1, 2, 3, 4, 5, 6]);
    tally.must_have_seen("repeats", &[0, 1]);
    tally.must_have_seen("repeats of the newer form", &[0, 1]);
}
