//! Damaged plans of the newer form: every refusal from 1 to 9 and 12, alone and several at once.

use super::newer::{encode, merged, plan, Field, FLOW, HEADER, PORT, ROUTE};
use super::Piece;
use crate::rng::Rng;

const SHORT: u64 = u16::MAX as u64;
const LONG: u64 = u32::MAX as u64;

/// Values out of range for a number of a field, just past an end or far past it.
pub fn outside(tag: u8, place: usize) -> &'static [u64] {
    match (tag, place) {
        (HEADER, 0) => &[1_000_001, 1 << 24, LONG],
        (HEADER, 1) => &[0, 100_000_001, LONG],
        (HEADER, 2 | 3) => &[1_001, 1_024, 1 << 16, LONG],
        (HEADER, _) => &[1_000_001, 1 << 20, 1 << 31, LONG],
        (PORT, 0) => &[0, 65, 256, 257, SHORT],
        (PORT, 1) => &[0, 100_001, 1 << 17, LONG],
        (PORT, 2) => &[1, 63, 2_001, SHORT],
        (PORT, _) => &[65, 66, 128, 256, 257, 1 << 15, SHORT],
        (FLOW, 0) => &[0, 257, 512, SHORT],
        (FLOW, 1) => &[0, 999, 100_000_001, LONG],
        (FLOW, 2) => &[0, 65, 257, SHORT],
        (FLOW, 3) => &[0, 63, 2_001, SHORT],
        (FLOW, 4) => &[10_000_001, 1 << 24, 1 << 31, LONG],
        _ => &[0, 65, 256, 257, 320, SHORT],
    }
}

fn past_an_end(rng: &mut Rng, fields: &mut [Field]) {
    let field = rng.index(fields.len());
    let field = &mut fields[field];
    let place = rng.index(field.numbers.len());
    field.numbers[place].0 = rng.pick(outside(field.tag, place));
}

fn any_of(rng: &mut Rng, fields: &[Field], tag: u8) -> Option<usize> {
    let places: Vec<usize> = (0..fields.len()).filter(|place| fields[*place].tag == tag).collect();
    (!places.is_empty()).then(|| rng.pick(&places))
}

/// A flow with a route.
fn any_route(rng: &mut Rng, fields: &[Field]) -> Option<usize> {
    let places: Vec<usize> = (0..fields.len()).filter(|place| fields[*place].hops() > 0).collect();
    (!places.is_empty()).then(|| rng.pick(&places))
}

/// A field again, right behind itself or anywhere, with the same numbers or another.
fn again(rng: &mut Rng, fields: &mut Vec<Field>) {
    let from = rng.index(fields.len());
    let mut copy = fields[from].clone();
    if rng.chance(1, 2) {
        copy.numbers[1].0 = 1_000;
    }
    let place = if rng.chance(1, 2) { from + 1 } else { rng.index(fields.len() + 1) };
    fields.insert(place, copy);
}

/// A port twice in a route; in a full route one comes in another's place.
fn twice(rng: &mut Rng, fields: &mut [Field]) {
    if let Some(place) = any_route(rng, fields) {
        let hops = fields[place].hops();
        let numbers = &mut fields[place].numbers;
        let port = numbers[ROUTE + rng.index(hops)];
        if hops < 24 {
            numbers.insert(ROUTE + rng.index(hops + 1), port);
        } else {
            numbers[ROUTE + rng.index(hops)] = port;
        }
    }
}

fn without(rng: &mut Rng, fields: &mut Vec<Field>) {
    let tag = rng.pick(&[HEADER, PORT, FLOW]);
    if rng.chance(1, 3) {
        fields.retain(|field| field.tag != tag);
    } else if let Some(place) = any_of(rng, fields, tag) {
        fields.remove(place);
    }
}

/// A route over a port that the plan may lack.
fn astray(rng: &mut Rng, fields: &mut [Field]) {
    if let Some(place) = any_route(rng, fields) {
        let hops = fields[place].hops();
        fields[place].numbers[ROUTE + rng.index(hops)].0 = rng.range(1, 64);
    }
}

/// A route of 25 ports or more, or of none.
fn odd_hops(rng: &mut Rng, fields: &mut [Field]) {
    if let Some(place) = any_of(rng, fields, FLOW) {
        let hops = rng.pick(&[0, 25, 26, 32, 64]);
        fields[place].numbers.truncate(ROUTE);
        fields[place].numbers.extend((1..=hops).map(|port| (port, 2)));
    }
}

/// A field exchanged with its neighbour, or moved anywhere.
fn out_of_order(rng: &mut Rng, fields: &mut Vec<Field>) {
    let from = rng.index(fields.len());
    let field = fields.remove(from);
    let place = if rng.chance(1, 2) { (from + 1).min(fields.len()) } else { rng.index(fields.len() + 1) };
    fields.insert(place, field);
}

/// A field that the older form reads, an unknown one, or one of a length that its tag has not.
fn odd_field(rng: &mut Rng) -> Vec<u8> {
    let route = (1..=rng.range(1, 17) as u16).collect();
    match rng.below(8) {
        0 => Piece::Header { guard: 0, top: 1 }.bytes(),
        1 => Piece::Port { number: rng.range(1, 64) as u16, rate: 1, blocker: 0 }.bytes(),
        2 => Piece::Flow { number: rng.range(1, 256) as u16, period: 1_000, count: 1, length: 64, route }.bytes(),
        3 => Piece::Extra { number: 1, extra: 0 }.bytes(),
        4 => Piece::Jitter { number: 1, jitter: 0 }.bytes(),
        5 => Piece::Clocks { drift: 0, timing_jitter: 0, sync_error: 0 }.bytes(),
        _ => {
            let tag = rng.pick(&[0, 7, 0x10, HEADER, PORT, FLOW, 0x14, 0x15, 0x16, 0x21, 0x91, 255]);
            let length = rng.pick(&[0, 1, 8, 9, 10, 11, 12, 14, 15, 16, 17, 19, 20, 21, 60, 62, 63, 64, 66, 256, 266, 276]);
            let value = (0..length).map(|_| rng.pick(&[0, 0, 1, 4, 200]));
            let mut raw = vec![tag, (length / 256) as u8, (length % 256) as u8];
            raw.extend(value.collect::<Vec<u8>>());
            raw
        }
    }
}

/// A field's tag or length changed, its value as it was.
fn odd_head(rng: &mut Rng, raw: &mut [u8]) {
    match rng.below(5) {
        0 => raw[0] ^= 0x10,
        1 => raw[0] = rng.pick(&[0, 0x10, HEADER, PORT, FLOW, 0x14, 0x21, 255]),
        2 => raw[1] = rng.pick(&[1, 2, 255]),
        3 => raw[2] = raw[2].wrapping_add(rng.pick(&[1, 2, 254, 255])),
        _ => raw[2] = rng.pick(&[0, 8, 10, 16, 20, 62, 64]),
    }
}

/// A plan with one to three faults, rarely with none.
pub fn damaged(rng: &mut Rng, good: &[Field]) -> Vec<u8> {
    let mut fields = good.to_vec();
    for _ in 0..rng.pick(&[0, 1, 1, 1, 1, 2, 3]) {
        if fields.is_empty() {
            break;
        }
        match rng.below(9) {
            0..=1 => past_an_end(rng, &mut fields),
            2 => again(rng, &mut fields),
            3 => twice(rng, &mut fields),
            4 => without(rng, &mut fields),
            5 => astray(rng, &mut fields),
            6 => odd_hops(rng, &mut fields),
            _ => out_of_order(rng, &mut fields),
        }
    }
    let mut raw: Vec<Vec<u8>> = fields.iter().map(Field::bytes).collect();
    if raw.is_empty() || rng.chance(1, 6) {
        let (place, field) = (rng.index(raw.len() + 1), odd_field(rng));
        raw.insert(place, field);
    }
    if rng.chance(1, 6) {
        let place = rng.index(raw.len());
        odd_head(rng, &mut raw[place]);
    }
    let mut bytes = raw.concat();
    match rng.below(6) {
        0 => {
            let place = rng.index(bytes.len());
            bytes[place] = if rng.chance(1, 2) { bytes[place] ^ (1 << rng.below(8)) } else { rng.next() as u8 };
        }
        1 => bytes.truncate(rng.index(bytes.len() + 1)),
        2 if rng.chance(1, 3) => bytes.extend((0..rng.range(1, 40)).map(|_| rng.pick(&[0, 1, 3, 0x11, 0x12, 0x13]))),
        _ => {}
    }
    bytes
}

/// A good plan of the newer form, or a damaged one.
pub fn some(rng: &mut Rng) -> Vec<u8> {
    let fields = merged(&plan(rng));
    if rng.chance(1, 2) {
        encode(&fields)
    } else {
        damaged(rng, &fields)
    }
}
