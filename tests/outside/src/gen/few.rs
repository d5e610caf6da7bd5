//! Lists of a few fields, and their every order.

use super::Piece;

/// Extra bytes with and without their port and jitter with and without its flow, twice, and a route astray; clocks once and twice.
pub fn fields() -> Vec<Vec<Piece>> {
    let flow = |number, port| Piece::Flow { number, period: 1_000, count: 1, length: 64, route: vec![port] };
    let extra = |number, extra| Piece::Extra { number, extra };
    let jitter = |number, jitter| Piece::Jitter { number, jitter };
    let clocks = |drift, timing_jitter, sync_error| Piece::Clocks { drift, timing_jitter, sync_error };
    let port = Piece::Port { number: 1, rate: 1, blocker: 0 };
    let mut lists = Vec::new();
    for more in [
        vec![extra(1, 32)],
        vec![extra(1, 0), extra(1, 32)],
        vec![extra(1, 64), extra(9, 0)],
        vec![extra(9, 1), extra(64, 0)],
        vec![flow(2, 9), extra(9, 1)],
        vec![flow(2, 9), flow(3, 8), extra(9, 1)],
        vec![flow(2, 9), extra(9, 1), extra(9, 0)],
        vec![extra(65, 1), extra(9, 0)],
        vec![jitter(1, 30_000)],
        vec![jitter(1, 0), jitter(1, 30_000)],
        vec![jitter(1, 10_000_000), jitter(9, 0)],
        vec![jitter(9, 1), jitter(256, 0)],
        vec![jitter(9, 1), flow(9, 1)],
        vec![jitter(9, 0), extra(9, 1)],
        vec![flow(2, 9), jitter(9, 1)],
        vec![flow(2, 9), jitter(9, 1), extra(9, 1)],
        vec![jitter(257, 1), jitter(9, 0)],
        vec![jitter(1, 10_000_001), jitter(9, 0)],
        vec![clocks(100, 2, 1_000)],
        vec![clocks(0, 0, 0), clocks(100, 2, 1_000)],
        vec![clocks(1_001, 0, 0), clocks(0, 0, 0)],
        vec![clocks(1_000, 1_000, 1_000_000), jitter(1, 1), extra(1, 1)],
        vec![clocks(0, 0, 1), jitter(9, 0), flow(2, 9)],
    ] {
        let mut rest = vec![Piece::Header { guard: 0, top: 1 }, port.clone(), flow(1, 1)];
        rest.extend(more);
        lists.push(rest);
    }
    lists
}

/// The bytes of some fields in every order.
pub fn every_order(pieces: &[Piece]) -> Vec<Vec<u8>> {
    if pieces.is_empty() {
        return vec![Vec::new()];
    }
    let mut plans = Vec::new();
    for place in 0..pieces.len() {
        let mut others = pieces.to_vec();
        let first = others.remove(place).bytes();
        plans.extend(every_order(&others).into_iter().map(|rest| [&first[..], &rest].concat()));
    }
    plans
}
