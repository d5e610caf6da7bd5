//! The kinds of good plans.

use super::later::{clocks, extras, jitters};
use super::{wire_bits, Piece};
use crate::rng::Rng;

struct Size {
    ports: usize,
    flows: usize,
    hops: usize,
}

fn route(rng: &mut Rng, ports: &[u16], hops: usize) -> Vec<u16> {
    let mut all = ports.to_vec();
    rng.shuffle(&mut all);
    all.truncate(rng.range(1, hops.min(ports.len()) as u64) as usize);
    all
}

fn blocker(rng: &mut Rng) -> u16 {
    match rng.below(6) {
        0..=2 => 0,
        3 => rng.pick(&[64, 65, 1999, 2000]),
        _ => rng.range(64, 2000) as u16,
    }
}

/// Mbit/s that the flows among the pieces bring to a port in the long run, times 1,000.
pub fn load_of(pieces: &[Piece], port: u16) -> u64 {
    let mut sum = 0;
    for piece in pieces {
        if let Piece::Flow { period, count, length, route, .. } = piece {
            if route.contains(&port) {
                sum += u64::from(*count) * wire_bits(pieces, port, *length) * 1_000_000 / u64::from(*period);
            }
        }
    }
    sum
}

/// Rates that make the long-run load about so many thousandths of each rate.
fn ports_at(rng: &mut Rng, numbers: &[u16], flows: &[Piece], thousandths: u64) -> Vec<Piece> {
    let mut pieces = Vec::new();
    for number in numbers {
        let own = if rng.chance(1, 8) { rng.range(400, 1010) } else { thousandths };
        let mut rate = load_of(flows, *number) / own;
        if rng.chance(1, 3) {
            rate += rng.below(3);
        }
        let rate = rate.clamp(1, 100_000) as u32;
        pieces.push(Piece::Port { number: *number, rate, blocker: blocker(rng) });
    }
    pieces
}

/// Flows over some ports, jitter of the flows, extra bytes of the ports, and clocks.
fn flows(rng: &mut Rng, size: &Size, ports: &[u16], periods: (u64, u64), lengths: (u64, u64), counts: u64) -> Vec<Piece> {
    let numbers = rng.numbers(size.flows, 256);
    let mut pieces = Vec::new();
    for number in numbers {
        pieces.push(Piece::Flow {
            number,
            period: rng.spread(periods.0, periods.1) as u32,
            count: rng.range(1, counts) as u16,
            length: rng.range(lengths.0, lengths.1) as u16,
            route: route(rng, ports, size.hops),
        });
    }
    pieces.extend(jitters(rng, &pieces));
    pieces.extend(extras(rng, ports));
    pieces.extend(clocks(rng));
    pieces
}

fn guard(rng: &mut Rng, top: u64) -> u32 {
    match rng.below(8) {
        0..=2 => 0,
        3 => 1,
        4 => rng.range(0, (top / 2).min(1_000_000)) as u32,
        _ => rng.range(0, (top / 40).clamp(2, 1_000_000)) as u32,
    }
}

fn joined(rng: &mut Rng, top: u64, ports: Vec<Piece>, flows: Vec<Piece>) -> Vec<Piece> {
    let mut pieces = vec![Piece::Header { guard: guard(rng, top), top: top as u32 }];
    pieces.extend(ports);
    pieces.extend(flows);
    pieces
}

fn load(rng: &mut Rng) -> u64 {
    match rng.below(8) {
        0 => rng.range(1001, 1500),
        1..=2 => rng.range(980, 1003),
        3..=4 => rng.range(800, 980),
        _ => rng.range(50, 800),
    }
}

pub fn small(rng: &mut Rng) -> Vec<Piece> {
    let size = Size { ports: rng.range(1, 5) as usize, flows: rng.range(1, 8) as usize, hops: 5 };
    let ports = rng.numbers(size.ports, 64);
    let flows = flows(rng, &size, &ports, (1_000, 60_000), (64, 2000), 3);
    let aim = load(rng);
    let columns = ports_at(rng, &ports, &flows, aim);
    let top = rng.spread(1, 400_000);
    joined(rng, top, columns, flows)
}

/// Few flows with long frames: the admissible durations fall apart.
pub fn gaps(rng: &mut Rng) -> Vec<Piece> {
    let size = Size { ports: rng.range(1, 3) as usize, flows: rng.range(2, 5) as usize, hops: 3 };
    let ports = rng.numbers(size.ports, 64);
    let flows = flows(rng, &size, &ports, (50_000, 250_000), (200, 1500), 2);
    let aim = rng.range(300, 960);
    let columns = ports_at(rng, &ports, &flows, aim);
    let top = rng.range(100_000, 3_000_000);
    joined(rng, top, columns, flows)
}

/// Short periods and a load close to the rate.
pub fn tight(rng: &mut Rng) -> Vec<Piece> {
    let size = Size { ports: rng.range(1, 4) as usize, flows: rng.range(1, 60) as usize, hops: 3 };
    let ports = rng.numbers(size.ports, 64);
    let flows = flows(rng, &size, &ports, (1_000, 5_000), (64, 200), 1);
    let aim = rng.range(990, 1001);
    let columns = ports_at(rng, &ports, &flows, aim);
    let top = rng.spread(100_000, 10_000_000);
    joined(rng, top, columns, flows)
}

pub fn wide(rng: &mut Rng) -> Vec<Piece> {
    let size = Size {
        ports: rng.range(1, 64) as usize,
        flows: rng.range(1, 256) as usize,
        hops: rng.range(1, 16) as usize,
    };
    let ports = rng.numbers(size.ports, 64);
    let flows = flows(rng, &size, &ports, (100_000, 100_000_000), (64, 2000), 8);
    let aim = rng.range(300, 1000);
    let columns = ports_at(rng, &ports, &flows, aim);
    let top = rng.spread(1_000_000, 100_000_000);
    joined(rng, top, columns, flows)
}

/// Every number at or next to one of its ends.
pub fn edges(rng: &mut Rng) -> Vec<Piece> {
    let top = rng.pick(&[1, 2, 999, 1000, 1001, 2_000_000, 99_999_999, 100_000_000]);
    let guard = rng.pick(&[0, 0, 0, 1, 2, 999_999, 1_000_000]);
    let mut pieces = vec![Piece::Header { guard, top }];
    let mut ports = vec![1, 64];
    ports.extend(rng.numbers(14, 62).iter().map(|number| number + 1));
    for number in &ports {
        let rate = rng.pick(&[1, 2, 99_999, 100_000, 100_000, 100_000]);
        pieces.push(Piece::Port { number: *number, rate, blocker: rng.pick(&[0, 64, 65, 1999, 2000]) });
    }
    for number in [1, 2, 255, 256] {
        let hops = rng.pick(&[1, 1, 2, 15, 16]);
        rng.shuffle(&mut ports);
        pieces.push(Piece::Flow {
            number,
            period: rng.pick(&[1_000, 1_001, 99_999_999, 100_000_000]),
            count: rng.pick(&[1, 2, 63, 64]),
            length: rng.pick(&[64, 65, 1999, 2000]),
            route: ports[..hops].to_vec(),
        });
    }
    pieces.extend(jitters(rng, &pieces));
    pieces.extend(extras(rng, &ports));
    pieces.extend(clocks(rng));
    pieces
}

/// The longest plans there are.
pub fn full(rng: &mut Rng) -> Vec<Piece> {
    let size = Size { ports: 64, flows: 256, hops: 16 };
    let ports = rng.numbers(64, 64);
    let mut flows = flows(rng, &size, &ports, (1_000_000, 100_000_000), (64, 2000), 4);
    for piece in &mut flows {
        if let Piece::Flow { route, .. } = piece {
            *route = rng.numbers(16, 64);
        }
    }
    let aim = rng.range(300, 1000);
    let columns = ports_at(rng, &ports, &flows, aim);
    let top = rng.spread(10_000_000, 100_000_000);
    joined(rng, top, columns, flows)
}
