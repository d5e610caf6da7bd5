//! The numbers of a field's value, each in its range (test 5).

use super::field::Field;
use super::{Clocks, Flow, Port};

pub fn number(bytes: &[u8]) -> u64 {
    bytes.iter().fold(0, |sum, byte| sum * 256 + u64::from(*byte))
}

/// What of a value is not taken yet.
struct Rest<'a>(&'a [u8]);

impl Rest<'_> {
    fn number(&mut self, bytes: usize) -> u64 {
        let (taken, rest) = self.0.split_at(bytes);
        self.0 = rest;
        number(taken)
    }

    fn clocks(&mut self) -> Clocks {
        Clocks { drift: self.number(4), timing_jitter: self.number(4), sync_error: self.number(4) }
    }
}

pub fn header_fits(guard: u64, top: u64) -> bool {
    guard <= 1_000_000 && (1..=100_000_000).contains(&top)
}

pub fn port_fits(port: &Port) -> bool {
    (1..=100_000).contains(&port.rate) && (port.blocker == 0 || (64..=2000).contains(&port.blocker)) && port.extra <= 64
}

pub fn flow_fits(flow: &Flow) -> bool {
    (1_000..=100_000_000).contains(&flow.period)
        && (1..=64).contains(&flow.count)
        && (64..=2000).contains(&flow.length)
        && flow.jitter <= 10_000_000
        && flow.route.iter().all(|port| (1..=64).contains(port))
}

pub fn clocks_fit(clocks: &Clocks) -> bool {
    clocks.drift <= 1_000 && clocks.timing_jitter <= 1_000 && clocks.sync_error <= 1_000_000
}

/// The numbers of a value of a length that its tag allows, or none where one is out of range.
pub fn numbers_of(tag: u8, value: &[u8]) -> Option<Field> {
    let mut rest = Rest(value);
    let of_port = |number: u64| (1..=64).contains(&number);
    let of_flow = |number: u64| (1..=256).contains(&number);
    let (field, fits) = match tag {
        0x01 | 0x11 => {
            let (guard, top) = (rest.number(4), rest.number(4));
            let clocks = if tag == 0x11 { rest.clocks() } else { Clocks::default() };
            (Field::Header { guard, top, clocks }, header_fits(guard, top) && clocks_fit(&clocks))
        }
        0x02 | 0x12 => {
            let (number, rate, blocker) = (rest.number(2), rest.number(4), rest.number(2));
            let port = Port { rate, blocker, extra: if tag == 0x12 { rest.number(2) } else { 0 } };
            let fits = of_port(number) && port_fits(&port);
            (Field::Port { number, port }, fits)
        }
        0x03 | 0x13 => {
            let number = rest.number(2);
            let flow = flow(rest, tag == 0x13);
            let fits = of_flow(number) && flow_fits(&flow);
            (Field::Flow { number, flow }, fits)
        }
        0x04 => {
            let (number, bytes) = (rest.number(2), rest.number(2));
            (Field::Extra { number, bytes }, of_port(number) && bytes <= 64)
        }
        0x05 => {
            let (number, jitter) = (rest.number(2), rest.number(4));
            (Field::Jitter { number, jitter }, of_flow(number) && jitter <= 10_000_000)
        }
        _ => {
            let clocks = rest.clocks();
            (Field::Clocks(clocks), clocks_fit(&clocks))
        }
    };
    fits.then_some(field)
}

/// A flow's numbers behind its own, with its jitter before the route or without.
fn flow(mut rest: Rest, jittered: bool) -> Flow {
    let (period, count, length) = (rest.number(4), rest.number(2), rest.number(2));
    let jitter = if jittered { rest.number(4) } else { 0 };
    Flow { period, count, length, jitter, route: rest.0.chunks(2).map(number).collect() }
}
