//! Plans of the newer form: a plan that pieces make told in it, and good ones with routes of up to 24 ports.

use super::strict::{sorted, without_needless};
use super::{bound, extra_of, fit, jitter_of, Piece};
use crate::rng::Rng;

pub const HEADER: u8 = 0x11;
pub const PORT: u8 = 0x12;
pub const FLOW: u8 = 0x13;
/// A flow's numbers in front of its route.
pub const ROUTE: usize = 5;
/// The bytes that a plan has at most.
pub const MOST: usize = 16_384;

/// A field: its tag, and its numbers, each with how many bytes it has.
#[derive(Clone, Debug, PartialEq)]
pub struct Field {
    pub tag: u8,
    pub numbers: Vec<(u64, usize)>,
}

impl Field {
    pub fn new(tag: u8, numbers: &[(u64, usize)]) -> Field {
        Field { tag, numbers: numbers.to_vec() }
    }

    pub fn bytes(&self) -> Vec<u8> {
        let value: Vec<u8> = self.numbers.iter().flat_map(|(number, bytes)| number.to_be_bytes()[8 - bytes..].to_vec()).collect();
        let length = (value.len() as u16).to_be_bytes();
        [&[self.tag][..], &length, &value].concat()
    }

    /// How many ports a flow's route has.
    pub fn hops(&self) -> usize {
        if self.tag == FLOW {
            self.numbers.len() - ROUTE
        } else {
            0
        }
    }
}

pub fn encode(fields: &[Field]) -> Vec<u8> {
    fields.iter().flat_map(Field::bytes).collect()
}

fn clocks_in(pieces: &[Piece]) -> [u32; 3] {
    let clocks = pieces.iter().find_map(|piece| match piece {
        Piece::Clocks { drift, timing_jitter, sync_error } => Some([*drift, *timing_jitter, *sync_error]),
        _ => None,
    });
    clocks.unwrap_or([0; 3])
}

fn merged_one(pieces: &[Piece], piece: &Piece) -> Option<Field> {
    match piece {
        Piece::Header { guard, top } => {
            let [drift, timing_jitter, sync_error] = clocks_in(pieces);
            let numbers = [*guard, *top, drift, timing_jitter, sync_error];
            Some(Field::new(HEADER, &numbers.map(|number| (u64::from(number), 4))))
        }
        Piece::Port { number, rate, blocker } => {
            let (number, blocker, extra) = (u64::from(*number), u64::from(*blocker), extra_of(pieces, *number));
            Some(Field::new(PORT, &[(number, 2), (u64::from(*rate), 4), (blocker, 2), (extra, 2)]))
        }
        Piece::Flow { number, period, count, length, route } => {
            let (own, jitter) = (u64::from(*number), jitter_of(pieces, *number));
            let (period, count, length) = (u64::from(*period), u64::from(*count), u64::from(*length));
            let mut numbers = vec![(own, 2), (period, 4), (count, 2), (length, 2), (jitter, 4)];
            numbers.extend(route.iter().map(|port| (u64::from(*port), 2)));
            Some(Field::new(FLOW, &numbers))
        }
        _ => None,
    }
}

/// The plan that the pieces make, in whatever order, in the newer form.
pub fn merged(pieces: &[Piece]) -> Vec<Field> {
    sorted(pieces).iter().filter_map(|piece| merged_one(pieces, piece)).collect()
}

/// The pieces of a plan of the newer form in strict order, without those that say what their absence says.
pub fn split(fields: &[Field]) -> Vec<Piece> {
    let mut pieces = Vec::new();
    for field in fields {
        let long = |place: usize| field.numbers[place].0 as u32;
        let short = |place: usize| field.numbers[place].0 as u16;
        let number = short(0);
        match field.tag {
            HEADER => {
                pieces.push(Piece::Header { guard: long(0), top: long(1) });
                pieces.push(Piece::Clocks { drift: long(2), timing_jitter: long(3), sync_error: long(4) });
            }
            PORT => {
                pieces.push(Piece::Port { number, rate: long(1), blocker: short(2) });
                pieces.push(Piece::Extra { number, extra: short(3) });
            }
            _ => {
                let route = (ROUTE..field.numbers.len()).map(short).collect();
                pieces.push(Piece::Flow { number, period: long(1), count: short(2), length: short(3), route });
                pieces.push(Piece::Jitter { number, jitter: long(4) });
            }
        }
    }
    without_needless(&sorted(&pieces))
}

/// Some routes made longer, up to 24 ports, over the plan's ports and, where these are too few, over new ones.
pub fn lengthen(rng: &mut Rng, pieces: &mut Vec<Piece>) {
    let most = rng.pick(&[16, 17, 18, 23, 24, 24]);
    let number_of = |piece: &Piece| match piece {
        Piece::Port { number, .. } => Some(*number),
        _ => None,
    };
    let mut ports: Vec<u16> = pieces.iter().filter_map(number_of).collect();
    for number in rng.numbers(64, 64) {
        if ports.len() < most && !ports.contains(&number) {
            ports.push(number);
            pieces.push(Piece::Port { number, rate: 100_000, blocker: 0 });
        }
    }
    let share = rng.pick(&[1, 2, 4]);
    for piece in pieces {
        if let Piece::Flow { route, .. } = piece {
            if rng.chance(share, 4) {
                rng.shuffle(&mut ports);
                let new: Vec<u16> = ports.iter().copied().filter(|port| !route.contains(port)).collect();
                route.extend(new.into_iter().take(most.saturating_sub(route.len())));
            }
        }
    }
}

/// Routes cut until the plan has 16,384 bytes at most: 16,383 or 16,384 where it had more.
fn cut_to_size(pieces: &mut [Piece]) {
    let mut over = encode(&merged(pieces)).len().saturating_sub(MOST);
    for piece in pieces {
        if let Piece::Flow { route, .. } = piece {
            while over > 0 && route.len() > 1 {
                route.pop();
                over = over.saturating_sub(2);
            }
        }
    }
}

/// A good plan for the newer form: half of them have no route that the older form lacks.
pub fn plan(rng: &mut Rng) -> Vec<Piece> {
    let mut pieces = super::plan(rng);
    if rng.chance(1, 2) {
        return pieces;
    }
    lengthen(rng, &mut pieces);
    cut_to_size(&mut pieces);
    bound(&mut pieces, 6_000);
    if rng.chance(3, 5) {
        fit::fit(rng, &mut pieces);
    }
    pieces
}
