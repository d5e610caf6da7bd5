//! Plans of the newer form at the ends of what is allowed: so many ports in a route, so many bytes.

use super::newer::{Field, FLOW, HEADER, PORT};

fn header() -> Field {
    Field::new(HEADER, &[(1_000, 4), (1_000_000, 4), (100, 4), (2, 4), (1_000, 4)])
}

fn port(number: u64) -> Field {
    Field::new(PORT, &[(number, 2), (1_562 * number, 4), (1_999 - number, 2), (number % 65, 2)])
}

/// A flow over so many of 63 or 64 ports: by steps of 5 it meets none of them twice.
fn flow(number: u64, hops: u64, ports: u64) -> Field {
    let mut numbers = vec![(number, 2), (100_000_000 - number, 4), (number % 64 + 1, 2), (number + 64, 2), (39_062 * number, 4)];
    numbers.extend((0..hops).map(|hop| ((number + 5 * hop) % ports + 1, 2)));
    Field::new(FLOW, &numbers)
}

/// Ports 1 to 64, and flows whose routes have so many ports.
pub fn with_hops(hops: &[u64]) -> Vec<Field> {
    let mut fields = vec![header()];
    fields.extend((1..=64).map(port));
    fields.extend(hops.iter().enumerate().map(|(place, hops)| flow(place as u64 + 1, *hops, 64)));
    fields
}

/// So many ports, and 256 flows with so many hops among them: the first ones have 24, the last ones 1.
pub fn with_total(ports: u64, mut hops: u64) -> Vec<Field> {
    let mut fields = vec![header()];
    fields.extend((1..=ports).map(port));
    for number in 1..=256 {
        let own = (hops - (256 - number)).min(24);
        fields.push(flow(number, own, ports));
        hops -= own;
    }
    fields
}

/// Plans of one byte less than a plan may have to two more, with how many bytes they have.
pub fn around_the_most() -> Vec<(usize, Vec<Field>)> {
    let of = |size, ports, hops| (size, with_total(ports, hops));
    vec![of(16_383, 64, 5_588), of(16_384, 63, 5_595), of(16_385, 64, 5_589), of(16_386, 63, 5_596)]
}
