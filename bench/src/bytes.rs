//! Numbers, fields and routes of a plan's bytes, and sets of ports and flows.

use crate::jump::{FLOWS, PORTS};

pub const HEAD: usize = 3;

pub fn be16(bytes: &[u8], at: usize) -> u16 {
    u16::from_be_bytes([bytes[at], bytes[at + 1]])
}

pub fn be32(bytes: &[u8], at: usize) -> u32 {
    u32::from_be_bytes([bytes[at], bytes[at + 1], bytes[at + 2], bytes[at + 3]])
}

/// The tag and the value of the field at an offset; none where it is cut short (test 2).
pub fn split(plan: &[u8], offset: usize) -> Option<(u8, &[u8])> {
    let rest = &plan[offset..];
    let head = rest.get(..HEAD)?;
    Some((head[0], rest[HEAD..].get(..be16(head, 1) as usize)?))
}

/// A port's bit in a set of ports.
pub fn bit(port: u16) -> u64 {
    1 << (port - 1)
}

pub fn ports(route: &[u8]) -> impl Iterator<Item = u16> + '_ {
    route.chunks_exact(2).map(|bytes| be16(bytes, 0))
}

pub fn in_range(port: u16) -> bool {
    (1..=PORTS as u16).contains(&port)
}

/// Test 7 port by port.
pub fn repeats(route: &[u8]) -> bool {
    ports(route).enumerate().any(|(at, port)| ports(&route[2 * at + 2..]).any(|later| later == port))
}

/// Flow n is bit (n - 1) % 64 of number (n - 1) / 64.
#[derive(Default)]
pub struct FlowSet([u64; FLOWS / 64]);

impl FlowSet {
    pub fn has(&self, slot: usize) -> bool {
        self.0[slot / 64] & (1 << (slot % 64)) != 0
    }

    pub fn add(&mut self, slot: usize) {
        self.0[slot / 64] |= 1 << (slot % 64);
    }

    pub fn within(&self, other: &FlowSet) -> bool {
        self.0.iter().zip(other.0).all(|(own, others)| own & !others == 0)
    }
}

/// The slot of a flow number, in range.
pub fn slot_of(number: u16) -> usize {
    number as usize - 1
}
