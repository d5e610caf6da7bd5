//! A plan that the search tries: short flows of one period, spread over it by their jitter, and others. It is of the newer form, in
//! which a route has up to 24 ports.

pub const TOP: u64 = 100_000_000;
pub const MOST_RATE: u64 = 100_000;
pub const MOST_FLOWS: usize = 256;
pub const MOST_PORTS: usize = 64;
pub const MOST_HOPS: usize = 24;
pub const MOST_JITTER: u64 = 10_000_000;
pub const MOST_COUNT: u64 = 64;
pub const MOST_BYTES: usize = 16_384;
pub const LENGTHS: (u64, u64) = (64, 2_000);

/// Bytes that a frame takes more on the wire.
pub const OVERHEAD: u64 = 20;

pub fn wire_bits(length: u64) -> u64 {
    8 * (length + OVERHEAD)
}

/// A port, crossed by one group of the short flows.
#[derive(Clone, Copy, Debug)]
pub struct Port {
    pub rate: u64,
    pub blocker: u64,
    pub group: usize,
}

impl Port {
    pub fn blocker_bits(&self) -> u64 {
        if self.blocker == 0 {
            return 0;
        }
        wire_bits(self.blocker)
    }
}

/// The short flows: so many, at even distances in groups that take turns, each with one frame of this length a period.
#[derive(Clone, Copy, Debug)]
pub struct Short {
    pub flows: u64,
    pub distance: u64,
    pub groups: u64,
    pub length: u64,
}

impl Short {
    pub fn period(&self) -> u64 {
        self.flows * self.distance
    }

    /// So that the flow rises this many distances after a multiple of the period.
    pub fn jitter(&self, slot: u64) -> u64 {
        (self.flows - slot) % self.flows * self.distance
    }
}

/// Another flow, over the ports whose bits are set.
#[derive(Clone, Copy, Debug)]
pub struct Late {
    pub period: u64,
    pub jitter: u64,
    pub count: u64,
    pub length: u64,
    pub ports: u64,
}

impl Late {
    /// Bits that one period brings.
    pub fn bits(&self) -> u64 {
        self.count * wire_bits(self.length)
    }
}

#[derive(Clone, Debug)]
pub struct Candidate {
    pub short: Short,
    pub ports: Vec<Port>,
    pub late: Vec<Late>,
}

/// A field of numbers, each of so many bytes.
fn put(plan: &mut Vec<u8>, tag: u8, numbers: &[(u64, usize)]) {
    let length: usize = numbers.iter().map(|number| number.1).sum();
    for (number, bytes) in [(u64::from(tag), 1), (length as u64, 2)].iter().chain(numbers) {
        plan.extend(&number.to_be_bytes()[8 - bytes..]);
    }
}

fn put_flow(plan: &mut Vec<u8>, number: usize, flow: &Late) {
    let numbers = [(number as u64, 2), (flow.period, 4), (flow.count, 2), (flow.length, 2), (flow.jitter, 4)];
    let route = (0..MOST_PORTS as u64).filter(|port| flow.ports >> port & 1 == 1).map(|port| (port + 1, 2));
    put(plan, 0x13, &numbers.into_iter().chain(route).collect::<Vec<_>>());
}

impl Candidate {
    /// What a port's slack gains in one period of the short flows, 1,000 times its bits; none where they fill the port.
    pub fn gain(&self, port: &Port) -> Option<u64> {
        let brought = 1_000 * self.short.flows / self.short.groups * wire_bits(self.short.length);
        (port.rate * self.short.period()).checked_sub(brought).filter(|gain| *gain > 0)
    }

    fn short_flow(&self, slot: u64) -> Late {
        let crossed = |port: &Port| port.group as u64 == slot % self.short.groups;
        let ports = self.ports.iter().enumerate().map(|(at, port)| u64::from(crossed(port)) << at).sum();
        Late { period: self.short.period(), jitter: self.short.jitter(slot), count: 1, length: self.short.length, ports }
    }

    pub fn bytes(&self) -> Vec<u8> {
        let mut plan = Vec::new();
        put(&mut plan, 0x11, &[(0, 4), (TOP, 4), (0, 4), (0, 4), (0, 4)]);
        for (slot, port) in self.ports.iter().enumerate() {
            put(&mut plan, 0x12, &[(slot as u64 + 1, 2), (port.rate, 4), (port.blocker, 2), (0, 2)]);
        }
        let short = (0..self.short.flows).map(|slot| self.short_flow(slot));
        for (slot, flow) in short.chain(self.late.iter().copied()).enumerate() {
            put_flow(&mut plan, slot + 1, &flow);
        }
        plan
    }

    /// Prints the rows of a table of this plan.
    pub fn print(&self) {
        println!("{:?}", self.short);
        for port in &self.ports {
            println!("    ({}, {}, {}),", port.rate, port.blocker, port.group);
        }
        for late in &self.late {
            println!("    ({}, {}, {}, {}, {:#x}),", late.period, late.jitter, late.count, late.length, late.ports);
        }
    }

    /// Whether a planner would hold it.
    pub fn fits(&self) -> bool {
        let group = |group| self.ports.iter().filter(|port| port.group == group).count();
        let short = (0..self.short.flows as usize).map(|slot| group(slot % self.short.groups as usize));
        let hops: Vec<usize> = short.chain(self.late.iter().map(|late| late.ports.count_ones() as usize)).collect();
        let bytes = 23 + 13 * self.ports.len() + hops.iter().map(|hops| 17 + 2 * hops).sum::<usize>();
        let routed = hops.iter().all(|hops| (1..=MOST_HOPS).contains(hops));
        routed && hops.len() <= MOST_FLOWS && self.ports.len() <= MOST_PORTS && bytes <= MOST_BYTES
    }
}
