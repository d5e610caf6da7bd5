//! The experiment of document 000, sections 4.3 and 4.4: flows of its Table 2, added at random to one node and to a line of 16
//! nodes, and at each step the least and the margin-safe duration, with equal clocks and with the clocks of its section 2.3.
//!
//! As there, links have 100 Mbit/s, nothing blocks, and the guard bands take a tenth of the duration. The planner's guard band is
//! a number of ns, so it is 0 here, and the rate is 90: that carries in all of a duration what 100 carry in nine tenths of it. The
//! loads of Table 2 leave out the 20 bytes that a frame takes more on the wire, so a frame here is 20 bytes shorter than there.
//! The line ends at 85 steps of three flows, since a plan holds 256.

use crate::answers::{Answer, Planner};
use crate::plans::{clocks, flow, header, port};
use crate::{ffi, jump};

/// Bytes and period in ms of each kind of flow.
const TABLE_2: [(u16, u32); 10] =
    [(96, 1), (128, 1), (200, 2), (256, 2), (496, 4), (512, 4), (1000, 8), (1024, 8), (1504, 12), (1520, 12)];
const UNCOUNTED: u16 = 20;
const RATE: u32 = 90;
/// In the middle of a ms: no period ends near it, so that clocks count no frame more there.
const TOP: u32 = 99_500_000;
const NODES: u16 = 16;

/// Configurations of each topology, and steps of one: a flow more, or three on the line.
const CONFIGURATIONS: usize = 100;
const FLOWS_ON_NODE: usize = 90;
const STEPS_ON_LINE: usize = 85;

struct Rng(u64);

impl Rng {
    fn below(&mut self, bound: u16) -> u16 {
        self.0 = self.0.wrapping_mul(6364136223846793005).wrapping_add(1442695040888963407);
        ((self.0 >> 33) % u64::from(bound)) as u16
    }
}

/// A flow of Table 2 over some ports.
struct Routed {
    kind: usize,
    route: Vec<u16>,
}

fn any_flow(rng: &mut Rng, route: impl Iterator<Item = u16>) -> Routed {
    Routed { kind: rng.below(TABLE_2.len() as u16) as usize, route: route.collect() }
}

/// The flows that one step adds.
type Step = Vec<Routed>;

fn node_step(rng: &mut Rng) -> Step {
    vec![any_flow(rng, 1..=1)]
}

/// Three flows one after the other along the line, each leaving where the next enters; port n is that of node n.
fn line_step(rng: &mut Rng) -> Step {
    let (one, other) = (2 + rng.below(14), 2 + rng.below(13));
    let other = if other >= one { other + 1 } else { other };
    let (leaves, last) = (one.min(other), one.max(other));
    vec![any_flow(rng, 1..=leaves - 1), any_flow(rng, leaves..=last - 1), any_flow(rng, last..=NODES)]
}

fn plan_of(flows: &[&Routed], ports: u16, with_clocks: bool) -> Vec<u8> {
    let mut plan = Vec::new();
    header(&mut plan, 0, TOP);
    for number in 1..=ports {
        port(&mut plan, number, RATE, 0);
    }
    for (slot, routed) in flows.iter().enumerate() {
        let (bytes, period) = TABLE_2[routed.kind];
        flow(&mut plan, slot as u16 + 1, 1_000_000 * period, bytes - UNCOUNTED, &routed.route);
    }
    if with_clocks {
        clocks(&mut plan, 100, 2, 1_000);
    }
    plan
}

/// The load of the fullest port, in hundredths of a percent of 100 Mbit/s.
fn load_of(flows: &[&Routed], ports: u16) -> u64 {
    let of_port = |port: u16| {
        let on_port = flows.iter().filter(|routed| routed.route.contains(&port));
        on_port.map(|routed| 8 * 100 * u64::from(TABLE_2[routed.kind].0) / u64::from(TABLE_2[routed.kind].1)).sum::<u64>()
    };
    (1..=ports).map(of_port).max().unwrap_or(0) / 1_000
}

type Search = fn(&Planner, &mut [u64]) -> Answer;
type SearchInRust = fn(&Planner, &mut [u64]) -> (Answer, u64);

/// A search's duration in ns; none where there is none up to top. The search in Rust must say the same.
fn duration(planner: &Planner, search: Search, in_rust: SearchInRust) -> Option<u64> {
    let (mut one, mut other) = ([0; 64], [0; 64]);
    let answer = search(planner, &mut one);
    assert!(answer == in_rust(planner, &mut other).0 && one == other, "the searches differ");
    (answer.refusal == 0).then_some(answer.first)
}

/// One step's outcome: load, then least and margin-safe duration with equal clocks and with those of the paper.
pub struct Point {
    pub flows: usize,
    pub load: u64,
    pub equal: [Option<u64>; 2],
    pub apart: [Option<u64>; 2],
}

fn both(plan: &[u8]) -> [Option<u64>; 2] {
    let (planner, answer) = ffi::load(&ffi::empty(), plan);
    assert_eq!(answer.refusal, 0, "the plan is refused");
    [duration(&planner, ffi::least, jump::least::<true>), duration(&planner, ffi::margin_safe, jump::margin_safe::<true>)]
}

fn points(steps: &[Step], ports: u16) -> Vec<Point> {
    let mut flows: Vec<&Routed> = Vec::new();
    let mut points = Vec::new();
    for step in steps {
        flows.extend(step);
        let (equal, apart) = (both(&plan_of(&flows, ports, false)), both(&plan_of(&flows, ports, true)));
        points.push(Point { flows: flows.len(), load: load_of(&flows, ports), equal, apart });
    }
    points
}

/// A topology's points, configuration by configuration.
pub fn configurations(line: bool) -> Vec<Vec<Point>> {
    let mut rng = Rng(if line { 16 } else { 1 });
    let (steps, ports) = if line { (STEPS_ON_LINE, NODES) } else { (FLOWS_ON_NODE, 1) };
    let mut step = || if line { line_step(&mut rng) } else { node_step(&mut rng) };
    let all: Vec<Vec<Step>> = (0..CONFIGURATIONS).map(|_| (0..steps).map(|_| step()).collect()).collect();
    all.iter().map(|steps| points(steps, ports)).collect()
}
