//! How many spans a candidate has, worked out from one rise of its late flows to the next.
//!
//! There a port's slack at a phase of the short period only grows, by the same from period to period: so each phase fails up to some
//! period and passes from then on. From one rise of the short flows to the next, a slot, slack grows with the phase too. So a span
//! begins within a slot in those periods in which its last phase passes and its first fails.

use super::candidate::{wire_bits, Candidate, TOP};

/// A port: its group of short flows, its rate, what it gains a period, and what it needs before phase 1, late flows left out; then the
/// most and the least need over all phases, and what late flows need. All are 1,000 times bits.
struct Line {
    group: usize,
    rate: i64,
    gain: i64,
    start: i64,
    most: i64,
    least: i64,
    late: i64,
}

struct Counter {
    period: u64,
    /// From one rise of the short flows to the next.
    distance: u64,
    slots: usize,
    groups: usize,
    /// 1,000 times the bits of a short frame.
    frame: i64,
    lines: Vec<Line>,
    /// The ports that fail somewhere before the next late rise.
    near: Vec<usize>,
    /// Whether the duration before the next one passes.
    passed: bool,
}

impl Counter {
    /// None where the short flows fill a port.
    fn new(candidate: &Candidate) -> Option<Counter> {
        let short = &candidate.short;
        let mut counter = Counter {
            period: short.period(),
            distance: short.distance,
            slots: short.flows as usize,
            groups: short.groups as usize,
            frame: 1_000 * wire_bits(short.length) as i64,
            lines: Vec::new(),
            near: Vec::new(),
            passed: false,
        };
        for port in &candidate.ports {
            let start = counter.frame * (short.flows / short.groups) as i64 + 1_000 * port.blocker_bits() as i64;
            let gain = candidate.gain(port)? as i64;
            let mut line = Line { group: port.group, rate: port.rate as i64, gain, start, most: 0, least: 0, late: 0 };
            line.most = (0..counter.slots).map(|slot| counter.need(&line, slot, counter.first(slot))).max()?;
            line.least = (0..counter.slots).map(|slot| counter.need(&line, slot, counter.last(slot))).min()?;
            counter.lines.push(line);
        }
        Some(counter)
    }

    fn first(&self, slot: usize) -> u64 {
        slot as u64 * self.distance + 1
    }

    fn last(&self, slot: usize) -> u64 {
        (slot as u64 + 1) * self.distance
    }

    /// The period, the slot and the phase of a duration. Phases begin with 1.
    fn split(&self, duration: u64) -> (u64, usize, u64) {
        let phase = (duration - 1) % self.period;
        ((duration - 1) / self.period, (phase / self.distance) as usize, phase + 1)
    }

    /// What a port needs at a phase of a slot, less what the phase gives. The flow of slot 0 rises with the period.
    fn need(&self, line: &Line, slot: usize, phase: u64) -> i64 {
        let risen = (slot + self.groups - line.group) / self.groups - usize::from(line.group == 0);
        line.start + line.late + self.frame * risen as i64 - line.rate * phase as i64
    }

    fn passes(&self, duration: u64) -> bool {
        let (period, slot, phase) = self.split(duration);
        self.near.iter().map(|at| &self.lines[*at]).all(|line| self.need(line, slot, phase) <= line.gain * period as i64)
    }

    /// The first period in which a phase of a slot passes.
    fn passes_from(&self, slot: usize, phase: u64) -> i64 {
        let first = |line: &Line| (self.need(line, slot, phase) + line.gain - 1).div_euclid(line.gain);
        self.near.iter().map(|at| first(&self.lines[*at])).max().unwrap_or(0)
    }

    fn late_rise(&mut self, ports: u64, bits: u64) {
        for (at, line) in self.lines.iter_mut().enumerate() {
            line.late += (ports >> at & 1) as i64 * 1_000 * bits as i64;
        }
    }

    /// Finds the ports that fail somewhere from one duration to another; false where one fails at all of them.
    fn look(&mut self, from: u64, to: u64) -> bool {
        let (low, high) = (self.split(from).0 as i64, self.split(to).0 as i64);
        let fails_somewhere = |line: &Line| line.most + line.late > line.gain * low;
        self.near = (0..self.lines.len()).filter(|at| fails_somewhere(&self.lines[*at])).collect();
        self.lines.iter().all(|line| line.least + line.late <= line.gain * high)
    }

    /// Spans that begin from one duration to another, looked at one by one.
    fn one_by_one(&mut self, from: u64, to: u64) -> u64 {
        let mut begun = 0;
        for duration in from..=to {
            let passes = self.passes(duration);
            begun += u64::from(passes && !self.passed);
            self.passed = passes;
        }
        begun
    }

    /// Spans that begin in a slot in the periods from low to high: within it, or with it.
    fn in_slot(&self, slot: usize, low: i64, high: i64) -> u64 {
        let before = match slot {
            0 => self.passes_from(self.slots - 1, self.period) + 1,
            _ => self.passes_from(slot - 1, self.last(slot - 1)),
        };
        let (first, last) = (self.passes_from(slot, self.first(slot)), self.passes_from(slot, self.last(slot)));
        let periods = |from: i64, to: i64| (to.min(high + 1) - from.max(low)).max(0) as u64;
        periods(last, first) + periods(first, before)
    }

    /// Spans that begin from one duration to another, after which the next late flow rises.
    fn between(&mut self, from: u64, to: u64) -> u64 {
        if !self.look(from, to) {
            self.passed = false;
            return 0;
        }
        let ((low, head, _), (high, tail, _)) = (self.split(from), self.split(to));
        if (low, head) == (high, tail) {
            return self.one_by_one(from, to);
        }
        let mut begun = self.one_by_one(from, low * self.period + self.last(head));
        for slot in 0..self.slots {
            let (low, high) = (low as i64 + i64::from(slot <= head), high as i64 - i64::from(slot >= tail));
            begun += self.in_slot(slot, low, high);
        }
        let start = high * self.period + self.first(tail);
        self.passed = self.passes(start - 1);
        begun + self.one_by_one(start, to)
    }

    /// The same in whole periods, and in one slot in so many.
    fn sampled(&mut self, from: u64, to: u64, step: usize) -> u64 {
        if !self.look(from, to) {
            return 0;
        }
        let (low, high) = (self.split(from).0 as i64, self.split(to).0 as i64);
        (0..self.slots).step_by(step).map(|slot| self.in_slot(slot, low, high - 1)).sum()
    }
}

/// Periods begun at 1 ns.
fn begun_at_once(period: u64, jitter: u64) -> u64 {
    (1 + jitter).div_ceil(period)
}

/// The rises of the late flows after 1 ns, in order: the first duration with it, and the flow.
fn rises(candidate: &Candidate) -> Vec<(u64, usize)> {
    let mut rises = Vec::new();
    for (at, late) in candidate.late.iter().enumerate() {
        let first = begun_at_once(late.period, late.jitter) * late.period - late.jitter + 1;
        rises.extend((first..=TOP).step_by(late.period as usize).map(|rise| (rise, at)));
    }
    rises.sort_unstable();
    rises
}

/// The spans of a candidate: all of them for a step of 1, otherwise about so many, from one slot in so many.
pub fn spans(candidate: &Candidate, step: usize) -> u64 {
    let Some(mut counter) = Counter::new(candidate) else { return 0 };
    for late in &candidate.late {
        counter.late_rise(late.ports, late.bits() * begun_at_once(late.period, late.jitter));
    }
    let (mut from, mut begun) = (1, 0);
    let rises = rises(candidate).into_iter().map(|(rise, at)| (rise, Some(candidate.late[at])));
    for (rise, late) in rises.chain([(TOP + 1, None)]) {
        if from < rise {
            begun += if step == 1 { counter.between(from, rise - 1) } else { counter.sampled(from, rise - 1, step) };
            from = rise;
        }
        late.into_iter().for_each(|late| counter.late_rise(late.ports, late.bits()));
    }
    let flows = candidate.short.flows;
    begun * flows / flows.div_ceil(step as u64)
}
