//! Candidates laid out by rule: ports that take turns at having a slack around 0.
//!
//! Slack around 0 is what makes spans: each rise of a short flow then makes a gap of some ns. Slack grows, and has to be brought back
//! by about a frame again and again. Fine flows of one period do that, one after the other, at even distances. A port is crossed by
//! those that rise in its turns; ports that share a turn are crossed by one in two, or in more. A large flow of each turn brings the
//! slack of its ports down to 0 when it begins, and blockers bring it to the ns. No turn can begin after twice the time at which the
//! first begins: demand at the sum of two durations is at most the sum of the demands.

use super::candidate::{wire_bits, Candidate, Late, Port, Short, LENGTHS, MOST_COUNT, MOST_FLOWS, MOST_JITTER, MOST_PORTS, OVERHEAD, TOP};
use super::turns::{Set, Turn};

/// So many sets of ports that take turns, one after the other, in so many periods of the fine flows, and then again.
#[derive(Clone, Copy, Debug)]
pub struct Round {
    pub sets: usize,
    pub periods: usize,
}

pub const ROUNDS: usize = 8;

/// What is chosen: the short flows, the rate of all ports, how many ports of each group share a turn, the fine flows, where the first
/// turn begins, the slack left when a port is brought down, in ns, and the rounds.
#[derive(Clone, Copy, Debug)]
pub struct Choice {
    pub short: Short,
    pub rate: u64,
    pub sharing: usize,
    pub fine: usize,
    pub fine_length: u64,
    pub from: f64,
    pub left: f64,
    pub rounds: [Round; ROUNDS],
}

/// A choice with what follows from it, in ns: gain of slack a ns, a fine frame, and from one fine rise to the next; and the rise at
/// which the first turn begins.
pub struct Layout {
    pub choice: Choice,
    pub gain: f64,
    pub frame: f64,
    pub distance: f64,
    pub first: usize,
}

impl Layout {
    /// None where the fine flows would have too much jitter.
    fn new(choice: Choice) -> Option<Layout> {
        let empty = Candidate { short: choice.short, ports: Vec::new(), late: Vec::new() };
        let gained = empty.gain(&Port { rate: choice.rate, blocker: 0, group: 0 })?;
        let gain = gained as f64 / (choice.rate * choice.short.period()) as f64;
        let frame = 1_000.0 * wire_bits(choice.fine_length) as f64 / choice.rate as f64;
        let period = (frame / gain / choice.sharing as f64 * choice.fine as f64).round();
        let distance = period / choice.fine as f64;
        let first = (choice.from / distance).ceil() as usize;
        (period <= MOST_JITTER as f64).then_some(Layout { choice, gain, frame, distance, first })
    }

    pub fn at(&self, rise: usize) -> f64 {
        rise as f64 * self.distance
    }

    pub fn ns(&self, bytes: u64) -> f64 {
        8_000.0 * bytes as f64 / self.choice.rate as f64
    }

    fn fine(&self, slot: usize) -> Late {
        let period = self.at(self.choice.fine).round();
        let jitter = if slot == 0 { 0.0 } else { period - self.at(slot) };
        Late { period: period as u64, jitter: jitter.round() as u64, count: 1, length: self.choice.fine_length, ports: 0 }
    }

    /// Rises from the beginning of each turn of a round to the next, such that ports that share one are crossed by equally many.
    fn lengths(&self, round: Round) -> Vec<usize> {
        let (sharing, mut rest) = (self.choice.sharing, round.periods * self.choice.fine);
        let mut lengths = Vec::new();
        for left in (1..=round.sets).rev() {
            let even = rest / left;
            let length = if left == 1 { rest } else { even.saturating_sub((even + sharing - 1) % sharing) };
            lengths.push(length);
            rest -= length;
        }
        lengths
    }
}

/// A candidate, what it is laid out by, and the rise at which the last turn ends.
pub struct Laid {
    layout: Layout,
    pub candidate: Candidate,
    end: usize,
}

impl Laid {
    fn room(&self, sets: &[Set]) -> bool {
        let turns: usize = sets.iter().map(|set| set.turns.len()).sum();
        self.candidate.short.flows as usize + self.candidate.late.len() + turns < MOST_FLOWS
    }

    /// As many turns of a round as can be had.
    fn add_round(&mut self, round: Round) {
        let lengths = self.layout.lengths(round);
        let mut sets: Vec<Set> = Vec::new();
        for turn in 0.. {
            let slot = turn % round.sets;
            let next = Turn { behind: self.end, rises: lengths[slot].saturating_sub(1) };
            if self.layout.at(self.end) >= TOP as f64 || next.rises < self.layout.choice.sharing || !self.room(&sets) {
                break;
            }
            let mut set = if turn < round.sets { Set::default() } else { sets[slot].clone() };
            set.turns.push(next);
            if set.brought_down(&self.layout).is_none() {
                break;
            }
            if turn < round.sets { sets.push(set) } else { sets[slot] = set }
            self.end += lengths[slot];
        }
        for set in sets {
            self.add(&set);
        }
    }

    fn add(&mut self, set: &Set) {
        let (large, blockers) = set.brought_down(&self.layout).expect("brought down before");
        let mut ports = 0;
        for (seat, blocker) in set.seats(&self.layout).into_iter().zip(blockers) {
            let bit = 1u64.checked_shl(self.candidate.ports.len() as u32).unwrap_or(0);
            self.candidate.ports.push(Port { rate: self.layout.choice.rate, blocker, group: seat.group });
            set.rises(&self.layout, seat).for_each(|rise| self.candidate.late[rise % self.layout.choice.fine].ports |= bit);
            ports |= bit;
        }
        self.candidate.late.extend(large.into_iter().map(|flow| Late { ports, ..flow }));
    }

    /// About how many spans the turns make: one for each rise of a short flow in them, less where fine frames are longer than the ns
    /// by which slack may differ.
    pub fn about(&self) -> f64 {
        let (layout, short) = (&self.layout, &self.candidate.short);
        let covered = layout.at(self.end).min(TOP as f64) - layout.at(layout.first);
        let used = ((short.distance - 1) as f64 * layout.choice.sharing as f64 / layout.frame).min(1.0);
        used * covered / short.distance as f64
    }
}

/// The candidate; none where there are too many ports.
pub fn laid_out(choice: Choice) -> Option<Laid> {
    let layout = Layout::new(choice)?;
    let late = (0..choice.fine).map(|slot| layout.fine(slot)).collect();
    let end = layout.first;
    let mut laid = Laid { layout, candidate: Candidate { short: choice.short, ports: Vec::new(), late }, end };
    for round in choice.rounds.iter().filter(|round| round.sets > 0) {
        laid.add_round(*round);
        if laid.candidate.ports.len() > MOST_PORTS {
            return None;
        }
    }
    laid.candidate.late.retain(|late| late.ports != 0);
    laid.candidate.fits().then_some(laid)
}

/// A flow that rises at a time and brings so many bytes or a few less each time; none where that is less than a frame or too much.
pub fn large_flow(at: f64, bytes: f64) -> Option<Late> {
    let count = (bytes / (LENGTHS.1 + OVERHEAD) as f64).ceil();
    let length = (bytes / count).floor() - OVERHEAD as f64;
    let possible = bytes > 0.0 && count <= MOST_COUNT as f64 && length >= LENGTHS.0 as f64;
    possible.then_some(Late { period: at.round() as u64, jitter: 0, count: count as u64, length: length as u64, ports: 0 })
}
