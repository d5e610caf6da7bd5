//! Runs of frames through ports with two queues each, one filling while the other empties.

pub mod cuts;
pub mod emissions;
pub mod gates;

use crate::model::Plan;
use cuts::Cut;
use std::collections::BTreeMap;

#[derive(Clone, Copy, Debug)]
struct Frame {
    flow: u64,
    index: usize,
    own_cycle: u64,
    hop: usize,
}

/// A frame, by its flow and its place in the flow's list, that left its last port in a cycle.
#[derive(Clone, Copy, Debug)]
pub struct Left {
    pub flow: u64,
    pub index: usize,
    pub cycle: u64,
}

#[derive(Debug)]
pub enum Outcome {
    Unsent { cycle: u64, port: u64 },
    AllSent(Vec<Left>),
}

#[derive(Default)]
struct Queues {
    filling: Vec<Frame>,
    emptying: Vec<Frame>,
}

pub struct Run<'a> {
    plan: &'a Plan,
    duration: u64,
    queues: BTreeMap<u64, Queues>,
    waiting: Vec<Frame>,
    left: Vec<Left>,
}

impl<'a> Run<'a> {
    /// Of an emission only the cycles of its frames matter to the run.
    pub fn new(plan: &'a Plan, duration: u64, cut: &Cut) -> Run<'a> {
        let mut waiting = Vec::new();
        for (flow, cycles) in cut {
            let frame = |(index, own_cycle): (usize, &u64)| Frame { flow: *flow, index, own_cycle: *own_cycle, hop: 0 };
            waiting.extend(cycles.iter().enumerate().map(frame));
        }
        waiting.sort_by_key(|frame| std::cmp::Reverse(frame.own_cycle));
        let queues = plan.ports.keys().map(|port| (*port, Queues::default())).collect();
        Run { plan, duration, queues, waiting, left: Vec::new() }
    }

    fn port_of(&self, frame: &Frame) -> u64 {
        self.plan.flows[&frame.flow].route[frame.hop]
    }

    fn receive(&mut self, frame: Frame) {
        let port = self.port_of(&frame);
        self.queues.get_mut(&port).expect("a known port").filling.push(frame);
    }

    /// Whether a port gets all of its emptying queue out in one cycle.
    fn clears(&self, port: u64) -> bool {
        let frames = self.queues[&port].emptying.iter();
        let port = &self.plan.ports[&port];
        let bits: u64 = frames.map(|frame| port.wire_bits(self.plan.flows[&frame.flow].length)).sum();
        let mut taken = bits;
        if port.blocker != 0 {
            taken += port.wire_bits(port.blocker);
        }
        let start = self.plan.guard;
        let window = if self.duration < 2 * start { 0 } else { self.duration - 2 * start };
        bits == 0 || 1000 * taken <= port.rate * window
    }

    /// One cycle: queues swap, ports send, sources emit. The port that leaves a frame unsent, if one does.
    fn cycle(&mut self, now: u64) -> Option<u64> {
        for queues in self.queues.values_mut() {
            std::mem::swap(&mut queues.filling, &mut queues.emptying);
        }
        let ports: Vec<u64> = self.queues.keys().copied().collect();
        for port in &ports {
            if !self.clears(*port) {
                return Some(*port);
            }
        }
        for port in &ports {
            for frame in std::mem::take(&mut self.queues.get_mut(port).expect("a known port").emptying) {
                self.pass_on(frame, now);
            }
        }
        while let Some(frame) = self.waiting.last().copied().filter(|frame| frame.own_cycle == now) {
            self.waiting.pop();
            self.receive(frame);
        }
        None
    }

    fn pass_on(&mut self, mut frame: Frame, now: u64) {
        frame.hop += 1;
        if frame.hop == self.plan.flows[&frame.flow].route.len() {
            self.left.push(Left { flow: frame.flow, index: frame.index, cycle: now });
        } else {
            self.receive(frame);
        }
    }

    pub fn follow(mut self) -> Outcome {
        let mut now = 0;
        loop {
            let idle = self.queues.values().all(|queues| queues.filling.is_empty());
            match self.waiting.last() {
                None if idle => return Outcome::AllSent(self.left),
                Some(next) if idle => now = next.own_cycle,
                _ => {}
            }
            if let Some(port) = self.cycle(now) {
                return Outcome::Unsent { cycle: now, port };
            }
            now += 1;
        }
    }
}
