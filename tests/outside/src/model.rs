//! Document 01 and the landed requests of document 02 once more: plans as maps, the condition, the plain question and the spare.

pub mod batch;
pub mod convert;
pub mod field;
pub mod fixed_point;
pub mod gates;
pub mod lighter;
pub mod nearest;
pub mod read;
pub mod reprice;
pub mod save;
pub mod spans;
pub mod tables;
pub mod text;
pub mod usable;
pub mod values;
pub mod write;

use crate::answers::{Answer, SlackAnswer};
use std::collections::BTreeMap;

/// The form of a plan's bytes (document 02: the old one and the new one).
#[derive(Clone, Copy, Debug, PartialEq, Eq)]
pub enum Form {
    Older,
    Newer,
}

impl Form {
    pub const ALL: [Form; 2] = [Form::Older, Form::Newer];

    /// Its number, as a planner holds it.
    pub fn number(self) -> u32 {
        match self {
            Form::Older => 0,
            Form::Newer => 1,
        }
    }

    /// The form of a plan that is loaded, by its first byte.
    pub fn of(plan: &[u8]) -> Form {
        match plan.first() {
            Some(0x11) => Form::Newer,
            _ => Form::Older,
        }
    }

    pub fn other(self) -> Form {
        match self {
            Form::Older => Form::Newer,
            Form::Newer => Form::Older,
        }
    }

    /// How many ports a route has at most.
    pub fn most_hops(self) -> usize {
        match self {
            Form::Older => 16,
            Form::Newer => 24,
        }
    }
}

#[derive(Clone, Debug, PartialEq, Eq)]
pub struct Port {
    pub rate: u64,
    pub blocker: u64,
    /// Bytes that this port adds to each frame.
    pub extra: u64,
}

#[derive(Clone, Debug, PartialEq, Eq)]
pub struct Flow {
    pub period: u64,
    pub count: u64,
    pub length: u64,
    /// By how much a frame may come after its nominal instant.
    pub jitter: u64,
    pub route: Vec<u64>,
}

/// By how much clocks differ: drift in parts per million, timing jitter and synchronization error in ns.
#[derive(Clone, Copy, Debug, Default, PartialEq, Eq)]
pub struct Clocks {
    pub drift: u64,
    pub timing_jitter: u64,
    pub sync_error: u64,
}

#[derive(Clone, Debug, PartialEq, Eq)]
pub struct Plan {
    /// The form in which it was read; only saving asks for it.
    pub form: Form,
    pub guard: u64,
    pub top: u64,
    pub clocks: Clocks,
    pub ports: BTreeMap<u64, Port>,
    pub flows: BTreeMap<u64, Flow>,
}

impl Port {
    /// What a frame of this length takes on the wire here.
    pub fn wire_bits(&self, length: u64) -> u64 {
        (length + 8 + 12 + self.extra) * 8
    }

    pub fn blocker_bits(&self) -> u64 {
        match self.blocker {
            0 => 0,
            length => self.wire_bits(length),
        }
    }
}

impl Flow {
    /// Frames that this flow brings to each of its ports when they are counted over a length.
    pub fn frames_over(&self, length: u64) -> u64 {
        let reach = length + self.jitter;
        let mut begun = reach / self.period;
        if reach % self.period != 0 {
            begun += 1;
        }
        begun * self.count
    }
}

impl Clocks {
    pub fn are_equal(&self) -> bool {
        *self == Clocks::default()
    }

    /// The duration widened: the length over which frames are counted.
    pub fn widened(&self, duration: u64) -> u64 {
        let parts = duration * self.drift;
        let drifted = parts / 1_000_000 + u64::from(parts % 1_000_000 != 0);
        let (by_drift, by_error) = (drifted + self.timing_jitter, 2 * self.sync_error);
        duration + by_drift.min(by_error)
    }
}

impl Plan {
    /// The same parts, held in a form.
    pub fn in_form(&self, form: Form) -> Plan {
        Plan { form, ..self.clone() }
    }

    pub fn crossed(&self, port: u64) -> bool {
        self.flows.values().any(|flow| flow.route.contains(&port))
    }

    pub fn window(&self, duration: u64) -> u64 {
        duration.saturating_sub(2 * self.guard)
    }

    /// Demand of every port that a flow crosses.
    pub fn demands(&self, duration: u64) -> BTreeMap<u64, u64> {
        let mut demands = BTreeMap::new();
        let length = self.clocks.widened(duration);
        for flow in self.flows.values() {
            let frames = flow.frames_over(length);
            for port in &flow.route {
                *demands.entry(*port).or_insert(0) += frames * self.ports[port].wire_bits(flow.length);
            }
        }
        demands
    }

    fn spare(&self, port: u64, demand: u64, duration: u64) -> i128 {
        let port = &self.ports[&port];
        let offered = i128::from(port.rate) * i128::from(self.window(duration));
        offered - 1000 * (i128::from(demand) + i128::from(port.blocker_bits()))
    }

    /// Failing ports at a duration, rising.
    pub fn failing(&self, duration: u64) -> Vec<u64> {
        let demands = self.demands(duration);
        let fails = |(port, demand): (u64, u64)| (self.spare(port, demand, duration) < 0).then_some(port);
        demands.into_iter().filter_map(fails).collect()
    }

    pub fn refuse_failing(&self, refusal: u32, duration: u64) -> Answer {
        let failing = self.failing(duration);
        Answer::new(refusal, failing[0], failing.len() as u64)
    }

    pub fn in_reach(&self, duration: u64) -> bool {
        (1..=self.top).contains(&duration)
    }
}

/// The plain question.
pub fn check(held: Option<&Plan>, duration: u64) -> Answer {
    let plan = match held {
        Some(plan) => plan,
        None => return Answer::refused(20),
    };
    if !plan.in_reach(duration) {
        return Answer::refused(10);
    }
    if plan.failing(duration).is_empty() {
        return Answer::new(0, 0, 0);
    }
    plan.refuse_failing(21, duration)
}

/// The spare of a port.
pub fn slack(held: Option<&Plan>, port: u64, duration: u64) -> SlackAnswer {
    let plan = match held {
        Some(plan) => plan,
        None => return SlackAnswer::refused(20),
    };
    if !plan.in_reach(duration) {
        return SlackAnswer::refused(10);
    }
    if !plan.crossed(port) {
        return SlackAnswer::refused(24);
    }
    let spare = plan.spare(port, plan.demands(duration)[&port], duration);
    SlackAnswer { refusal: 0, slack: i64::try_from(spare).expect("a spare fits 64 bits") }
}
