//! A lighter plan is never worse: pairs of plans, lighter in one respect, in all and in none, by the library's own answers.

use super::{durations, lighter_k, span_ends};
use crate::answers::{Answer, Planner};
use crate::ffi;
use crate::gen::lighter::{heavy, in_all, in_one, longer_frames, retold};
use crate::gen::{encode, Piece};
use crate::model::lighter::{eased, Respect, RESPECTS};
use crate::model::read::read;
use crate::model::spans::{spans, Span};
use crate::model::Plan;
use crate::report::{hex, Tally};
use crate::rng::Rng;
use std::fmt;

/// How many of the two plans accept a duration, 1 for the second alone: for each respect in its order, for all and for none.
const ACCEPTING: [&str; 12] = [
    "fewer flows: accepting plans",
    "shorter frames: accepting plans",
    "lower counts: accepting plans",
    "longer periods: accepting plans",
    "less jitter: accepting plans",
    "faster ports: accepting plans",
    "smaller blockers: accepting plans",
    "fewer extra bytes: accepting plans",
    "smaller drift: accepting plans",
    "smaller timing jitter: accepting plans",
    "smaller sync error: accepting plans",
    "smaller guard: accepting plans",
];
pub const ACCEPTING_ALL: &str = "all respects: accepting plans";
const ACCEPTING_NONE: &str = "no respect: accepting plans";
const LEAST: &str = "least: 1 smaller, 2 for the second alone, 3 none";
const SAFE: &str = "margin_safe: 1 smaller, 2 for the second alone, 3 none";
const LONGER: &str = "longer frames, 1 where found worse";

/// One plan of a pair.
pub struct Side {
    pub bytes: Vec<u8>,
    pub plan: Plan,
    pub spans: Vec<Span>,
    pub planner: Planner,
    loaded: Answer,
}

impl Side {
    pub fn of(pieces: &[Piece]) -> Side {
        let bytes = encode(pieces);
        let plan = read(&bytes).expect("a good plan");
        let (planner, loaded) = ffi::load(&ffi::empty(), &bytes);
        Side { spans: spans(&plan), bytes, plan, planner, loaded }
    }
}

impl fmt::Display for Side {
    fn fmt(&self, out: &mut fmt::Formatter) -> fmt::Result {
        out.write_str(&hex(&self.bytes))
    }
}

#[derive(Clone, Copy, PartialEq, Eq, Debug)]
pub enum Call {
    Check(u64),
    Least,
    MarginSafe,
}

/// What a call answers for the two plans of a pair.
#[derive(Debug)]
pub struct Compared {
    pub call: Call,
    first: Answer,
    second: Answer,
}

impl Compared {
    /// The second plan has what the first has, and a search finds no more; both have the same top.
    pub fn no_worse(&self) -> bool {
        let (first, second) = (self.first, self.second);
        match self.call {
            Call::Check(_) if first.refusal == 10 || second.refusal == 10 => first == second,
            Call::Check(_) => first.refusal != 0 || second.refusal == 0,
            _ => first.refusal != 0 || (second.refusal == 0 && second.first <= first.first),
        }
    }

    fn count(&self, tally: &mut Tally, accepting: &'static str) {
        let (first, second) = (self.first.refusal == 0, self.second.refusal == 0);
        let outcome = match (first, second) {
            (true, true) => u32::from(self.second.first < self.first.first),
            (false, true) => 2,
            _ => 3,
        };
        match self.call {
            Call::Check(_) => tally.saw(accepting, u32::from(first) + u32::from(second)),
            Call::Least => tally.saw(LEAST, outcome),
            Call::MarginSafe => tally.saw(SAFE, outcome),
        }
    }
}

pub fn compared(first: &Side, second: &Side, asked: &[u64]) -> Vec<Compared> {
    let both = |call: Call, ask: &dyn Fn(&Planner) -> Answer| Compared {
        call,
        first: ask(&first.planner),
        second: ask(&second.planner),
    };
    let check = |duration: &u64| both(Call::Check(*duration), &|planner| ffi::check(planner, *duration));
    let mut all: Vec<Compared> = asked.iter().map(check).collect();
    all.push(both(Call::Least, &|planner| ffi::least(planner, &mut [0; 64])));
    all.push(both(Call::MarginSafe, &|planner| ffi::margin_safe(planner, &mut [0; 64])));
    all
}

/// Durations where a demand of the first rises, around the ends of the spans of both, inside them, and any.
fn asked_of(first: &Side, second: &Side, rng: &mut Rng) -> Vec<u64> {
    let mut asked = durations(&first.plan, rng);
    for side in [first, second] {
        asked.extend(span_ends(&side.spans, rng));
        for _ in 0..side.spans.len().min(3) {
            let (from, to) = rng.pick(&side.spans);
            asked.push(rng.range(from, to));
        }
    }
    asked.extend((0..4).map(|_| rng.range(1, first.plan.top)));
    asked
}

/// Whether every span lies within one of the others.
fn within(spans: &[Span], others: &[Span]) -> bool {
    spans.iter().all(|(from, to)| {
        let place = others.partition_point(|other| other.1 < *from);
        others.get(place).map_or(false, |other| other.0 <= *from && *to <= other.1)
    })
}

/// The second plan of a pair, lighter in these respects and no other, is no worse.
pub fn is_no_worse(tally: &mut Tally, pair: (&Side, &Side), respects: &[Respect], asked: &[u64], accepting: &'static str) {
    let (first, second) = pair;
    for side in [first, second] {
        let counts = (side.plan.ports.len() as u64, side.plan.flows.len() as u64);
        tally.same(format_args!("cp_load({side})"), side.loaded, Answer::new(0, counts.0, counts.1));
    }
    let found = eased(&first.plan, &second.plan);
    tally.same(format_args!("model: easier than {first} in"), found.as_deref(), Some(respects));
    tally.same(format_args!("model: spans hold those of {first}"), within(&first.spans, &second.spans), true);
    for answers in compared(first, second, asked) {
        answers.count(tally, accepting);
        tally.same(format_args!("no worse than {first}: {answers:?}"), answers.no_worse(), true);
    }
}

/// The respects that leave room in a plan, each alone; then all of them, and none.
fn pairs(tally: &mut Tally, case: u64, pieces: &[Piece], first: &Side, rng: &mut Rng) {
    let mut try_one = |pieces: Vec<Piece>, respects: &[Respect], accepting: &'static str, rng: &mut Rng| {
        let second = Side::of(&retold(rng, pieces));
        tally.case(case, &second.bytes);
        let asked = asked_of(first, &second, rng);
        is_no_worse(tally, (first, &second), respects, &asked, accepting);
        second
    };
    for (respect, accepting) in RESPECTS.into_iter().zip(ACCEPTING) {
        if let Some(lighter) = in_one(rng, pieces, respect) {
            try_one(lighter, &[respect], accepting, rng);
        }
    }
    let (lighter, respects) = in_all(rng, pieces);
    try_one(lighter, &respects, ACCEPTING_ALL, rng);
    let same = try_one(pieces.to_vec(), &[], ACCEPTING_NONE, rng);
    tally.same(format_args!("lighter in nothing: first table that differs"), same.planner.differs(&first.planner), None);
}

/// Lighter in one respect and with longer frames: the same comparison finds some of these plans worse.
fn harder(tally: &mut Tally, case: u64, pieces: &[Piece], first: &Side, rng: &mut Rng) {
    let respect = rng.pick(&RESPECTS[2..]);
    let mut other = in_one(rng, pieces, respect).unwrap_or_else(|| pieces.to_vec());
    longer_frames(rng, &mut other);
    let second = Side::of(&other);
    tally.case(case, &second.bytes);
    if first.plan.flows.values().any(|flow| flow.length < 2_000) {
        tally.same(format_args!("model: longer frames than {first}"), eased(&first.plan, &second.plan), None);
    }
    let asked = asked_of(first, &second, rng);
    let worse = compared(first, &second, &asked).iter().any(|answers| !answers.no_worse());
    tally.saw(LONGER, u32::from(worse));
}

pub fn run(tally: &mut Tally) {
    lighter_k::run(tally);
    for case in 0..tally.cases {
        let mut rng = tally.rng(case);
        let pieces = heavy(&mut rng);
        let first = Side::of(&pieces);
        pairs(tally, case, &pieces, &first, &mut rng);
        harder(tally, case, &pieces, &first, &mut rng);
    }
    for accepting in ACCEPTING.into_iter().chain([ACCEPTING_ALL]) {
        tally.must_have_seen(accepting, &[0, 1, 2]);
    }
    tally.must_have_seen(ACCEPTING_NONE, &[0, 2]);
    tally.must_have_seen(LEAST, &[0, 1, 2, 3]);
    tally.must_have_seen(SAFE, &[0, 1, 2, 3]);
    tally.must_have_seen(LONGER, &[0, 1]);
}
