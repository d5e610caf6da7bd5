//! A search for the plan with the most spans.

pub mod candidate;
mod choices;
mod climb;
mod count;
mod layout;
mod rng;
mod turns;

use crate::ffi;
use candidate::Candidate;
use choices::{any_choice, other_choice};
use layout::{laid_out, Choice};
use rng::Rng;

fn seconds() -> f64 {
    unsafe { crate::clock() as f64 / 1_000_000.0 }
}

/// A choice, and about how many spans it makes.
type Scored = (u64, Choice);

fn score(choice: &Choice) -> u64 {
    laid_out(*choice).map_or(0, |laid| laid.about() as u64)
}

/// Some choice that can be laid out.
fn start(rng: &mut Rng) -> Scored {
    loop {
        if let Some(choice) = any_choice(rng) {
            let spans = score(&choice);
            if spans > 0 {
                return (spans, choice);
            }
        }
    }
}

/// The best choice found from one on, a change at a time, in so many tries.
fn better(mut best: Scored, tries: u64, rng: &mut Rng) -> Scored {
    for _ in 0..tries {
        let other = other_choice(&best.1, rng);
        let spans = score(&other);
        if spans >= best.0 {
            best = (spans, other);
        }
    }
    best
}

/// How many choices are kept of those tried first.
const KEPT: usize = 8;

/// The best choices of many random ones, each made better.
fn random(until: f64, rng: &mut Rng) -> Vec<Scored> {
    let (mut kept, mut starts) = (Vec::new(), 0);
    while seconds() < until || kept.is_empty() {
        let found = better(start(rng), 3_000, rng);
        starts += 1;
        if kept.first().map_or(true, |best: &Scored| best.0 < found.0) {
            println!("{:.0} s, start {starts}: about {} spans", seconds(), found.0);
        }
        kept.push(found);
        kept.sort_by_key(|scored| std::cmp::Reverse(scored.0));
        kept.truncate(KEPT);
    }
    println!("{:.0} s: {starts} starts", seconds());
    kept
}

/// The better of two candidates.
fn larger(one: (u64, Candidate), other: Candidate) -> (u64, Candidate) {
    let spans = count::spans(&other, 1);
    if spans <= one.0 {
        return one;
    }
    println!("{:.0} s: {spans} spans, {} ports, {} and {} flows", seconds(), other.ports.len(), other.short.flows, other.late.len());
    (spans, other)
}

/// Searches for so many seconds of processor time: from random choices, then from the best of them on, then by changes of the best
/// candidate's own numbers.
fn best_within(limit: f64, rng: &mut Rng) -> (u64, Candidate) {
    let mut kept = random(0.6 * limit, rng);
    while seconds() < 0.8 * limit {
        kept.iter_mut().for_each(|scored| *scored = better(*scored, 1_000, rng));
    }
    let mut laid = kept.iter().filter_map(|scored| laid_out(scored.1)).map(|laid| laid.candidate);
    let first = laid.next().expect("a candidate");
    let mut best = laid.fold((count::spans(&first, 1), first), larger);
    while seconds() < limit {
        let other = climb::climb(best.1.clone(), 2_000, 2_000.0, rng, &|| seconds() > limit);
        best = larger(best, other);
    }
    best
}

/// Searches, prints the plan that was found, and holds its number of spans against the planner's.
pub fn print(limit: &str, seed: &str) {
    let mut rng = Rng(seed.parse().expect("a seed"));
    let (spans, best) = best_within(limit.parse().expect("seconds"), &mut rng);
    best.print();
    let (planner, loaded) = ffi::load(&ffi::empty(), &best.bytes());
    assert_eq!(loaded.refusal, 0, "the plan is refused: {loaded:?}");
    let answer = ffi::spans(&planner, &mut []);
    assert_eq!((answer.refusal, answer.first), (13, spans), "the planner counts other spans: {answer:?}");
    println!("{spans} spans, as the planner counts");
}
