//! One measurement per process: a plan and a part of the work, counted inside `measured`.

#[allow(dead_code)]
#[path = "../../tests/outside/src/answers.rs"]
mod answers;
#[allow(dead_code)]
#[path = "../../tests/outside/src/ffi.rs"]
mod ffi;
mod bytes;
mod draft;
mod figures;
mod found;
mod jump;
mod lean;
mod most_spans;
mod newer;
mod paper;
mod plans;
mod reader;
mod scan;
mod search;
mod spans;
mod text;
mod texts;
mod usable;
mod valid;
mod writer;

use answers::{Answer, Batch, Planner};
use std::io::Write;
use std::os::raw::c_long;

/// The answer, if the part came to one, and its steps (none told by the planner) or durations tried.
type Outcome = (Option<Answer>, u64);

#[inline(never)]
extern "C" fn jump_least<const CHECKED: bool>(planner: &Planner, scratch: &mut [u64; 64], steps: &mut u64) -> Answer {
    let (answer, taken) = jump::least::<CHECKED>(planner, scratch);
    *steps = taken;
    answer
}

#[inline(never)]
extern "C" fn jump_safe<const CHECKED: bool>(planner: &Planner, scratch: &mut [u64; 64], steps: &mut u64) -> Answer {
    let (answer, taken) = jump::margin_safe::<CHECKED>(planner, scratch);
    *steps = taken;
    answer
}

#[inline(never)]
extern "C" fn one_least(planner: &Planner, scratch: &mut [u64; 64], steps: &mut u64) -> Answer {
    let (answer, taken) = lean::least(planner, &mut scratch[..1]);
    *steps = taken;
    answer
}

#[inline(never)]
extern "C" fn one_safe(planner: &Planner, scratch: &mut [u64; 64], steps: &mut u64) -> Answer {
    let (answer, taken) = lean::margin_safe(planner, &mut scratch[..1]);
    *steps = taken;
    answer
}

/// Steps of the iteration given to each call.
const SIXTEEN: u64 = 16;

/// The iteration from 1 to its end, sixteen steps a call; and the steps.
fn sixteens(planner: &Planner) -> (Answer, u64) {
    let (mut from, mut used) = (1, 0);
    loop {
        let part = ffi::fixed_point(planner, from, SIXTEEN);
        used += part.steps;
        if part.refusal != 26 {
            return (part.answer(), used);
        }
        from = part.first;
    }
}

/// A search. What callgrind counts: from here to the return.
#[no_mangle]
#[inline(never)]
fn measured_search(part: &str, planner: &Planner, scratch: &mut [u64; 64], most: u64) -> Outcome {
    let mut steps = 0;
    match part {
        "least" => (Some(ffi::least(planner, scratch)), 0),
        "safe" => (Some(ffi::margin_safe(planner, scratch)), 0),
        "jump-least" => (Some(jump_least::<true>(planner, scratch, &mut steps)), steps),
        "jump-safe" => (Some(jump_safe::<true>(planner, scratch, &mut steps)), steps),
        "bare-least" => (Some(jump_least::<false>(planner, scratch, &mut steps)), steps),
        "bare-safe" => (Some(jump_safe::<false>(planner, scratch, &mut steps)), steps),
        "lean-least" => (Some(ffi::lean_least(planner, &mut scratch[..1])), 0),
        "lean-safe" => (Some(ffi::lean_margin_safe(planner, &mut scratch[..1])), 0),
        "one-least" => (Some(one_least(planner, scratch, &mut steps)), steps),
        "one-safe" => (Some(one_safe(planner, scratch, &mut steps)), steps),
        "at-once" => {
            let whole = ffi::fixed_point(planner, 1, u64::MAX);
            (Some(whole.answer()), whole.steps)
        }
        "sixteens" => {
            let (answer, used) = sixteens(planner);
            (Some(answer), used)
        }
        "scan-least" => scan::least(planner, scratch, most),
        "scan-safe" => scan::margin_safe(planner, scratch, most),
        other => panic!("no such part: {other}"),
    }
}

/// A load, counted likewise.
#[no_mangle]
#[inline(never)]
fn measured_load(part: &str, planner: &mut Planner, plan: &[u8]) -> Answer {
    match part {
        "load" => ffi::load_into(planner, plan),
        "read" => reader::load::<true>(planner, plan),
        "read-by-port" => reader::load::<false>(planner, plan),
        other => panic!("no such part: {other}"),
    }
}

/// Bytes of a buffer that every plan fits.
const BUFFER: usize = 16_384;

#[inline(never)]
extern "C" fn write(planner: &Planner, buffer: &mut [u8; BUFFER]) -> Answer {
    writer::save(planner, buffer)
}

/// Saving, counted likewise.
#[no_mangle]
#[inline(never)]
fn measured_save(part: &str, planner: &Planner, buffer: &mut [u8; BUFFER]) -> Answer {
    match part {
        "save" => ffi::save(planner, buffer),
        "write" => write(planner, buffer),
        other => panic!("no such part: {other}"),
    }
}

/// Turns of a batch until its only plan has its final answer, counted likewise.
#[no_mangle]
#[inline(never)]
fn measured_turns(batch: &mut Batch, slot: usize) -> u64 {
    let mut turns = 0;
    while batch.slots[slot].state == 1 {
        *batch = ffi::serve(batch).0;
        turns += 1;
    }
    turns
}

/// A plan in a batch: the answer, how many turns it took, and their microseconds.
fn turns(plan: &[u8]) {
    let slot = 7;
    let (mut batch, placed) = ffi::place(&ffi::empty_batch(), slot, plan);
    assert_eq!(placed.refusal, 0, "the plan is refused: {placed:?}");
    let start = unsafe { clock() };
    let turns = measured_turns(&mut batch, slot as usize);
    let microseconds = unsafe { clock() } - start;
    println!("{} {turns} {microseconds}", told(ffi::collect(&batch, slot).1.answer(), std::iter::empty()));
}

/// The spares along the route of a flow at top into a list: one call a port, or one call with the flow's own length.
#[no_mangle]
#[inline(never)]
fn measured_reprice(part: &str, planner: &Planner, slot: usize, list: &mut [i64; 64]) -> Answer {
    let duration = u64::from(planner.top);
    match part {
        "reprice" => ffi::reprice(planner, duration, slot as u64 + 1, u64::from(planner.lengths[slot]), list),
        "slacks" => {
            for port in &planner.routes[slot * answers::STRIDE..][..usize::from(planner.hops[slot])] {
                list[usize::from(*port) - 1] = ffi::slack(planner, u64::from(*port), duration).slack;
            }
            Answer::new(0, 0, 0)
        }
        other => panic!("no such part: {other}"),
    }
}

/// Durations a whole scan would try.
fn whole(part: &str, planner: &Planner) -> u64 {
    let (mut scratch, top) = ([0; 64], planner.top as u64);
    match part {
        "scan-least" => match jump::least::<true>(planner, &mut scratch).0 {
            Answer { refusal: 0, first, .. } => first,
            _ => top,
        },
        _ => match jump::margin_safe::<true>(planner, &mut scratch).0 {
            Answer { refusal: 0, first, .. } => top - first + 1 + u64::from(first > 1),
            _ => 1,
        },
    }
}

extern "C" {
    /// Time that this process had on a processor, in microseconds.
    fn clock() -> c_long;
}

/// The answer's numbers, and one number for all that the call left in memory.
fn told(answer: Answer, left: impl Iterator<Item = u64>) -> String {
    let sum = left.fold(0u64, |sum, number| sum.wrapping_mul(31).wrapping_add(number));
    format!("{}/{}/{}/{sum:x}", answer.refusal, answer.first, answer.second)
}

/// A search on a plan: the answer, its steps or the durations tried, and its microseconds.
fn search(case: &plans::Case, part: &str) {
    let (planner, loaded) = ffi::load(&ffi::empty(), &case.bytes);
    assert_eq!(loaded.refusal, 0, "the plan is refused: {loaded:?}");
    if let Some(part) = part.strip_prefix("whole:") {
        println!("{}", whole(part, &planner));
        return;
    }
    let mut scratch = [0; 64];
    let start = unsafe { clock() };
    let (answer, taken) = measured_search(part, &planner, &mut scratch, case.scanned);
    let microseconds = unsafe { clock() } - start;
    let answer = answer.map_or("open".into(), |answer| told(answer, scratch.into_iter()));
    println!("{answer} {taken} {microseconds}");
}

/// A load of a plan over plan K: the answer.
fn load(plan: &[u8], part: &str) {
    let mut planner = ffi::load(&ffi::empty(), &plans::k()).0;
    let answer = measured_load(part, &mut planner, plan);
    println!("{}", told(answer, planner.to_bytes().into_iter().map(u64::from)));
}

/// A plan saved: the answer.
fn save(plan: &[u8], part: &str) {
    let (planner, loaded) = ffi::load(&ffi::empty(), plan);
    assert_eq!(loaded.refusal, 0, "the plan is refused: {loaded:?}");
    let mut buffer = [7; BUFFER];
    let answer = measured_save(part, &planner, &mut buffer);
    println!("{}", told(answer, buffer.into_iter().map(u64::from)));
}

/// The first flow with the longest route of a plan: how many ports, and the answer.
fn reprice(plan: &[u8], part: &str) {
    let (planner, loaded) = ffi::load(&ffi::empty(), plan);
    assert_eq!(loaded.refusal, 0, "the plan is refused: {loaded:?}");
    let longest = planner.hops.iter().max().expect("flows");
    let slot = planner.hops.iter().position(|hops| hops == longest).expect("a flow");
    let mut list = [7; 64];
    let answer = measured_reprice(part, &planner, slot, &mut list);
    println!("{} {longest}", told(answer, list.into_iter().map(|spare| spare as u64)));
}

/// The spans of a plan: the answer, the evaluations, and the microseconds; or how many evaluations against the fewest pieces.
fn usable(plan: &[u8], part: &str) {
    let (planner, loaded) = ffi::load(&ffi::empty(), plan);
    assert_eq!(loaded.refusal, 0, "the plan is refused: {loaded:?}");
    if part == "pieces" {
        println!("{}", usable::against_pieces(&planner));
        return;
    }
    let mut list = if part.ends_with("spans") { usable::room(&planner) } else { Vec::new() };
    let start = unsafe { clock() };
    let (answer, evaluations) = usable::measured_spans(part, &planner, &mut list);
    let microseconds = unsafe { clock() } - start;
    println!("{} {evaluations} {microseconds}", told(answer, list.iter().flat_map(|span| [span.first, span.last])));
}

fn main() {
    let arguments: Vec<String> = std::env::args().skip(1).collect();
    let arguments: Vec<&str> = arguments.iter().map(String::as_str).collect();
    let (searches, loads) = (plans::searches(), plans::loads());
    let searched = |name: &str| searches.iter().find(|case| case.name == name).expect("no such plan");
    let loaded = |name: &str| loads.iter().find(|plan| plan.0 == name).map(|plan| &plan.1);
    match arguments[..] {
        ["searches"] => {
            for case in searches {
                println!("{} {} {}", case.name, if case.timed { "timed" } else { "counted" }, case.searches.join(" "));
            }
        }
        ["usable"] => {
            for case in plans::usable() {
                println!("{} {}", case.name, if case.timed { "timed" } else { "counted" });
            }
        }
        ["paper"] => figures::print(),
        ["search", limit, seed] => search::print(limit, seed),
        ["loads"] => loads.iter().for_each(|plan| println!("{} {}", plan.0, plan.1.len())),
        ["bytes", name] => {
            let bytes = loaded(name).unwrap_or_else(|| &searched(name).bytes);
            std::io::stdout().write_all(bytes).expect("cannot write");
        }
        [part @ ("load" | "read" | "read-by-port"), name] => load(loaded(name).expect("no such plan"), part),
        ["texts"] => texts::list(),
        [part @ ("text" | "text-rust" | "encode" | "encode-rust"), name] => println!("{}", texts::told_of(part, name)),
        ["turns", name] => turns(&searched(name).bytes),
        [part @ ("save" | "write"), name] => save(loaded(name).expect("no such plan"), part),
        [part @ ("span-first" | "span-top" | "spans" | "same-span-first" | "same-span-top" | "same-spans" | "pieces"), name] => {
            let cases = plans::usable();
            usable(&cases.iter().find(|case| case.name == name).expect("no such plan").bytes, part)
        }
        [part @ ("reprice" | "slacks"), name] => reprice(&searched(name).bytes, part),
        [part, name] => search(searched(name), part),
        _ => panic!("searches, usable, loads, texts, paper, search SECONDS SEED, bytes PLAN, or PART PLAN"),
    }
}
