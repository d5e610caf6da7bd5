//! The spans: the one that ends at a duration or later, and all of them in a list; that they are the durations which the plain
//! question admits, and that the searches find their ends.

use super::strict::random_planner;
use super::{durations, spans_k};
use crate::answers::{Answer, Planner, SpanRecord};
use crate::ffi;
use crate::gen::{self, comb, damage, encode, laden, short, Piece};
use crate::model::read::read;
use crate::model::spans::{scanned, spans, Span};
use crate::model::usable::{list_spans, span};
use crate::model::Plan;
use crate::report::Tally;
use crate::rng::Rng;

/// Records that are not lent, before and behind the list.
const AROUND: usize = 4;

/// The first span that ends at a duration or later.
pub fn ask_span(tally: &mut Tally, planner: &Planner, held: Option<(&Plan, &[Span])>, duration: u64) {
    let want = span(held, duration);
    tally.saw("span", want.refusal);
    tally.same(format_args!("cp_span({duration})"), ffi::span(planner, duration), want);
}

/// All spans into a list of a size, amid records that are not lent.
pub fn ask_spans(tally: &mut Tally, planner: &Planner, held: Option<(&Plan, &[Span])>, size: usize, rng: &mut Rng) {
    let before: Vec<SpanRecord> = (0..size + 2 * AROUND).map(|_| SpanRecord { first: rng.next(), last: rng.next() }).collect();
    let lent = AROUND..AROUND + size;
    let (want, list) = list_spans(held, &before[lent.clone()]);
    tally.saw("spans", want.refusal);
    let mut expected = before.clone();
    expected[lent.clone()].copy_from_slice(&list);
    let mut memory = before;
    let got = ffi::spans(planner, &mut memory[lent]);
    tally.same(format_args!("cp_spans(list of {size})"), got, want);
    let other = (0..memory.len()).find(|place| memory[*place] != expected[*place]).map(|place| place as isize - AROUND as isize);
    tally.same(format_args!("first record that differs after cp_spans(list of {size})"), other, None);
}

/// Sizes of a list around a count.
pub fn sizes(count: usize, rng: &mut Rng) -> Vec<usize> {
    vec![0, count.saturating_sub(1), count, count + 1, count + 3, rng.index(count + 1)]
}

/// Some places of a row of so many: the first, the last and a few between.
fn some_places(count: usize, rng: &mut Rng) -> Vec<usize> {
    if count <= 8 {
        return (0..count).collect();
    }
    let mut places = vec![0, 1, count - 2, count - 1];
    places.extend((0..4).map(|_| rng.index(count)));
    places
}

/// Durations around the ends of some spans, at the ends of what is allowed, and where a demand rises.
fn asked(plan: &Plan, found: &[Span], rng: &mut Rng) -> Vec<u64> {
    let mut asked = durations(plan, rng);
    for place in some_places(found.len(), rng) {
        let (first, last) = found[place];
        asked.extend([first - 1, first, first + 1, last - 1, last, last + 1, (first + last) / 2]);
    }
    asked
}

/// From 1 ns on, each time from behind the last one: every span once, and then none.
fn walked(tally: &mut Tally, planner: &Planner, plan: &Plan, found: &[Span]) {
    let (mut at, mut got) = (1, Vec::new());
    while at <= plan.top && got.len() <= found.len() {
        let answer = ffi::span(planner, at);
        if answer.refusal != 0 {
            tally.same(format_args!("cp_span({at}) behind the last span"), answer, Answer::refused(25));
            break;
        }
        got.push((answer.first, answer.second));
        at = answer.second.max(at) + 1;
    }
    tally.same(format_args!("the spans by cp_span, one after the other"), &got[..], found);
}

/// A duration is admissible exactly where the span that it gives begins no later.
fn as_checked(tally: &mut Tally, planner: &Planner, plan: &Plan, duration: u64) {
    if plan.in_reach(duration) {
        let (one, check) = (ffi::span(planner, duration), ffi::check(planner, duration));
        let inside = one.refusal == 0 && one.first <= duration;
        tally.same(format_args!("cp_span({duration}) as cp_check"), inside, check.refusal == 0);
    }
}

/// The first span begins at the least duration; the last one at the margin-safe one where it ends at top.
fn as_searched(tally: &mut Tally, planner: &Planner, plan: &Plan) {
    let found = |answer: Answer| (answer.refusal == 0).then_some(answer.first);
    let (first, least) = (ffi::span(planner, 1), ffi::least(planner, &mut [0; 64]));
    tally.same(format_args!("the first span as cp_least"), found(first), found(least));
    let (last, safe) = (ffi::span(planner, plan.top), ffi::margin_safe(planner, &mut [0; 64]));
    tally.same(format_args!("the span at top as cp_margin_safe"), found(last), found(safe));
    if last.refusal == 0 {
        tally.same(format_args!("the span at top ends there"), last.second, plan.top);
    }
}

/// Every question about spans that is asked of a plan.
fn one_plan(tally: &mut Tally, case: u64, pieces: &[Piece], rng: &mut Rng) -> Vec<Span> {
    let bytes = encode(pieces);
    tally.case(case, &bytes);
    let plan = read(&bytes).expect("a good plan");
    let planner = ffi::load(&ffi::empty(), &bytes).0;
    let found = spans(&plan);
    tally.saw("spans of a plan, how many binary digits", 32 - (found.len() as u32).leading_zeros());
    tally.saw("the last span, 1 where it ends at top", u32::from(found.last().map_or(false, |span| span.1 == plan.top)));
    let held = Some((&plan, &found[..]));
    for duration in asked(&plan, &found, rng) {
        ask_span(tally, &planner, held, duration);
        as_checked(tally, &planner, &plan, duration);
    }
    for size in sizes(found.len(), rng) {
        ask_spans(tally, &planner, held, size, rng);
    }
    walked(tally, &planner, &plan, &found);
    as_searched(tally, &planner, &plan);
    found
}

/// Tops at the ends of a span and next to them: a span is cut there, or left out.
fn other_tops(tally: &mut Tally, case: u64, pieces: &[Piece], found: &[Span], rng: &mut Rng) {
    if found.is_empty() {
        return;
    }
    let (first, last) = rng.pick(found);
    for top in [first - 1, first, first + 1, last - 1, last, last + 1, 1, 2] {
        if (1..=100_000_000).contains(&top) {
            let mut other = pieces.to_vec();
            gen::set_top(&mut other, top);
            one_plan(tally, case, &other, rng);
        }
    }
}

/// Plans of small tops: every duration is asked, and the spans are those of a scan.
fn small_tops(tally: &mut Tally) {
    for case in 0..tally.cases / 4 + 1 {
        let mut rng = tally.rng(1 << 40 | case);
        let pieces = short::plan(&mut rng);
        let found = one_plan(tally, case, &pieces, &mut rng);
        let bytes = encode(&pieces);
        let (plan, planner) = (read(&bytes).expect("a good plan"), ffi::load(&ffi::empty(), &bytes).0);
        tally.same(format_args!("model: by a scan"), &scanned(&plan), &found);
        for duration in 0..=plan.top + 2 {
            ask_span(tally, &planner, Some((&plan, &found)), duration);
            as_checked(tally, &planner, &plan, duration);
        }
    }
}

/// Loads of plans that are refused between questions: the spans remain those of the plan that is held.
fn after_refused_loads(tally: &mut Tally, case: u64, good: &[Piece], rng: &mut Rng) {
    let bytes = encode(good);
    let (plan, mut planner) = (read(&bytes).expect("a good plan"), ffi::load(&ffi::empty(), &bytes).0);
    let found = spans(&plan);
    for _ in 0..3 {
        let bad = damage::damaged(rng, good);
        tally.case(case, &bad);
        if read(&bad).is_ok() {
            continue;
        }
        planner = ffi::load(&planner, &bad).0;
        ask_span(tally, &planner, Some((&plan, &found)), rng.range(1, plan.top));
        ask_spans(tally, &planner, Some((&plan, &found)), found.len() + rng.index(2), rng);
    }
}

/// Planners that hold no plan: 20, whatever else is asked.
fn no_plan(tally: &mut Tally) {
    let mut rng = tally.rng(u64::MAX);
    for planner in [ffi::empty(), random_planner(&mut rng)] {
        tally.case(0, &planner.to_bytes());
        for duration in [0, 1, 72_000, 100_000_000, 100_000_001, u64::MAX] {
            ask_span(tally, &planner, None, duration);
        }
        for size in [0, 1, 2, 5, 100] {
            ask_spans(tally, &planner, None, size, &mut rng);
        }
    }
}

pub fn run(tally: &mut Tally) {
    spans_k::run(tally);
    no_plan(tally);
    small_tops(tally);
    for case in 0..tally.cases {
        let mut rng = tally.rng(case);
        let pieces = if rng.chance(1, 4) { comb::plan(&mut rng) } else { gen::plan(&mut rng) };
        let found = one_plan(tally, case, &pieces, &mut rng);
        other_tops(tally, case, &pieces, &found, &mut rng);
        after_refused_loads(tally, case, &pieces, &mut rng);
    }
    for case in 0..tally.cases / 30 + 1 {
        let mut rng = tally.rng(1 << 41 | case);
        let pieces = laden::plan(&mut rng);
        one_plan(tally, case, &pieces, &mut rng);
    }
    tally.must_have_seen("span", &[0, 10, 20, 25]);
    tally.must_have_seen("spans", &[0, 13, 20]);
    tally.must_have_seen("spans of a plan, how many binary digits", &[0, 1, 2, 3, 4, 5, 6, 7, 8]);
    tally.must_have_seen("the last span, 1 where it ends at top", &[0, 1]);
}
