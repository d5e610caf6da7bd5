//! The model against itself: K's rows, spans against a scan, tables against bytes.

use super::clocks::{widening, with_all, with_clocks, ROWS_BY_ERROR, ROWS_WITH_ALL, ROWS_WITH_CLOCKS};
use super::extra::{with_extra, ROWS_WITH_EXTRA};
use super::jitter::{with_jitter, ROWS_FLOW_1, ROWS_FLOW_2};
use super::known;
use crate::answers::Answer;
use crate::gen::{self, encode};
use crate::model::read::read;
use crate::model::spans::{scanned, search, spans, Search};
use crate::model::tables::{plan_of, tables_of};
use crate::model::{check, slack, Plan};
use crate::report::Tally;

fn finds(tally: &mut Tally, plan: &Plan, least: u64, safe: u64) {
    let found = spans(plan);
    let held = Some((plan, &found[..]));
    let scratch = [0; 64];
    tally.same(format_args!("model: least"), search(held, Search::Least, &scratch).0, Answer::new(0, least, 0));
    tally.same(format_args!("model: safe"), search(held, Search::MarginSafe, &scratch).0, Answer::new(0, safe, 0));
}

fn known_plans(tally: &mut Tally) {
    tally.case(0, &known::K);
    let plan = read(&known::K).expect("K is a plan");
    known::rows(tally, &known::ROWS, |duration| check(Some(&plan), duration), |duration| slack(Some(&plan), 1, duration));
    finds(tally, &plan, 72_000, 142_000);
    finds(tally, &read(&known::with_blocker()).expect("a plan"), 422_000, 472_000);
    finds(tally, &read(&known::with_port_2()).expect("a plan"), 72_000, 142_000);
    tally.same(format_args!("model: K by a scan"), scanned(&plan), spans(&plan));
    tally.same(format_args!("model: 04 0001"), read(&[4, 0, 1]).err(), Some((2, 0)));
    tally.same(format_args!("model: 07 0001"), read(&[7, 0, 1]).err(), Some((2, 0)));
    for first in [false, true] {
        let longer = read(&with_extra(32, first)).expect("a plan");
        let (check, slack) = (|duration| check(Some(&longer), duration), |duration| slack(Some(&longer), 1, duration));
        known::rows(tally, &ROWS_WITH_EXTRA, check, slack);
        finds(tally, &longer, 77_120, 227_360);
        tally.same(format_args!("model: K with extra 0"), read(&with_extra(0, first)).as_ref(), Ok(&plan));
        tally.same(format_args!("model: K with jitter 0"), read(&with_jitter(2, 0, first)).as_ref(), Ok(&plan));
        tally.same(format_args!("model: K with clocks of 0"), read(&with_clocks(0, 0, 0, first)).as_ref(), Ok(&plan));
        neighbour(tally, &with_jitter(1, 30_000, first), &ROWS_FLOW_1, 92_000, 142_000);
        neighbour(tally, &with_jitter(2, 38_000, first), &ROWS_FLOW_2, 72_000, 212_000);
        neighbour(tally, &with_clocks(100, 2, 1_000, first), &ROWS_WITH_CLOCKS, 72_000, 142_000);
        neighbour(tally, &with_clocks(1_000, 1_000, 5, first), &ROWS_BY_ERROR, 72_000, 142_000);
        neighbour(tally, &with_clocks(0, 0, 5_000, first), &known::ROWS, 72_000, 142_000);
        neighbour(tally, &with_clocks(1_000, 1_000, 0, first), &known::ROWS, 72_000, 142_000);
    }
    neighbour(tally, &with_all(), &ROWS_WITH_ALL, 99_680, 227_360);
    widening(tally);
}

/// K with more fields, its rows and what the searches find.
fn neighbour(tally: &mut Tally, bytes: &[u8], rows: &[known::Row], least: u64, safe: u64) {
    tally.case(0, bytes);
    let plan = read(bytes).expect("a plan");
    known::rows(tally, rows, |duration| check(Some(&plan), duration), |duration| slack(Some(&plan), 1, duration));
    finds(tally, &plan, least, safe);
    tally.same(format_args!("model: by a scan"), scanned(&plan), spans(&plan));
}

pub fn run(tally: &mut Tally) {
    known_plans(tally);
    let (mut gaps, mut late, mut apart) = (0, 0, 0);
    for case in 0..tally.cases {
        let mut rng = tally.rng(case);
        let mut pieces = gen::plan(&mut rng);
        let top = rng.spread(1, 60_000);
        gen::set_top(&mut pieces, top);
        if rng.chance(1, 2) {
            let guard = rng.range(0, top / 8);
            gen::set_guard(&mut pieces, guard);
        }
        let bytes = encode(&pieces);
        tally.case(case, &bytes);
        let plan = read(&bytes).expect("a good plan");
        tally.same(format_args!("the plan told by its tables"), plan_of(&tables_of(&plan)).as_ref(), Some(&plan));
        if plan.flows.len() * plan.top as usize > 400_000 {
            continue;
        }
        let found = spans(&plan);
        gaps += usize::from(found.len() > 1);
        late += usize::from(found.len() > 1 && gen::has_jitter(&pieces));
        apart += usize::from(found.len() > 1 && gen::clocks_kind(&pieces, plan.top) == 2);
        tally.same(format_args!("spans by breakpoints, and by a scan"), found, scanned(&plan));
    }
    tally.case(0, &[]);
    tally.same(format_args!("some plans have gaps"), gaps > 0 || tally.cases < 50, true);
    tally.same(format_args!("some plans with jitter have gaps"), late > 0 || tally.cases < 100, true);
    tally.same(format_args!("some plans with clocks that widen have gaps"), apart > 0 || tally.cases < 100, true);
}
