//! The two searches over 64 numbers and over one, with scratches of several lengths and tops in and around gaps.

use super::{ask_lean, ask_searches, LEAN_LENGTHS, LENGTHS};
use crate::ffi;
use crate::gen::{self, encode, laden, Piece};
use crate::model::read::read;
use crate::model::spans::{spans, Span};
use crate::report::Tally;
use crate::rng::Rng;

fn ask_lengths(tally: &mut Tally, case: u64, pieces: &[Piece], rng: &mut Rng) -> Vec<Span> {
    let bytes = encode(pieces);
    tally.case(case, &bytes);
    let plan = read(&bytes).expect("a good plan");
    let found = spans(&plan);
    let planner = ffi::load(&ffi::empty(), &bytes).0;
    for length in LENGTHS {
        ask_searches(tally, &planner, Some((&plan, &found)), length, rng);
    }
    for length in LEAN_LENGTHS {
        ask_lean(tally, &planner, Some((&plan, &found)), length, rng);
    }
    found
}

/// Tops at the ends of a span, next to them, and inside the gap after it.
fn tops(spans: &[Span], rng: &mut Rng) -> Vec<u64> {
    if spans.len() < 2 {
        return spans.iter().flat_map(|span| [span.0, span.0 - 1, span.0 + 1]).filter(|top| *top > 0).collect();
    }
    let place = rng.index(spans.len() - 1);
    let (span, next) = (spans[place], spans[place + 1]);
    let inside = rng.range(span.1 + 1, next.0 - 1);
    let mut tops = vec![span.0, span.1, span.1 + 1, inside, next.0 - 1, next.0, next.1];
    if span.0 > 1 {
        tops.push(span.0 - 1);
    }
    tops
}

/// One more port, crossed by one more flow whose demand rises just at a duration: no other port is touched.
fn with_side_port(pieces: &[Piece], duration: u64, rng: &mut Rng) -> Option<Vec<Piece>> {
    let jitter = rng.pick(&[0, 0, 1, 5_000]);
    let reach = gen::widened(pieces, duration) + u64::from(jitter);
    let period = u32::try_from(reach - 1).ok().filter(|period| (1_000..=100_000_000).contains(period))?;
    let taken = |wanted: u16, port: bool| {
        pieces.iter().any(|piece| match piece {
            Piece::Port { number, .. } => port && *number == wanted,
            Piece::Flow { number, .. } => !port && *number == wanted,
            _ => false,
        })
    };
    let number = rng.numbers(64, 64).into_iter().find(|number| !taken(*number, true))?;
    let flow = rng.numbers(256, 256).into_iter().find(|number| !taken(*number, false))?;
    let mut more = pieces.to_vec();
    more.push(Piece::Port { number, rate: 100_000, blocker: 0 });
    more.push(Piece::Flow { number: flow, period, count: 1, length: 64, route: vec![number] });
    more.push(Piece::Jitter { number: flow, jitter });
    Some(more)
}

fn at_full_load(tally: &mut Tally) {
    for case in 0..tally.cases / 15 {
        let mut rng = tally.rng(1 << 40 | case);
        let mut pieces = laden::plan(&mut rng);
        tally.case(case, &encode(&pieces));
        tally.same(format_args!("the load is 98 % to 100 % at every port"), laden::is_laden(&pieces), true);
        let found = ask_lengths(tally, case, &pieces, &mut rng);
        tally.saw("spans at full load, 2 for more", found.len().min(2) as u32);
        for top in tops(&found, &mut rng) {
            gen::set_top(&mut pieces, top);
            ask_lengths(tally, case, &pieces, &mut rng);
        }
    }
    tally.must_have_seen("spans at full load, 2 for more", &[2]);
}

pub fn run(tally: &mut Tally) {
    for length in LENGTHS {
        let mut rng = tally.rng(length as u64);
        ask_searches(tally, &ffi::empty(), None, length, &mut rng);
        ask_lean(tally, &ffi::empty(), None, length, &mut rng);
    }
    for case in 0..tally.cases {
        let mut rng = tally.rng(case);
        let mut pieces = gen::plan(&mut rng);
        let found = ask_lengths(tally, case, &pieces, &mut rng);
        tally.saw("spans, 2 for more", found.len().min(2) as u32);
        tally.saw("extra bytes, 1 for some", u32::from(gen::has_extra(&pieces)));
        if gen::has_jitter(&pieces) {
            tally.saw("spans with jitter, 2 for more", found.len().min(2) as u32);
        }
        if gen::clocks_kind(&pieces, u64::from(u32::MAX)) == 2 {
            tally.saw("spans with clocks, 2 for more", found.len().min(2) as u32);
        }
        for duration in found.first().into_iter().chain(found.last()).map(|span| span.0) {
            if let Some(more) = with_side_port(&pieces, duration, &mut rng) {
                ask_lengths(tally, case, &more, &mut rng);
            }
        }
        for top in tops(&found, &mut rng).into_iter().chain([1, 2]) {
            gen::set_top(&mut pieces, top);
            ask_lengths(tally, case, &pieces, &mut rng);
        }
    }
    at_full_load(tally);
    tally.must_have_seen("spans, 2 for more", &[0, 1, 2]);
    tally.must_have_seen("extra bytes, 1 for some", &[0, 1]);
    tally.must_have_seen("spans with jitter, 2 for more", &[0, 1, 2]);
    tally.must_have_seen("spans with clocks, 2 for more", &[0, 1, 2]);
    tally.must_have_seen("least", &[0, 11, 20, 22]);
    tally.must_have_seen("margin_safe", &[0, 11, 20, 23]);
    tally.must_have_seen("lean_least", &[0, 11, 20, 22]);
    tally.must_have_seen("lean_margin_safe", &[0, 11, 20, 23]);
}
