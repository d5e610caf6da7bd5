//! The planner's questions for spans in Rust, on the planner's own tables, step by step as in one_span.rt, run_end.rt, rise.rt and
//! span_list.rt of crates/questions; and the fewest pieces that cover a span, a piece being shown admissible by one evaluation.

use crate::answers::{Answer, Planner, SpanRecord};
use crate::jump::{demands, largest_need, stretch, FLOWS, PORTS};
use crate::valid::valid_plan;

const FAR: u64 = 1 << 40;

/// A plan, and how many times its demands were worked out.
struct Search<'a> {
    planner: &'a Planner,
    top: u64,
    evaluations: u64,
}

impl Search<'_> {
    /// The most that a port needs at a duration.
    fn need(&mut self, duration: u64) -> u64 {
        self.evaluations += 1;
        let mut out = [0; PORTS];
        demands::<true>(self.planner, duration, &mut out);
        largest_need(self.planner, &out)
    }

    /// The least admissible duration from a start on, or one above top.
    fn first_from(&mut self, start: u64) -> u64 {
        let mut t = start;
        while t <= self.top {
            let most = self.need(t);
            if most <= t {
                return t;
            }
            t = most.min(self.top + 1);
        }
        t
    }

    /// The largest refused duration from low to high, or one below low.
    fn refused_below(&mut self, low: u64, high: u64) -> u64 {
        let mut below = high;
        while low <= below {
            let most = self.need(below).max(low);
            if below < most {
                return below;
            }
            below = most - 1;
        }
        below
    }

    /// One below the first duration above this one at which some flow begins a further period.
    fn before_rise(&self, duration: u64) -> u64 {
        let planner = self.planner;
        let length = stretch(planner, duration);
        let mut nearest = FAR;
        for slot in 0..FLOWS {
            let (period, jitter) = (u64::from(planner.periods[slot]), u64::from(planner.jitters[slot]));
            if period != 0 {
                let from = length + jitter + period;
                nearest = nearest.min(from - (from - 1) % period - jitter);
            }
        }
        let apart = u64::from(planner.timing_jitter) + 1;
        let by_drift = nearest.saturating_sub(apart) * 1_000_000 / (1_000_000 + u64::from(planner.drift));
        by_drift.max(nearest.saturating_sub(2 * u64::from(planner.sync_error) + 1))
    }

    /// A likely end of the run from start that is known up to held.
    fn guess(&self, start: u64, held: u64, over: u64) -> u64 {
        if self.top < over {
            let further = held + (held - start);
            if self.top <= further {
                return self.top;
            }
            return self.top.min(self.before_rise(further));
        }
        let near = self.before_rise((held + over) / 2);
        if near < over {
            return near;
        }
        self.before_rise(held + 1)
    }

    /// The last duration of the run from an admissible one on.
    fn last_from(&mut self, start: u64) -> u64 {
        let (mut held, mut over) = (start, self.top + 1);
        while held + 1 < over {
            let likely = self.guess(start, held, over);
            let at = if held < likely && likely < over { likely } else { held + 1 };
            let below = self.refused_below(held + 1, at);
            if below <= held {
                held = at;
            } else {
                over = below;
            }
        }
        held
    }

    /// The first span that ends at a duration or later.
    fn span_from(&mut self, duration: u64) -> Option<SpanRecord> {
        if self.top < duration {
            return None;
        }
        let start = self.first_from(duration);
        if self.top < start {
            return None;
        }
        let first = if duration < start { start } else { 1 + self.refused_below(1, start) };
        Some(SpanRecord { first, last: self.last_from(start) })
    }

    fn span_after(&mut self, span: Option<SpanRecord>) -> Option<SpanRecord> {
        self.span_from(span.map_or(1, |span| span.last + 1))
    }
}

fn search(planner: &Planner) -> Search<'_> {
    Search { planner, top: u64::from(planner.top), evaluations: 0 }
}

/// One span; and the evaluations.
pub fn span(planner: &Planner, duration: u64) -> (Answer, u64) {
    if !valid_plan(planner) {
        return (Answer::refused(20), 0);
    }
    if duration < 1 || u64::from(planner.top) < duration {
        return (Answer::refused(10), 0);
    }
    let mut search = search(planner);
    let answer = match search.span_from(duration) {
        Some(span) => Answer::new(0, span.first, span.last),
        None => Answer::refused(25),
    };
    (answer, search.evaluations)
}

/// All spans; and the evaluations.
pub fn spans(planner: &Planner, list: &mut [SpanRecord]) -> (Answer, u64) {
    if !valid_plan(planner) {
        return (Answer::refused(20), 0);
    }
    let mut search = search(planner);
    let (mut span, mut count) = (None, 0);
    loop {
        span = search.span_after(span);
        if span.is_none() {
            break;
        }
        count += 1;
    }
    if list.len() < count {
        return (Answer::new(13, count as u64, 0), search.evaluations);
    }
    for record in &mut list[..count] {
        span = search.span_after(span);
        if let Some(span) = span {
            *record = span;
        }
    }
    (Answer::new(0, count as u64, 0), search.evaluations)
}

/// The fewest pieces that cover a span: from its end down, each as long as one evaluation shows.
pub fn pieces(planner: &Planner, span: SpanRecord) -> u64 {
    let mut search = search(planner);
    let mut last = span.last;
    while span.first <= last {
        last = search.need(last) - 1;
    }
    search.evaluations
}
