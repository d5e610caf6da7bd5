//! A whole text read into tables that are all 0: its lines from the front, then what is missing, then absent ports.

use super::grammar::{fault, item, Kind, Refused};
use super::line::Line;
use super::words::Words;
use crate::answers::Planner;
use crate::jump::{FLOWS, MAX_HOPS, STRIDE};

const MOST_BYTES: usize = 65_536;

/// What the lines so far have filled, and what they said.
struct Draft<'a> {
    tables: &'a mut Planner,
    begun: bool,
    guarded: bool,
    clocked: bool,
    /// Ports that have a line, and ports that some route names.
    present: u64,
    named: u64,
    /// The line of each flow, 0 where it has none.
    lines: [u32; FLOWS],
}

impl Draft<'_> {
    fn newer(&self) -> bool {
        self.tables.form == 1
    }

    fn line(&mut self, number: u32, words: &mut Words) -> Result<(), Refused> {
        let Some(first) = words.next() else { return Ok(()) };
        let kind = match Kind::of(first) {
            Some(Kind::Format) if self.begun => None,
            kind => kind,
        };
        let kind = kind.ok_or(Refused::new(fault::WORD, item::FIRST, 0))?;
        let line = Line::read(kind, words, if self.newer() { STRIDE } else { MAX_HOPS })?;
        if self.says_again(&line) {
            return Err(Refused::new(fault::AGAIN, kind.places()[0].item, line.numbers[0]));
        }
        self.store(number, &line)
    }

    fn says_again(&self, line: &Line) -> bool {
        let slot = (line.numbers[0] as usize).wrapping_sub(1);
        match line.kind {
            Kind::Guard => self.guarded,
            Kind::Top => self.tables.top != 0,
            Kind::Port => self.tables.rates[slot] != 0,
            Kind::Flow => self.tables.periods[slot] != 0,
            Kind::Clocks => self.clocked,
            Kind::Format => self.newer(),
        }
    }

    fn store(&mut self, number: u32, line: &Line) -> Result<(), Refused> {
        let numbers = line.numbers;
        match line.kind {
            Kind::Guard => {
                self.guarded = true;
                self.tables.guard = numbers[0] as u32;
            }
            Kind::Top => self.tables.top = numbers[0] as u32,
            Kind::Port => self.port(numbers[0] as usize - 1, line),
            Kind::Flow => self.flow(number, numbers[0] as usize - 1, line)?,
            Kind::Clocks => {
                self.clocked = true;
                self.tables.drift = numbers[0] as u32;
                self.tables.timing_jitter = numbers[1] as u32;
                self.tables.sync_error = numbers[2] as u32;
            }
            Kind::Format => self.tables.form = 1,
        }
        self.begun |= line.kind != Kind::Format;
        Ok(())
    }

    fn port(&mut self, slot: usize, line: &Line) {
        self.present |= 1 << slot;
        self.tables.rates[slot] = line.numbers[1] as u32;
        self.tables.blockings[slot] = line.numbers[2] as u16;
        self.tables.extras[slot] = line.numbers[3] as u8;
    }

    fn flow(&mut self, number: u32, slot: usize, line: &Line) -> Result<(), Refused> {
        let Some(route) = &line.route else { return Ok(()) };
        self.named |= route.set().ok_or(Refused::new(fault::TWICE, item::ROUTE, 0))?;
        self.lines[slot] = number;
        self.tables.periods[slot] = line.numbers[1] as u32;
        self.tables.counts[slot] = line.numbers[2] as u16;
        self.tables.lengths[slot] = line.numbers[3] as u16;
        self.tables.jitters[slot] = line.numbers[4] as u32;
        self.tables.hops[slot] = route.ports().len() as u8;
        for (place, port) in self.tables.routes[slot * STRIDE..].iter_mut().zip(route.ports()) {
            *place = *port as u8;
        }
        Ok(())
    }

    /// The lowest line that names an absent port, and the first such port there.
    fn first_absent(&self) -> Option<(u32, u8)> {
        let absent = |port: &u8| self.present & 1 << (port - 1) == 0;
        let of_flow = |slot: usize| {
            let route = &self.tables.routes[slot * STRIDE..][..usize::from(self.tables.hops[slot])];
            route.iter().copied().find(absent).map(|port| (self.lines[slot], port))
        };
        (0..FLOWS).filter_map(of_flow).min_by_key(|(line, _)| *line)
    }

    /// The tests behind the last line.
    fn close(&self, after: u32) -> Result<(), (u32, Refused)> {
        let missing = |item| Err((after, Refused::new(fault::INCOMPLETE, item, 0)));
        if !self.guarded {
            return missing(item::GUARD);
        }
        if self.tables.top == 0 {
            return missing(item::TOP);
        }
        if self.lines.iter().all(|line| *line == 0) {
            return missing(item::FLOW);
        }
        if self.named & !self.present != 0 {
            if let Some((line, port)) = self.first_absent() {
                return Err((line, Refused::new(fault::ABSENT, item::ROUTE, u64::from(port))));
            }
        }
        Ok(())
    }
}

/// Nothing where the tables hold the plan; the line at which the text is refused, and why. A refusal leaves the tables half filled.
pub fn read(text: &[u8], tables: &mut Planner) -> Result<(), (u32, Refused)> {
    if text.len() > MOST_BYTES {
        return Err((1, Refused::new(fault::SIZE, item::FIRST, 0)));
    }
    let mut draft =
        Draft { tables, begun: false, guarded: false, clocked: false, present: 0, named: 0, lines: [0; FLOWS] };
    let (mut words, mut number) = (Words(text), 1);
    while !words.0.is_empty() {
        draft.line(number, &mut words).map_err(|refused| (number, refused))?;
        words.next_line();
        number += 1;
    }
    draft.close(number)
}
