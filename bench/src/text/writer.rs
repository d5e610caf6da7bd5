//! The tables of a planner as text: its length first, then its bytes into the lent slice.

use crate::answers::{Answer, Planner};
use crate::jump::{FLOWS, PORTS, STRIDE};
use crate::valid::valid_plan;

/// Where the parts of a text go one after the other.
trait Sink {
    fn word(&mut self, word: &[u8]);
    fn number(&mut self, number: u32);

    /// A word and its number.
    fn pair(&mut self, word: &[u8], number: u32) {
        self.word(word);
        self.number(number);
    }

    /// The same, left out where the number is what its absence says.
    fn unless(&mut self, absent: u32, word: &[u8], number: u32) {
        if number != absent {
            self.pair(word, number);
        }
    }
}

/// How many digits a number has.
fn digits(number: u32) -> usize {
    number.checked_ilog10().map_or(1, |log| log as usize + 1)
}

/// How many bytes there are.
struct Length(usize);

impl Sink for Length {
    fn word(&mut self, word: &[u8]) {
        self.0 += word.len();
    }

    fn number(&mut self, number: u32) {
        self.0 += digits(number);
    }
}

/// What remains of a slice that is long enough.
struct Rest<'a>(&'a mut [u8]);

impl<'a> Rest<'a> {
    fn front(&mut self, length: usize) -> &'a mut [u8] {
        let (front, rest) = std::mem::take(&mut self.0).split_at_mut(length);
        self.0 = rest;
        front
    }
}

impl Sink for Rest<'_> {
    fn word(&mut self, word: &[u8]) {
        self.front(word.len()).copy_from_slice(word);
    }

    fn number(&mut self, mut number: u32) {
        for digit in self.front(digits(number)).iter_mut().rev() {
            *digit = b'0' + (number % 10) as u8;
            number /= 10;
        }
    }
}

fn put_port(sink: &mut impl Sink, planner: &Planner, slot: usize) {
    sink.pair(b"port ", slot as u32 + 1);
    sink.pair(b" rate ", planner.rates[slot]);
    sink.unless(0, b" blocker ", u32::from(planner.blockings[slot]));
    sink.unless(0, b" extra ", u32::from(planner.extras[slot]));
    sink.word(b"\n");
}

fn put_flow(sink: &mut impl Sink, planner: &Planner, slot: usize) {
    sink.pair(b"flow ", slot as u32 + 1);
    sink.pair(b" period ", planner.periods[slot]);
    sink.unless(1, b" count ", u32::from(planner.counts[slot]));
    sink.pair(b" length ", u32::from(planner.lengths[slot]));
    sink.unless(0, b" jitter ", planner.jitters[slot]);
    sink.word(b" route");
    for port in &planner.routes[slot * STRIDE..][..usize::from(planner.hops[slot])] {
        sink.pair(b" ", u32::from(*port));
    }
    sink.word(b"\n");
}

fn put_text(sink: &mut impl Sink, planner: &Planner) {
    if planner.form == 1 {
        sink.word(b"format 2\n");
    }
    sink.pair(b"guard ", planner.guard);
    sink.pair(b"\ntop ", planner.top);
    sink.word(b"\n");
    (0..PORTS).filter(|slot| planner.rates[*slot] != 0).for_each(|slot| put_port(sink, planner, slot));
    (0..FLOWS).filter(|slot| planner.periods[*slot] != 0).for_each(|slot| put_flow(sink, planner, slot));
    if (planner.drift, planner.timing_jitter, planner.sync_error) != (0, 0, 0) {
        sink.pair(b"clocks drift ", planner.drift);
        sink.pair(b" timing ", planner.timing_jitter);
        sink.pair(b" sync ", planner.sync_error);
        sink.word(b"\n");
    }
}

/// The answer `text` gives.
pub fn write(planner: &Planner, buffer: &mut [u8]) -> Answer {
    if !valid_plan(planner) {
        return Answer::refused(20);
    }
    let mut length = Length(0);
    put_text(&mut length, planner);
    if buffer.len() < length.0 {
        return Answer::new(13, length.0 as u64, 0);
    }
    put_text(&mut Rest(buffer), planner);
    Answer::new(0, length.0 as u64, 0)
}
