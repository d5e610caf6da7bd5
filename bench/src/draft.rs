//! Fields taken into fresh tables, each by tests 4 to 7. SETS says whether test 7 goes by bits or port by port.

use crate::answers::Planner;
use crate::bytes::{be16, be32, bit, in_range, ports, repeats, slot_of, FlowSet};
use crate::jump::{FLOWS, MAX_HOPS, STRIDE};

pub const FLOW_NUMBERS: usize = 10;
const MAX_JITTER: u32 = 10_000_000;

/// What the fields taken so far have filled, and which came.
pub struct Draft<'a> {
    pub tables: &'a mut Planner,
    pub ports: u64,
    pub flows: u64,
    /// Ports that have a field, and ports that some route names.
    pub present: u64,
    pub named: u64,
    /// Ports that have a field of extra bytes.
    pub lengthened: u64,
    /// Flows that have a field of jitter, and flows that have a field of their own.
    pub delayed: FlowSet,
    pub emitting: FlowSet,
    /// Whether there was a field of clocks.
    clocked: bool,
}

impl<'a> Draft<'a> {
    pub fn new(tables: &'a mut Planner) -> Draft<'a> {
        let (delayed, emitting) = Default::default();
        Draft { tables, ports: 0, flows: 0, present: 0, named: 0, lengthened: 0, delayed, emitting, clocked: false }
    }

    pub fn header(&mut self, value: &[u8]) -> Result<(), u32> {
        let value: &[u8; 8] = value.try_into().map_err(|_| 4u32)?;
        let (guard, top) = (be32(value, 0), be32(value, 4));
        if guard > 1_000_000 || !(1..=100_000_000).contains(&top) {
            return Err(5);
        }
        if self.tables.top != 0 {
            return Err(6);
        }
        self.tables.guard = guard;
        self.tables.top = top;
        Ok(())
    }

    pub fn port(&mut self, value: &[u8]) -> Result<(), u32> {
        let value: &[u8; 8] = value.try_into().map_err(|_| 4u32)?;
        let (number, rate, blocking) = (be16(value, 0), be32(value, 2), be16(value, 6));
        if !in_range(number)
            || !(1..=100_000).contains(&rate)
            || (blocking != 0 && !(64..=2_000).contains(&blocking))
        {
            return Err(5);
        }
        if self.present & bit(number) != 0 {
            return Err(6);
        }
        self.present |= bit(number);
        self.ports += 1;
        self.tables.rates[number as usize - 1] = rate;
        self.tables.blockings[number as usize - 1] = blocking;
        Ok(())
    }

    pub fn extra(&mut self, value: &[u8]) -> Result<(), u32> {
        let value: &[u8; 4] = value.try_into().map_err(|_| 4u32)?;
        let (number, extra) = (be16(value, 0), be16(value, 2));
        if !in_range(number) || extra > 64 {
            return Err(5);
        }
        if self.lengthened & bit(number) != 0 {
            return Err(6);
        }
        self.lengthened |= bit(number);
        self.tables.extras[number as usize - 1] = extra as u8;
        Ok(())
    }

    pub fn jitter(&mut self, value: &[u8]) -> Result<(), u32> {
        let value: &[u8; 6] = value.try_into().map_err(|_| 4u32)?;
        let (number, jitter) = (be16(value, 0), be32(value, 2));
        if !(1..=FLOWS as u16).contains(&number) || jitter > MAX_JITTER {
            return Err(5);
        }
        if self.delayed.has(slot_of(number)) {
            return Err(6);
        }
        self.delayed.add(slot_of(number));
        self.tables.jitters[slot_of(number)] = jitter;
        Ok(())
    }

    pub fn clocks(&mut self, value: &[u8]) -> Result<(), u32> {
        let value: &[u8; 12] = value.try_into().map_err(|_| 4u32)?;
        let (drift, timing_jitter, sync_error) = (be32(value, 0), be32(value, 4), be32(value, 8));
        if drift > 1_000 || timing_jitter > 1_000 || sync_error > 1_000_000 {
            return Err(5);
        }
        if self.clocked {
            return Err(6);
        }
        self.clocked = true;
        self.tables.drift = drift;
        self.tables.timing_jitter = timing_jitter;
        self.tables.sync_error = sync_error;
        Ok(())
    }

    pub fn flow<const SETS: bool>(&mut self, value: &[u8]) -> Result<(), u32> {
        let route = value.get(FLOW_NUMBERS..).ok_or(4u32)?;
        let hops = route.len() / 2;
        if !(1..=MAX_HOPS).contains(&hops) || route.len() % 2 != 0 {
            return Err(4);
        }
        let (number, period) = (be16(value, 0), be32(value, 2));
        let (count, length) = (be16(value, 6), be16(value, 8));
        if !(1..=FLOWS as u16).contains(&number)
            || !(1_000..=100_000_000).contains(&period)
            || !(1..=64).contains(&count)
            || !(64..=2_000).contains(&length)
        {
            return Err(5);
        }
        let slot = slot_of(number);
        let (mut seen, mut repeated) = (0, false);
        let stored = &mut self.tables.routes[slot * STRIDE..][..hops];
        for (stored, port) in stored.iter_mut().zip(ports(route)) {
            if !in_range(port) {
                return Err(5);
            }
            repeated |= seen & bit(port) != 0;
            seen |= bit(port);
            *stored = port as u8;
        }
        if self.emitting.has(slot) {
            return Err(6);
        }
        let repeated = if SETS { repeated } else { repeats(route) };
        if repeated {
            return Err(7);
        }
        self.named |= seen;
        self.flows += 1;
        self.emitting.add(slot);
        self.tables.periods[slot] = period;
        self.tables.counts[slot] = count;
        self.tables.lengths[slot] = length;
        self.tables.hops[slot] = hops as u8;
        Ok(())
    }
}
