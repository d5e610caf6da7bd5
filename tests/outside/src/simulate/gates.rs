//! A gate control list played: what each queue's gate is at each instant, and what it should be.

/// The entries of a list: gate states and interval; none where the bytes are no fields of tag 21 and length 5.
pub fn entries(list: &[u8]) -> Option<Vec<(u8, u64)>> {
    let entry = |field: &[u8]| match *field {
        [0x21, 0, 5, states, a, b, c, d] => Some((states, u64::from(u32::from_be_bytes([a, b, c, d])))),
        _ => None,
    };
    list.chunks(8).map(entry).collect()
}

/// Whether a queue's gate is open at an instant; none where the list has come to its end.
fn is_open(entries: &[(u8, u64)], instant: u64, queue: u64) -> Option<bool> {
    let mut until = 0;
    for (states, interval) in entries {
        until += interval;
        if instant < until {
            return Some(states >> queue & 1 == 1);
        }
    }
    None
}

/// The two queues that take turns, the duration of a cycle and the guard band at each of its ends.
#[derive(Clone, Copy, Debug)]
pub struct Turns {
    pub duration: u64,
    pub guard: u64,
    pub even: u64,
    pub odd: u64,
}

impl Turns {
    /// Whether a queue's gate must be open at an instant of the two cycles.
    fn must_open(&self, instant: u64, queue: u64) -> bool {
        let (cycle, within) = (instant / self.duration, instant % self.duration);
        let sending = self.guard <= within && within + self.guard < self.duration;
        match queue {
            _ if queue == self.even => sending && cycle == 0,
            _ if queue == self.odd => sending && cycle == 1,
            _ => true,
        }
    }

    /// The first of some instants at which a gate is not as it must be.
    pub fn first_wrong(&self, entries: &[(u8, u64)], mut instants: impl Iterator<Item = u64>) -> Option<u64> {
        let both_cycles = 2 * self.duration;
        instants.find(|instant| {
            let right = |queue: u64| match is_open(entries, *instant, queue) {
                Some(open) => *instant < both_cycles && open == self.must_open(*instant, queue),
                None => *instant >= both_cycles,
            };
            let open = |queue: u64| is_open(entries, *instant, queue) == Some(true);
            !(0..8).all(right) || (open(self.even) && open(self.odd))
        })
    }

    /// Instants at which something changes, and those beside them.
    pub fn edges(&self) -> Vec<u64> {
        let (long, guard) = (self.duration, self.guard);
        let changes = [0, guard, long - guard, long, long + guard, 2 * long - guard, 2 * long];
        changes.iter().flat_map(|change| change.saturating_sub(2)..=change + 2).collect()
    }
}
