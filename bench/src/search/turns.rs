//! A set of ports that has the same turns: one of each group of short flows and of each share.

use super::candidate::{Late, LENGTHS, OVERHEAD};
use super::layout::{large_flow, Layout};

/// The rises of a turn: those behind one, so many.
#[derive(Clone, Copy)]
pub struct Turn {
    pub behind: usize,
    pub rises: usize,
}

/// A port of a set.
#[derive(Clone, Copy)]
pub struct Seat {
    pub group: usize,
    pub share: usize,
}

/// All its turns are crossed by the same fine flows.
#[derive(Clone, Default)]
pub struct Set {
    pub turns: Vec<Turn>,
}

impl Set {
    pub fn seats(&self, layout: &Layout) -> Vec<Seat> {
        let groups = layout.choice.short.groups as usize;
        (0..groups).flat_map(|group| (0..layout.choice.sharing).map(move |share| Seat { group, share })).collect()
    }

    /// The rises of the first turn that cross a port.
    pub fn rises(&self, layout: &Layout, seat: Seat) -> impl Iterator<Item = usize> {
        let (sharing, turn) = (layout.choice.sharing, self.turns[0]);
        let shared = turn.rises / sharing * sharing;
        (1..=shared).filter(move |rise| rise % sharing == seat.share).map(move |rise| turn.behind + rise)
    }

    /// Slack above the floor just after a rise and before the next short one, without large flows and blocker.
    fn slack(&self, layout: &Layout, after: usize, seat: Seat) -> f64 {
        let fine = layout.choice.fine;
        // The flow that rises at 0 does not rise at 1 ns as well.
        let begun = |rise: usize| 1 + (after + fine - rise % fine) / fine - usize::from(rise % fine == 0);
        let frames: usize = self.rises(layout, seat).map(begun).sum();
        layout.gain * layout.at(after) - spread(layout, seat.group) - layout.frame * frames as f64 - floor(layout)
    }

    /// What is above the slack that a port has to have when its first turn begins.
    fn over(&self, layout: &Layout, seat: Seat) -> f64 {
        let sharing = layout.choice.sharing;
        let wanted = layout.choice.left + ((sharing - seat.share) % sharing) as f64 * layout.frame / sharing as f64;
        self.slack(layout, self.turns[0].behind, seat) - wanted
    }

    /// The large flows of the turns after the first, without ports: each takes what was gained since the turn before.
    fn later(&self, layout: &Layout) -> Option<Vec<Late>> {
        let seat = Seat { group: 0, share: 0 };
        let mut taken = self.slack(layout, self.turns[0].behind, seat);
        let mut flows = Vec::new();
        for turn in &self.turns[1..] {
            let flow = large_flow(layout.at(turn.behind), (self.slack(layout, turn.behind, seat) - taken) / layout.ns(1))?;
            taken += layout.ns(flow.bits() / 8);
            flows.push(flow);
        }
        Some(flows)
    }

    /// The large flows, without ports, and the blockers; none where a port would fail after the first turn of all has begun.
    pub fn brought_down(&self, layout: &Layout) -> Option<(Vec<Late>, Vec<u64>)> {
        let (seats, mut flows) = (self.seats(layout), self.later(layout)?);
        let later: u64 = flows.iter().map(|flow| flow.bits() / 8).sum();
        let over: Vec<f64> = seats.iter().map(|seat| self.over(layout, *seat) - layout.ns(later)).collect();
        let least = over.iter().copied().fold(f64::MAX, f64::min) / layout.ns(1) - (LENGTHS.0 + OVERHEAD) as f64;
        let behind = self.turns[0].behind;
        let flow = large_flow(layout.at(behind), least / 2.0)?;
        let taken = flow.bits() / 8;
        flows.push(flow);
        let mut blockers = Vec::new();
        for (seat, over) in seats.iter().zip(over) {
            let blocker = (over / layout.ns(1)) as u64 - 2 * taken;
            let all = layout.ns(later + taken + blocker);
            let mut looked = layout.first..behind.min(layout.first + layout.choice.sharing + 1);
            if blocker > LENGTHS.1 + OVERHEAD || looked.any(|after| self.slack(layout, after, *seat) < all) {
                return None;
            }
            blockers.push(blocker - OVERHEAD);
        }
        Some((flows, blockers))
    }
}

/// What the short flows of a group bring before their time.
fn spread(layout: &Layout, group: usize) -> f64 {
    let short = &layout.choice.short;
    let groups = short.groups as usize;
    (short.period() - short.distance * if group == 0 { groups } else { group } as u64) as f64
}

/// The least slack before a rise of a group at which the phases before the other groups' rises pass.
fn floor(layout: &Layout) -> f64 {
    let short = &layout.choice.short;
    ((short.groups - 1) * short.distance) as f64
}
