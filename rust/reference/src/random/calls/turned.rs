//! Scenes of slip 1: high requests that a frame's start turns normal and what
//! follows on them, requests replaced time and again, and long queues.

use super::Caller;
use crate::core::{LAST_TIME, SHORTEST_PACKET};
use crate::hub::Call;

/// A line that is busy over a frame's start.
pub(super) struct BusyOver {
    /// The calls that make it so.
    pub calls: Vec<Call>,
    /// The start, a time before it with the line busy, and how long it is so from
    /// the start on.
    pub start: u64,
    pub before: u64,
    pub most: u64,
}

impl Caller {
    /// The line is made busy over the next start, if it isn't yet.
    pub(super) fn busy_over_start(&mut self) -> BusyOver {
        let start = self.next_start();
        if self.end > start {
            return BusyOver { calls: Vec::new(), start, before: self.clock, most: self.end - start };
        }
        let before = start - 1;
        let k = self.random.within(1..=self.nodes);
        let rest = Call::Step { t: before };
        let calls = vec![rest, Call::Normal { t: before, k, b: self.longest }, Call::Step { t: start }];
        BusyOver { calls, start, before, most: self.longest }
    }

    /// A node asks high while the line is busy over a frame's start, at which its
    /// reservation is gone or too short; then it asks again, or just waits.
    pub(super) fn turned_at_a_start(&mut self, k: u64) -> Vec<Call> {
        let (n, b) = self.latest[k as usize - 1];
        let BusyOver { calls: mut scene, start, before: t, most } = self.busy_over_start();
        let lower = (n, self.random.within_or_end(SHORTEST_PACKET..=b.max(SHORTEST_PACKET + 1) - 1));
        let (n, lower) = self.random.one_of(&[(0, 0), lower]);
        scene.extend([Call::High { t, k, b }, Call::Reserve { t, k, n, b: lower }]);
        let mut later = start;
        for _ in 0..self.random.within(1..=3) {
            later += self.random.one_of(&[0, 1, most / 4]);
            scene.push(self.behind_a_start(later, k, lower));
        }
        scene
    }

    /// What comes behind a start at which k's reservation is for this many bits.
    fn behind_a_start(&mut self, t: u64, k: u64, b: u64) -> Call {
        match self.random.below(8) {
            0..=2 => Call::Normal { t, k, b: self.random.within_or_end(self.lengths()) },
            3 | 4 => Call::High { t, k, b: b.max(SHORTEST_PACKET) },
            5 => Call::Off { t, k },
            6 => Call::Step { t },
            _ => Call::Until { t },
        }
    }

    /// A node asks four times while nothing is due, mostly in one class.
    pub(super) fn asks_again(&mut self, k: u64) -> Vec<Call> {
        let (_, reserved) = self.latest[k as usize - 1];
        let b = reserved.max(SHORTEST_PACKET);
        let high = self.random.chance(50);
        let mut t = self.clock;
        let mut scene = Vec::new();
        for _ in 0..4 {
            let high = high != self.random.chance(15);
            scene.push(if high { Call::High { t, k, b } } else { Call::Normal { t, k, b } });
            t = self.random.within_or_end(t..=self.quiet_time().max(t));
        }
        scene
    }

    /// Many nodes ask at once with the longest packets, and all of them have their
    /// turns: the last ones wait over many frame starts where frames are short.
    pub(super) fn long_queue(&mut self) -> Vec<Call> {
        let many = self.nodes.min(self.random.within(20..=60));
        let t = self.clock;
        let asks = (1..=many).map(|k| Call::Normal { t, k, b: self.longest });
        let bound = LAST_TIME.min(t + 60 * self.frame);
        asks.chain((0..many).map(|_| Call::Step { t: bound })).collect()
    }
}
