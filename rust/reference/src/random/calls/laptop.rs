//! Scenes of slip 8: high requests of nodes that have no reservation, and
//! reservations that come into force or end about them.

use super::turned::BusyOver;
use super::Caller;
use crate::core::{MOST_PACKETS, SHORTEST_PACKET};
use crate::hub::Call;

impl Caller {
    /// A node that has a latest reservation, or has none, if a few looks find one.
    pub(super) fn some_node(&mut self, reserved: bool) -> Option<u64> {
        let looks: [u64; 4] = std::array::from_fn(|_| self.random.within(1..=self.nodes));
        let busy = self.random.one_of(&self.busy_nodes);
        looks.into_iter().chain([busy]).find(|&k| (self.latest[k as usize - 1].0 > 0) == reserved)
    }

    /// An unreserved node asks high while the line is busy over a frame's start,
    /// from which on it has a reservation; then it asks again, or just waits.
    pub(super) fn over_a_start(&mut self, k: u64) -> Vec<Call> {
        let BusyOver { calls: mut scene, start, before: t, most } = self.busy_over_start();
        let (n, b) = self.fitting(k);
        scene.push(Call::High { t, k, b: self.random.within_or_end(self.lengths()) });
        scene.push(Call::Reserve { t, k, n, b });
        let later = start + self.random.below(most);
        scene.push(match self.random.below(5) {
            0 | 1 => Call::High { t: later, k, b },
            2 => Call::High { t: later, k, b: b + 1 },
            3 => Call::Until { t: later },
            _ => Call::Step { t: later },
        });
        scene
    }

    /// A node reserves, and asks high in that frame or in the next, with the clock
    /// before it.
    pub(super) fn reserved_by_then(&mut self, k: u64) -> Vec<Call> {
        let (n, b) = self.fitting(k);
        let t = self.random.one_of(&[self.clock, self.next_start() - 1, self.next_start()]);
        vec![Call::Reserve { t: self.clock, k, n, b }, Call::High { t, k, b }]
    }

    /// A node gives its reservation up, and asks high about the next frame's start.
    pub(super) fn given_up_by_then(&mut self, k: u64) -> Vec<Call> {
        let (_, b) = self.latest[k as usize - 1];
        let t = self.random.one_of(&[self.next_start() - 1, self.next_start(), self.next_start() + 1]);
        let b = self.random.one_of(&[SHORTEST_PACKET, b, b + 1]);
        vec![Call::Reserve { t: self.clock, k, n: 0, b: 0 }, Call::High { t, k, b }]
    }

    /// A small reservation, one that fits if any does.
    fn fitting(&mut self, k: u64) -> (u64, u64) {
        let left = self.left(k);
        let most = (left / (SHORTEST_PACKET + self.overhead)).clamp(1, MOST_PACKETS.min(3));
        let n = self.random.within(1..=most);
        let fits = (left / n).saturating_sub(self.overhead).clamp(SHORTEST_PACKET, self.longest);
        (n, self.random.within_or_end(SHORTEST_PACKET..=fits))
    }
}
