//! The step, and what is due.

use super::tables::*;
use crate::core::{Class, LAST_TIME};
use crate::hub::Answer;

impl Peer {
    /// The due instant, or `u64::MAX`.
    #[inline]
    pub(super) fn due(&self) -> u64 {
        if self.busy {
            self.end
        } else if self.standing == 0 {
            u64::MAX
        } else if self.shown[NORMAL][ROOT] | self.shown[HIGH][ROOT] != 0 {
            self.clock
        } else {
            self.next_start
        }
    }

    /// A step with bound t.
    #[inline(never)]
    pub fn step(&mut self, t: u64) -> Answer {
        if t > LAST_TIME || t < self.clock {
            return Answer::Refused(11);
        }
        let time = self.due();
        if time >= t {
            return Answer::Quiet;
        }
        self.move_clock(time);
        let (normal, high) = (self.shown[NORMAL][ROOT], self.shown[HIGH][ROOT]);
        if normal | high == 0 {
            self.busy = false;
            return Answer::Rest { time, moves: self.up_to(ROOT) };
        }
        self.grant(time, usize::from(high != 0))
    }

    #[inline]
    fn grant(&mut self, time: u64, class: usize) -> Answer {
        let (k, moves) = self.turn(class);
        let node = at_mut(&mut self.node, k);
        node.stands = NONE;
        node.left -= class as u8;
        let (hub, bit, bits) = (usize::from(node.hub), node.bit, node.bits);
        self.hide(class, hub, bit);
        self.standing -= 1;
        self.busy = true;
        self.end = time + u64::from(bits) + self.overhead;
        let class = if class == HIGH { Class::High } else { Class::Normal };
        let wait = time - at(&self.since, k);
        Answer::Grant { time, node: k as u64 + 1, class, end: self.end, moves, wait }
    }
}
