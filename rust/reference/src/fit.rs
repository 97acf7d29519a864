//! What would make it fit (slip 10 of document 02), by plain search: one change
//! after the other is asked of the hub, and none is made.

use crate::core::{Row, Turns, SHORTEST_PACKET};
use crate::hub::{Answer, Call, Hub};
use crate::offers::Offer;
use std::fmt;

/// "The smallest single change that would turn it into a grant."
#[derive(Clone, Copy, Debug, PartialEq, Eq)]
pub enum Fit {
    /// "An offer whose Slip 9 answer isn't 17 gets that answer back."
    Answer(Row),
    /// "The largest lower n of at least 1 for the same node and b."
    Packets(u64),
    /// "The largest lower b from 512 on at the same n."
    Bits(u64),
    /// "The other node whose whole release suffices with the least n × c."
    Release(u64),
    /// "If none, say so."
    Nothing,
}

impl fmt::Display for Fit {
    /// The words of the lists of calls.
    fn fmt(&self, out: &mut fmt::Formatter<'_>) -> fmt::Result {
        match self {
            Fit::Answer(row) => write!(out, "answer {row}"),
            Fit::Packets(n) => write!(out, "packets {n}"),
            Fit::Bits(b) => write!(out, "bits {b}"),
            Fit::Release(j) => write!(out, "release {j}"),
            Fit::Nothing => write!(out, "nothing"),
        }
    }
}

impl<M: Turns + Clone> Hub<M> {
    /// "After a 17, tell the planner the smallest single change", at the clock.
    pub fn fit(&self, offer: Offer) -> Fit {
        self.fit_at(self.clock(), offer)
    }

    /// The same at a time, which may be any: 11 and 12 can be answers too.
    pub fn fit_at(&self, t: u64, offer: Offer) -> Fit {
        match self.answer_alone(t, offer) {
            17 => self.smallest_change(t, offer),
            row => Fit::Answer(Row::from(row)),
        }
    }

    /// "First choice", then "if none" and again "if none".
    fn smallest_change(&self, t: u64, offer: Offer) -> Fit {
        if let Some(n) = self.largest_lower_n(t, offer) {
            Fit::Packets(n)
        } else if let Some(b) = self.largest_lower_b(offer) {
            Fit::Bits(b)
        } else if let Some(j) = self.cheapest_release(t, offer) {
            Fit::Release(j)
        } else {
            Fit::Nothing
        }
    }

    /// "The largest lower n of at least 1 for the same node and b."
    fn largest_lower_n(&self, t: u64, offer: Offer) -> Option<u64> {
        (1..offer.n).rev().find(|&n| self.answer_alone(t, Offer { n, ..offer }) == 0)
    }

    /// "The largest lower b from 512 on at the same n." They are many, so each is
    /// tried without a copy. The time is good, or there were no 17.
    fn largest_lower_b(&self, Offer { k, n, b }: Offer) -> Option<u64> {
        (SHORTEST_PACKET..b).rev().find(|&b| self.reserve_row(k, n, b).is_ok())
    }

    /// "The other node whose whole release suffices with the least n × c."
    fn cheapest_release(&self, t: u64, offer: Offer) -> Option<u64> {
        let others = (1..).zip(self.latest()).filter(|&(j, (n, _))| j != offer.k && n > 0);
        let suffice = others.filter(|&(j, _)| self.suffices(t, j, offer));
        // Of equal ones the first: "the lower number winning a tie".
        suffice.min_by_key(|&(_, (n, b))| n * (b + self.overhead())).map(|(j, _)| j)
    }

    /// Whether a copy that gave up j's "whole" reservation would take the offer.
    fn suffices(&self, t: u64, j: u64, offer: Offer) -> bool {
        let mut copy = self.clone();
        let given_up = copy.call(Call::Reserve { t, k: j, n: 0, b: 0 });
        given_up == Answer::Taken && copy.answer_alone(t, offer) == 0
    }
}
