//! Random lists of offers (slip 9 of document 02) about every limit of the rows
//! that answer them, and buffers for the answers.

use super::Random;
use crate::core::{Turns, MOST_PACKETS, SHORTEST_PACKET};
use crate::hub::Hub;
use crate::offers::{Offer, MOST_OFFERS};
use crate::plan::Plan;

/// Packets about the limit of row 14, and about 0.
const PACKETS: [u64; 6] = [0, 1, 2, 63, 64, 65];

/// Lengths about the limits of row 15 by both framings, and about 0.
const LENGTHS: [u64; 11] = [0, 1, 511, 512, 513, 11_999, 12_000, 12_001, 35_999, 36_000, 36_001];

/// What, added to a number, leaves it as it was to one who keeps only its low bits.
const HIGH_BITS: [u64; 4] = [1 << 8, 1 << 16, 1 << 32, 1 << 63];

/// 0 to 66 offers to a plan's hub before any event.
pub fn list(random: &mut Random, plan: &Plan) -> Vec<Offer> {
    Buyer { random, plan, latest: vec![(0, 0); plan.nodes] }.list()
}

/// 0 to 66 offers to this hub of a plan. Many aim at what its reservations leave of
/// the frame: they just fit, or are one bit too much.
pub fn list_to<M: Turns>(random: &mut Random, plan: &Plan, hub: &Hub<M>) -> Vec<Offer> {
    Buyer { random, plan, latest: hub.latest() }.list()
}

/// A buffer to lend for so many answers: mostly as long or longer, sometimes too
/// short. None of its bytes is an answer, so that each one written shows.
pub fn buffer(random: &mut Random, answers: usize) -> Vec<u8> {
    let length = match random.below(20) {
        0..=8 => answers,
        9..=12 => answers + 1,
        13..=17 => answers + random.place(80),
        18 => answers.saturating_sub(1),
        _ => random.place(answers + 1),
    };
    (0..length).map(|_| random.within(100..=255) as u8).collect()
}

/// Who makes the offers.
pub(super) struct Buyer<'a> {
    pub(super) random: &'a mut Random,
    pub(super) plan: &'a Plan,
    /// The latest accepted reservations, n and b; node k at k - 1.
    pub(super) latest: Vec<(u64, u64)>,
}

impl Buyer<'_> {
    fn list(mut self) -> Vec<Offer> {
        let most = MOST_OFFERS as u64;
        let count = match self.random.below(20) {
            0 => self.random.within(most + 1..=most + 2),
            1..=3 => most,
            4 => most - 1,
            5 => 0,
            _ => self.random.within(0..=most),
        };
        let mut made = Vec::new();
        for _ in 0..count {
            let offer = self.offer(&made);
            made.push(offer);
        }
        made
    }

    /// The next offer behind those made.
    pub(super) fn offer(&mut self, made: &[Offer]) -> Offer {
        let k = self.random.within_or_end(1..=self.plan.nodes as u64);
        match self.random.below(100) {
            0..=44 => self.about_the_room(k),
            45..=54 => self.about_its_old_one(k),
            55..=59 => Offer { k, n: 0, b: 0 },
            60..=64 if !made.is_empty() => self.random.one_of(made),
            65..=69 if !made.is_empty() => {
                let k = self.random.one_of(made).k;
                Offer { k, n: self.packets(), b: self.length() }
            }
            _ => self.any_numbers(),
        }
    }

    /// Numbers about the limits of rows 13 to 15, or anywhere.
    pub(super) fn any_numbers(&mut self) -> Offer {
        Offer { k: self.node(), n: self.packets(), b: self.length() }
    }

    /// A node, or a number that is none.
    fn node(&mut self) -> u64 {
        let nodes = self.plan.nodes as u64;
        match self.random.below(100) {
            0..=84 => self.random.within_or_end(1..=nodes),
            85..=91 => self.random.one_of(&[0, nodes + 1]),
            _ => {
                let k = self.random.within(1..=nodes);
                self.huge(k)
            }
        }
    }

    fn packets(&mut self) -> u64 {
        match self.random.below(100) {
            0..=49 => self.random.one_of(&PACKETS),
            50..=94 => self.random.within(0..=MOST_PACKETS + 2),
            _ => {
                let n = self.random.within(0..=MOST_PACKETS);
                self.huge(n)
            }
        }
    }

    fn length(&mut self) -> u64 {
        let good = SHORTEST_PACKET..=self.plan.longest_packet();
        match self.random.below(100) {
            0..=49 => self.random.one_of(&LENGTHS),
            50..=94 => self.random.within_or_end(good),
            _ => {
                let b = self.random.within(good);
                self.huge(b)
            }
        }
    }

    /// A number in place of this one, mostly far above it.
    fn huge(&mut self, good: u64) -> u64 {
        match self.random.below(4) {
            0 => u64::MAX,
            1 => self.random.number(),
            _ => good + self.random.one_of(&HIGH_BITS),
        }
    }

    /// What the reservations of all others leave to k.
    pub(super) fn left(&self, k: u64) -> u64 {
        let others = (1..).zip(&self.latest).filter(|&(j, _)| j != k);
        let filled: u64 = others.map(|(_, &(n, b))| n * (b + self.plan.overhead)).sum();
        (self.plan.frame - self.plan.interrupt).saturating_sub(filled)
    }

    /// What just fills the frame, or is a bit less or more: to the very bit where
    /// some number of packets divides it so.
    pub(super) fn about_the_room(&mut self, k: u64) -> Offer {
        let left = self.left(k);
        let (overhead, longest) = (self.plan.overhead, self.plan.longest_packet());
        let least = left.div_ceil(longest + overhead).clamp(1, MOST_PACKETS);
        let most = (left / (SHORTEST_PACKET + overhead)).clamp(least, MOST_PACKETS);
        let aim = (left + self.random.below(3)).saturating_sub(1);
        let even: Vec<u64> = (least..=most).filter(|&n| aim.is_multiple_of(n)).collect();
        let n = match even.is_empty() || self.random.chance(30) {
            true => self.random.within_or_end(least..=most),
            false => self.random.one_of(&even),
        };
        let b = (aim / n).saturating_sub(overhead);
        let more = if aim.is_multiple_of(n) { 0 } else { self.random.below(2) };
        // Row 15 would stand before row 17.
        Offer { k, n, b: (b + more).clamp(SHORTEST_PACKET, longest) }
    }

    /// What k has already, or a packet or a bit less or more.
    fn about_its_old_one(&mut self, k: u64) -> Offer {
        let (n, b) = self.latest[k as usize - 1];
        let about = |number: u64, more: u64| (number + more).saturating_sub(1);
        match self.random.below(3) {
            0 => Offer { k, n, b },
            1 => Offer { k, n: about(n, self.random.below(3)), b },
            _ => Offer { k, n, b: about(b, self.random.below(3)) },
        }
    }
}
