//! Random lists of the six calls. The caller listens to the answers, so that it
//! can hit instants exactly and meet every row of the table.

use super::Random;
use crate::core::{LAST_TIME, MOST_PACKETS, SHORTEST_PACKET};
use crate::hub::{Answer, Call, Calls};
use crate::plan::Plan;
use std::ops::RangeInclusive;

mod laptop;
mod turned;

/// Lengths about the longest packets of both framings.
const NEAR_LONGEST: [u64; 6] = [11_999, 12_000, 12_001, 35_999, 36_000, 36_001];

/// How a caller behaves.
#[derive(Clone, Copy, Debug, PartialEq, Eq)]
pub enum Style {
    /// Everything, with refused calls of every row among it.
    Mixed,
    /// Full reservations and nodes that ask again after each grant, so that
    /// demand 3's premises mostly hold.
    Loaded,
}

/// Who makes the calls.
#[derive(Clone, Debug)]
pub struct Caller {
    random: Random,
    style: Style,
    frame: u64,
    overhead: u64,
    room: u64,
    longest: u64,
    nodes: u64,
    /// The nodes mostly spoken of.
    busy_nodes: Vec<u64>,
    clock: u64,
    /// The latest grant's end.
    end: u64,
    /// No instant is due before this, so far as the answers tell.
    quiet: u64,
    /// The latest accepted reservations, n and b; node k at k - 1.
    latest: Vec<(u64, u64)>,
    /// Nodes that will ask again.
    again: Vec<u64>,
    /// The calls of a scene that are left, the next one last.
    scene: Vec<Call>,
    made: u64,
}

/// A list of calls with the answers of this hub.
pub fn list(
    plan: &Plan,
    seed: u64,
    style: Style,
    length: usize,
    hub: &mut (impl Calls + ?Sized),
) -> Vec<(Call, Answer)> {
    let mut caller = Caller::new(plan, seed, style);
    let mut list = Vec::with_capacity(length);
    for _ in 0..length {
        let call = caller.next_call();
        let answer = hub.call(call);
        caller.hear(call, answer);
        list.push((call, answer));
    }
    list
}

impl Caller {
    /// The caller of a seed.
    pub fn new(plan: &Plan, seed: u64, style: Style) -> Caller {
        let mut random = Random::new(seed);
        let nodes = plan.nodes as u64;
        let few = random.within_or_end(1..=nodes);
        let busy_nodes = (0..few).map(|_| random.within(1..=nodes)).collect();
        Caller {
            random,
            style,
            frame: plan.frame,
            overhead: plan.overhead,
            room: plan.frame - plan.interrupt,
            longest: plan.longest_packet(),
            nodes,
            busy_nodes,
            clock: 0,
            end: 0,
            quiet: 0,
            latest: vec![(0, 0); plan.nodes],
            again: Vec::new(),
            scene: Vec::new(),
            made: 0,
        }
    }

    /// The next call.
    pub fn next_call(&mut self) -> Call {
        self.made += 1;
        // Some lists begin near the end of time.
        if self.made == 1 && self.random.chance(12) {
            return Call::Until { t: LAST_TIME - self.random.below(40 * self.frame) };
        }
        if self.scene.is_empty() && self.random.chance(6) {
            self.set_scene();
        }
        match (self.scene.pop(), self.style) {
            (Some(call), _) => call,
            (None, Style::Mixed) => self.mixed(),
            (None, Style::Loaded) => self.loaded(),
        }
    }

    /// What the hub answered to the call. A wrong hub may answer anything.
    pub fn hear(&mut self, call: Call, answer: Answer) {
        match answer {
            Answer::Refused(_) => {}
            Answer::Quiet => self.quiet = call.time(),
            Answer::Rest { time, .. } => self.clock = time.min(LAST_TIME),
            Answer::Grant { time, node, end, .. } => {
                self.clock = time.min(LAST_TIME);
                self.end = end.min(2 * LAST_TIME);
                self.quiet = self.end;
                if self.style == Style::Loaded && (1..=self.nodes).contains(&node) {
                    self.again.push(node);
                }
            }
            Answer::Taken => {
                self.clock = call.time().min(LAST_TIME);
                match call {
                    Call::Reserve { k, n, b, .. } if (1..=self.nodes).contains(&k) => {
                        let good = n <= MOST_PACKETS && self.lengths().contains(&b);
                        self.latest[k as usize - 1] = if good { (n, b) } else { (0, 0) };
                    }
                    Call::Normal { .. } | Call::High { .. } => self.quiet = self.clock.max(self.end),
                    _ => {}
                }
            }
        }
    }

    /// Sets a scene, if there is a node for it.
    fn set_scene(&mut self) {
        let (reserved, unreserved) = (self.some_node(true), self.some_node(false));
        let scene = match (self.random.below(80), reserved, unreserved) {
            (0..=19, _, Some(k)) => self.over_a_start(k),
            (20..=29, _, Some(k)) => self.reserved_by_then(k),
            (30..=39, Some(k), _) => self.given_up_by_then(k),
            (40..=69, Some(k), _) => self.turned_at_a_start(k),
            (70..=76, Some(k), _) => self.asks_again(k),
            (77, ..) => self.long_queue(),
            _ => return,
        };
        self.scene.extend(scene.into_iter().rev());
    }

    fn mixed(&mut self) -> Call {
        match self.random.below(100) {
            0..=44 => Call::Step { t: self.bound() },
            45..=60 => Call::Normal { t: self.time(), k: self.node(), b: self.length() },
            61..=78 => {
                let (t, k) = (self.time(), self.node());
                Call::High { t, k, b: self.reserved_length(k) }
            }
            79..=84 => Call::Off { t: self.time(), k: self.node() },
            85..=95 => {
                let (t, k) = (self.time(), self.node());
                let (n, b) = self.reservation(k);
                Call::Reserve { t, k, n, b }
            }
            _ => Call::Until { t: self.time() },
        }
    }

    fn loaded(&mut self) -> Call {
        let at_first = self.made < 2 * self.busy_nodes.len() as u64;
        if self.random.chance(if at_first { 80 } else { 2 }) {
            let k = self.random.one_of(&self.busy_nodes);
            let (n, b) = self.reservation(k);
            return Call::Reserve { t: self.clock, k, n, b };
        }
        if let Some(k) = self.again.pop() {
            let (n, b) = self.latest[k as usize - 1];
            if n > 0 && self.random.chance(97) {
                let t = if self.random.chance(50) { self.clock } else { self.end.max(self.clock) };
                let b = if self.random.chance(80) { b } else { self.random.within(SHORTEST_PACKET..=b) };
                return Call::High { t, k, b };
            }
            // A laptop calls everything high.
            if n == 0 && self.random.chance(30) {
                return Call::High { t: self.clock, k, b: self.length() };
            }
        }
        match self.random.below(100) {
            0..=59 => Call::Step { t: self.end.max(self.clock) + self.random.below(3) },
            60..=69 => Call::Step { t: self.next_start() + self.random.below(2) },
            70..=89 => {
                let k = self.random.one_of(&self.busy_nodes);
                Call::High { t: self.clock, k, b: self.reserved_length(k) }
            }
            90..=96 => {
                let k = self.random.within(1..=self.nodes);
                let t = self.late_in_frame();
                Call::Normal { t, k, b: self.random.within_or_end(self.lengths()) }
            }
            97 => Call::Until { t: self.quiet_time() },
            _ => self.mixed(),
        }
    }

    /// Mostly the clock, sometimes the last bit time of the frame.
    fn late_in_frame(&mut self) -> u64 {
        if self.random.chance(70) {
            self.clock
        } else {
            self.next_start() - 1
        }
    }

    fn next_start(&self) -> u64 {
        (self.clock / self.frame + 1) * self.frame
    }

    /// A time up to which nothing is due, not too many frames ahead.
    fn quiet_time(&self) -> u64 {
        self.quiet.clamp(self.clock, self.clock + 3 * self.frame)
    }

    /// An event's time.
    fn time(&mut self) -> u64 {
        match self.random.below(200) {
            0..=89 => self.clock,
            90..=129 => self.random.within(self.clock..=self.quiet_time()),
            130..=149 => self.end.max(self.clock),
            150..=157 => self.next_start(),
            158..=163 => self.next_start() - 1,
            164..=169 => self.next_start() + 1,
            170..=176 => self.clock + self.random.below(20_000),
            177..=180 => self.next_start() + self.random.below(5 * self.frame),
            181..=187 => self.end.max(self.clock) + 1,
            _ => self.wrong_time(),
        }
    }

    /// A step's bound.
    fn bound(&mut self) -> u64 {
        match self.random.below(100) {
            0..=24 => self.end.max(self.clock) + 1,
            25..=34 => self.end.max(self.clock),
            35..=44 => self.clock + 1,
            45..=49 => self.clock,
            50..=56 => self.next_start(),
            57..=66 => self.next_start() + 1,
            67..=76 => self.clock + self.random.below(20_000),
            77..=89 => self.clock + self.random.below(3 * self.frame),
            90..=94 => LAST_TIME,
            _ => self.wrong_time(),
        }
    }

    /// A time that row 11 may refuse.
    fn wrong_time(&mut self) -> u64 {
        match self.random.below(8) {
            0 => self.clock.saturating_sub(1),
            1 => self.random.within(0..=self.clock),
            2 => LAST_TIME + 1,
            3 => LAST_TIME + self.random.below(LAST_TIME),
            4 => u64::MAX,
            5 => self.random.number(),
            // The end of time, but only where it is near: behind it nothing happens.
            6 if LAST_TIME - self.clock < 50 * self.frame => LAST_TIME,
            _ => 0,
        }
    }

    fn node(&mut self) -> u64 {
        match self.random.below(100) {
            0..=69 => self.random.one_of(&self.busy_nodes),
            70..=89 => self.random.within(1..=self.nodes),
            90..=92 => 1,
            93..=95 => self.nodes,
            _ => self.random.one_of(&[0, self.nodes + 1, 257, 1 << 32, (1 << 32) + 1, u64::MAX]),
        }
    }

    /// The lengths that row 15 lets pass in this plan.
    fn lengths(&self) -> RangeInclusive<u64> {
        SHORTEST_PACKET..=self.longest
    }

    fn length(&mut self) -> u64 {
        match self.random.below(100) {
            0..=84 => self.random.within_or_end(self.lengths()),
            85..=92 => self.random.one_of(&NEAR_LONGEST),
            _ => {
                let above = self.longest + 1;
                self.random.one_of(&[0, 511, above, 65_536 + 512, (1 << 32) + 512, u64::MAX])
            }
        }
    }

    /// A length near what k has reserved.
    fn reserved_length(&mut self, k: u64) -> u64 {
        let (_, b) = self.latest.get((k as usize).wrapping_sub(1)).copied().unwrap_or((0, 0));
        match self.random.below(100) {
            0..=59 if b > 0 => b,
            60..=84 if b > 0 => self.random.within(SHORTEST_PACKET..=b),
            85..=89 => b + 1,
            _ => self.length(),
        }
    }

    /// What the reservations of all others leave to k.
    fn left(&self, k: u64) -> u64 {
        let others = (1..).zip(&self.latest).filter(|&(j, _)| j != k);
        let filled = others.map(|(_, &(n, b))| n * (b + self.overhead)).sum();
        self.room.saturating_sub(filled)
    }

    /// n and b of a reservation of k: often what just fills the frame, or one
    /// bit more.
    fn reservation(&mut self, k: u64) -> (u64, u64) {
        let left = self.left(k);
        match self.random.below(100) {
            0..=44 => {
                let share = left / self.random.within(1..=self.busy_nodes.len() as u64).min(8);
                let most = (share / (SHORTEST_PACKET + self.overhead)).clamp(1, MOST_PACKETS);
                let n = self.random.within_or_end(1..=most);
                let fits = (share / n).saturating_sub(self.overhead);
                (n, fits.clamp(SHORTEST_PACKET, self.longest))
            }
            45..=54 => {
                let most = (left / (SHORTEST_PACKET + self.overhead)).clamp(1, MOST_PACKETS);
                let n = self.random.within(1..=most);
                (n, (left / n).saturating_sub(self.overhead).min(self.longest) + self.random.below(2))
            }
            55..=74 => (self.random.within(1..=4), self.length()),
            75..=84 => (0, 0),
            85..=87 => (0, self.random.one_of(&[1, 512, 12_000, 36_000, u64::MAX])),
            88..=91 => (self.random.one_of(&[65, 256, 1 << 32, u64::MAX]), self.length()),
            _ => (self.random.within_or_end(1..=MOST_PACKETS), self.length()),
        }
    }
}
