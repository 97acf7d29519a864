//! Clock, line, requests, reservations and frames: all of document 01's events
//! and selection that doesn't depend on how a turn is chosen.

use crate::plan::Plan;

/// Row 11: "t above 10^15".
pub const LAST_TIME: u64 = 1_000_000_000_000_000;
/// Row 15: "b outside 512 to 12,000", or to what the plan's framing has in place
/// of 12,000.
pub const SHORTEST_PACKET: u64 = 512;
/// Row 14: "n above 64".
pub const MOST_PACKETS: u64 = 64;

/// A request's class: "class 1 normal and 2 high".
#[derive(Clone, Copy, Debug, PartialEq, Eq)]
pub enum Class {
    /// Class 1.
    Normal,
    /// Class 2.
    High,
}

impl Class {
    /// The class's number in the log.
    pub fn number(self) -> u64 {
        self as u64 + 1
    }
}

/// How a turn is chosen, and what is done where nothing counts.
pub trait Turns {
    /// Some request of the class sought counts, and `counts` tells at which
    /// nodes: the node to grant, and the moves of control.
    fn choose(&mut self, class: Class, counts: &dyn Fn(usize) -> bool) -> (usize, u64);
    /// A rest: the moves of control.
    fn rest(&mut self) -> u64;
}

/// A standing request.
#[derive(Clone, Copy, Debug, PartialEq, Eq)]
struct Request {
    class: Class,
    bits: u64,
    /// Slip 1: "the time at which its standing request was first put up".
    since: u64,
}

/// "k may have n high packets a frame, each at most b bits."
#[derive(Clone, Copy, Debug, Default, PartialEq, Eq)]
struct Reservation {
    n: u64,
    b: u64,
}

#[derive(Clone, Copy, Debug, Default, PartialEq, Eq)]
struct Node {
    request: Option<Request>,
    /// "The latest accepted one counts."
    latest: Reservation,
    in_force: Reservation,
    /// High grants in the frame.
    high_grants: u64,
}

impl Node {
    /// "A high request counts while its node's high grants in the frame are
    /// below n; otherwise it is held, still standing. A normal request always
    /// counts."
    fn counts(&self, class: Class) -> bool {
        self.request.is_some_and(|request| request.class == class)
            && (class == Class::Normal || self.high_grants < self.in_force.n)
    }
}

/// A refusal's number.
pub type Row = u32;

/// A step's answer: "a grant, a rest, or quiet".
#[derive(Clone, Copy, Debug, PartialEq, Eq)]
pub enum Step {
    /// A packet is granted at `time`, and the line is busy until `end`.
    Grant {
        /// s.
        time: u64,
        /// k.
        node: usize,
        /// The class of the request granted.
        class: Class,
        /// s + b + O.
        end: u64,
        /// The moves of control.
        moves: u64,
        /// "The grant's time less the recorded time."
        wait: u64,
    },
    /// "A rest is handled only where a busy line ends and no request counts."
    Rest {
        /// s.
        time: u64,
        /// The moves of control.
        moves: u64,
    },
    /// "No instant is due before t, and the state is unchanged."
    Quiet,
}

/// A hub's state, with its way of choosing turns.
#[derive(Clone, Debug)]
pub struct Core<M> {
    frame: u64,
    overhead: u64,
    interrupt: u64,
    /// The plan's longest packet.
    longest: u64,
    strict: bool,
    /// "The latest time of an accepted event or a handled instant, at first 0."
    clock: u64,
    /// The end until which the line is busy, "until that end is handled".
    line: Option<u64>,
    /// Node k is `nodes[k - 1]`.
    nodes: Vec<Node>,
    turns: M,
}

impl<M: Turns> Core<M> {
    /// A plan's hub before any event. "In frame 0 nothing is reserved."
    pub fn new(plan: &Plan, turns: M) -> Self {
        Core {
            frame: plan.frame,
            overhead: plan.overhead,
            interrupt: plan.interrupt,
            longest: plan.longest_packet(),
            strict: plan.strict,
            clock: 0,
            line: None,
            nodes: vec![Node::default(); plan.nodes],
            turns,
        }
    }

    /// Its way of choosing turns.
    pub fn turns(&mut self) -> &mut M {
        &mut self.turns
    }

    /// The clock.
    pub fn clock(&self) -> u64 {
        self.clock
    }

    /// The latest accepted reservations, n and b; node k at k - 1.
    pub fn latest(&self) -> Vec<(u64, u64)> {
        self.nodes.iter().map(|node| (node.latest.n, node.latest.b)).collect()
    }

    /// O, the overhead of one packet.
    pub fn overhead(&self) -> u64 {
        self.overhead
    }

    /// "Frame f runs from f × T up to, not including, (f + 1) × T."
    fn frame_at(&self, t: u64) -> u64 {
        t / self.frame
    }

    /// The clock moves to t. Over several frame starts the work of one is the
    /// work of all, since no reservation comes between them.
    fn move_clock(&mut self, t: u64) {
        let start = self.next_start();
        self.clock = t;
        if t >= start {
            self.frame_start(start);
        }
    }

    /// The start of the frame behind the clock's.
    fn next_start(&self) -> u64 {
        (self.frame_at(self.clock) + 1) * self.frame
    }

    /// "At its start, before any event or selection of that time, reservations
    /// for it come into force together and high grants of every node count from
    /// 0. Then a standing high request whose node has n = 0, or which is longer
    /// than the b in force, becomes a normal request." By slip 1 "a change of class
    /// sets it anew, also the change at a frame's start": the time is the start's.
    fn frame_start(&mut self, start: u64) {
        for node in &mut self.nodes {
            node.in_force = node.latest;
            node.high_grants = 0;
            if let Some(request) = &mut node.request {
                let unreserved = node.in_force.n == 0 || request.bits > node.in_force.b;
                if request.class == Class::High && unreserved {
                    request.class = Class::Normal;
                    request.since = start;
                }
            }
        }
    }

    /// "The class sought is high if any high request counts, else normal";
    /// none where no request counts.
    fn sought(&self) -> Option<Class> {
        [Class::High, Class::Normal]
            .into_iter()
            .find(|&class| self.nodes.iter().any(|node| node.counts(class)))
    }

    /// "An instant is due: when the line is busy, at its end; when it rests, at
    /// the clock if some request counts, else at the next frame start if one is
    /// held, else never."
    fn due(&self) -> Option<u64> {
        if self.line.is_some() {
            self.line
        } else if self.sought().is_some() {
            Some(self.clock)
        } else if self.nodes.iter().any(|node| node.request.is_some()) {
            Some(self.next_start())
        } else {
            None
        }
    }

    fn due_before(&self, t: u64) -> Option<u64> {
        self.due().filter(|&instant| instant < t)
    }

    /// "A step with bound t handles the due instant if it is strictly before t."
    pub fn step(&mut self, t: u64) -> Result<Step, Row> {
        self.row_11(t)?;
        let Some(time) = self.due_before(t) else {
            return Ok(Step::Quiet);
        };
        self.move_clock(time);
        let Some(class) = self.sought() else {
            self.line = None;
            return Ok(Step::Rest { time, moves: self.turns.rest() });
        };
        let nodes = &self.nodes;
        let (k, moves) = self.turns.choose(class, &|k| nodes[k - 1].counts(class));
        let node = &mut self.nodes[k - 1];
        // "Granted and removed."
        let request = node.request.take().expect("a request that counts stands");
        if class == Class::High {
            node.high_grants += 1;
        }
        // "The line is busy from a grant at s until s + b + O."
        let end = time + request.bits + self.overhead;
        self.line = Some(end);
        Ok(Step::Grant { time, node: k, class, end, moves, wait: time - request.since })
    }

    /// A request stands at the node in this place from the clock on. By slip 1 "a
    /// replacing request of the same class keeps that time, and a change of class
    /// sets it anew".
    fn put_up(&mut self, k: usize, class: Class, bits: u64) {
        let replaced = self.nodes[k].request.filter(|request| request.class == class);
        let since = replaced.map_or(self.clock, |request| request.since);
        self.nodes[k].request = Some(Request { class, bits, since });
    }

    /// `(normal t k b)`: "node k's request stands, in place of any earlier one
    /// of its own. Nothing is stored behind it."
    pub fn normal(&mut self, t: u64, k: u64, b: u64) -> Result<(), Row> {
        self.rows_11_12(t)?;
        let k = self.row_13(k)?;
        self.row_15(b)?;
        self.move_clock(t);
        self.put_up(k, Class::Normal, b);
        Ok(())
    }

    /// `(high t k b)`: the same in the class that [`class_put_up`] gives.
    pub fn high(&mut self, t: u64, k: u64, b: u64) -> Result<(), Row> {
        self.rows_11_12(t)?;
        let k = self.row_13(k)?;
        self.row_15(b)?;
        let in_force = self.in_force_at(t, k);
        let class = class_put_up(self.strict, in_force.n, in_force.b, b)?;
        self.move_clock(t);
        self.put_up(k, class, b);
        Ok(())
    }

    /// `(off t k)`: "k's request, if any, is withdrawn."
    pub fn off(&mut self, t: u64, k: u64) -> Result<(), Row> {
        self.rows_11_12(t)?;
        let k = self.row_13(k)?;
        self.move_clock(t);
        self.nodes[k].request = None;
        Ok(())
    }

    /// `(reserve t k n b)`: "from the next frame on, k may have n high packets a
    /// frame, each at most b bits. n = 0 with b = 0 gives the reservation up."
    pub fn reserve(&mut self, t: u64, k: u64, n: u64, b: u64) -> Result<(), Row> {
        self.rows_11_12(t)?;
        let (k, new) = self.rows_13_to_17(k, n, b)?;
        self.move_clock(t);
        self.nodes[k].latest = new;
        Ok(())
    }

    /// What a reserve would be refused by at a good time; it isn't made.
    pub fn reserve_row(&self, k: u64, n: u64, b: u64) -> Result<(), Row> {
        self.rows_13_to_17(k, n, b).map(|_| ())
    }

    /// A reserve's rows behind those of time; node k's place in `nodes`, and what
    /// would stand there.
    fn rows_13_to_17(&self, k: u64, n: u64, b: u64) -> Result<(usize, Reservation), Row> {
        let k = self.row_13(k)?;
        if n > MOST_PACKETS {
            return Err(14);
        }
        if n > 0 {
            self.row_15(b)?;
        } else if b != 0 {
            // "In a reserve with n = 0 instead: b not 0."
            return Err(15);
        }
        let new = Reservation { n, b };
        self.row_17(k, new)?;
        Ok((k, new))
    }

    /// `(until t)`: "only moves the clock."
    pub fn until(&mut self, t: u64) -> Result<(), Row> {
        self.rows_11_12(t)?;
        self.move_clock(t);
        Ok(())
    }

    /// "t above 10^15, or before the clock."
    fn row_11(&self, t: u64) -> Result<(), Row> {
        refuse(11, t > LAST_TIME || t < self.clock)
    }

    /// Row 11, then "an instant strictly before t is due".
    fn rows_11_12(&self, t: u64) -> Result<(), Row> {
        self.row_11(t)?;
        refuse(12, self.due_before(t).is_some())
    }

    /// "k is 0 or above N"; node k's place in `nodes`.
    fn row_13(&self, k: u64) -> Result<usize, Row> {
        refuse(13, k == 0 || k > self.nodes.len() as u64)?;
        Ok(k as usize - 1)
    }

    /// "b outside 512 to 12,000", where "the check of a length now takes the
    /// longest packet from the plan".
    fn row_15(&self, b: u64) -> Result<(), Row> {
        refuse(15, !(SHORTEST_PACKET..=self.longest).contains(&b))
    }

    /// "n in force at t": the frame of t may be behind the clock's, and the latest
    /// reservations are in force there.
    fn in_force_at(&self, t: u64, k: usize) -> Reservation {
        let later = self.frame_at(t) > self.frame_at(self.clock);
        if later {
            self.nodes[k].latest
        } else {
            self.nodes[k].in_force
        }
    }

    /// "With c = b + O for each reservation, one is granted if D plus the sum of
    /// n × c over all nodes, by their latest accepted reservations with the new
    /// one in place of its node's old, is at most T."
    fn row_17(&self, k: usize, new: Reservation) -> Result<(), Row> {
        let mut sum = self.interrupt;
        for (j, node) in self.nodes.iter().enumerate() {
            let Reservation { n, b } = if j == k { new } else { node.latest };
            sum += n * (b + self.overhead);
        }
        refuse(17, sum > self.frame)
    }
}

/// The class that an accepted high event of b bits puts up, by its node's n and
/// longest packet in force at its time, or row 16: "n in force at t is 0, or b
/// above the b in force". By slip 8 of document 02 "a high request from a node with
/// n = 0 in force is taken as normal", unless the plan is strict.
pub fn class_put_up(strict: bool, n: u64, longest: u64, b: u64) -> Result<Class, Row> {
    if n == 0 && !strict {
        return Ok(Class::Normal);
    }
    refuse(16, n == 0 || b > longest)?;
    Ok(Class::High)
}

fn refuse(row: Row, condition: bool) -> Result<(), Row> {
    if condition {
        Err(row)
    } else {
        Ok(())
    }
}
