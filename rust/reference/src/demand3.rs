//! "Demand 3 over a list of calls": where its premises hold, and how near the
//! nth packet's end comes to the limit.
//!
//! "Its words are read off the calls and their answers alone", here one call at
//! a time. A call costs one pass over the nodes at most.

use crate::core::Class;
use crate::hub::{Answer, Call};
use crate::plan::Plan;

/// A node and a frame for which all premises hold, with n at least 1.
#[derive(Clone, Copy, Debug, PartialEq, Eq)]
pub struct Held {
    /// k.
    pub node: usize,
    /// f.
    pub frame: u64,
    /// The n in force.
    pub n: u64,
    /// k's high grants in the frame.
    pub grants: u64,
    /// The nth grant's end; none where fewer than n came, which breaks demand 3.
    pub end: Option<u64>,
    /// f × T plus the delay limit.
    pub limit: u64,
}

impl Held {
    /// "The nth grant's end is then at most f × T plus the delay limit": the bit
    /// times left, below 0 where demand 3 is broken.
    pub fn slack(&self) -> Option<i64> {
        self.end.map(|end| self.limit as i64 - end as i64)
    }

    /// Whether demand 3 is kept here.
    pub fn kept(&self) -> bool {
        self.slack().is_some_and(|slack| slack >= 0)
    }
}

#[derive(Clone, Copy, Debug, Default)]
struct Reservation {
    n: u64,
    b: u64,
}

/// What the calls so far tell of one node.
#[derive(Clone, Copy, Debug, Default)]
struct Node {
    /// The last accepted reserve.
    latest: Reservation,
    /// "Reserved in frame f, and in force there", f being the clock's frame.
    in_force: Reservation,
    /// Whether its request is high at this place.
    high: bool,
    /// If so, its bits, and the clock at the first place of this run of places
    /// where it is.
    bits: u64,
    since: u64,
    /// The call that moves the clock puts up another: a start between the two makes
    /// the earlier one normal at no place.
    renewed: bool,
    /// High grants in the frame, and the end of the nth.
    grants: u64,
    end: Option<u64>,
    /// "Unbroken from the frame's start"; known from the first grant on.
    unbroken: bool,
    /// Some turn, after the first and up to the nth high grant, was chosen while
    /// its request wasn't high.
    turn_lost: bool,
    /// The first frame, run to its end without a high grant, from whose start
    /// its request is high at each place so far.
    without: Option<Held>,
}

impl Node {
    fn lower(&mut self) {
        self.high = false;
        self.without = None;
    }
}

/// How many nodes and frames there were, and for how many each premise held.
#[derive(Clone, Copy, Debug, Default, PartialEq, Eq)]
pub struct Tally {
    /// n at least 1, in a frame that the clock was in and that was run to its end.
    pub reserved: u64,
    /// Also granted at least once, and unbroken from the frame's start.
    pub unbroken: u64,
    /// Also high as each next turn was chosen: all premises hold.
    pub held: u64,
}

/// Listens to a list of calls.
#[derive(Clone, Debug)]
pub struct Watch {
    frame: u64,
    overhead: u64,
    interrupt: u64,
    clock: u64,
    nodes: Vec<Node>,
    /// The bound, if the last call was a step answered quiet.
    quiet: Option<u64>,
    /// What was found so far; the listener may empty it.
    pub found: Vec<Held>,
    /// Counted so far.
    pub tally: Tally,
}

/// All that a list of calls tells.
pub fn measure<'a>(plan: &Plan, list: impl IntoIterator<Item = &'a (Call, Answer)>) -> Vec<Held> {
    let mut watch = Watch::new(plan);
    for &(call, answer) in list {
        watch.hear(call, answer);
    }
    watch.end()
}

impl Watch {
    /// "The first call gets a taken plan's hub before any event."
    pub fn new(plan: &Plan) -> Watch {
        Watch {
            frame: plan.frame,
            overhead: plan.overhead,
            interrupt: plan.interrupt,
            clock: 0,
            nodes: vec![Node::default(); plan.nodes],
            quiet: None,
            found: Vec::new(),
            tally: Tally::default(),
        }
    }

    /// The next call and its answer. "Refused calls and quiet steps stand in the
    /// list too."
    pub fn hear(&mut self, call: Call, answer: Answer) {
        self.quiet = None;
        match answer {
            Answer::Refused(_) => {}
            Answer::Quiet => self.quiet = Some(call.time()),
            Answer::Taken => {
                if let Call::High { k, .. } = call {
                    self.nodes[k as usize - 1].renewed = true;
                }
                self.move_clock(call.time());
                self.event(call);
            }
            Answer::Rest { time, .. } => {
                self.turn(time);
                self.move_clock(time);
            }
            Answer::Grant { time, node, class, end, .. } => {
                self.turn(time);
                self.grant(time, node as usize - 1, class, end);
            }
        }
    }

    /// A grant to the node in this place.
    fn grant(&mut self, time: u64, k: usize, class: Class, end: u64) {
        let Node { high, since, .. } = self.nodes[k];
        self.move_clock(time);
        let start = self.start();
        let node = &mut self.nodes[k];
        // "Unless an accepted off of k or a grant to k came since."
        node.lower();
        if class == Class::High {
            node.grants += 1;
            if node.grants == 1 {
                // "At some place with the clock at most f × T, before any high
                // grant of k in f, its request is high, and so it is at each later
                // place before the first such grant."
                node.unbroken = high && since <= start;
            }
            if node.grants == node.in_force.n {
                node.end = Some(end);
            }
        }
    }

    /// The list ends. "Or the last call is a step with at least that bound,
    /// answered quiet": also the clock's frame may be run to its end, and those
    /// behind it. For a node whose request is unbroken "to the list's end" over
    /// several frames without a grant, only the first of them is listed.
    pub fn end(mut self) -> Vec<Held> {
        let now = self.clock / self.frame;
        let ended = self.quiet.unwrap_or(0) / self.frame;
        if ended > now {
            self.close_frame();
        }
        if ended > now + 1 {
            self.without_grant(now + 1);
        }
        self.found.extend(self.nodes.iter().filter_map(|node| node.without));
        self.found
    }

    /// Frame f was run to its end: which nodes had no high grant in it though
    /// their request was high from its start on?
    fn without_grant(&mut self, f: u64) {
        let later = f > self.clock / self.frame;
        let start = f * self.frame;
        for k in 0..self.nodes.len() {
            let node = self.nodes[k];
            let n = if later { node.latest.n } else { node.in_force.n };
            let granted = !later && node.grants > 0;
            if n > 0 && !granted && node.high && node.since <= start && node.without.is_none() {
                let limit = start + self.delay_limit(n, later);
                self.nodes[k].without = Some(Held { node: k + 1, frame: f, n, grants: 0, end: None, limit });
            }
        }
    }

    /// The start of the clock's frame.
    fn start(&self) -> u64 {
        self.clock / self.frame * self.frame
    }

    /// An accepted event, with the clock at its time.
    fn event(&mut self, call: Call) {
        let clock = self.clock;
        match call {
            Call::Normal { k, .. } | Call::Off { k, .. } => self.nodes[k as usize - 1].lower(),
            // "It is high if a high event put it up while k's n in force was at
            // least 1." One that slip 8 takes as normal was put up while it was 0.
            Call::High { k, b, .. } => {
                let node = &mut self.nodes[k as usize - 1];
                if node.in_force.n == 0 {
                    node.lower();
                } else if !node.high {
                    (node.high, node.since) = (true, clock);
                }
                (node.bits, node.renewed) = (b, false);
            }
            Call::Reserve { k, n, b, .. } => self.nodes[k as usize - 1].latest = Reservation { n, b },
            Call::Until { .. } | Call::Step { .. } => {}
        }
    }

    /// "As the next turn is chosen: at the place just before each step that
    /// answers a grant or a rest at a time in f, after the first and up to the
    /// nth of k's high grants there, its request is high."
    fn turn(&mut self, time: u64) {
        if time / self.frame == self.clock / self.frame {
            for node in &mut self.nodes {
                let between = node.grants >= 1 && node.grants < node.in_force.n;
                node.turn_lost |= between & !node.high;
            }
        }
    }

    /// The clock moves, perhaps into a later frame. Of frames that it passes over
    /// the first tells all.
    fn move_clock(&mut self, t: u64) {
        let (now, then) = (self.clock / self.frame, t / self.frame);
        if then > now {
            self.close_frame();
            self.open_frame(now + 1);
        }
        if then > now + 1 {
            self.close_frame();
            self.open_frame(then);
        }
        self.clock = self.clock.max(t);
    }

    fn open_frame(&mut self, f: u64) {
        self.clock = f * self.frame;
        for node in &mut self.nodes {
            // "The n and b of k's last accepted reserve with t below f × T."
            node.in_force = node.latest;
            *node = Node { grants: 0, end: None, unbroken: false, turn_lost: false, ..*node };
            // "No frame start since, up to the clock, made it normal."
            let made_normal = node.in_force.n == 0 || node.bits > node.in_force.b;
            if made_normal && !node.renewed {
                node.lower();
            }
        }
    }

    /// The clock's frame was run to its end.
    fn close_frame(&mut self) {
        let f = self.clock / self.frame;
        for k in 0..self.nodes.len() {
            let Node { in_force, grants, end, unbroken, turn_lost, .. } = self.nodes[k];
            let n = in_force.n;
            let held = unbroken && !turn_lost;
            self.tally.reserved += u64::from(n > 0);
            self.tally.unbroken += u64::from(n > 0 && unbroken);
            self.tally.held += u64::from(n > 0 && held);
            if n > 0 && held {
                let limit = self.start() + self.delay_limit(n, false);
                self.found.push(Held { node: k + 1, frame: f, n, grants, end, limit });
            }
        }
        self.without_grant(f);
    }

    /// "D + n × c of k + the sum over every other node j of min(n, n of j) × c of
    /// j, by the reservations in force", k's own n being min(n, n). In a later
    /// frame the latest reservations are in force.
    fn delay_limit(&self, n: u64, later: bool) -> u64 {
        let mut sum = self.interrupt;
        for node in &self.nodes {
            let reservation = if later { node.latest } else { node.in_force };
            sum += n.min(reservation.n) * (reservation.b + self.overhead);
        }
        sum
    }
}
