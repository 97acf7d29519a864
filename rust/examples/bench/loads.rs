//! Loads: the calls that are timed.

use reference::fast::Fast;
use reference::hub::{Answer, Call};
use reference::plan::{self, Plan};
use reference::random::{texts, Random};

/// No event and no step has a later time.
pub const LAST_TIME: u64 = lembuya::Plan::LATEST_TIME;
/// How many calls one timing makes.
pub const CALLS: usize = 20_000;

/// Calls that fill the hub, which aren't timed, and those that are.
pub struct Load {
    pub before: Vec<Call>,
    pub timed: Vec<Call>,
}

/// Makes calls with the quick hub and keeps them.
pub struct Maker {
    pub hub: Fast,
    pub calls: Vec<Call>,
    /// Whether each second node has a reservation.
    pub reserved: bool,
}

impl Maker {
    pub fn new(plan: &Plan) -> Maker {
        Maker { hub: Fast::new(plan), calls: Vec::new(), reserved: true }
    }

    pub fn call(&mut self, call: Call) -> Answer {
        self.calls.push(call);
        let answer = self.hub.call(call);
        assert!(!matches!(answer, Answer::Refused(_)), "{call:?}: {answer:?}");
        answer
    }

    /// Each second node reserves two packets.
    pub fn reserve(&mut self, plan: &Plan) {
        let last = if self.reserved { plan.nodes as u64 } else { 0 };
        for k in (1..=last).step_by(2) {
            self.call(Call::Reserve { t: 0, k, n: 2, b: 1_500 });
        }
        self.call(Call::Until { t: plan.frame });
    }

    /// Node k asks at t: high if it has a reservation.
    pub fn ask(&mut self, random: &mut Random, t: u64, k: u64) {
        if self.reserved && k % 2 == 1 {
            self.call(Call::High { t, k, b: 1_500 });
        } else {
            self.call(Call::Normal { t, k, b: random.within(512..=12_000) });
        }
    }

    /// What was called so far, the first part of it before the timing.
    pub fn load(mut self, before: usize) -> Load {
        let timed = self.calls.split_off(before);
        Load { before: self.calls, timed }
    }
}

/// One node at a time asks, is granted, and the line rests again: three calls.
pub fn light(plan: &Plan, calls: usize) -> Load {
    let mut random = Random::new(1);
    let mut maker = Maker::new(plan);
    maker.reserve(plan);
    let before = maker.calls.len();
    let mut t = plan.frame;
    while maker.calls.len() < before + calls {
        t += random.below(10_000);
        let k = random.within(1..=plan.nodes as u64);
        // A held request isn't granted at once, so a node whose packets are spent waits for the next frame.
        maker.ask(&mut random, t, k);
        loop {
            match maker.call(Call::Step { t: LAST_TIME }) {
                Answer::Grant { .. } => {}
                Answer::Rest { time, .. } => {
                    t = time;
                    break;
                }
                other => panic!("{other:?}"),
            }
        }
    }
    maker.load(before)
}

/// All nodes ask, and each asks again as it is granted: a step and an event by turns. With reservations
/// each second node asks in class high.
pub fn full(plan: &Plan, calls: usize, reserved: bool) -> Load {
    let mut random = Random::new(2);
    let mut maker = Maker::new(plan);
    maker.reserved = reserved;
    maker.reserve(plan);
    for k in 1..=plan.nodes as u64 {
        maker.ask(&mut random, plan.frame, k);
    }
    let before = maker.calls.len();
    while maker.calls.len() < before + calls {
        match maker.call(Call::Step { t: LAST_TIME }) {
            Answer::Grant { time, node, .. } => maker.ask(&mut random, time, node),
            // A single node's packets are spent, and its request is held.
            Answer::Rest { .. } => {}
            other => panic!("{other:?}"),
        }
    }
    maker.load(before)
}

/// A text of a plan and the events of both loads, as long as the program reads.
pub fn log_text(plan: &Plan) -> Vec<u8> {
    let mut text = plan::draw(plan);
    let Load { before, timed } = full(plan, 8_000, true);
    for call in before.into_iter().chain(timed) {
        let line = texts::line(call);
        if text.len() + line.len() > 65_000 {
            break;
        }
        text.push_str(&line);
    }
    text.push_str(&format!("(until {LAST_TIME})\n"));
    text.into_bytes()
}
