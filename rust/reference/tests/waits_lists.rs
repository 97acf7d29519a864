//! Slip 1 over random lists of calls: each hub's waits are those that the calls and
//! answers tell, grants and moves don't depend on them, and wrong ways are found out.

mod common;

use common::{control, flat, hubs, Found, Shares};
use reference::core::Class;
use reference::hub::{Answer, Call};
use reference::plan::Plan;
use reference::random::calls::{list, Style};
use reference::random::{plans, Random};
use reference::waits::Waits;

/// A plan and a list of calls with control's answers.
fn told(seed: u64) -> (Plan, Vec<(Call, Answer)>) {
    let mut random = Random::new(seed);
    let plan = plans::plan(&mut random);
    let style = if random.chance(50) { Style::Mixed } else { Style::Loaded };
    let list = list(&plan, random.number(), style, 400, &mut control(&plan));
    (plan, list)
}

fn count(found: &mut Found, plan: &Plan, answer: Answer) {
    let Answer::Grant { class, wait, .. } = answer else { return };
    let number = plan.framing().number();
    found.count(format!("framing {number}, strict {}, {class:?}, waited {}", plan.strict, wait > 0));
    if wait > plan.frame {
        found.count("waited longer than a frame");
    }
}

fn waits_are_told(seeds: std::ops::Range<u64>) -> Found {
    let mut found = Found::default();
    for seed in seeds {
        let (plan, list) = told(seed);
        let (mut waits, mut hubs, mut plain) = (Waits::new(&plan), hubs(&plan), flat(&plan));
        for (place, &(call, answer)) in list.iter().enumerate() {
            let at = || format!("seed {seed}, call {place}: {call:?}");
            // The waits are left out, so nothing but the grants and moves goes in.
            let expected = waits.hear(call, answer.with_wait(0));
            assert_eq!(answer, expected, "{}", at());
            for (which, hub) in hubs.iter_mut().enumerate() {
                let expected = if which < 2 { expected } else { expected.without_moves() };
                assert_eq!(hub.call(call), expected, "hub {which}, {}", at());
            }
            let without = answer.without_moves().with_wait(0);
            assert_eq!(plain.call(call).with_wait(0), without, "{}", at());
            count(&mut found, &plan, answer);
        }
    }
    println!("{found:#?}");
    found
}

#[test]
fn every_wait_is_the_one_told() {
    let found = waits_are_told(0..2_000);
    for framing in [3, 5] {
        for strict in [true, false] {
            for (class, waited) in [("Normal", true), ("Normal", false), ("High", true), ("High", false)] {
                let what = format!("framing {framing}, strict {strict}, {class}, waited {waited}");
                found.assert_met(1_000, &[&what]);
            }
        }
    }
    found.assert_met(1_000, &["waited longer than a frame"]);
}

/// `cargo test --release -- --ignored`, with LISTS to say how many.
#[test]
#[ignore = "long"]
fn every_wait_is_the_one_told_for_long() {
    let many = std::env::var("LISTS").ok().and_then(|lists| lists.parse().ok()).unwrap_or(50_000);
    waits_are_told(1_000_000..1_000_000 + many);
}

/// Ways to record the time, all but the first wrong.
#[derive(Clone, Copy, Debug, PartialEq, Eq)]
enum Way {
    Right,
    /// Every request sets it anew, or none that replaces one.
    AlwaysAnew,
    NeverAnew,
    /// A turned request has the time of the call that crosses the start, or keeps its own.
    TurnedByTheCall,
    TurnedKeeps,
    /// The event that crosses the start finds the request as it was before.
    CrossedUnseen,
    /// The class is the event's, not the one in which it is taken.
    ClassOfTheEvent,
    /// The request behind an `off` has the time of the one withdrawn.
    OffKeeps,
}

const WAYS: [Way; 8] = [
    Way::Right,
    Way::AlwaysAnew,
    Way::NeverAnew,
    Way::TurnedByTheCall,
    Way::TurnedKeeps,
    Way::CrossedUnseen,
    Way::ClassOfTheEvent,
    Way::OffKeeps,
];

#[derive(Clone, Copy)]
struct Request {
    class: Class,
    /// A high event put it up.
    by_high: bool,
    bits: u64,
    since: u64,
    withdrawn: bool,
}

/// A record of each node's request, kept in a way.
struct Record {
    way: Way,
    frame: u64,
    clock: u64,
    shares: Shares,
    requests: Vec<Option<Request>>,
}

impl Record {
    fn new(plan: &Plan, way: Way) -> Record {
        let (shares, requests) = (Shares::new(plan), vec![None; plan.nodes]);
        Record { way, frame: plan.frame, clock: 0, shares, requests }
    }

    /// The answer with its wait as this way has it.
    fn hear(&mut self, call: Call, answer: Answer) -> Answer {
        match (call, answer) {
            (Call::Normal { t, k, b }, Answer::Taken) => self.ask(t, k, b, false),
            (Call::High { t, k, b }, Answer::Taken) => self.ask(t, k, b, true),
            (Call::Off { t, k }, Answer::Taken) => {
                self.move_clock(t);
                let request = &mut self.requests[k as usize - 1];
                *request = request.map(|request| Request { withdrawn: true, ..request });
            }
            (Call::Reserve { t, .. } | Call::Until { t }, Answer::Taken) => self.move_clock(t),
            (_, Answer::Rest { time, .. }) => self.move_clock(time),
            (_, Answer::Grant { time, node, .. }) => {
                self.move_clock(time);
                let request = self.requests[node as usize - 1].take().expect("what is granted stands");
                return answer.with_wait(time - request.since);
            }
            _ => {}
        }
        self.shares.hear(call, answer);
        answer
    }

    fn move_clock(&mut self, t: u64) {
        let start = (self.clock / self.frame + 1) * self.frame;
        self.clock = t;
        if t < start {
            return;
        }
        for (k, request) in (1..).zip(&mut self.requests) {
            let Some(request) = request else { continue };
            let (n, b) = self.shares.at(start, k);
            if request.class == Class::High && (n == 0 || request.bits > b) {
                request.class = Class::Normal;
                request.by_high = false;
                request.since = match self.way {
                    Way::TurnedByTheCall => t,
                    Way::TurnedKeeps => request.since,
                    _ => start,
                };
            }
        }
    }

    fn ask(&mut self, t: u64, k: u64, bits: u64, by_high: bool) {
        let unseen = self.requests[k as usize - 1];
        self.move_clock(t);
        let seen = self.requests[k as usize - 1];
        let before = if self.way == Way::CrossedUnseen { unseen } else { seen };
        let before = before.filter(|before| !before.withdrawn || self.way == Way::OffKeeps);
        let class = if by_high && self.shares.at(t, k).0 > 0 { Class::High } else { Class::Normal };
        let kept = before.filter(|before| match self.way {
            Way::AlwaysAnew => false,
            Way::NeverAnew => true,
            Way::ClassOfTheEvent => before.by_high == by_high,
            _ => before.class == class,
        });
        let since = kept.map_or(t, |before| before.since);
        self.requests[k as usize - 1] = Some(Request { class, by_high, bits, since, withdrawn: false });
    }
}

/// In how many of these lists a grant has another wait by each wrong way.
#[test]
fn wrong_ways_are_found_out() {
    let mut found = Found::default();
    for seed in 0..1_000 {
        let (plan, list) = told(seed);
        for way in WAYS {
            let mut record = Record::new(&plan, way);
            let differs = list.iter().filter(|&&(call, answer)| record.hear(call, answer) != answer).count();
            if differs > 0 {
                found.count(format!("{way:?}"));
            }
        }
    }
    println!("{found:?}");
    found.assert_unmet("Right");
    for way in &WAYS[1..] {
        found.assert_met(200, &[&format!("{way:?}")]);
    }
}
