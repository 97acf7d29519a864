//! The random lists of calls and texts do make the cases that slip 1 tells apart.

mod common;

use common::{Found, Shares};
use reference::core::Class;
use reference::fast::Fast;
use reference::hub::{Answer, Call};
use reference::log::{event, steps};
use reference::plan::{read, Plan};
use reference::random::calls::{list, Style};
use reference::random::{plans, texts, Random};
use reference::text::Lines;

/// A request that stands, and what became of it since it was put up.
#[derive(Clone, Copy)]
struct Stands {
    class: Class,
    bits: u64,
    /// A high event put it up.
    by_high: bool,
    /// A frame's start made it normal.
    turned: bool,
    /// How often it was replaced in its class, and how many frame starts it stood over.
    replaced: u64,
    starts: u64,
}

/// What a list of calls meets.
struct Eye<'a> {
    plan: &'a Plan,
    shares: Shares,
    clock: u64,
    /// By node.
    requests: Vec<Option<Stands>>,
    withdrawn: Vec<bool>,
    found: &'a mut Found,
}

impl<'a> Eye<'a> {
    fn new(plan: &'a Plan, found: &'a mut Found) -> Eye<'a> {
        let (requests, withdrawn) = (vec![None; plan.nodes], vec![false; plan.nodes]);
        Eye { plan, shares: Shares::new(plan), clock: 0, requests, withdrawn, found }
    }

    fn hear(&mut self, call: Call, answer: Answer) {
        match (call, answer) {
            (Call::Normal { k, .. } | Call::High { k, .. } | Call::Off { k, .. }, Answer::Refused(_)) => {
                let stands = self.requests.get((k as usize).wrapping_sub(1)).copied().flatten();
                if let Some(Stands { class, .. }) = stands {
                    self.found.count(format!("refused over a {class:?}"));
                }
            }
            (_, Answer::Taken) => self.taken(call),
            (_, Answer::Rest { time, .. }) => drop(self.cross(time, None)),
            (_, Answer::Grant { time, node, wait, .. }) => {
                self.cross(time, None);
                self.grant(node, wait);
            }
            (_, Answer::Refused(_) | Answer::Quiet) => {}
        }
        self.shares.hear(call, answer);
    }

    fn taken(&mut self, call: Call) {
        let own = match call {
            Call::Normal { k, .. } | Call::High { k, .. } | Call::Off { k, .. } => Some(k),
            _ => None,
        };
        let crossed = self.cross(call.time(), own);
        match call {
            Call::Normal { k, b, .. } => self.ask(k, Class::Normal, b, false, crossed),
            Call::High { t, k, b } => {
                let reserved = self.shares.at(t, k).0 > 0;
                let class = if reserved { Class::High } else { Class::Normal };
                self.ask(k, class, b, true, crossed);
            }
            Call::Off { k, .. } => {
                self.withdrawn[k as usize - 1] = self.requests[k as usize - 1].take().is_some();
            }
            _ => {}
        }
    }

    /// The clock moves, perhaps over a frame's start, by an event of this node or
    /// another call. Whether it turned that node's request.
    fn cross(&mut self, t: u64, own: Option<u64>) -> bool {
        let (now, then) = (self.clock / self.plan.frame, t / self.plan.frame);
        let start = (now + 1) * self.plan.frame;
        self.clock = t;
        if then == now {
            return false;
        }
        let mut own_turned = false;
        for k in 1..=self.plan.nodes as u64 {
            let Some(stands) = &mut self.requests[k as usize - 1] else { continue };
            assert_eq!(then, now + 1, "a request stands over one start at a time");
            stands.starts += 1;
            let (n, b) = self.shares.at(start, k);
            if stands.class == Class::Normal || (n > 0 && stands.bits <= b) {
                continue;
            }
            *stands = Stands { class: Class::Normal, turned: true, replaced: 0, ..*stands };
            own_turned |= own == Some(k);
            let why = if n == 0 { "released" } else { "lowered" };
            let by = if own == Some(k) { "its own event" } else { "another call" };
            let late = if t > start { "later" } else { "at once" };
            self.found.count(format!("turned, {why}, by {by}, {late}"));
        }
        own_turned
    }

    fn ask(&mut self, k: u64, class: Class, bits: u64, by_high: bool, crossed: bool) {
        let place = k as usize - 1;
        let mut now = Stands { class, bits, by_high, turned: false, replaced: 0, starts: 0 };
        let withdrawn = std::mem::take(&mut self.withdrawn[place]);
        match self.requests[place] {
            None if withdrawn => self.found.count("off, then new"),
            None => self.found.count("new"),
            Some(before) if before.class == class => {
                now = Stands { bits, by_high, replaced: before.replaced + 1, ..before };
                self.found.count(format!("kept {class:?}"));
                self.kept(before, now, crossed);
            }
            Some(before) => {
                self.found.count(format!("changed to {class:?}"));
                if before.turned {
                    self.found.count(format!("turned, then high, start crossed by it {crossed}"));
                }
            }
        }
        self.requests[place] = Some(now);
    }

    /// A request replaced by one of its class.
    fn kept(&mut self, before: Stands, now: Stands, crossed: bool) {
        if now.replaced == 3 {
            self.found.count(format!("kept {:?} three times", now.class));
        }
        if before.turned {
            self.found.count(format!("turned, then kept, start crossed by it {crossed}"));
        }
        if before.starts > 0 && now.class == Class::High {
            self.found.count("kept High over a start");
        }
        if now.class == Class::Normal && before.by_high != now.by_high && !before.turned {
            self.found.count(if now.by_high { "a laptop over a normal" } else { "a normal over a laptop" });
        }
    }

    fn grant(&mut self, k: u64, wait: u64) {
        let stands = self.requests[k as usize - 1].take().expect("what is granted stands");
        self.withdrawn[k as usize - 1] = false;
        let class = stands.class;
        self.found.count(format!("granted {class:?}, at once {}", wait == 0));
        if stands.turned {
            self.found.count(format!("granted turned, replaced {}", stands.replaced > 0));
        } else if stands.replaced > 0 {
            self.found.count(format!("granted {class:?} replaced"));
        }
        for starts in [1, 2, 5, 20] {
            if stands.starts >= starts {
                self.found.count(format!("granted {class:?} over {starts} starts"));
            }
        }
    }
}

#[test]
fn calls_have_every_wait() {
    let mut found = Found::default();
    for seed in 0..2_000 {
        let mut random = Random::new(seed);
        let plan = plans::plan(&mut random);
        let style = if random.chance(50) { Style::Mixed } else { Style::Loaded };
        let list = list(&plan, random.number(), style, 400, &mut Fast::new(&plan));
        let mut eye = Eye::new(&plan, &mut found);
        for (call, answer) in list {
            eye.hear(call, answer);
        }
    }
    println!("{found:#?}");
    assert_waits(&found);
}

fn assert_waits(found: &Found) {
    for class in ["Normal", "High"] {
        let replaced = ["kept", "changed to", "refused over a"].map(|what| format!("{what} {class}"));
        let granted = ["replaced", "over 1 starts"].map(|what| format!("granted {class} {what}"));
        let waited = [true, false].map(|at_once| format!("granted {class}, at once {at_once}"));
        for what in [&replaced[..], &granted, &waited].concat() {
            found.assert_met(3_000, &[&what]);
        }
        found.assert_met(1_000, &[&format!("kept {class} three times")]);
    }
    for (why, by) in [("released", 300), ("lowered", 100)] {
        for who in ["its own event", "another call"] {
            let [at_once, later] =
                ["at once", "later"].map(|when| format!("turned, {why}, by {who}, {when}"));
            found.assert_met(by, &[&at_once, &later]);
        }
    }
    for crossed in [true, false] {
        found.assert_met(200, &[&format!("turned, then high, start crossed by it {crossed}")]);
        found.assert_met(800, &[&format!("turned, then kept, start crossed by it {crossed}")]);
        found.assert_met(800, &[&format!("granted turned, replaced {crossed}")]);
    }
    found.assert_met(1_500, &["a laptop over a normal", "a normal over a laptop", "off, then new"]);
    found.assert_met(500, &["kept High over a start", "granted Normal over 5 starts"]);
    found.assert_met(50, &["granted Normal over 20 starts"]);
    // A reserved unit has its turn in each frame.
    found.assert_unmet("granted High over 2 starts");
}

/// Texts are shorter and the program makes their steps, so they meet less of it.
#[test]
fn texts_have_every_turn() {
    let mut found = Found::default();
    for seed in 0..6_000 {
        let text = texts::whole(&mut Random::new(seed));
        let taken = read(&text).expect("a good plan");
        let (mut hub, mut eye) = (Fast::new(&taken.plan), Eye::new(&taken.plan, &mut found));
        for line in Lines::from(&text, taken.at, taken.line) {
            // One with a number of more than 16 digits is none.
            let Some(call) = event(&line) else { continue };
            let bound = Call::Step { t: call.time() };
            steps(&mut hub, call.time(), |step| eye.hear(bound, step));
            eye.hear(call, hub.call(call));
        }
    }
    println!("{found:#?}");
    found.assert_met(1_000, &["kept Normal", "kept High", "changed to Normal", "changed to High"]);
    found.assert_met(100, &["kept Normal three times", "kept High three times", "off, then new"]);
    for crossed in [true, false] {
        found.assert_met(100, &[&format!("turned, then kept, start crossed by it {crossed}")]);
        found.assert_met(20, &[&format!("turned, then high, start crossed by it {crossed}")]);
        found.assert_met(100, &[&format!("granted turned, replaced {crossed}")]);
    }
}
