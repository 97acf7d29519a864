//! The random plans, calls and texts do make the cases of slip 8 of document 02.

mod common;

use common::{Found, Shares};
use reference::core::Class;
use reference::fast::Fast;
use reference::hub::{Answer, Call};
use reference::log::event;
use reference::plan::{read, Plan, Refused};
use reference::random::calls::{list, Style};
use reference::random::stricts::{NO_FORMS, TAKEN};
use reference::random::{plans, texts, Random};
use reference::text::Lines;

#[test]
fn plans_have_the_line_behind_every_framing() {
    let mut found = Found::default();
    let mut random = Random::new(0);
    for _ in 0..2_000 {
        let plan = plans::plan(&mut random);
        found.count(format!("{:?}, strict {}", plan.framing_line, plan.strict));
    }
    assert_eq!(found.0.len(), 6, "{found:?}");
    assert!(found.0.values().all(|&plans| plans > 200), "{found:?}");
}

/// What a list of calls meets.
struct Eye<'a> {
    plan: &'a Plan,
    shares: Shares,
    clock: u64,
    /// By node: its request stands and was taken as normal.
    laptops: Vec<bool>,
    found: &'a mut Found,
}

impl Eye<'_> {
    fn hear(&mut self, call: Call, answer: Answer) {
        if let (Call::High { t, k, .. }, Answer::Taken | Answer::Refused(16)) = (call, answer) {
            self.high(t, k, answer);
        }
        self.shares.hear(call, answer);
        match (call, answer) {
            (_, Answer::Grant { time, node, class, .. }) => {
                self.clock = time;
                if std::mem::take(&mut self.laptops[node as usize - 1]) {
                    assert_eq!(class, Class::Normal, "its grant is a normal grant");
                    let reserved = self.shares.at(time, node).0 > 0;
                    self.found.count(format!("granted as normal, reserved by then {reserved}"));
                }
            }
            (_, Answer::Rest { time, .. }) => self.clock = time,
            (Call::Normal { k, .. } | Call::Off { k, .. }, Answer::Taken) => {
                self.laptops[k as usize - 1] = false;
            }
            (Call::High { t, k, .. }, Answer::Taken) => {
                self.laptops[k as usize - 1] = self.shares.at(t, k).0 == 0;
            }
            _ => {}
        }
        if answer == Answer::Taken {
            self.clock = call.time();
        }
    }

    /// A high request that no row before 16 refuses.
    fn high(&mut self, t: u64, k: u64, answer: Answer) {
        let strict = self.plan.strict;
        let reserved = self.shares.at(t, k).0 > 0;
        self.found.count(format!("strict {strict}, reserved {reserved}, {answer:?}"));
        if !reserved && self.shares.at(t + self.plan.frame, k).0 > 0 {
            self.found.count(format!("strict {strict}, reserved from the next frame on, {answer:?}"));
        }
        if t / self.plan.frame > self.clock / self.plan.frame {
            let now = self.shares.at(self.clock, k).0 > 0;
            self.found.count(format!("strict {strict}, a frame later, {now} to {reserved}, {answer:?}"));
        }
        if self.laptops[k as usize - 1] && reserved {
            self.found.count(format!("behind one taken as normal, {answer:?}"));
        }
    }
}

#[test]
fn calls_have_every_high_request() {
    let mut found = Found::default();
    for seed in 0..2_000 {
        let mut random = Random::new(seed);
        let plan = plans::plan(&mut random);
        let style = if random.chance(50) { Style::Mixed } else { Style::Loaded };
        let list = list(&plan, random.number(), style, 400, &mut Fast::new(&plan));
        let (shares, laptops) = (Shares::new(&plan), vec![false; plan.nodes]);
        let mut eye = Eye { plan: &plan, shares, clock: 0, laptops, found: &mut found };
        for (call, answer) in list {
            eye.hear(call, answer);
        }
    }
    println!("{found:?}");
    assert_high_requests(&found);
}

fn assert_high_requests(found: &Found) {
    for (strict, answer) in [(true, "Refused(16)"), (false, "Taken")] {
        let other = if strict { "Taken" } else { "Refused(16)" };
        found.assert_unmet(&format!("strict {strict}, reserved false, {other}"));
        found.assert_met(1_000, &[&format!("strict {strict}, reserved false, {answer}")]);
        found.assert_met(1_000, &[&format!("strict {strict}, reserved true, Taken")]);
        found.assert_met(500, &[&format!("strict {strict}, reserved true, Refused(16)")]);
        found.assert_met(200, &[&format!("strict {strict}, reserved from the next frame on, {answer}")]);
        for (turn, answer) in [
            ("false to true", "Taken"),
            ("false to true", "Refused(16)"),
            ("true to true", "Taken"),
            ("true to true", "Refused(16)"),
            ("false to false", answer),
            ("true to false", answer),
        ] {
            found.assert_met(20, &[&format!("strict {strict}, a frame later, {turn}, {answer}")]);
        }
    }
    found.assert_met(1_000, &["granted as normal, reserved by then false"]);
    found.assert_met(100, &["granted as normal, reserved by then true"]);
    found.assert_met(50, &["behind one taken as normal, Taken", "behind one taken as normal, Refused(16)"]);
}

/// Where a line stands that the plan's row 1 refuses, seen from the root's hub.
fn place(lines: &[&[u8]], at: usize) -> &'static str {
    let root = lines.iter().position(|line| *line == b"(hub").unwrap_or(lines.len());
    match at {
        0 => "in front of T",
        1 => "between T and O",
        2 => "between O and D",
        _ if at > root => "inside a hub",
        _ if lines[at - 1] == TAKEN.as_bytes() => "twice",
        _ if at + 1 == root => "just before the root hub",
        _ => "elsewhere before the root hub",
    }
}

/// Counts what the lines of a text tell of the line.
fn look_at(text: &[u8], found: &mut Found) {
    let lines: Vec<_> = Lines::new(text).collect();
    let bytes: Vec<&[u8]> = lines.iter().map(|line| line.bytes).collect();
    match read(text) {
        Ok(taken) => {
            found.count(format!("taken, {:?}, strict {}", taken.plan.framing_line, taken.plan.strict));
            let mut behind = Lines::from(text, taken.at, taken.line);
            if behind.any(|line| line.bytes == TAKEN.as_bytes() && event(&line).is_none()) {
                found.count("as an event line");
            }
        }
        Err(Refused { line, number: 1 }) if line as usize <= lines.len() => {
            let at = line as usize - 1;
            let (line, form) = (lines[at], NO_FORMS.iter().find(|form| form.as_bytes() == bytes[at]));
            if line.bytes == TAKEN.as_bytes() && line.ended {
                found.count(place(&bytes, at));
            } else if line.bytes == TAKEN.as_bytes() {
                found.count("without LF");
            } else if let (Some(form), true) = (form, line.ended) {
                found.count(format!("{form:?}"));
            } else if at == 4 && bytes[3] == TAKEN.as_bytes() && bytes[4].starts_with(b"(framing ") {
                found.count("before the framing line");
            }
        }
        Err(_) => {}
    }
}

#[test]
fn texts_have_every_broken_strict_line() {
    let mut found = Found::default();
    for seed in 0..20_000 {
        look_at(&texts::text(&mut Random::new(seed)), &mut found);
    }
    println!("{found:?}");
    for framing in ["None", "Some(Ethernet)", "Some(TokenRing)"] {
        let whats = [false, true].map(|strict| format!("taken, {framing}, strict {strict}"));
        found.assert_met(500, &[&whats[0], &whats[1]]);
    }
    found.assert_met(
        20,
        &[
            "in front of T",
            "between T and O",
            "between O and D",
            "before the framing line",
            "twice",
            "inside a hub",
            "as an event line",
            "without LF",
        ],
    );
    for form in NO_FORMS {
        found.assert_met(10, &[&format!("{form:?}")]);
    }
}
