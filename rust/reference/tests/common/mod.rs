//! What several tests use.
#![allow(dead_code)]

pub mod calls;

use reference::control::Control;
use reference::core::{Class, Turns};
use reference::fast::Fast;
use reference::flat::Flat;
use reference::hub::{Answer, Call, Calls, Hub};
use reference::log::log;
use reference::peer::{self, Peer};
use reference::plan::{read, Framing, Plan};
use reference::waits::Waits;
use std::collections::BTreeMap;
use std::path::{Path, PathBuf};

/// Document 01's plan of the log and of most trial cases, with the line that slip 8
/// asks of it.
pub const PLAN: &str =
    "(frame 100000)\n(overhead 1000)\n(interrupt 13000)\n(strict)\n(hub\n(node)\n(hub\n(node)\n(node)\n)\n(node)\n)\n";

/// A text without the line `(strict)`.
pub fn by_default(text: &str) -> String {
    text.replacen("(strict)\n", "", 1)
}

/// The same with a framing's line and its least D.
pub fn framed(framing: Framing) -> String {
    let interrupt = format!("(interrupt {})\n", framing.longest_packet() + 1_000);
    let lines = format!("{interrupt}(framing {})\n", framing.number());
    PLAN.replace("(interrupt 13000)\n", &lines)
}

pub fn plan(text: &str) -> Plan {
    read(text.as_bytes()).expect("a good plan").plan
}

pub fn flat(plan: &Plan) -> Hub<Flat> {
    Hub::new(plan, Flat::new(plan))
}

pub fn control(plan: &Plan) -> Hub<Control> {
    Hub::new(plan, Control::new(plan))
}

/// The hubs, first the two that count moves.
pub fn hubs(plan: &Plan) -> [Box<dyn Calls>; 4] {
    [Box::new(control(plan)), Box::new(Peer::new(plan)), Box::new(flat(plan)), Box::new(Fast::new(plan))]
}

/// A text has this log by both ways.
pub fn logged(text: &str, expected: &str) {
    assert_eq!(String::from_utf8(log(text.as_bytes())).unwrap(), expected, "{text}");
    assert_eq!(String::from_utf8(peer::log::log(text.as_bytes())).unwrap(), expected, "peer: {text}");
}

/// These calls get these answers of each hub of a plan, with the waits that both
/// tell: the table needn't have them.
pub fn trial(plan: &Plan, table: &[(Call, Answer)]) {
    let mut waits = Waits::new(plan);
    let table: Vec<_> = table.iter().map(|&(call, answer)| (call, waits.hear(call, answer))).collect();
    trial_of_waits(plan, &table);
}

/// The same with the waits that the table has.
pub fn trial_of_waits(plan: &Plan, table: &[(Call, Answer)]) {
    for (which, hub) in hubs(plan).iter_mut().enumerate() {
        for (place, &(call, answer)) in table.iter().enumerate() {
            let expected = if which < 2 { answer } else { answer.without_moves() };
            let strict = plan.strict;
            assert_eq!(hub.call(call), expected, "hub {which}, strict {strict}, call {place}: {call:?}");
        }
    }
}

/// They get them whether the plan is strict or not.
pub fn trial_of_both(plan: &Plan, table: &[(Call, Answer)]) {
    for strict in [true, false] {
        trial(&Plan { strict, ..plan.clone() }, table);
    }
}

pub fn grant(time: u64, node: u64, class: u64, end: u64, moves: u64) -> Answer {
    let class = if class == 1 { Class::Normal } else { Class::High };
    Answer::Grant { time, node, class, end, moves, wait: 0 }
}

/// The texts with the logs that an independent model gives. They lie in
/// `shared/vectors` beside some directory above the package, or where the
/// environment variable `VECTORS` says.
pub fn vectors() -> PathBuf {
    if let Some(path) = std::env::var_os("VECTORS") {
        return path.into();
    }
    Path::new(env!("CARGO_MANIFEST_DIR"))
        .ancestors()
        .map(|above| above.join("shared/vectors"))
        .find(|path| path.is_dir())
        .expect("shared/vectors above the package, or VECTORS set")
}

/// The texts of a folder.
pub fn texts(folder: &Path) -> Vec<PathBuf> {
    let entries = std::fs::read_dir(folder).unwrap().map(|entry| entry.unwrap().path());
    entries.filter(|path| path.extension().is_some_and(|extension| extension == "text")).collect()
}

/// The texts as they count now: those of the requests that have landed stand in
/// place of the ones of the same name, later ones of earlier ones.
pub fn texts_now() -> Vec<PathBuf> {
    texts_by(|_| true)
}

/// The texts as they count by these of the requests that have landed.
pub fn texts_by(counts: impl Fn(&str) -> bool) -> Vec<PathBuf> {
    let landed = include_str!("../../../../tools/landed").lines();
    let landed = landed.map(|line| line.split('#').next().unwrap().trim());
    let landed = landed.filter(|number| !number.is_empty() && counts(number));
    let after = landed.map(|number| vectors().join(format!("after-{number}"))).filter(|path| path.is_dir());
    let mut now = BTreeMap::new();
    for folder in [vectors()].into_iter().chain(after) {
        now.extend(texts(&folder).into_iter().map(|path| (path.file_name().unwrap().to_owned(), path)));
    }
    now.into_values().collect()
}

/// A log without the last number of the lines that begin with one of these words.
pub fn without_last(log: &[u8], words: &[&str]) -> Vec<u8> {
    let mut out = Vec::new();
    for line in log.split_inclusive(|&byte| byte == b'\n') {
        let begins = words.iter().any(|word| line.starts_with(word.as_bytes()));
        let last = line.iter().rposition(|&byte| byte == b' ').filter(|_| begins);
        match last {
            Some(last) => out.extend([&line[..last], b")\n"].concat()),
            None => out.extend_from_slice(line),
        }
    }
    out
}

/// A log without its waits.
pub fn without_waits(log: &[u8]) -> Vec<u8> {
    without_last(log, &["(grant"])
}

/// The numbers of a line of the log that begins with this word.
pub fn numbers(line: &str, word: &str) -> Option<Vec<u64>> {
    let inside = line.strip_prefix(word)?.strip_suffix(')')?;
    Some(inside.split(' ').filter_map(|number| number.parse().ok()).collect())
}

/// The reservations that a list of calls and answers tells.
pub struct Shares {
    frame: u64,
    /// Time, node, n and b of each accepted reserve.
    accepted: Vec<(u64, u64, u64, u64)>,
}

impl Shares {
    pub fn new(plan: &Plan) -> Shares {
        Shares { frame: plan.frame, accepted: Vec::new() }
    }

    pub fn hear(&mut self, call: Call, answer: Answer) {
        if let (Call::Reserve { t, k, n, b }, Answer::Taken) = (call, answer) {
            self.accepted.push((t, k, n, b));
        }
    }

    /// n and b in force at a time: those "of k's last accepted reserve with t below
    /// f × T, or n = 0 if there is none".
    pub fn at(&self, time: u64, node: u64) -> (u64, u64) {
        let start = time / self.frame * self.frame;
        let mut found = self.accepted.iter().rev().filter(|&&(t, k, ..)| k == node && t < start);
        found.next().map_or((0, 0), |&(_, _, n, b)| (n, b))
    }
}

/// How often each thing was met.
#[derive(Default, Debug)]
pub struct Found(pub BTreeMap<String, u64>);

impl Found {
    pub fn count(&mut self, what: impl Into<String>) {
        self.add(what, 1);
    }

    pub fn add(&mut self, what: impl Into<String>, times: u64) {
        *self.0.entry(what.into()).or_default() += times;
    }

    pub fn join(&mut self, some: Found) {
        for (what, times) in some.0 {
            self.add(what, times);
        }
    }

    /// It was never met.
    pub fn assert_unmet(&self, what: &str) {
        assert!(!self.0.contains_key(what), "{what} was met: {self:?}");
    }

    /// Each of these was met at least so often.
    pub fn assert_met(&self, least: u64, whats: &[&str]) {
        for &what in whats {
            assert!(self.0.get(what).is_some_and(|&times| times >= least), "{what} was hardly met: {self:?}");
        }
    }
}

/// A wrong way to choose: always the lowest node.
pub struct Lowest(pub usize);

impl Turns for Lowest {
    fn choose(&mut self, _: Class, counts: &dyn Fn(usize) -> bool) -> (usize, u64) {
        ((1..=self.0).find(|&k| counts(k)).unwrap(), 0)
    }

    fn rest(&mut self) -> u64 {
        0
    }
}
