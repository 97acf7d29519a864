//! Slip 5 of document 02, "Any moment, not only a frame's start": where its
//! premises hold, the grant comes in class high and by the limit. On random lists
//! of calls over plans of both framings, strict and not, each cut at several places,
//! and on the vectors' texts and logs.

mod common;

use common::{by_default, control, numbers, plan, texts_now, Lowest, PLAN};
use reference::core::Class;
use reference::hub::{Answer, Call, Calls, Hub};
use reference::log::{event, LONGEST_TEXT};
use reference::plan::{read, Plan};
use reference::random::calls::{list, Style};
use reference::random::{plans, Random};
use reference::text::Lines;
use std::collections::HashMap;

/// A list of calls and answers, looked at as a whole. Place i stands before entry i.
struct Words<'a> {
    plan: &'a Plan,
    list: &'a [(Call, Answer)],
    /// The clock at each place.
    clock: Vec<u64>,
    /// n and b of every node by frame, looked up once each.
    shares: HashMap<u64, Vec<(u64, u64)>>,
}

/// A request for which all premises hold.
struct Wait {
    put_up: u64,
    /// What the other nodes with a reservation may take.
    others: u64,
    limit: u64,
    grant: Option<(Class, u64)>,
    /// Another high request of its node took its place at a later time.
    replaced: bool,
}

impl Wait {
    fn kept(&self) -> bool {
        self.grant.is_some_and(|(class, time)| class == Class::High && time <= self.limit)
    }
}

impl<'a> Words<'a> {
    fn new(plan: &'a Plan, list: &'a [(Call, Answer)]) -> Words<'a> {
        let mut clock = vec![0];
        for &(call, answer) in list {
            clock.push(match answer {
                Answer::Taken => call.time(),
                Answer::Grant { time, .. } | Answer::Rest { time, .. } => time,
                _ => clock[clock.len() - 1],
            });
        }
        Words { plan, list, clock, shares: HashMap::new() }
    }

    /// "The n and b of k's last accepted reserve with t below f × T, or n = 0."
    fn reserved(&mut self, f: u64) -> Vec<(u64, u64)> {
        let (plan, list) = (self.plan, self.list);
        let look_up = || {
            let mut shares = vec![(0, 0); plan.nodes];
            for &(call, answer) in list {
                if let (Call::Reserve { t, k, n, b }, Answer::Taken) = (call, answer) {
                    if t < f * plan.frame {
                        shares[k as usize - 1] = (n, b);
                    }
                }
            }
            shares
        };
        self.shares.entry(f).or_insert_with(look_up).clone()
    }

    fn high_grants(&self, before: usize, node: u64, f: u64) -> u64 {
        let grants = self.list[..before].iter().filter(|(_, answer)| match *answer {
            Answer::Grant { time, node: k, class, .. } => {
                k == node && class == Class::High && time / self.plan.frame == f
            }
            _ => false,
        });
        grants.count() as u64
    }

    /// "Run that far": the clock is above the limit, or the last call is a step
    /// with a bound above it, answered quiet.
    fn run_above(&self, limit: u64) -> bool {
        let quiet = matches!(self.list.last(), Some(&(Call::Step { t }, Answer::Quiet)) if t > limit);
        self.clock[self.list.len()] > limit || quiet
    }

    /// The wait of entry i, if it is an accepted high request and all premises hold. One
    /// that slip 8 takes as normal never has fewer high grants than its n, which is 0;
    /// one that takes another's place while n is 0 has a change of reservation before it.
    fn wait(&mut self, i: usize) -> Option<Wait> {
        let (Call::High { t, k, .. }, Answer::Taken) = self.list[i] else { return None };
        let f = t / self.plan.frame;
        let shares = self.reserved(f);
        if self.high_grants(i, k, f) >= shares[k as usize - 1].0 {
            return None;
        }
        let others = others(self.plan, &shares, k);
        let limit = t + self.plan.interrupt + others;
        if !self.run_above(limit) {
            return None;
        }
        let (mut grant, mut replaced) = (None, false);
        for &(call, answer) in &self.list[i + 1..] {
            match (call, answer) {
                (_, Answer::Grant { time, node, class, .. }) if node == k => {
                    grant = Some((class, time));
                    break;
                }
                (Call::Normal { k: j, .. } | Call::Off { k: j, .. }, Answer::Taken) if j == k => return None,
                (Call::High { t: later, k: j, .. }, Answer::Taken) if j == k => replaced |= later > t,
                _ => {}
            }
        }
        let last = grant.map_or(self.clock[self.list.len()], |(_, time)| time) / self.plan.frame;
        // Behind the last reserve's frame nothing changes any more.
        let changes = |&(call, answer): &(Call, Answer)| match (call, answer) {
            (Call::Reserve { t, .. }, Answer::Taken) => Some(t / self.plan.frame + 1),
            _ => None,
        };
        let settled = self.list.iter().filter_map(changes).max().unwrap_or(0).max(f);
        let unchanged = (f..=last.min(settled)).all(|later| self.reserved(later) == shares);
        unchanged.then_some(Wait { put_up: t, others, limit, grant, replaced })
    }
}

/// "The sum of c over all other nodes with a reservation in force", c = b + O.
fn others(plan: &Plan, shares: &[(u64, u64)], k: u64) -> u64 {
    let reserved = (1..).zip(shares).filter(|&(j, &(n, _))| j != k && n > 0);
    reserved.map(|(_, &(_, b))| b + plan.overhead).sum()
}

/// What the waits met.
#[derive(Default, Debug)]
struct Met {
    waits: u64,
    /// The grant's frame isn't the request's.
    across: u64,
    /// Granted at the limit itself, where other nodes have a reservation, and of
    /// these over a frame's start.
    met: u64,
    met_across: u64,
    /// The request was replaced later, and of these granted at the limit of the first.
    replaced: u64,
    met_replaced: u64,
    /// Granted later, in class normal or not at all, and of these replaced.
    broken: u64,
    broken_replaced: u64,
}

impl Met {
    fn look(&mut self, plan: &Plan, list: &[(Call, Answer)]) {
        let mut words = Words::new(plan, list);
        for i in 0..list.len() {
            let Some(wait) = words.wait(i) else { continue };
            let replaced = u64::from(wait.replaced);
            let broken = u64::from(!wait.kept());
            self.waits += 1;
            self.replaced += replaced;
            self.broken += broken;
            self.broken_replaced += broken * replaced;
            if let Some((_, time)) = wait.grant {
                let across = u64::from(time / plan.frame > wait.put_up / plan.frame);
                let met = u64::from(time == wait.limit && wait.others > 0);
                self.across += across;
                self.met += met;
                self.met_across += met * across;
                self.met_replaced += met * replaced;
            }
        }
    }
}

/// A plan in which the limit can be met: few nodes, short frames, and D no more
/// than a packet takes.
fn short_frames(random: &mut Random) -> Plan {
    let nodes = random.within(2..=6);
    let mut plan = plans::small_plan(random, nodes);
    plan.overhead = random.within_or_end(0..=5_000);
    plan.interrupt = plan.longest_packet() + plan.overhead;
    plan.frame = random.within_or_end(100_000..=200_000);
    plan
}

/// Calls that are made one by one, with what is answered.
struct Desk<H> {
    hub: H,
    list: Vec<(Call, Answer)>,
}

impl<H: Calls> Desk<H> {
    fn call(&mut self, call: Call) -> Answer {
        let answer = self.hub.call(call);
        self.list.push((call, answer));
        answer
    }

    /// All steps before t, and the clock comes there.
    fn run_to(&mut self, t: u64) {
        while let Answer::Grant { .. } | Answer::Rest { .. } = self.call(Call::Step { t }) {}
        self.call(Call::Until { t });
    }
}

/// Near the end of each frame a packet begins that nobody reserved, and many nodes
/// ask at once, some of them again while they wait, with a packet of another length,
/// or behind their grants.
fn near_frame_ends<H: Calls>(plan: &Plan, random: &mut Random, hub: H) -> Vec<(Call, Answer)> {
    let mut desk = Desk { hub, list: Vec::new() };
    let nodes = plan.nodes as u64;
    let longest = plan.longest_packet();
    let lengths: Vec<u64> = (0..nodes).map(|_| random.within_or_end(512..=longest / 2)).collect();
    for (k, &b) in (1..).zip(&lengths) {
        desk.call(Call::Reserve { t: 0, k, n: random.within(0..=3), b });
    }
    for f in 1..=6 {
        let start = f * plan.frame;
        desk.run_to(start);
        for _ in 0..random.below(4) {
            let k = random.within(1..=nodes);
            desk.call(Call::High { t: start, k, b: lengths[k as usize - 1] });
        }
        if random.chance(20) {
            let k = random.within(1..=nodes);
            desk.call(Call::Reserve { t: start, k, n: random.within(0..=3), b: lengths[k as usize - 1] });
        }
        let t = start + plan.frame - random.within(1..=2 * longest + 1_000);
        desk.run_to(t);
        desk.call(Call::Normal { t, k: random.within(1..=nodes), b: random.within_or_end(512..=longest) });
        desk.call(Call::Step { t: t + 1 });
        for _ in 0..2 * nodes {
            let k = random.within(1..=nodes);
            desk.call(Call::High { t, k, b: lengths[k as usize - 1] });
        }
        for _ in 0..random.below(2 * nodes) {
            if let Answer::Grant { time, node, .. } = desk.call(Call::Step { t: start + 2 * plan.frame }) {
                for k in [node, random.within(1..=nodes)] {
                    if random.chance(50) {
                        let b = random.within_or_end(512..=lengths[k as usize - 1]);
                        desk.call(Call::High { t: time, k, b });
                    }
                }
            }
        }
    }
    desk.run_to(8 * plan.frame);
    desk.list
}

/// Each list, and the list cut at some place: one that ends early is a list too.
/// What they met, by framing, and by whether the plan is strict.
fn lists<H: Calls>(seeds: std::ops::Range<u64>, calls: usize, hub: impl Fn(&Plan) -> H) -> [Met; 4] {
    let mut met = <[Met; 4]>::default();
    for seed in seeds {
        let mut random = Random::new(seed);
        let (plan, list) = match random.below(3) {
            0 => {
                let plan = plans::plan(&mut random);
                let style = if random.chance(40) { Style::Mixed } else { Style::Loaded };
                let list = list(&plan, random.number(), style, calls, &mut hub(&plan));
                (plan, list)
            }
            1 => {
                let plan = short_frames(&mut random);
                let list = list(&plan, random.number(), Style::Loaded, calls, &mut hub(&plan));
                (plan, list)
            }
            _ => {
                let plan = short_frames(&mut random);
                let list = near_frame_ends(&plan, &mut random, hub(&plan));
                (plan, list)
            }
        };
        let met = &mut met[2 * plan.framing() as usize + usize::from(plan.strict)];
        met.look(&plan, &list);
        met.look(&plan, &list[..random.place(list.len())]);
    }
    println!("{met:?}");
    met
}

#[test]
fn every_wait_ends_by_its_limit() {
    for met in lists(0..20_000, 400, control) {
        let Met { waits, across, met_across, .. } = met;
        assert_eq!(met.broken, 0, "{met:?}");
        assert!(waits > 150_000 && across > 5_000 && met.met > 500 && met_across > 250, "{met:?}");
        assert!(met.replaced > 2_500 && met.met_replaced > 100, "{met:?}");
    }
}

/// By the lowest node always, k waits for as long as a lower one asks.
#[test]
fn an_unfair_hub_breaks_it() {
    for met in lists(0..1_200, 400, |plan| Hub::new(plan, Lowest(plan.nodes))) {
        assert!(met.broken > 20 && met.broken_replaced > 20, "{met:?}");
    }
}

/// Slip 8: a request taken as normal isn't one that waits, not even where the node is
/// reserved before its grant; the real one that takes its place is.
#[test]
fn a_request_taken_as_normal_is_no_wait() {
    let plan = plan(&by_default(PLAN));
    let high = |t| Call::High { t, k: 3, b: 4_000 };
    let waits = |later: &[Call]| {
        let mut desk = Desk { hub: control(&plan), list: Vec::new() };
        let before = [Call::Normal { t: 99_000, k: 1, b: 12_000 }, Call::Step { t: 99_001 }];
        let reserve = Call::Reserve { t: 99_500, k: 3, n: 1, b: 4_000 };
        for &call in before.iter().chain(&[reserve, high(99_500)]).chain(later) {
            desk.call(call);
        }
        desk.run_to(300_000);
        let mut met = Met::default();
        met.look(&plan, &desk.list);
        (met.waits, met.broken)
    };
    assert_eq!(waits(&[]), (0, 0));
    assert_eq!(waits(&[Call::Until { t: 100_000 }]), (0, 0));
    assert_eq!(waits(&[high(99_999)]), (0, 0));
    assert_eq!(waits(&[high(100_000)]), (1, 0));
}

/// A line of the log as a step's answer.
fn step_answer(line: &str) -> Option<Answer> {
    if let Some(grant) = numbers(line, "(grant ") {
        let class = if grant[2] == 2 { Class::High } else { Class::Normal };
        let [time, node, _, end, moves, wait] = grant[..] else { panic!("{line}") };
        Some(Answer::Grant { time, node, class, end, moves, wait })
    } else {
        numbers(line, "(rest ").map(|rest| Answer::Rest { time: rest[0], moves: rest[1] })
    }
}

/// The list of calls and answers that a text and its log tell: before each event
/// the steps that its log shows, and a quiet one where the event is taken.
fn told(text: &[u8], log: &str) -> Option<(Plan, Vec<(Call, Answer)>)> {
    let taken = read(text).ok()?;
    let mut log = log.lines().skip(1).peekable();
    let mut list = Vec::new();
    for line in Lines::from(text, taken.at, taken.line) {
        let Some(call) = event(&line) else {
            log.next_if(|said| said.starts_with(&format!("(refused {} ", line.number)));
            continue;
        };
        let bound = Call::Step { t: call.time() };
        while let Some(answer) = log.peek().and_then(|said| step_answer(said)) {
            if matches!(answer, Answer::Grant { time, .. } | Answer::Rest { time, .. } if time >= call.time())
            {
                break;
            }
            list.push((bound, answer));
            log.next();
        }
        let refused = log.next_if(|said| said.starts_with(&format!("(refused {} ", line.number)));
        match refused.and_then(|said| numbers(said, "(refused ")) {
            Some(refusal) => list.push((call, Answer::Refused(refusal[1] as u32))),
            None => list.extend([(bound, Answer::Quiet), (call, Answer::Taken)]),
        }
    }
    assert_eq!(log.next(), None);
    Some((taken.plan, list))
}

/// The logs of another model, read as lists of calls and answers.
#[test]
fn the_vectors_keep_the_limit() {
    let mut met = Met::default();
    for path in texts_now() {
        let text = std::fs::read(&path).unwrap();
        let log = std::fs::read_to_string(path.with_extension("log")).unwrap();
        if let Some((plan, list)) = told(&text[..text.len().min(LONGEST_TEXT)], &log) {
            met.look(&plan, &list);
        }
    }
    println!("{met:?}");
    assert_eq!(met.broken, 0, "{met:?}");
    assert!(met.waits > 100, "{met:?}");
}

/// `cargo test --release -- --ignored`, with LISTS to say how many.
#[test]
#[ignore = "long"]
fn every_wait_ends_by_its_limit_for_long() {
    let many = std::env::var("LISTS").ok().and_then(|lists| lists.parse().ok()).unwrap_or(50_000);
    let met = lists(1_000_000..1_000_000 + many, 1_000, control);
    assert!(met.iter().all(|met| met.broken == 0), "{met:?}");
}
