//! Demand 3 on random lists over plans of both framings, strict and not, and the
//! watch against document 01's words taken literally.

mod common;

use common::{by_default, flat, framed, grant, plan, Lowest, PLAN};
use reference::core::Class;
use reference::demand3::{measure, Held, Watch};
use reference::fast::Fast;
use reference::hub::{Answer, Call, Calls, Hub};
use reference::plan::{Framing, Plan};
use reference::random::calls::{list, Caller, Style};
use reference::random::{plans, Random};

/// The words of "Demand 3 over a list of calls", each looked up in the whole
/// list. Place i stands before entry i.
struct Words<'a> {
    plan: &'a Plan,
    list: &'a [(Call, Answer)],
}

impl Words<'_> {
    fn clock(&self, i: usize) -> u64 {
        let times = self.list[..i].iter().filter_map(|&(call, answer)| match answer {
            Answer::Taken => Some(call.time()),
            Answer::Grant { time, .. } | Answer::Rest { time, .. } => Some(time),
            _ => None,
        });
        times.max().unwrap_or(0)
    }

    /// "The n and b of k's last accepted reserve with t below f × T, or n = 0."
    fn reserved(&self, node: u64, f: u64) -> (u64, u64) {
        let accepted = self.list.iter().rev().filter(|(_, answer)| *answer == Answer::Taken);
        let found = accepted.filter_map(|&(call, _)| match call {
            Call::Reserve { t, k, n, b } if k == node && t < f * self.plan.frame => Some((n, b)),
            _ => None,
        });
        found.take(1).next().unwrap_or((0, 0))
    }

    /// Whether k's request at a place is high.
    fn high(&self, i: usize, node: u64) -> bool {
        for &(call, answer) in self.list[..i].iter().rev() {
            match (call, answer) {
                (_, Answer::Grant { node: k, .. }) if k == node => return false,
                (Call::Normal { k, .. } | Call::Off { k, .. }, Answer::Taken) if k == node => return false,
                (Call::High { t, k, b }, Answer::Taken) if k == node => {
                    let put = t / self.plan.frame;
                    let now = self.clock(i) / self.plan.frame;
                    return self.reserved(k, put).0 >= 1
                        && (put + 1..=now).all(|f| self.reserved(k, f).0 >= 1 && b <= self.reserved(k, f).1);
                }
                _ => {}
            }
        }
        false
    }

    /// The entries that grant k high at a time in f.
    fn high_grants(&self, node: u64, f: u64) -> Vec<usize> {
        let grants = |answer| match answer {
            Answer::Grant { time, node: k, class: Class::High, .. } => {
                k == node && time / self.plan.frame == f
            }
            _ => false,
        };
        (0..self.list.len()).filter(|&j| grants(self.list[j].1)).collect()
    }

    fn unbroken(&self, node: u64, f: u64, grants: &[usize]) -> bool {
        let last = grants.first().copied().unwrap_or(self.list.len());
        let run = (0..=last).rev().take_while(|&i| self.high(i, node));
        run.into_iter().any(|i| self.clock(i) <= f * self.plan.frame)
    }

    fn next_turns(&self, node: u64, f: u64, n: u64, grants: &[usize]) -> bool {
        let Some(&first) = grants.first() else {
            return true;
        };
        let nth = grants.get(n as usize - 1).copied().unwrap_or(self.list.len() - 1);
        (first + 1..=nth).all(|j| match self.list[j].1 {
            Answer::Grant { time, .. } | Answer::Rest { time, .. } if time / self.plan.frame == f => {
                self.high(j, node)
            }
            _ => true,
        })
    }

    fn ended(&self, f: u64) -> bool {
        let end = (f + 1) * self.plan.frame;
        let quiet = matches!(self.list.last(), Some(&(Call::Step { t }, Answer::Quiet)) if t >= end);
        self.clock(self.list.len()) >= end || quiet
    }

    fn held(&self, node: u64, f: u64) -> Option<Held> {
        let (n, own) = self.reserved(node, f);
        let grants = self.high_grants(node, f);
        if n == 0
            || !self.ended(f)
            || !self.unbroken(node, f, &grants)
            || !self.next_turns(node, f, n, &grants)
        {
            return None;
        }
        let mut limit = self.plan.interrupt + n * (own + self.plan.overhead);
        for j in (1..=self.plan.nodes as u64).filter(|&j| j != node) {
            let (other, b) = self.reserved(j, f);
            limit += n.min(other) * (b + self.plan.overhead);
        }
        let end = grants.get(n as usize - 1).map(|&j| match self.list[j].1 {
            Answer::Grant { end, .. } => end,
            _ => unreachable!(),
        });
        let limit = f * self.plan.frame + limit;
        Some(Held { node: node as usize, frame: f, n, grants: grants.len() as u64, end, limit })
    }

    /// Every node and frame; of those without a grant only each node's first.
    fn all(&self) -> Vec<Held> {
        let last = self.clock(self.list.len()) / self.plan.frame + 1;
        let mut all = Vec::new();
        for node in 1..=self.plan.nodes as u64 {
            let mut without = 0;
            for held in (0..=last).filter_map(|f| self.held(node, f)) {
                without += u64::from(held.grants == 0);
                if held.grants > 0 || without == 1 {
                    all.push(held);
                }
            }
        }
        all
    }
}

/// A wrong hub that knows only its clock and who asked: it takes nearly every
/// event and grants anyone at any time.
struct Any {
    clock: u64,
    longest: u64,
    asked: Vec<Option<Class>>,
    random: Random,
}

impl Calls for Any {
    fn call(&mut self, call: Call) -> Answer {
        let t = call.time();
        if t < self.clock || t > 40 * 100_000 || self.random.chance(3) {
            return Answer::Refused(11);
        }
        let nodes = self.asked.len() as u64;
        let (k, class) = match call {
            Call::Step { .. } => return self.step(t),
            Call::Until { .. } => (1, self.asked[0]),
            Call::Reserve { k, n, b, .. } if n <= 64 && b <= self.longest && (1..=nodes).contains(&k) => {
                (k, self.asked[k as usize - 1])
            }
            Call::Reserve { .. } => return Answer::Refused(14),
            Call::Normal { k, .. } => (k, Some(Class::Normal)),
            Call::High { k, .. } => (k, Some(Class::High)),
            Call::Off { k, .. } => (k, None),
        };
        if !(1..=nodes).contains(&k) {
            return Answer::Refused(13);
        }
        self.asked[k as usize - 1] = class;
        self.clock = t;
        Answer::Taken
    }
}

impl Any {
    fn step(&mut self, t: u64) -> Answer {
        if t == self.clock || self.random.chance(20) {
            return Answer::Quiet;
        }
        self.clock += self.random.below(t - self.clock).min(30_000);
        let (time, moves) = (self.clock, 0);
        if self.random.chance(5) {
            return Answer::Rest { time, moves };
        }
        let k = self.random.place(self.asked.len());
        let class = self.asked[k].take().unwrap_or(Class::High);
        let end = time + self.random.below(30_000);
        Answer::Grant { time, node: k as u64 + 1, class, end, moves, wait: 0 }
    }
}

/// Four nodes, short frames.
fn small(random: &mut Random) -> Plan {
    let mut small = plans::small_plan(random, 4);
    small.overhead = random.one_of(&[0, 1_000, 10_000]);
    small.interrupt = small.longest_packet() + small.overhead;
    small.frame = 100_000;
    small
}

fn hub(which: u64, plan: &Plan) -> Box<dyn Calls> {
    match which {
        0 => Box::new(flat(plan)),
        1 => Box::new(Hub::new(plan, Lowest(plan.nodes))),
        _ => {
            let longest = plan.longest_packet();
            Box::new(Any { clock: 0, longest, asked: vec![None; plan.nodes], random: Random::new(which) })
        }
    }
}

/// A plan's place in counts by framing and by whether it is strict.
fn kind(plan: &Plan) -> usize {
    2 * plan.framing() as usize + usize::from(plan.strict)
}

/// A list over few frames, since the words look at each.
fn short_list(plan: &Plan, random: &mut Random, hub: impl Fn() -> Box<dyn Calls>) -> Vec<(Call, Answer)> {
    loop {
        let list = list(plan, random.number(), Style::Loaded, 150, &mut *hub());
        let words = Words { plan, list: &list };
        if words.clock(list.len()) < 60 * plan.frame {
            return list;
        }
    }
}

#[test]
fn the_watch_finds_what_the_words_say() {
    let (mut held, mut broken, mut without) = ([0; 4], 0, 0);
    for seed in 0..2_000 {
        let mut random = Random::new(seed);
        let plan = small(&mut random);
        let which = if seed % 3 < 2 { seed % 3 } else { seed };
        let mut list = short_list(&plan, &mut random, || hub(which, &plan));
        let right = which == 0;
        for length in [150, 149, 120, 80, 40] {
            list.truncate(length);
            let mut lists = vec![list.clone()];
            if !right {
                // The last call is a step, wrongly quiet.
                let clock = Words { plan: &plan, list: &list }.clock(length);
                lists.push(list.clone());
                lists[1].push((Call::Step { t: clock + random.below(4 * plan.frame) }, Answer::Quiet));
            }
            for list in lists {
                let mut found = measure(&plan, &list);
                found.sort_by_key(|held| (held.node, held.frame));
                assert_eq!(found, Words { plan: &plan, list: &list }.all(), "seed {seed}, length {length}");
                held[kind(&plan)] += found.len();
                broken += found.iter().filter(|held| !held.kept()).count();
                without += found.iter().filter(|held| held.grants == 0).count();
                assert!(
                    !right || found.iter().all(|held| held.kept() && held.grants == held.n),
                    "seed {seed}"
                );
            }
        }
    }
    println!("held {held:?}, of these broken {broken}, without a grant {without}");
    assert!(held.iter().all(|&held| held > 1_000) && broken > 100 && without > 50);
}

/// Node 3's packet may be promised in frame 1 by these calls from then on: node 1's
/// packet holds the line over its start, and before it node 3 asked high.
fn over_a_start(earlier: &[Call], later: Call) -> Vec<Held> {
    let plan = plan(&by_default(PLAN));
    let mut hub = Fast::new(&plan);
    let busy = [Call::Normal { t: 99_000, k: 1, b: 12_000 }, Call::Step { t: 99_001 }];
    let ends = [Call::Step { t: 200_000 }; 3];
    let calls = [&busy[..], earlier, &[later], &ends].concat();
    let list: Vec<(Call, Answer)> = calls.into_iter().map(|call| (call, hub.call(call))).collect();
    assert_eq!(list[1].1, grant(99_000, 1, 1, 112_000, 0));
    assert!(list.iter().all(|&(_, answer)| !matches!(answer, Answer::Refused(_))), "{list:?}");
    let found = measure(&plan, &list);
    assert_eq!(found, Words { plan: &plan, list: &list }.all());
    found
}

/// By slip 8 a request taken as normal isn't the node's high request in any frame; a
/// real one is, put up at the start itself. 100,000 + 13,000 + 5,000 is the limit.
#[test]
fn a_request_taken_as_normal_is_promised_nothing() {
    let reserve = Call::Reserve { t: 99_500, k: 3, n: 1, b: 4_000 };
    let high = |t| Call::High { t, k: 3, b: 4_000 };
    assert_eq!(over_a_start(&[reserve, high(99_500)], Call::Until { t: 100_000 }), []);
    assert_eq!(over_a_start(&[reserve, high(99_500)], high(100_001)), []);
    let held = Held { node: 3, frame: 1, n: 1, grants: 1, end: Some(117_000), limit: 118_000 };
    assert_eq!(over_a_start(&[reserve, high(99_500)], high(100_000)), [held]);
}

/// The start of frame 2 would make the first of these requests normal, being longer
/// than the b from then on; the same call puts up the next one, so that "at each later
/// place" the node's request is high. 200,000 + 13,000 + 2,000 is the limit.
#[test]
fn a_high_request_renewed_over_a_start_is_unbroken() {
    let plan = plan(PLAN);
    let mut hub = Fast::new(&plan);
    let calls = [
        Call::Reserve { t: 0, k: 3, n: 1, b: 4_000 },
        Call::Reserve { t: 100_000, k: 3, n: 1, b: 1_000 },
        Call::Normal { t: 199_000, k: 1, b: 12_000 },
        Call::Step { t: 199_001 },
        Call::High { t: 199_001, k: 3, b: 4_000 },
        Call::High { t: 200_001, k: 3, b: 1_000 },
        Call::Step { t: 300_000 },
        Call::Step { t: 300_000 },
        Call::Step { t: 300_000 },
    ];
    let list = calls.map(|call| (call, hub.call(call)));
    let held = Held { node: 3, frame: 2, n: 1, grants: 1, end: Some(214_000), limit: 215_000 };
    assert_eq!(measure(&plan, &list), [held]);
    assert_eq!(Words { plan: &plan, list: &list }.all(), [held]);
}

/// A packet of the greatest length in progress, and everybody else before k in
/// each round. Granted in the last bit time before the frame it leaves one bit
/// time. Granted at the frame's start, before k's request of that same time, it
/// leaves none: the clock is then "at most f × T" still.
#[test]
fn the_limit_can_be_met_exactly() {
    let times = Framing::BOTH.map(|framing| [(framing, 199_999, 1), (framing, 200_000, 0)]);
    for (framing, time, slack) in times.into_iter().flatten() {
        let plan = plan(&framed(framing));
        let mut hub = Fast::new(&plan);
        let mut list = Vec::new();
        let mut call = |call: Call| {
            list.push((call, hub.call(call)));
            list[list.len() - 1].1
        };
        for (k, n) in (1..).zip([3, 1, 2, 3]) {
            call(Call::Reserve { t: 0, k, n, b: 3_000 });
        }
        call(Call::Normal { t: time, k: 1, b: framing.longest_packet() });
        call(Call::Step { t: time + 1 });
        for k in 1..=4 {
            call(Call::High { t: time, k, b: 3_000 });
        }
        while let Answer::Grant { time, node, .. } = call(Call::Step { t: 300_000 }) {
            call(Call::High { t: time, k: node, b: 3_000 });
        }
        call(Call::Step { t: 300_000 });
        let found = measure(&plan, &list);
        let slacks: Vec<_> = found.iter().map(|held| (held.node, held.frame, held.slack())).collect();
        assert_eq!(slacks.len(), 4);
        assert_eq!(slacks[3], (4, 2, Some(slack)), "{framing:?}: {slacks:?}");
        assert!(found.iter().all(|held| held.kept()));
    }
}

#[test]
fn an_unfair_hub_breaks_it() {
    let mut broken = [0; 2];
    for seed in 0..2_000 {
        let plan = small(&mut Random::new(seed));
        let mut hub = Hub::new(&plan, Lowest(plan.nodes));
        let list = list(&plan, seed, Style::Loaded, 2_000, &mut hub);
        let held = measure(&plan, &list);
        broken[plan.framing() as usize] += held.iter().filter(|held| !held.kept()).count();
    }
    println!("broken {broken:?}");
    assert!(broken.iter().all(|&broken| broken >= 50));
}

/// A D that framing 5 refuses on its line: the packet in progress may be longer.
#[test]
fn a_d_too_small_for_the_framing_breaks_it() {
    let mut broken = 0;
    for seed in 0..200 {
        let mut plan = small(&mut Random::new(seed));
        plan.framing_line = Some(Framing::TokenRing);
        plan.interrupt = Framing::Ethernet.longest_packet() + plan.overhead;
        let list = list(&plan, seed, Style::Loaded, 2_000, &mut flat(&plan));
        broken += measure(&plan, &list).iter().filter(|held| !held.kept()).count();
    }
    println!("broken {broken}");
    assert!(broken > 20);
}

/// Nodes and frames for which demand 3 is looked at, by framing and whether the plan
/// is strict: reserved, unbroken, held.
fn random_lists(seeds: std::ops::Range<u64>, calls: u64) {
    let (mut least, mut total) = ([i64::MAX; 4], [[0; 3]; 4]);
    for seed in seeds {
        let mut random = Random::new(seed);
        let plan = plans::plan(&mut random);
        let mut caller = Caller::new(&plan, random.number(), Style::Loaded);
        let mut hub = Fast::new(&plan);
        let mut watch = Watch::new(&plan);
        for _ in 0..calls {
            let call = caller.next_call();
            let answer = hub.call(call);
            caller.hear(call, answer);
            watch.hear(call, answer);
        }
        let tally = watch.tally;
        for (sum, one) in total[kind(&plan)].iter_mut().zip([tally.reserved, tally.unbroken, tally.held]) {
            *sum += one;
        }
        for held in watch.end() {
            assert!(held.kept() && held.grants == held.n, "seed {seed}: {held:?}");
            least[kind(&plan)] = least[kind(&plan)].min(held.slack().unwrap());
        }
    }
    println!("reserved, unbroken, held: {total:?}; least slack {least:?}");
    assert!(total.iter().all(|total| total[2] > 5_000));
}

#[test]
fn it_holds_on_random_lists() {
    random_lists(0..200, 5_000);
}

/// `cargo test --release -- --ignored`
#[test]
#[ignore = "long"]
fn it_holds_on_long_random_lists() {
    random_lists(1_000..1_100, 1_000_000);
}
