//! Slip 8 of document 02 on random lists of calls: "Under either default a reserved
//! unit keeps the share and limit it had", and what the two have in common.

mod common;

use common::{control, Shares};
use reference::core::Class;
use reference::demand3::{measure, Held};
use reference::fast::Fast;
use reference::hub::{Answer, Call};
use reference::log::steps;
use reference::peer::Peer;
use reference::plan::Plan;
use reference::random::calls::{list, Style};
use reference::random::{plans, Random};
use std::collections::{HashMap, HashSet};

/// A plan that is strict or not, and a list of calls with its hub's answers.
fn drawn(seed: u64, strict: bool, length: usize) -> (Plan, Vec<(Call, Answer)>) {
    let mut random = Random::new(seed);
    let plan = Plan { strict, ..plans::plan(&mut random) };
    let style = if random.chance(50) { Style::Mixed } else { Style::Loaded };
    let list = list(&plan, random.number(), style, length, &mut Fast::new(&plan));
    (plan, list)
}

/// The answers to these calls, by the ways that count moves.
fn answers(plan: &Plan, calls: &[Call]) -> Vec<Answer> {
    let (mut control, mut peer) = (control(plan), Peer::new(plan));
    let both = |&call| {
        let answer = control.call(call);
        assert_eq!(peer.call(call), answer, "{call:?}");
        answer
    };
    calls.iter().map(both).collect()
}

/// Whether each call is a high request of a node whose n in force at its time is 0.
fn unreserved(plan: &Plan, list: &[(Call, Answer)]) -> Vec<bool> {
    let mut shares = Shares::new(plan);
    let mut all = Vec::new();
    for &(call, answer) in list {
        all.push(matches!(call, Call::High { t, k, .. } if shares.at(t, k).0 == 0));
        shares.hear(call, answer);
    }
    all
}

/// Without such requests the line changes no answer.
#[test]
fn the_line_changes_no_other_answer() {
    let (mut calls, mut high_grants, mut too_long, mut left_out) = (0, 0, 0, 0);
    for seed in 0..1_000 {
        let (plan, list) = drawn(seed, true, 400);
        let unreserved = unreserved(&plan, &list);
        // Strict they are all refused, so that the others stay what they are.
        let kept: Vec<(Call, Answer)> = list
            .iter()
            .zip(&unreserved)
            .filter(|(_, &unreserved)| !unreserved)
            .map(|(&one, _)| one)
            .collect();
        left_out += list.len() - kept.len();
        let made: Vec<Call> = kept.iter().map(|&(call, _)| call).collect();
        let strict = answers(&plan, &made);
        let default = answers(&Plan { strict: false, ..plan.clone() }, &made);
        assert_eq!(strict, default, "seed {seed}");
        assert!(
            strict.iter().zip(&kept).all(|(answer, kept)| answer.without_moves() == kept.1),
            "seed {seed}"
        );
        calls += made.len();
        too_long += strict.iter().filter(|&&answer| answer == Answer::Refused(16)).count();
        let high = |answer: &&Answer| matches!(answer, Answer::Grant { class: Class::High, .. });
        high_grants += strict.iter().filter(high).count();
    }
    println!("{calls} calls, {high_grants} high grants, {too_long} too long, {left_out} left out");
    assert!(calls > 200_000 && high_grants > 10_000 && too_long > 1_000 && left_out > 10_000);
}

/// "Taken as normal": by default every answer is the one that a strict plan gives
/// where these requests are called normal.
#[test]
fn a_request_taken_as_normal_is_a_normal_one() {
    let (mut taken, mut granted) = (0, 0);
    for seed in 0..1_000 {
        let (plan, list) = drawn(seed, false, 400);
        let renamed = |(&(call, _), unreserved): (&(Call, Answer), bool)| match call {
            Call::High { t, k, b } if unreserved => Call::Normal { t, k, b },
            call => call,
        };
        let unreserved = unreserved(&plan, &list);
        let normal: Vec<Call> = list.iter().zip(unreserved.iter().copied()).map(renamed).collect();
        let strict = answers(&Plan { strict: true, ..plan.clone() }, &normal);
        let made: Vec<Call> = list.iter().map(|&(call, _)| call).collect();
        assert_eq!(strict, answers(&plan, &made), "seed {seed}");
        taken += (0..list.len()).filter(|&i| unreserved[i] && strict[i] == Answer::Taken).count();
        granted += strict.iter().filter(|answer| matches!(answer, Answer::Grant { .. })).count();
    }
    println!("{taken} taken as normal, {granted} grants");
    assert!(taken > 10_000 && granted > 50_000);
}

/// Reserved nodes and laptops that ask high again behind each of their grants, and
/// now and then while they wait.
fn among_laptops(plan: &Plan, random: &mut Random, calls: usize) -> Vec<(Call, Answer)> {
    let (mut hub, mut list) = (Fast::new(plan), Vec::new());
    let mut call = |call| {
        list.push((call, hub.call(call)));
        (list[list.len() - 1].1, list.len())
    };
    let (nodes, longest) = (plan.nodes as u64, plan.longest_packet());
    let (reserved, n) = (nodes.div_ceil(2).min(4), random.within(1..=3));
    let share = (plan.frame - plan.interrupt) / (reserved * n);
    let fits = share.saturating_sub(plan.overhead).clamp(512, longest);
    for k in 1..=reserved {
        call(Call::Reserve { t: 0, k, n, b: fits });
    }
    let (mut clock, mut next) = (0, Some(1));
    loop {
        if let Some(k) = next {
            let b = random.within_or_end(512..=if k <= reserved { fits } else { longest });
            call(Call::High { t: clock, k, b });
        }
        let (answer, made) = call(Call::Step { t: clock + plan.frame });
        if made > calls {
            return list;
        }
        let asks = random.chance(30).then(|| random.within(1..=nodes));
        (clock, next) = match answer {
            Answer::Grant { time, node, .. } => (time, asks.or(Some(node))),
            Answer::Rest { time, .. } => (time, asks),
            _ => (clock, Some(random.within(1..=nodes))),
        };
        if answer == Answer::Quiet {
            clock += plan.frame / 3;
            call(Call::Until { t: clock });
        }
    }
}

/// How many promises there were, and the least slack.
#[derive(Debug)]
struct Promises {
    held: u64,
    /// Of these in frames in which a node without a reservation asked high.
    among_laptops: u64,
    least: i64,
}

impl Promises {
    fn look(&mut self, plan: &Plan, list: &[(Call, Answer)], seed: u64) {
        let unreserved = unreserved(plan, list);
        let asked = |(i, &(call, answer)): (usize, &(Call, Answer))| {
            let met = unreserved[i] && matches!(answer, Answer::Taken | Answer::Refused(16));
            met.then_some(call.time() / plan.frame)
        };
        let laptops: HashSet<u64> = list.iter().enumerate().filter_map(asked).collect();
        for held in measure(plan, list) {
            assert!(held.kept() && held.grants == held.n, "strict {}, seed {seed}: {held:?}", plan.strict);
            self.held += 1;
            self.among_laptops += u64::from(laptops.contains(&held.frame));
            self.least = self.least.min(held.slack().unwrap());
        }
    }
}

/// Demand 3 under both defaults, for the same plans: what is promised is kept.
#[test]
fn demand_3_holds_under_both() {
    let both = [true, false].map(|strict| {
        let mut promises = Promises { held: 0, among_laptops: 0, least: i64::MAX };
        for seed in 0..300 {
            let (plan, list) = drawn(seed, strict, 3_000);
            promises.look(&plan, &list, seed);
            let mut random = Random::new(seed);
            let plan = Plan { strict, ..plans::small_plan(&mut random, 12) };
            promises.look(&plan, &among_laptops(&plan, &mut random, 2_000), seed);
        }
        promises
    });
    println!("strict {:?}, by default {:?}", both[0], both[1]);
    for promises in both {
        assert!(
            promises.held > 20_000 && promises.among_laptops > 10_000 && promises.least == 0,
            "{promises:?}"
        );
    }
}

/// The events of a list, those left out whose time is before that of another or many
/// frames behind it: the clock, which a refused event doesn't move, then refuses none.
fn in_order(plan: &Plan, list: &[(Call, Answer)]) -> Vec<Call> {
    let mut last = 0;
    let in_order = |call: &Call| {
        let next = (last..last + 10 * plan.frame).contains(&call.time());
        last = if next { call.time() } else { last };
        next
    };
    let events = list.iter().map(|&(call, _)| call).filter(|call| !matches!(call, Call::Step { .. }));
    events.filter(in_order).collect()
}

/// Events with all steps before each, as the program makes them.
fn run(plan: &Plan, events: &[Call]) -> Vec<(Call, Answer)> {
    let mut hub = Fast::new(plan);
    let mut list = Vec::new();
    for &event in events {
        let bound = Call::Step { t: event.time() };
        steps(&mut hub, event.time(), |step| list.push((bound, step)));
        list.push((event, hub.call(event)));
    }
    list
}

/// "A plan's runs with and without `(strict)` give a reserved unit the same promise":
/// over the same events each reserve has the same answer, and n and the limit follow
/// from these alone; it is kept in both runs, though the grants before it differ.
#[test]
fn the_promise_is_the_same() {
    let (mut common, mut differ) = (0, 0);
    for seed in 0..300 {
        let (plan, list) = drawn(seed, false, 3_000);
        let events = in_order(&plan, &list);
        let [strict, default] = [true, false].map(|strict| {
            let plan = Plan { strict, ..plan.clone() };
            let list = run(&plan, &events);
            let reserves = list.iter().filter(|(call, _)| matches!(call, Call::Reserve { .. }));
            (measure(&plan, &list), reserves.copied().collect::<Vec<_>>())
        });
        assert_eq!(strict.1, default.1, "seed {seed}");
        let other: HashMap<_, Held> = default.0.iter().map(|&held| ((held.node, held.frame), held)).collect();
        for held in strict.0 {
            assert!(held.kept(), "seed {seed}: {held:?}");
            if let Some(other) = other.get(&(held.node, held.frame)) {
                assert!(other.kept(), "seed {seed}: {other:?}");
                common += 1;
                differ += u64::from(held.end != other.end);
            }
        }
    }
    println!("{common} promises in common, {differ} with another end");
    assert!(common > 1_500 && differ > 100);
}
