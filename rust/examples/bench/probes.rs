//! The hardest single calls of a plan.

use crate::loads::{Load, Maker, LAST_TIME};
use reference::hub::{Answer, Call};
use reference::plan::Plan;
use reference::random::Random;

/// A call behind others.
pub struct Probe {
    pub before: Vec<Call>,
    pub call: Call,
}

/// Whose reservations are given up: nobody's, everybody's, or those of each second node.
const GIVEN_UP: [fn(u64) -> bool; 3] = [|_| false, |_| true, |k| k % 2 == 0];

/// The most that a frame's start can ask of a call: every node has a high request, and the reservations of
/// none, of all, or of each second one are given up, so that its requests become normal; or all packets
/// were spent, and all requests are held.
pub fn starts(plan: &Plan) -> Vec<Probe> {
    let given_up = GIVEN_UP.map(|up| start_given_up(plan, up));
    let lists = given_up.into_iter().chain([start_held(plan)]);
    lists.flat_map(|before| at_start(plan, before)).collect()
}

/// The calls that may meet the start of frame 2 behind others.
fn at_start(plan: &Plan, before: Vec<Call>) -> Vec<Probe> {
    let t = 2 * plan.frame;
    let calls = [
        Call::Step { t: LAST_TIME },
        Call::Until { t },
        Call::Normal { t, k: 1, b: 512 },
        Call::High { t, k: 2, b: 512 },
    ];
    calls.map(|call| Probe { before: before.clone(), call }).into()
}

/// A long packet runs over the start of frame 2, some give up what they reserved, and all ask high.
fn start_given_up(plan: &Plan, up: fn(u64) -> bool) -> Vec<Call> {
    let nodes = plan.nodes as u64;
    let mut maker = all_reserved(plan);
    let t = 2 * plan.frame - 1;
    maker.call(Call::Normal { t, k: nodes, b: 12_000 });
    maker.call(Call::Step { t: LAST_TIME });
    for k in (1..=nodes).filter(|&k| up(k)) {
        maker.call(Call::Reserve { t, k, n: 0, b: 0 });
    }
    for k in 1..=nodes {
        maker.call(Call::High { t, k, b: 512 });
    }
    maker.calls
}

/// All have spent their packets in frame 1 and asked again.
fn start_held(plan: &Plan) -> Vec<Call> {
    let mut maker = all_reserved(plan);
    for k in 1..=plan.nodes as u64 {
        maker.call(Call::High { t: plan.frame, k, b: 512 });
    }
    while let Answer::Grant { time, node, .. } = maker.call(Call::Step { t: LAST_TIME }) {
        maker.call(Call::High { t: time, k: node, b: 512 });
    }
    maker.calls
}

/// All nodes have reserved one packet, and frame 1 starts.
pub fn all_reserved(plan: &Plan) -> Maker {
    let mut maker = Maker::new(plan);
    for k in 1..=plan.nodes as u64 {
        maker.call(Call::Reserve { t: 0, k, n: 1, b: 512 });
    }
    maker.call(Call::Until { t: plan.frame });
    maker
}

/// A reserve when all nodes have one.
pub fn reserves(plan: &Plan) -> Vec<Probe> {
    let before = all_reserved(plan).calls;
    let t = plan.frame + 1;
    let calls = [Call::Reserve { t, k: 1, n: 1, b: 513 }, Call::Reserve { t, k: 1, n: 64, b: 12_000 }];
    calls.map(|call| Probe { before: before.clone(), call }).into()
}

/// Long walks: few nodes, mostly far apart, ask in both classes.
pub fn walks(plan: &Plan) -> Load {
    let nodes = plan.nodes as u64;
    let mut random = Random::new(3);
    let mut maker = Maker::new(plan);
    maker.reserve(plan);
    let before = maker.calls.len();
    let mut t = plan.frame;
    for _ in 0..600 {
        for _ in 0..random.within(1..=3) {
            let any = random.within(1..=nodes);
            let k = random.one_of(&[1, 2.min(nodes), nodes.saturating_sub(1).max(1), nodes, any]);
            maker.ask(&mut random, t, k);
        }
        match maker.call(Call::Step { t: LAST_TIME }) {
            Answer::Grant { time, .. } | Answer::Rest { time, .. } => t = time,
            other => panic!("{other:?}"),
        }
    }
    maker.load(before)
}
