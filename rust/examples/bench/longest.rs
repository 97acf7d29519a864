//! The longest single calls.

use crate::archive::cells;
use crate::clock::Clock;
use crate::hubs::{Hubs, Tables};
use crate::loads::Load;
use crate::probes::{reserves, starts, walks, Probe};
use reference::hub::Call;
use reference::plan::Plan;
use std::hint::black_box;

/// How many rounds a run has; how many calls of each load are measured alone, how often each in one pass, and in
/// how many passes.
#[derive(Clone, Copy)]
pub struct Effort {
    pub rounds: usize,
    pub calls: usize,
    pub repeats: usize,
    pub passes: usize,
}

/// The longest time of each hub, over all calls of a kind.
pub type Longest = [f64; 3];

#[derive(Clone, Copy, Default)]
pub struct Worst {
    pub step: Longest,
    pub step_at_start: Longest,
    pub event: Longest,
    pub event_at_start: Longest,
}

/// One call that was measured: the least time of each hub.
struct Timed {
    step: bool,
    /// Whether a frame started at it.
    start: bool,
    least: [f64; 3],
}

/// The frame that a table's clock lies in.
fn frame_of(tables: &Tables) -> u64 {
    let clock = cells::cascade::time(&tables.cascade[..], cells::cascade::CLOCK);
    clock / u64::from(tables.plan[cells::plan::FRAME])
}

/// One call by each hub, from the same state each time, and then made once.
fn measure_call(clock: &Clock, hubs: &mut Hubs, call: Call, repeats: usize) -> Timed {
    let call = black_box(call);
    let archive = clock.least(repeats, &hubs.tables, |hub| hub.timed_call(call));
    let peer = clock.least(repeats, &hubs.peer, |hub| {
        black_box(hub.call(call));
    });
    let fast = clock.least(repeats, &hubs.fast, |hub| {
        black_box(hub.call(call));
    });
    let before = frame_of(&hubs.tables);
    hubs.call(call);
    let step = matches!(call, Call::Step { .. });
    Timed { step, start: frame_of(&hubs.tables) > before, least: [archive, peer, fast] }
}

/// The calls of some lists, one by one, and the hardest calls of the plan.
fn pass(clock: &Clock, plan: &Plan, lists: &[(&Hubs, &Load)], effort: Effort) -> Vec<Timed> {
    let mut timed = Vec::new();
    for &(ready, load) in lists {
        let mut hubs = ready.clone();
        for &call in load.timed.iter().take(effort.calls) {
            timed.push(measure_call(clock, &mut hubs, call, effort.repeats));
        }
    }
    let Load { before, timed: calls } = walks(plan);
    let mut hubs = Hubs::new(plan, &before);
    for call in calls {
        timed.push(measure_call(clock, &mut hubs, call, effort.repeats));
    }
    for Probe { before, call } in starts(plan).into_iter().chain(reserves(plan)) {
        timed.push(measure_call(clock, &mut Hubs::new(plan, &before), call, effort.repeats));
    }
    timed
}

/// The longest calls, of each call the least time of several passes over all of them.
pub fn longest(clock: &Clock, plan: &Plan, lists: &[(&Hubs, &Load)], effort: Effort) -> Worst {
    let mut all = pass(clock, plan, lists, effort);
    for _ in 1..effort.passes {
        for (own, other) in all.iter_mut().zip(pass(clock, plan, lists, effort)) {
            own.least = std::array::from_fn(|hub| own.least[hub].min(other.least[hub]));
        }
    }
    let mut worst = Worst::default();
    for Timed { step, start, least } in all {
        let kind = match (step, start) {
            (true, false) => &mut worst.step,
            (true, true) => &mut worst.step_at_start,
            (false, false) => &mut worst.event,
            (false, true) => &mut worst.event_at_start,
        };
        *kind = std::array::from_fn(|hub| kind[hub].max(least[hub]));
    }
    worst
}
