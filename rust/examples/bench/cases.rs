//! What is measured of each plan.

use crate::clock::Clock;
use crate::hubs::{Hubs, Tables};
use crate::loads::{full, light, log_text, Load, CALLS};
use crate::longest::{longest, Effort, Worst};
use crate::plans::tree;
use crate::rounds::{time_load, time_log, Buffers, Rounds};
use reference::plan::Plan;

pub const LOADS: [&str; 3] = ["light", "full", "full, all normal"];

pub struct Case {
    pub nodes: usize,
    pub levels: usize,
    pub plan: Plan,
    pub loads: [Load; 3],
    pub text: Vec<u8>,
}

/// The figures of a case.
pub struct Row {
    /// Nanoseconds a call, by load.
    pub calls: [Rounds; 3],
    /// Microseconds a log.
    pub log: Rounds,
    pub worst: Worst,
}

pub fn case(&(nodes, levels): &(usize, usize)) -> Case {
    let plan = tree(nodes, levels);
    let loads = [light(&plan, CALLS), full(&plan, CALLS, true), full(&plan, CALLS, false)];
    let text = log_text(&plan);
    Case { nodes, levels, plan, loads, text }
}

/// All cases in turn in each round; then the longest calls of each.
pub fn measure(clock: &Clock, cases: &[Case], effort: Effort) -> Vec<Row> {
    let ready: Vec<[Hubs; 3]> = cases.iter().map(hubs).collect();
    let mut buffers = Buffers::new();
    let mut calls: Vec<[Rounds; 3]> = cases.iter().map(|_| Default::default()).collect();
    let mut logs: Vec<Rounds> = cases.iter().map(|_| Rounds::default()).collect();
    for round in 0..effort.rounds {
        for (place, case) in cases.iter().enumerate() {
            for (load, hubs) in ready[place].iter().enumerate() {
                calls[place][load].push(time_load(hubs, &case.loads[load], round));
            }
            let mut tables = Tables::new(&case.plan);
            logs[place].push(time_log(&case.text, &mut tables, &mut buffers, round));
        }
    }
    let found = cases.iter().zip(ready).zip(calls.into_iter().zip(logs));
    let rows = found.map(|((case, ready), (calls, log))| {
        let lists: Vec<_> = ready.iter().zip(&case.loads).collect();
        Row { calls, log, worst: longest(clock, &case.plan, &lists, effort) }
    });
    rows.collect()
}

/// The hubs, ready for each load.
fn hubs(case: &Case) -> [Hubs; 3] {
    std::array::from_fn(|load| Hubs::new(&case.plan, &case.loads[load].before))
}
