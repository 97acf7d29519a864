//! The goals, and whether a run meets them.

use crate::cases::{Case, Row, LOADS};
use crate::hubs::{ARCHIVE, BIT_SETS, PEER};
use crate::longest::{Longest, Worst};
use crate::offers::Offers;
use crate::page::{commas, SHORTEST};
use crate::tables::DEEPEST;
use std::fmt::Write;

/// A goal and what a run gave.
pub struct Goal {
    goal: String,
    limit: String,
    worst: String,
    place: String,
    met: bool,
}

pub fn name(case: &Case) -> String {
    format!("{} nodes, {} level{}", case.nodes, case.levels, if case.levels == 1 { "" } else { "s" })
}

/// The greatest figure and whose it is.
fn greatest(figures: impl Iterator<Item = (f64, String)>) -> (f64, String) {
    figures.max_by(|one, other| one.0.total_cmp(&other.0)).expect("a figure")
}

/// The goal that no ratio is above a limit.
fn at_most(goal: &str, limit: f64, ratios: impl Iterator<Item = (f64, String)>) -> Goal {
    let (ratio, place) = greatest(ratios);
    let met = ratio <= limit;
    Goal { goal: goal.into(), limit: format!("{limit:.2} ×"), worst: format!("{ratio:.2} ×"), place, met }
}

pub fn goals(rows: &[(&Case, &Row)], deepest: &Worst, offers: Offers) -> Vec<Goal> {
    let mut goals = calls(rows);
    goals.extend(longest_steps(rows, deepest));
    let logs = rows.iter().map(|(case, row)| (row.log.ratio(ARCHIVE, PEER), name(case)));
    goals.push(at_most("a whole log, of the peer's", 1.0, logs));
    goals.push(growth(rows));
    goals.push(under_a_microsecond(offers));
    goals
}

/// Request 9's goal.
fn under_a_microsecond(offers: Offers) -> Goal {
    let limit = 1_000.0;
    Goal {
        goal: "64 offers against 256 nodes, below a microsecond".into(),
        limit: format!("{} ns", commas(limit)),
        worst: format!("{} ns", commas(offers.pass)),
        place: "all nodes reserved".into(),
        met: offers.pass < limit,
    }
}

fn calls(rows: &[(&Case, &Row)]) -> Vec<Goal> {
    let mut goals = Vec::new();
    for (least, limit, of) in [(0, 1.25, ""), (256, 1.0, " at 256 nodes")] {
        for (load, load_name) in LOADS.iter().enumerate() {
            let counted = rows.iter().filter(|(case, _)| case.nodes >= least);
            let ratios = counted.map(|(case, row)| (row.calls[load].ratio(ARCHIVE, PEER), name(case)));
            goals.push(at_most(&format!("a call{of}, {load_name} load, of the peer's"), limit, ratios));
        }
    }
    goals
}

/// The longest steps of each plan, with its name and whether it has 256 nodes.
type Named<'a> = (String, bool, &'a Worst);

fn longest_steps(rows: &[(&Case, &Row)], deepest: &Worst) -> [Goal; 5] {
    let cases = rows.iter().map(|(case, row)| (name(case), case.nodes == 256, &row.worst));
    let all: Vec<Named> = cases.chain([(DEEPEST.into(), true, deepest)]).collect();
    let within: fn(&Worst) -> Longest = |worst| worst.step;
    let start: fn(&Worst) -> Longest = |worst| worst.step_at_start;
    let ratios = |longest: fn(&Worst) -> Longest, other: usize, all_plans: bool| {
        let counted = all.iter().filter(move |(_, large, _)| *large || all_plans);
        counted.map(move |(name, _, worst)| (longest(worst)[ARCHIVE] / longest(worst)[other], name.clone()))
    };
    let (time, place) = greatest(all.iter().map(|(name, _, worst)| (start(worst)[ARCHIVE], name.clone())));
    let below_a_fifth = Goal {
        goal: "the same, below a fifth of the shortest packet".into(),
        limit: format!("{} ns", commas(SHORTEST / 5.0)),
        worst: format!("{} ns", commas(time)),
        place,
        met: time < SHORTEST / 5.0,
    };
    [
        at_most("the longest step within a frame, of the peer's", 1.25, ratios(within, PEER, true)),
        at_most("the longest step at a frame's start, of the peer's", 1.25, ratios(start, PEER, true)),
        at_most("the same, of the bit-set hub's", 4.0, ratios(start, BIT_SETS, true)),
        at_most("the same, of the bit-set hub's at 256 nodes", 4.0, ratios(start, BIT_SETS, false)),
        below_a_fifth,
    ]
}

/// The cost of a call at 256 nodes against that at 32 and as many levels.
fn growth(rows: &[(&Case, &Row)]) -> Goal {
    let of = |nodes: usize, levels: usize, load: usize| {
        let found = rows.iter().find(|(case, _)| (case.nodes, case.levels) == (nodes, levels));
        found.expect("it is measured").1.calls[load].figure(ARCHIVE)
    };
    let places = [2, 5].into_iter().flat_map(|levels| (0..LOADS.len()).map(move |load| (levels, load)));
    let ratios = places.map(|(levels, load)| {
        (of(256, levels, load) / of(32, levels, load), format!("{levels} levels, {} load", LOADS[load]))
    });
    at_most("a call at 256 nodes, of one at 32 and as many levels", 1.25, ratios)
}

/// The figures of the last run, and whether each goal was met: in one run, or in how many.
pub fn goal_table(page: &mut String, runs: &[Vec<Goal>]) {
    writeln!(page, "## Goals\n\n| Goal | at most | worst | where | met |\n|---|---|---|---|---|").unwrap();
    for (at, Goal { goal, limit, worst, place, .. }) in runs[runs.len() - 1].iter().enumerate() {
        let met = runs.iter().filter(|goals| goals[at].met).count();
        let said = match (met, runs.len()) {
            (1, 1) => "met".into(),
            (0, 1) => "**not met**".into(),
            (met, all) if met == all => format!("in {met} runs of {all}"),
            (met, all) => format!("**in {met} runs of {all}**"),
        };
        writeln!(page, "| {goal} | {limit} | {worst} | {place} | {said} |").unwrap();
    }
    writeln!(page).unwrap();
}
