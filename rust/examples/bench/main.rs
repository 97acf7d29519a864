//! Measures the archive beside the fair peer and the bit-set hub in one run, and writes docs/BENCHMARKS.md to
//! standard output:
//!
//!     cargo run --release --example bench > ../docs/BENCHMARKS.md
//!
//! - `plans`, `loads`, `probes`: what is asked of whom.
//! - `hubs`: who is asked; `rounds`: how long a load and a text take each of them.
//! - `clock`, `longest`, `offers`: single calls by the processor's clock.
//! - `cases`: the figures of each plan.
//! - `page`, `goals`, `tables`: what is written.
//!
//! It makes five runs, of which the last gives the tables. `--quick` behind `--` makes one, takes less than ten
//! seconds and leaves out how the cost grows; a number is how many rounds a run has. What it does meanwhile goes
//! to standard error.

#[path = "../../tests/archive/mod.rs"]
mod archive;
mod cases;
mod clock;
mod goals;
mod hubs;
mod loads;
mod longest;
mod offers;
mod page;
mod plans;
mod probes;
mod rounds;
mod tables;

use cases::{case, measure, Case, Row};
use clock::Clock;
use goals::{goal_table, goals};
use longest::{longest, Effort};
use offers::offers;
use page::{head, method, why};
use plans::deepest;
use tables::{call_table, growth_tables, log_table, longest_table, offers_table};

/// What is measured: nodes and levels. The second part shows only how the cost grows.
const SHAPES: [(usize, usize); 8] = [(4, 1), (32, 1), (4, 2), (32, 2), (256, 2), (4, 5), (32, 5), (256, 5)];
const GROWTH: [(usize, usize); 6] = [(8, 2), (16, 2), (64, 2), (128, 2), (32, 3), (32, 4)];

fn main() {
    let words: Vec<String> = std::env::args().skip(1).collect();
    let quick = words.iter().any(|word| word == "--quick");
    let (runs, effort, growth) = if quick {
        (1, Effort { rounds: 61, calls: 300, repeats: 40, passes: 3 }, &GROWTH[..0])
    } else {
        (5, Effort { rounds: 201, calls: 1_000, repeats: 100, passes: 5 }, &GROWTH[..])
    };
    let rounds = words.iter().find_map(|word| word.parse().ok()).unwrap_or(effort.rounds);
    let effort = Effort { rounds, ..effort };
    let clock = Clock::new();
    let cases: Vec<Case> = SHAPES.iter().chain(growth).map(case).collect();
    let deepest_plan = deepest();
    let mut all_goals = Vec::new();
    let mut page = String::new();
    for run in 1..=runs {
        eprintln!("run {run} of {runs}");
        let rows = measure(&clock, &cases, effort);
        let deepest = longest(&clock, &deepest_plan, &[], effort);
        let offers = offers(&clock, effort);
        let all: Vec<(&Case, &Row)> = cases.iter().zip(&rows).collect();
        let main = &all[..SHAPES.len()];
        all_goals.push(goals(main, &deepest, offers));

        page.clear();
        head(&mut page, main, &deepest);
        goal_table(&mut page, &all_goals);
        why(&mut page);
        method(&mut page, effort);
        call_table(&mut page, main);
        longest_table(&mut page, main, &deepest);
        offers_table(&mut page, offers);
        log_table(&mut page, main);
        growth_tables(&mut page, &all);
    }
    println!("{}", page.trim_end());
}
