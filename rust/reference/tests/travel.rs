//! Slip 13 of document 02, "A round's travel": every run of grants of one class
//! keeps its bound, some meet it exactly, and the nodes granted tell the returns
//! of the root's pointer. On random lists of calls, and on the vectors' logs.

mod common;

use common::{control, numbers, texts_now};
use reference::hub::Answer;
use reference::plan::Plan;
use reference::random::calls::{Caller, Style};
use reference::random::{plans, Random};
use std::collections::BTreeMap;

/// A run of grants: moves and returns in the steps behind its first grant.
struct Run {
    moves: u64,
    returns: u64,
}

/// What the runs met.
#[derive(Default, Debug)]
struct Met {
    runs: u64,
    longest: usize,
    most_hubs: u64,
    /// Runs that travel as far as they may, by returns, on plans with lower hubs.
    met: BTreeMap<u64, u64>,
}

/// The runs that are going on: each grant is the first of one.
struct Runs<'a> {
    hubs: u64,
    runs: Vec<Run>,
    /// Class and node of the latest grant, none behind a rest.
    latest: Option<(u64, u64)>,
    met: &'a mut Met,
}

impl Runs<'_> {
    fn new(hubs: u64, met: &mut Met) -> Runs<'_> {
        met.most_hubs = met.most_hubs.max(hubs);
        Runs { hubs, runs: Vec::new(), latest: None, met }
    }

    fn broken(&mut self) {
        self.runs.clear();
        self.latest = None;
    }

    /// A grant, with its returns where they are known.
    fn grant(&mut self, class: u64, node: u64, moves: u64, returned: Option<u64>, at: &str) {
        match self.latest {
            Some((of, earlier)) if of == class => {
                let round = u64::from(node <= earlier);
                assert_eq!(returned.unwrap_or(round), round, "{at}");
                for run in &mut self.runs {
                    run.moves += moves;
                    run.returns += round;
                    let bound = 2 * (self.hubs - 1) * (run.returns + 1);
                    assert!(run.moves <= bound, "{} moves, {} returns, {at}", run.moves, run.returns);
                    self.met.runs += 1;
                    if self.hubs > 1 && run.moves == bound {
                        *self.met.met.entry(run.returns).or_default() += 1;
                    }
                }
            }
            _ => self.broken(),
        }
        self.runs.push(Run { moves: 0, returns: 0 });
        self.met.longest = self.met.longest.max(self.runs.len());
        self.latest = Some((class, node));
    }
}

fn travel(seed: u64, plan: &Plan, style: Style, calls: u64, met: &mut Met) {
    let mut caller = Caller::new(plan, seed, style);
    let mut hub = control(plan);
    let mut runs = Runs::new(plan.hubs.len() as u64, met);
    for place in 0..calls {
        let call = caller.next_call();
        let before = hub.turns().returns();
        let answer = hub.call(call);
        let returned = hub.turns().returns() - before;
        caller.hear(call, answer);
        match answer {
            Answer::Grant { node, class, moves, .. } => {
                let at = format!("seed {seed}, call {place}: {call:?}");
                runs.grant(class as u64, node, moves, Some(returned), &at);
            }
            Answer::Rest { .. } => runs.broken(),
            _ => assert_eq!(returned, 0),
        }
    }
}

fn lists(seeds: std::ops::Range<u64>, calls: u64) -> Met {
    let mut met = Met::default();
    for seed in seeds {
        let mut random = Random::new(seed);
        let plan = plans::plan(&mut random);
        let style = if random.chance(40) { Style::Mixed } else { Style::Loaded };
        travel(random.number(), &plan, style, calls, &mut met);
    }
    println!("{met:?}");
    met
}

#[test]
fn runs_keep_their_bound_and_meet_it() {
    let met = lists(0..25_000, 400);
    assert!(met.runs > 5_000_000 && met.longest > 100 && met.most_hubs == 32, "{met:?}");
    assert!((0..4).all(|returns| met.met.get(&returns).is_some_and(|&runs| runs > 100)), "{met:?}");
}

/// The logs of another model: what they tell is enough to hold them against it.
#[test]
fn the_vectors_keep_the_bound() {
    let mut met = Met::default();
    for text in texts_now() {
        let log = std::fs::read_to_string(text.with_extension("log")).unwrap();
        let Some(plan) = numbers(log.lines().next().unwrap(), "(nodes ") else { continue };
        let mut runs = Runs::new(plan[1], &mut met);
        for line in log.lines() {
            if let Some(grant) = numbers(line, "(grant ") {
                runs.grant(grant[2], grant[1], grant[4], None, &format!("{text:?}: {line}"));
            } else if line.starts_with("(rest ") {
                runs.broken();
            }
        }
    }
    println!("{met:?}");
    assert!(met.runs > 10_000 && met.longest > 20 && met.most_hubs == 32, "{met:?}");
}

/// `cargo test --release -- --ignored`, with LISTS to say how many.
#[test]
#[ignore = "long"]
fn runs_keep_their_bound_for_long() {
    let many = std::env::var("LISTS").ok().and_then(|lists| lists.parse().ok()).unwrap_or(20_000);
    lists(1_000_000..1_000_000 + many, 1_000);
}
