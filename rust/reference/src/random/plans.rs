//! Random plans, up to every limit.

use super::Random;
use crate::plan::*;

/// Half of the plans have each framing, one of 3 with its line or without.
const FRAMING_LINES: [Option<Framing>; 4] =
    [None, Some(Framing::Ethernet), Some(Framing::TokenRing), Some(Framing::TokenRing)];

/// A random plan; half of them are strict.
pub fn plan(random: &mut Random) -> Plan {
    let framing_line = random.one_of(&FRAMING_LINES);
    let (frame, overhead, interrupt) = figures(random, framing_line.unwrap_or_default());
    let shape = shape(random);
    let mut plan = Plan::new(frame, overhead, interrupt);
    plan.framing_line = framing_line;
    build(&shape, 0, &mut plan, ROOT);
    plan.strict = random.chance(50);
    plan
}

/// A random plan with at most this many nodes, all in few hubs.
pub fn small_plan(random: &mut Random, most_nodes: u64) -> Plan {
    loop {
        let plan = plan(random);
        if plan.nodes as u64 <= most_nodes {
            return plan;
        }
    }
}

/// T, O and D over their ranges and at their ends; D mostly at its least, since
/// what it takes the reservations can't have. By framing 3 it is sometimes about
/// what would be the least by 5.
fn figures(random: &mut Random, framing: Framing) -> (u64, u64, u64) {
    let frame = match random.below(4) {
        0 => random.within(100_000..=200_000),
        _ => random.within_or_end(FRAMES),
    };
    let overhead = match random.below(3) {
        0 => random.within(0..=2_000),
        _ => random.within_or_end(OVERHEADS),
    };
    let least = framing.longest_packet() + overhead;
    let by_token_ring = Framing::TokenRing.longest_packet() + overhead;
    let interrupt = match random.below(10) {
        0 => frame,
        1 => random.within(least..=frame),
        2 => random.within_or_end(least..=by_token_ring),
        3 => (by_token_ring - 1 + random.below(3)).max(least),
        _ => least,
    };
    (frame, overhead, interrupt)
}

#[derive(Clone, Copy)]
enum Slot {
    Node,
    Empty,
    Hub(usize),
}

/// The ports of every hub, the root's first, lower hubs by their place here.
fn shape(random: &mut Random) -> Vec<Vec<Slot>> {
    let hubs = match random.below(4) {
        0 => 1,
        1 => random.within(1..=5),
        _ => random.within_or_end(1..=MOST_HUBS as u64),
    };
    let levels = random.within_or_end(1..=MOST_LEVELS as u64);
    let deep = random.chance(40);
    let mut shape: Vec<Vec<Slot>> = vec![Vec::new()];
    let mut level = vec![1];
    for _ in 1..hubs {
        let latest = shape.len() - 1;
        let above = if deep && level[latest] < levels { latest } else { random.place(shape.len()) };
        if level[above] < levels && shape[above].len() < MOST_PORTS {
            let lower = shape.len();
            shape[above].push(Slot::Hub(lower));
            shape.push(Vec::new());
            level.push(level[above] + 1);
        }
    }
    let nodes = match random.below(4) {
        0 => random.within(1..=4),
        1 => random.within(1..=20),
        _ => random.within_or_end(1..=MOST_NODES as u64),
    };
    let empties = if random.chance(50) { 0 } else { random.within(0..=20) };
    fill(random, &mut shape, nodes, Slot::Node);
    fill(random, &mut shape, empties, Slot::Empty);
    for ports in &mut shape {
        if ports.is_empty() {
            ports.push(Slot::Empty);
        }
        for from in (1..ports.len()).rev() {
            ports.swap(from, random.place(from + 1));
        }
    }
    shape
}

/// So many slots at random hubs that have room.
fn fill(random: &mut Random, shape: &mut [Vec<Slot>], slots: u64, slot: Slot) {
    for _ in 0..slots {
        let open: Vec<usize> = (0..shape.len()).filter(|&h| shape[h].len() < MOST_PORTS).collect();
        if open.is_empty() {
            return;
        }
        shape[open[random.place(open.len())]].push(slot);
    }
}

/// The hubs in line order.
fn build(shape: &[Vec<Slot>], place: usize, plan: &mut Plan, h: usize) {
    for slot in &shape[place] {
        match *slot {
            Slot::Node => plan.add_node(h).expect("within the limits"),
            Slot::Empty => plan.add_empty(h).expect("within the limits"),
            Slot::Hub(lower) => {
                let number = plan.add_hub(h).expect("within the limits");
                build(shape, lower, plan, number);
            }
        }
    }
}
