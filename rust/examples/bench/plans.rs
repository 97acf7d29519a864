//! The plans that are measured.

use reference::plan::{Plan, ROOT};

const FRAME: u64 = 1_000_000;
const OVERHEAD: u64 = 1_000;

/// A plan with so many nodes and levels: one hub; or leaf hubs of equal size at the lowest level, as many
/// as are needed and at least two, below hubs with two lower hubs each.
pub fn tree(nodes: usize, levels: usize) -> Plan {
    let mut plan = Plan::new(FRAME, OVERHEAD, 12_000 + OVERHEAD);
    let leaves = match levels {
        1 => 1,
        2 => nodes.div_ceil(32).max(2),
        _ if nodes < 16 => 2,
        _ => 1 << (levels - 1),
    };
    let mut left = nodes;
    branch(&mut plan, ROOT, levels, leaves, &mut left, nodes.div_ceil(leaves));
    assert_eq!((plan.nodes, plan.levels()), (nodes, levels));
    plan
}

fn branch(plan: &mut Plan, h: usize, levels: usize, leaves: usize, left: &mut usize, each: usize) {
    if levels == 1 {
        for _ in 0..each.min(*left) {
            plan.add_node(h).unwrap();
            *left -= 1;
        }
        return;
    }
    let lower = if levels == 2 { leaves } else { leaves.min(2) };
    for place in 0..lower {
        let hub = plan.add_hub(h).unwrap();
        let share = leaves / lower + usize::from(place < leaves % lower);
        branch(plan, hub, levels - 1, share, left, each);
    }
}

/// 256 nodes, all at level 5 and in as many hubs as there can be: a chain of four, and 28 below it.
pub fn deepest() -> Plan {
    let mut plan = Plan::new(FRAME, 0, 12_000);
    let mut above = ROOT;
    for _ in 0..3 {
        above = plan.add_hub(above).unwrap();
    }
    for place in 0..28 {
        let hub = plan.add_hub(above).unwrap();
        for _ in 0..(if place < 4 { 10 } else { 9 }) {
            plan.add_node(hub).unwrap();
        }
    }
    assert_eq!((plan.nodes, plan.hubs.len(), plan.levels()), (256, 32, 5));
    plan
}
