//! The flat rule, by a look at each node in turn.

use crate::core::{Class, Turns};
use crate::plan::Plan;

/// "Each class has a pointer over nodes 1 to N, at first 1."
#[derive(Clone, Debug)]
pub struct Flat {
    nodes: usize,
    pointer: [usize; 2],
}

impl Flat {
    /// A plan's pointers before any grant.
    pub fn new(plan: &Plan) -> Flat {
        Flat { nodes: plan.nodes, pointer: [1, 1] }
    }

    /// "The node behind it", going round.
    fn behind(&self, k: usize) -> usize {
        k % self.nodes + 1
    }
}

impl Turns for Flat {
    /// "The first counting request of that class at or after the pointer, going
    /// round, is granted and removed, and the pointer moves to the node behind
    /// it. The other pointer stays."
    fn choose(&mut self, class: Class, counts: &dyn Fn(usize) -> bool) -> (usize, u64) {
        let mut k = self.pointer[class as usize];
        while !counts(k) {
            k = self.behind(k);
        }
        self.pointer[class as usize] = self.behind(k);
        (k, 0)
    }

    fn rest(&mut self) -> u64 {
        0
    }
}
