//! Many offers in one pass.

use crate::clock::Clock;
use crate::hubs::Tables;
use crate::longest::Effort;
use crate::plans::tree;
use crate::probes::all_reserved;
use lembuya::ffi::{self, MOST_OFFERS};
use std::hint::black_box;

/// Nanoseconds of the most offers that a call takes, in one pass and by hand.
#[derive(Clone, Copy)]
pub struct Offers {
    /// By `lembuya_offers`.
    pub pass: f64,
    /// By a copy of the table and a reserve on it for each, as a caller without that function has to.
    pub copies: f64,
}

/// Offers to as many different nodes, of which each second one fits and the others are refused by 17, the last row.
fn asked(nodes: u64) -> Vec<[u64; 3]> {
    let each = nodes / MOST_OFFERS as u64;
    (0..MOST_OFFERS as u64).map(|at| [1 + at * each, 64, if at % 2 == 0 { 512 } else { 12_000 }]).collect()
}

fn pass(tables: &Tables, asked: &[[u64; 3]], answers: &mut [u8; MOST_OFFERS]) {
    let numbers = black_box(asked.as_flattened());
    let (at, end) = (numbers.as_ptr(), numbers.len());
    let (plan, cascade) = (&*tables.plan, &*tables.cascade);
    assert_eq!(unsafe { ffi::lembuya_offers(plan, cascade, at, end, answers.as_mut_ptr(), MOST_OFFERS) }, 0);
    black_box(answers);
}

fn copies(tables: &Tables, t: u64, asked: &[[u64; 3]], answers: &mut [u8; MOST_OFFERS]) {
    for (&[k, n, b], answer) in black_box(asked).iter().zip(&mut *answers) {
        let mut cascade = *tables.cascade;
        *answer = unsafe { ffi::lembuya_reserve(&*tables.plan, &mut cascade, t, k, n, b) } as u8;
    }
    black_box(answers);
}

/// The least times of many repeats, against 256 nodes that all have a reservation.
pub fn offers(clock: &Clock, effort: Effort) -> Offers {
    let plan = tree(256, 5);
    let mut tables = Tables::new(&plan);
    for call in all_reserved(&plan).calls {
        tables.timed_call(call);
    }
    let asked = asked(plan.nodes as u64);
    let (mut one, mut other) = ([99; MOST_OFFERS], [99; MOST_OFFERS]);
    let repeats = effort.repeats * effort.passes;
    let pass = clock.least(repeats, &tables, |tables| pass(tables, &asked, &mut one));
    let copies = clock.least(repeats, &tables, |tables| copies(tables, plan.frame, &asked, &mut other));
    assert_eq!(one, other, "a pass answers each as a reserve alone");
    assert_eq!(one[..2], [0, 17]);
    Offers { pass, copies }
}
