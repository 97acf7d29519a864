//! Whether a plan's table is strict, whatever it holds: its own cell alone decides it, row 16 asks no other, and what is taken as normal
//! is a normal request to the last cell.

mod archive;
#[path = "../reference/tests/common/mod.rs"]
mod common;

use archive::cells::plan::STRICT;
use archive::{on_all, read, single, Archive};
use common::Shares;
use lembuya::ffi;
use reference::hub::{Answer, Call, Calls};
use reference::plan::Plan;
use reference::random::calls::{Caller, Style};
use reference::random::{plans, Random};

/// The two numbers that a plan which was read has, others, and the ends of a cell and of its halves.
const CELLS: [u32; 10] = [0, 1, 2, 3, 5, 255, 256, 1 << 16, 1 << 31, u32::MAX];

fn strict(plan: &ffi::Plan) -> u32 {
    unsafe { ffi::lembuya_strict(plan) }
}

#[test]
fn it_is_told_of_every_table() {
    for (others, cell) in CELLS.into_iter().flat_map(|others| CELLS.map(|cell| (others, cell))) {
        for last in [true, false] {
            let mut hub = Archive::blank(others, last);
            hub.plan()[STRICT] = cell;
            let before = *hub.plan();
            assert_eq!(strict(hub.plan()), u32::from(cell != 0), "{cell} among {others}");
            assert!(*hub.plan() == before, "the table was changed");
        }
    }
}

/// A node with nothing reserved, and one with a packet of 4,000 bits: row 16, and the class of a grant. Worked out for every cell.
#[test]
fn row_16_takes_it_from_there() {
    let text = b"(frame 100000)\n(overhead 1000)\n(interrupt 13000)\n(hub\n(node)\n(node)\n)\n";
    for cell in CELLS {
        let mut hub = Archive::blank(0, true);
        assert_eq!(read(text, hub.plan()).0, 0);
        hub.plan()[STRICT] = cell;
        unsafe { ffi::lembuya_fresh(hub.cascade()) };
        let (plan, cascade) = hub.tables();
        let mut made = |call| single(plan, cascade, call);
        assert_eq!(made(Call::Reserve { t: 0, k: 1, n: 1, b: 4_000 })[0], 0);
        let t = 100_000;
        assert_eq!(made(Call::High { t, k: 1, b: 4_001 })[0], 16, "too long, cell {cell}");
        assert_eq!(made(Call::High { t, k: 1, b: 4_000 })[0], 0, "reserved, cell {cell}");
        let unreserved = if cell == 0 { 0 } else { 16 };
        assert_eq!(made(Call::High { t, k: 2, b: 12_000 })[0], unreserved, "unreserved, cell {cell}");
        assert_eq!(made(Call::Step { t: 200_000 }), [1, t, 1, 2, 105_000, 0, 0], "cell {cell}");
        let next =
            if cell == 0 { [1, 105_000, 2, 1, 118_000, 0, 5_000] } else { [2, 105_000, 0, 0, 0, 0, 0] };
        assert_eq!(made(Call::Step { t: 200_000 }), next, "cell {cell}");
    }
}

/// Each high request of a node with nothing reserved leaves the table that a normal one leaves, or in a strict plan none.
fn try_list(seed: u64, strict: bool, met: &mut u64) {
    let mut random = Random::new(seed);
    let plan = Plan { strict, ..plans::plan(&mut random) };
    let mut caller = Caller::new(&plan, random.number(), Style::Loaded);
    let (mut hub, mut shares) = (Archive::new(&plan), Shares::new(&plan));
    for _ in 0..500 {
        let call = caller.next_call();
        let before = *hub.cascade();
        let answer = hub.call(call);
        if let (Call::High { t, k, b }, Answer::Taken | Answer::Refused(16)) = (call, answer) {
            if shares.at(t, k).0 == 0 {
                let mut expected = before;
                let normal = single(hub.plan(), &mut expected, Call::Normal { t, k, b })[0];
                assert_eq!(normal, 0, "seed {seed}: no other row refuses it");
                assert_eq!(answer, if strict { Answer::Refused(16) } else { Answer::Taken }, "seed {seed}");
                assert!(*hub.cascade() == if strict { before } else { expected }, "seed {seed}: {call:?}");
                *met += 1;
            }
        }
        shares.hear(call, answer);
        caller.hear(call, answer);
    }
}

#[test]
fn what_is_taken_as_normal_leaves_what_a_normal_request_leaves() {
    for strict in [true, false] {
        let met = on_all(0..1_000, |seed, met| try_list(seed, strict, met), |all, some| *all += some);
        println!("strict {strict}: {met} high requests of nodes with nothing reserved");
        assert!(met > 10_000, "strict {strict}: {met} were met");
    }
}
