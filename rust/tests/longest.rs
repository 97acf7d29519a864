//! The longest packet of a plan's table, whatever the table holds: its framing's cell alone decides it, and row 15 asks no other.

mod archive;

use archive::cells::plan::FRAMING;
use archive::{read, single, Archive};
use lembuya::ffi;
use reference::hub::Call;

/// Both framings, numbers about them, both lengths, and the ends of a cell.
const CELLS: [u32; 10] = [0, 1, 3, 4, 5, 6, 35, 12_000, 36_000, u32::MAX];

/// Request 3 of document 02: framing 5 has 36,000 bits; without a framing line 3 is meant, and no other number is ever read.
fn expected(framing: u32) -> u64 {
    if framing == 5 {
        36_000
    } else {
        12_000
    }
}

fn longest(plan: &ffi::Plan) -> u64 {
    unsafe { ffi::lembuya_longest(plan) }
}

#[test]
fn it_is_told_of_every_table() {
    for (others, framing) in CELLS.into_iter().flat_map(|others| CELLS.map(|framing| (others, framing))) {
        for last in [true, false] {
            let mut hub = Archive::blank(others, last);
            hub.plan()[FRAMING] = framing;
            let before = *hub.plan();
            assert_eq!(longest(hub.plan()), expected(framing), "{framing} among {others}");
            assert!(*hub.plan() == before, "the table was changed");
        }
    }
}

#[test]
fn row_15_takes_it_from_there() {
    let text = b"(frame 100000)\n(overhead 1000)\n(interrupt 37000)\n(hub\n(node)\n)\n";
    for framing in CELLS {
        let mut hub = Archive::blank(0, true);
        assert_eq!(read(text, hub.plan()).0, 0);
        hub.plan()[FRAMING] = framing;
        unsafe { ffi::lembuya_fresh(hub.cascade()) };
        let (plan, cascade) = hub.tables();
        let b = longest(plan);
        let [taken, refused] = [b, b + 1].map(|b| single(plan, cascade, Call::Normal { t: 0, k: 1, b })[0]);
        assert_eq!((taken, refused), (0, 15), "framing {framing}");
    }
}
