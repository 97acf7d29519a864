//! Where each number stands in the two tables: a plan's as `specs/Tables.antt` of `plan` and of `plan_tree` says, a cascade's as
//! `crates/cells/specs/Layout.antt` does. Nothing else in Rust has the place of a cell.
//!
//! It names nothing of this crate, so that the tests and the benchmark can take the file in as it is; each looks at some of it.
#![allow(dead_code)]

/// A plan's table: figures, then the hubs, then the nodes.
pub mod plan {
    /// T.
    pub const FRAME: usize = 0;
    /// O.
    pub const OVERHEAD: usize = 1;
    /// D.
    pub const INTERRUPT: usize = 2;
    /// N.
    pub const NODE_COUNT: usize = 3;
    /// The framing, by its number.
    pub const FRAMING: usize = 5;
    /// 1 where the plan is strict, else 0.
    pub const STRICT: usize = 6;

    /// Where the hubs' cells start, and how many each has.
    pub const HUBS: usize = 8;
    pub const HUB_CELLS: usize = 36;
    /// Of a hub's cells: how many ports it has, the hub above it, its port there, and its level; then its ports.
    pub const PORTS: usize = 0;
    pub const PARENT: usize = 1;
    pub const PLACE: usize = 2;
    pub const LEVEL: usize = 3;
    pub const FIRST_PORT: usize = 4;

    /// Where the nodes' cells start, and how many each has.
    pub const NODES: usize = 1160;
    pub const NODE_CELLS: usize = 2;
    /// Of a node's cells: its hub, and its port there.
    pub const NODE_HUB: usize = 0;
    pub const NODE_PORT: usize = 1;

    /// A port's cell is 0 where it is empty, a node's number up to this one, and this one more than a hub's number.
    pub const HUB_CODE: u64 = 256;

    /// A cell of hub g, counted from 1.
    pub const fn hub(g: usize, cell: usize) -> usize {
        HUBS + (g - 1) * HUB_CELLS + cell
    }

    /// The cell of a hub's port q; hubs and ports are counted from 1.
    pub const fn port(g: usize, q: usize) -> usize {
        hub(g, FIRST_PORT + q - 1)
    }

    /// A cell of node k, counted from 1.
    pub const fn node(k: usize, cell: usize) -> usize {
        NODES + (k - 1) * NODE_CELLS + cell
    }
}

/// A cascade's table: figures, then the hubs, then the nodes, then when their requests were put up. The crate never looks into it.
pub mod cascade {
    /// The clock and the busy line's end are times.
    pub const CLOCK: usize = 0;
    pub const END: usize = 2;
    /// 0 while the line rests; the hub that has control; 1 where the latest grant was high; the number of standing requests.
    pub const BUSY: usize = 4;
    pub const HOLDER: usize = 5;
    pub const CLASS: usize = 6;
    pub const STANDING: usize = 7;

    /// Where the hubs' cells start, and how many each has: a mask for each class, then a pointer for each.
    pub const HUBS: usize = 8;
    pub const HUB_CELLS: usize = 4;
    pub const MASKS: usize = 2;

    /// Where the nodes' cells start: six tables with one cell a node in each. They are the nodes' requests, their reservations in
    /// force, the latest ones, their high grants, and the low and the high halves of the times at which their requests were put up.
    pub const NODES: usize = 136;
    pub const NODE_TABLE: usize = 256;
    pub const REQUESTS: usize = 0;
    pub const LATEST: usize = 2;
    pub const PUT_UP: usize = 4;
    pub const PUT_UP_HIGH: usize = 5;

    /// The clock and the line's end have two cells each, of which the second is the time's high half.
    pub const HIGH_HALF: usize = 1;

    /// The time whose cells start here.
    pub fn time(table: &[u32], at: usize) -> u64 {
        u64::from(table[at]) + (u64::from(table[at + HIGH_HALF]) << 32)
    }

    /// The cell of node k, counted from 1, in one of the nodes' tables.
    pub const fn node(k: usize, table: usize) -> usize {
        NODES + table * NODE_TABLE + k - 1
    }

    /// The time at which the standing request of node k, counted from 1, was first put up.
    pub fn put_up(table: &[u32], k: usize) -> u64 {
        u64::from(table[node(k, PUT_UP)]) + (u64::from(table[node(k, PUT_UP_HIGH)]) << 32)
    }
}
