//! What the peer keeps, made from a plan.

use crate::core::SHORTEST_PACKET;
use crate::plan::{Plan, Port, MOST_HUBS, MOST_NODES, MOST_PORTS};

/// The root's number.
pub const ROOT: usize = 0;
/// A hub above the root that no plan has. It always shows something, so that
/// mending ends there without a test for the root.
const TOP: usize = MOST_HUBS;

/// Classes, as places in tables.
pub const NORMAL: usize = 0;
pub const HIGH: usize = 1;

/// What stands at a node: nothing, or a request of a class.
pub const NONE: u8 = 0;
pub const STANDS_NORMAL: u8 = 1;
pub const STANDS_HIGH: u8 = 2;

/// A pointer is the set of ports at or after it, and the mark above these bits.
pub const MARK: u64 = 1 << 32;
/// Port 1, unmarked.
pub const FIRST: u64 = 0xffff_ffff;

/// A node, in one piece, since a call looks at most of it.
#[derive(Clone, Copy, Debug, Default)]
#[repr(C, align(16))]
pub struct Node {
    /// The length of the request that stands.
    pub bits: u16,
    pub stands: u8,
    /// How many high packets it may still have in the frame.
    pub left: u8,
    /// The longest high packet by the reservation in force, 0 if there is none.
    pub in_force: u16,
    /// The latest accepted reservation: b and n. b is 0 just where n is.
    pub latest_bits: u16,
    pub latest_packets: u8,
    pub hub: u8,
    /// Its port's bit in its hub's masks.
    pub bit: u32,
}

/// The hub above a hub, and the bit there of the port between them.
#[derive(Clone, Copy, Debug)]
pub struct Above {
    pub hub: u32,
    pub bit: u32,
}

/// Nodes that follow one another in one hub.
#[derive(Clone, Copy, Debug, Default)]
pub struct Run {
    pub hub: u16,
    pub nodes: u16,
}

/// A lower hub may part the nodes of the hub above it once, and adds its own.
const MOST_RUNS: usize = 2 * MOST_HUBS;

/// The peer: a hub that chooses hub by hub.
#[derive(Clone, Debug)]
pub struct Peer {
    pub(super) clock: u64,
    /// The start of the frame behind the clock's.
    pub(super) next_start: u64,
    /// Where the busy line ends.
    pub(super) end: u64,
    pub(super) busy: bool,
    /// The class of the latest grant.
    pub(super) latest: usize,
    /// The hub that has control.
    pub(super) holder: usize,
    /// How many requests stand.
    pub(super) standing: u32,
    pub(super) hubs: u32,
    pub(super) nodes: u64,
    pub(super) frame: u64,
    pub(super) overhead: u64,
    /// How many bits the plan's longest packet has more than the shortest.
    pub(super) spread: u64,
    pub(super) strict: bool,
    /// T - D, what the reservations may fill, and what they do fill.
    pub(super) room: u64,
    pub(super) filled: u64,
    /// By class and hub: the ports where the class counts, there or below.
    pub(super) shown: [[u32; MOST_HUBS + 1]; 2],
    pub(super) pointers: [[u64; MOST_HUBS]; 2],
    pub(super) above: [Above; MOST_HUBS],
    pub(super) levels: [u8; MOST_HUBS],
    pub(super) runs: [Run; MOST_RUNS],
    pub(super) node: [Node; MOST_NODES],
    /// By node: when the request that stands was first put up in its class. It has
    /// a table of its own, so that a frame's start needn't pass over it.
    pub(super) since: [u64; MOST_NODES],
    /// By hub: the ports that have a hub.
    pub(super) lower: [u32; MOST_HUBS],
    /// Port q of hub h at 32 × h + q: a node's or a hub's number.
    pub(super) ports: [u8; MOST_HUBS * MOST_PORTS],
}

impl Peer {
    /// A plan's hub before any event. The tables are made first and the whole in
    /// place, since it is slow to move.
    pub fn new(plan: &Plan) -> Peer {
        let mut shown = [0; MOST_HUBS + 1];
        shown[TOP] = 1 << 31;
        let node = nodes(plan);
        let (ports, lower) = ports(plan);
        Peer {
            clock: 0,
            next_start: plan.frame,
            end: 0,
            busy: false,
            latest: NORMAL,
            holder: ROOT,
            standing: 0,
            hubs: plan.hubs.len() as u32,
            nodes: plan.nodes as u64,
            frame: plan.frame,
            overhead: plan.overhead,
            spread: plan.longest_packet() - SHORTEST_PACKET,
            strict: plan.strict,
            room: plan.frame - plan.interrupt,
            filled: 0,
            shown: [shown; 2],
            pointers: [[FIRST; MOST_HUBS]; 2],
            above: above(plan),
            levels: levels(plan),
            runs: runs(&node[..plan.nodes]),
            node,
            since: [0; MOST_NODES],
            lower,
            ports,
        }
    }
}

fn above(plan: &Plan) -> [Above; MOST_HUBS] {
    let mut above = [Above { hub: TOP as u32, bit: 1 }; MOST_HUBS];
    for (place, hub) in above.iter_mut().zip(&plan.hubs) {
        if let Some((hub, port)) = hub.parent {
            *place = Above { hub: hub as u32 - 1, bit: 1 << (port - 1) };
        }
    }
    above
}

fn levels(plan: &Plan) -> [u8; MOST_HUBS] {
    let mut levels = [0; MOST_HUBS];
    for (level, hub) in levels.iter_mut().zip(&plan.hubs) {
        *level = (hub.level - 1) as u8;
    }
    levels
}

fn nodes(plan: &Plan) -> [Node; MOST_NODES] {
    let mut nodes = [Node::default(); MOST_NODES];
    for (h, hub) in plan.hubs.iter().enumerate() {
        for (q, &port) in hub.ports.iter().enumerate() {
            if let Port::Node(k) = port {
                nodes[k - 1] = Node { hub: h as u8, bit: 1 << q, ..Node::default() };
            }
        }
    }
    nodes
}

/// What the ports have, and by hub which of them have a hub.
fn ports(plan: &Plan) -> ([u8; MOST_HUBS * MOST_PORTS], [u32; MOST_HUBS]) {
    let (mut ports, mut lower) = ([0; MOST_HUBS * MOST_PORTS], [0; MOST_HUBS]);
    for (h, hub) in plan.hubs.iter().enumerate() {
        for (q, &port) in hub.ports.iter().enumerate() {
            ports[h * MOST_PORTS + q] = match port {
                Port::Node(k) => (k - 1) as u8,
                // No mask ever has its bit.
                Port::Empty => 0,
                Port::Hub(below) => {
                    lower[h] |= 1 << q;
                    (below - 1) as u8
                }
            };
        }
    }
    (ports, lower)
}

fn runs(nodes: &[Node]) -> [Run; MOST_RUNS] {
    let mut runs = [Run::default(); MOST_RUNS];
    for (run, nodes) in runs.iter_mut().zip(nodes.chunk_by(|one, next| one.hub == next.hub)) {
        *run = Run { hub: u16::from(nodes[0].hub), nodes: nodes.len() as u16 };
    }
    runs
}

/// A table's entry. Every index here is right by how the tables were made: the
/// plan was read before, and row 13 has tested a caller's node.
#[inline(always)]
#[allow(unsafe_code)]
pub fn at<T: Copy, const N: usize>(table: &[T; N], place: usize) -> T {
    debug_assert!(place < N);
    unsafe { *table.get_unchecked(place) }
}

/// The same, lent.
#[inline(always)]
#[allow(unsafe_code)]
pub fn at_ref<T, const N: usize>(table: &[T; N], place: usize) -> &T {
    debug_assert!(place < N);
    unsafe { table.get_unchecked(place) }
}

/// The same, to be changed.
#[inline(always)]
#[allow(unsafe_code)]
pub fn at_mut<T, const N: usize>(table: &mut [T; N], place: usize) -> &mut T {
    debug_assert!(place < N);
    unsafe { table.get_unchecked_mut(place) }
}
