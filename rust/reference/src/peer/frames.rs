//! A frame's start.

use super::tables::*;

impl Peer {
    /// The clock moves to t. Over several frame starts the work of one is the
    /// work of all, since no reservation comes between them.
    #[inline]
    pub(super) fn move_clock(&mut self, t: u64) {
        self.clock = t;
        if t >= self.next_start {
            self.start();
        }
    }

    /// Reservations come into force and packets count anew, in one pass over the
    /// nodes; the masks are built anew from these and in one pass over the hubs.
    #[cold]
    #[inline(never)]
    fn start(&mut self) {
        let start = self.next_start;
        self.next_start = (self.clock / self.frame + 1) * self.frame;
        for h in 0..self.hubs as usize {
            *at_mut(&mut self.shown[NORMAL], h) = 0;
            *at_mut(&mut self.shown[HIGH], h) = 0;
        }
        let mut first = 0;
        let mut run = 0;
        while first < self.nodes as usize {
            let Run { hub, nodes } = at(&self.runs, run);
            let behind = first + usize::from(nodes);
            let (normal, high, turned) = self.start_nodes(first, behind);
            if turned != 0 {
                self.turned_at(start, first, behind, turned);
            }
            *at_mut(&mut self.shown[NORMAL], usize::from(hub)) |= normal;
            *at_mut(&mut self.shown[HIGH], usize::from(hub)) |= high;
            first = behind;
            run += 1;
        }
        for h in (ROOT + 1..self.hubs as usize).rev() {
            let above = at(&self.above, h);
            for shown in &mut self.shown {
                let bit = if at(shown, h) != 0 { above.bit } else { 0 };
                *at_mut(shown, above.hub as usize) |= bit;
            }
        }
    }

    /// The start of some nodes of one hub: their part of its masks, and where a
    /// high request is turned normal. One that stays high has n at least 1, so it
    /// counts.
    #[inline(always)]
    fn start_nodes(&mut self, first: usize, behind: usize) -> (u32, u32, u32) {
        let (mut normal, mut high, mut turned) = (0, 0, 0);
        for k in first..behind {
            let node = at_mut(&mut self.node, k);
            node.in_force = node.latest_bits;
            node.left = node.latest_packets;
            let stays = node.bits <= node.latest_bits;
            let stands = if stays { node.stands } else { node.stands.min(STANDS_NORMAL) };
            turned |= if stands != node.stands { node.bit } else { 0 };
            node.stands = stands;
            normal |= if stands == STANDS_NORMAL { node.bit } else { 0 };
            high |= if stands == STANDS_HIGH { node.bit } else { 0 };
        }
        (normal, high, turned)
    }

    /// What is turned counts from the start. Few starts turn any, so the pass over
    /// all nodes is left without it.
    #[cold]
    #[inline(never)]
    fn turned_at(&mut self, start: u64, first: usize, behind: usize, turned: u32) {
        for k in first..behind {
            if at(&self.node, k).bit & turned != 0 {
                *at_mut(&mut self.since, k) = start;
            }
        }
    }
}
