//! The masks mended, and control.

use super::tables::*;
use crate::plan::MOST_PORTS;

/// The pointer at a port, marked, by the port's bit.
#[inline(always)]
fn marked(bit: u32) -> u64 {
    MARK | u64::from(bit.wrapping_neg())
}

/// The pointer at the next port, unmarked: none is left behind the last.
#[inline(always)]
fn behind(bit: u32) -> u64 {
    u64::from(bit.wrapping_neg() << 1)
}

impl Peer {
    /// A class now counts at a port. The hubs above learn it as far as they
    /// didn't know.
    #[inline]
    pub(super) fn show(&mut self, class: usize, hub: usize, bit: u32) {
        let (mut hub, mut bit) = (hub, bit);
        loop {
            let mask = at_mut(at_mut(&mut self.shown, class), hub);
            let before = *mask;
            *mask = before | bit;
            if before != 0 {
                return;
            }
            let above = at(&self.above, hub);
            (hub, bit) = (above.hub as usize, above.bit);
        }
    }

    /// A class no longer counts at a port. The hubs above learn it as far as
    /// nothing else counts below them.
    #[inline]
    pub(super) fn hide(&mut self, class: usize, hub: usize, bit: u32) {
        let (mut hub, mut bit) = (hub, bit);
        loop {
            let mask = at_mut(at_mut(&mut self.shown, class), hub);
            *mask &= !bit;
            if *mask != 0 {
                return;
            }
            let above = at(&self.above, hub);
            (hub, bit) = (above.hub as usize, above.bit);
        }
    }

    /// Slip 4: where control turns to a class, "the lowest hub, the holder
    /// included, for which every hub above it on the holder's line has its
    /// pointer of the sought class marked and on that line".
    #[inline]
    fn nearest(&self, class: usize) -> usize {
        let pointers = at_ref(&self.pointers, class);
        let (mut turn, mut hub) = (self.holder, self.holder);
        while hub != ROOT {
            let above = at(&self.above, hub);
            hub = above.hub as usize;
            if at(pointers, hub) != marked(above.bit) {
                turn = hub;
            }
        }
        turn
    }

    /// Control goes up to a hub of the holder's line: the moves.
    #[inline]
    pub(super) fn up_to(&mut self, hub: usize) -> u64 {
        let moves = at(&self.levels, self.holder) - at(&self.levels, hub);
        self.holder = hub;
        u64::from(moves)
    }

    /// The turn of a class that counts somewhere: the node, and the moves.
    #[inline]
    pub(super) fn turn(&mut self, class: usize) -> (usize, u64) {
        let mut moves = 0;
        if class != self.latest {
            self.latest = class;
            moves = self.up_to(self.nearest(class));
        }
        let (node, walked) = self.walk(class);
        (node, moves + walked)
    }

    /// Rules 3 and 4, from the holder to the node.
    #[inline]
    fn walk(&mut self, class: usize) -> (usize, u64) {
        let (shown, pointers) = (at_ref(&self.shown, class), at_mut(&mut self.pointers, class));
        let mut hub = self.holder;
        let mut moves = 0;
        loop {
            let pointer = at(pointers, hub);
            let left = at(shown, hub) & pointer as u32;
            if left == 0 {
                if hub == ROOT {
                    pointers[ROOT] = FIRST;
                    continue;
                }
                let above = at(&self.above, hub);
                hub = above.hub as usize;
                *at_mut(pointers, hub) = behind(above.bit);
                moves += 1;
                continue;
            }
            let bit = left & left.wrapping_neg();
            let below = usize::from(at(&self.ports, hub * MOST_PORTS + left.trailing_zeros() as usize));
            if bit & at(&self.lower, hub) == 0 {
                *at_mut(pointers, hub) = behind(bit);
                self.holder = hub;
                return (below, moves);
            }
            if pointer != marked(bit) {
                *at_mut(pointers, hub) = marked(bit);
                *at_mut(pointers, below) = FIRST;
            }
            hub = below;
            moves += 1;
        }
    }
}
