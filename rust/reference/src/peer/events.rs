//! The five events, with their rows in the table's order.

use super::tables::*;
use crate::core::{Row, LAST_TIME, MOST_PACKETS, SHORTEST_PACKET};

impl Peer {
    /// `(normal t k b)`
    #[inline(never)]
    pub fn normal(&mut self, t: u64, k: u64, b: u64) -> Result<(), Row> {
        self.rows_11_12(t)?;
        let k = self.row_13(k)?;
        self.row_15(b)?;
        self.move_clock(t);
        self.stand_normal(k, b);
        Ok(())
    }

    /// A normal request stands at the node in this place, instead of any earlier.
    #[inline]
    fn stand_normal(&mut self, k: usize, b: u64) {
        let node = at_mut(&mut self.node, k);
        let before = *node;
        node.bits = b as u16;
        node.stands = STANDS_NORMAL;
        self.standing += u32::from(before.stands == NONE);
        if before.stands != STANDS_NORMAL {
            *at_mut(&mut self.since, k) = self.clock;
        }
        if before.stands == STANDS_HIGH && before.left > 0 {
            self.hide(HIGH, usize::from(before.hub), before.bit);
        }
        self.show(NORMAL, usize::from(before.hub), before.bit);
    }

    /// `(high t k b)`. A longest of 0 means that nothing is reserved at t: then it
    /// is normal, or refused if the plan is strict.
    #[inline(never)]
    pub fn high(&mut self, t: u64, k: u64, b: u64) -> Result<(), Row> {
        self.rows_11_12(t)?;
        let k = self.row_13(k)?;
        self.row_15(b)?;
        let node = at_mut(&mut self.node, k);
        let longest = if t < self.next_start { node.in_force } else { node.latest_bits };
        if b > u64::from(longest) {
            if longest > 0 || self.strict {
                return Err(16);
            }
            self.move_clock(t);
            self.stand_normal(k, b);
            return Ok(());
        }
        self.move_clock(t);
        let node = at_mut(&mut self.node, k);
        let before = *node;
        node.bits = b as u16;
        node.stands = STANDS_HIGH;
        self.standing += u32::from(before.stands == NONE);
        if before.stands != STANDS_HIGH {
            *at_mut(&mut self.since, k) = self.clock;
        }
        if before.stands == STANDS_NORMAL {
            self.hide(NORMAL, usize::from(before.hub), before.bit);
        }
        if before.left > 0 {
            self.show(HIGH, usize::from(before.hub), before.bit);
        }
        Ok(())
    }

    /// `(off t k)`
    #[inline(never)]
    pub fn off(&mut self, t: u64, k: u64) -> Result<(), Row> {
        self.rows_11_12(t)?;
        let k = self.row_13(k)?;
        self.move_clock(t);
        let node = at_mut(&mut self.node, k);
        let before = *node;
        node.stands = NONE;
        self.standing -= u32::from(before.stands != NONE);
        if before.stands == STANDS_NORMAL {
            self.hide(NORMAL, usize::from(before.hub), before.bit);
        } else if before.stands == STANDS_HIGH && before.left > 0 {
            self.hide(HIGH, usize::from(before.hub), before.bit);
        }
        Ok(())
    }

    /// `(reserve t k n b)`
    #[inline(never)]
    pub fn reserve(&mut self, t: u64, k: u64, n: u64, b: u64) -> Result<(), Row> {
        self.rows_11_12(t)?;
        let k = self.row_13(k)?;
        if n > MOST_PACKETS {
            return Err(14);
        }
        if n > 0 {
            self.row_15(b)?;
        } else if b != 0 {
            return Err(15);
        }
        let node = at(&self.node, k);
        let old = u64::from(node.latest_packets) * (u64::from(node.latest_bits) + self.overhead);
        let filled = self.filled - old + n * (b + self.overhead);
        if filled > self.room {
            return Err(17);
        }
        self.move_clock(t);
        self.filled = filled;
        let node = at_mut(&mut self.node, k);
        node.latest_packets = n as u8;
        node.latest_bits = b as u16;
        Ok(())
    }

    /// `(until t)`
    #[inline(never)]
    pub fn until(&mut self, t: u64) -> Result<(), Row> {
        self.rows_11_12(t)?;
        self.move_clock(t);
        Ok(())
    }

    #[inline]
    fn rows_11_12(&self, t: u64) -> Result<(), Row> {
        if t > LAST_TIME || t < self.clock {
            Err(11)
        } else if self.due() < t {
            Err(12)
        } else {
            Ok(())
        }
    }

    /// Node k's place. A k of 0 goes round to the largest number.
    #[inline]
    fn row_13(&self, k: u64) -> Result<usize, Row> {
        let place = k.wrapping_sub(1);
        if place < self.nodes {
            Ok(place as usize)
        } else {
            Err(13)
        }
    }

    /// A b below the shortest goes round to a large number.
    #[inline]
    fn row_15(&self, b: u64) -> Result<(), Row> {
        if b.wrapping_sub(SHORTEST_PACKET) <= self.spread {
            Ok(())
        } else {
            Err(15)
        }
    }
}
