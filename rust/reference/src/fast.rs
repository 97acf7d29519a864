//! The flat hub once more, written for speed: one bit a node and class, a count
//! of standing requests, the admission sum kept. Only a frame's start passes
//! over all nodes, and it copies nothing where no reservation has changed.
//! Answers are those of [`crate::flat`], with 0 moves.

use crate::core::{class_put_up, Class, LAST_TIME, MOST_PACKETS, SHORTEST_PACKET};
use crate::hub::{Answer, Call, Calls};
use crate::plan::Plan;

/// A set of node places, 0 to 255.
#[derive(Clone, Copy, Debug, Default)]
struct Set([u64; 4]);

impl Set {
    #[inline]
    fn put(&mut self, k: u8) {
        self.0[usize::from(k >> 6)] |= 1 << (k & 63);
    }

    #[inline]
    fn drop(&mut self, k: u8) {
        self.0[usize::from(k >> 6)] &= !(1 << (k & 63));
    }

    #[inline]
    fn has(&self, k: u8) -> bool {
        self.0[usize::from(k >> 6)] >> (k & 63) & 1 == 1
    }

    #[inline]
    fn and(&self, other: &Set) -> Set {
        let [a, b, c, d] = self.0;
        let [e, f, g, h] = other.0;
        Set([a & e, b & f, c & g, d & h])
    }

    #[inline]
    fn is_empty(&self) -> bool {
        self.0[0] | self.0[1] | self.0[2] | self.0[3] == 0
    }

    /// The first place at or after `from`, going round; the set isn't empty.
    #[inline]
    fn first(&self, from: u8) -> u8 {
        let word = from >> 6;
        let rest = self.0[usize::from(word)] & (!0 << (from & 63));
        if rest != 0 {
            return word << 6 | rest.trailing_zeros() as u8;
        }
        let mut next = word;
        loop {
            next = (next + 1) & 3;
            let bits = self.0[usize::from(next)];
            if bits != 0 || next == word {
                return next << 6 | (bits.trailing_zeros() & 63) as u8;
            }
        }
    }
}

/// n and b for every node.
#[derive(Clone, Debug)]
struct Reservations {
    n: [u8; 256],
    b: [u16; 256],
}

/// A hub that chooses by the flat rule.
#[derive(Clone, Debug)]
pub struct Fast {
    frame: u64,
    overhead: u64,
    /// The plan's longest packet; its bits and a request's fit 16.
    longest: u64,
    strict: bool,
    /// T - D, what the reservations may fill.
    room: u64,
    /// Their sum of n × c, at most `room`.
    filled: u64,
    nodes: u64,
    clock: u64,
    /// The start of the frame behind the clock's.
    next_start: u64,
    busy: bool,
    end: u64,
    /// How many requests stand.
    standing: u32,
    normal: Set,
    high: Set,
    /// The nodes whose high grants in the frame are below n.
    below: Set,
    /// The nodes whose latest n isn't 0.
    reserved: Set,
    /// Whether a reservation was accepted since the frame's start.
    changed: bool,
    /// One past the last node means the first: no bit stands there.
    normal_pointer: u8,
    high_pointer: u8,
    bits: [u16; 256],
    /// When the bit in the set of its class rose.
    since: [u64; 256],
    high_grants: [u8; 256],
    in_force: Reservations,
    latest: Reservations,
}

impl Fast {
    /// A plan's hub before any event.
    pub fn new(plan: &Plan) -> Fast {
        let none = Reservations { n: [0; 256], b: [0; 256] };
        Fast {
            frame: plan.frame,
            overhead: plan.overhead,
            longest: plan.longest_packet(),
            strict: plan.strict,
            room: plan.frame - plan.interrupt,
            filled: 0,
            nodes: plan.nodes as u64,
            clock: 0,
            next_start: plan.frame,
            busy: false,
            end: 0,
            standing: 0,
            normal: Set::default(),
            high: Set::default(),
            below: Set::default(),
            reserved: Set::default(),
            changed: false,
            normal_pointer: 0,
            high_pointer: 0,
            bits: [0; 256],
            since: [0; 256],
            high_grants: [0; 256],
            in_force: none.clone(),
            latest: none,
        }
    }

    /// Takes a call and answers it.
    #[inline]
    pub fn call(&mut self, call: Call) -> Answer {
        let event = match call {
            Call::Step { t } => return self.step(t),
            Call::Normal { t, k, b } => self.normal(t, k, b),
            Call::High { t, k, b } => self.high(t, k, b),
            Call::Off { t, k } => self.off(t, k),
            Call::Reserve { t, k, n, b } => self.reserve(t, k, n, b),
            Call::Until { t } => self.until(t),
        };
        match event {
            Ok(()) => Answer::Taken,
            Err(row) => Answer::Refused(row),
        }
    }

    /// The due instant, or `u64::MAX`.
    #[inline]
    fn due(&self) -> u64 {
        if self.busy {
            self.end
        } else if self.standing == 0 {
            u64::MAX
        } else if !self.normal.is_empty() || !self.high.and(&self.below).is_empty() {
            self.clock
        } else {
            self.next_start
        }
    }

    #[inline]
    fn move_clock(&mut self, t: u64) {
        self.clock = t;
        if t >= self.next_start {
            self.frame_start();
        }
    }

    #[cold]
    fn frame_start(&mut self) {
        let start = self.next_start;
        self.next_start = (self.clock / self.frame + 1) * self.frame;
        self.below = self.reserved;
        self.high_grants = [0; 256];
        if !self.changed {
            return;
        }
        self.changed = false;
        self.in_force = self.latest.clone();
        for word in 0..4u8 {
            let mut left = self.high.0[usize::from(word)];
            while left != 0 {
                let k = word << 6 | left.trailing_zeros() as u8;
                left &= left - 1;
                let place = usize::from(k);
                if self.in_force.n[place] == 0 || self.bits[place] > self.in_force.b[place] {
                    self.high.drop(k);
                    self.normal.put(k);
                    self.since[place] = start;
                }
            }
        }
    }

    #[inline]
    fn step(&mut self, t: u64) -> Answer {
        if t > LAST_TIME || t < self.clock {
            return Answer::Refused(11);
        }
        let time = self.due();
        if time >= t {
            return Answer::Quiet;
        }
        self.move_clock(time);
        let high = self.high.and(&self.below);
        let (k, class) = if !high.is_empty() {
            let k = high.first(self.high_pointer);
            self.high.drop(k);
            self.high_pointer = k.wrapping_add(1);
            let place = usize::from(k);
            self.high_grants[place] += 1;
            if self.high_grants[place] == self.in_force.n[place] {
                self.below.drop(k);
            }
            (k, Class::High)
        } else if !self.normal.is_empty() {
            let k = self.normal.first(self.normal_pointer);
            self.normal.drop(k);
            self.normal_pointer = k.wrapping_add(1);
            (k, Class::Normal)
        } else {
            self.busy = false;
            return Answer::Rest { time, moves: 0 };
        };
        self.standing -= 1;
        self.busy = true;
        self.end = time + u64::from(self.bits[usize::from(k)]) + self.overhead;
        let wait = time - self.since[usize::from(k)];
        Answer::Grant { time, node: u64::from(k) + 1, class, end: self.end, moves: 0, wait }
    }

    #[inline]
    fn normal(&mut self, t: u64, k: u64, b: u64) -> Result<(), u32> {
        self.rows_11_12(t)?;
        let k = self.row_13(k)?;
        self.row_15(b)?;
        self.move_clock(t);
        self.stand(k, b, Class::Normal);
        Ok(())
    }

    #[inline]
    fn high(&mut self, t: u64, k: u64, b: u64) -> Result<(), u32> {
        self.rows_11_12(t)?;
        let k = self.row_13(k)?;
        self.row_15(b)?;
        let reservations = if t < self.next_start { &self.in_force } else { &self.latest };
        let place = usize::from(k);
        let (n, longest) = (u64::from(reservations.n[place]), u64::from(reservations.b[place]));
        let class = class_put_up(self.strict, n, longest, b)?;
        self.move_clock(t);
        self.stand(k, b, class);
        Ok(())
    }

    /// k's request stands with these bits, in place of any earlier one.
    #[inline]
    fn stand(&mut self, k: u8, b: u64, class: Class) {
        self.standing += u32::from(!self.stands(k));
        self.bits[usize::from(k)] = b as u16;
        let (of, other) = match class {
            Class::Normal => (&mut self.normal, &mut self.high),
            Class::High => (&mut self.high, &mut self.normal),
        };
        if !of.has(k) {
            self.since[usize::from(k)] = self.clock;
        }
        of.put(k);
        other.drop(k);
    }

    #[inline]
    fn stands(&self, k: u8) -> bool {
        self.normal.has(k) || self.high.has(k)
    }

    #[inline]
    fn off(&mut self, t: u64, k: u64) -> Result<(), u32> {
        self.rows_11_12(t)?;
        let k = self.row_13(k)?;
        self.move_clock(t);
        self.standing -= u32::from(self.stands(k));
        self.normal.drop(k);
        self.high.drop(k);
        Ok(())
    }

    #[inline]
    fn reserve(&mut self, t: u64, k: u64, n: u64, b: u64) -> Result<(), u32> {
        self.rows_11_12(t)?;
        let k = self.row_13(k)?;
        if n > MOST_PACKETS {
            return Err(14);
        }
        if n > 0 {
            self.row_15(b)?;
        } else if b != 0 {
            return Err(15);
        }
        let place = usize::from(k);
        let (old_n, old_b) = (self.latest.n[place], self.latest.b[place]);
        let old = u64::from(old_n) * (u64::from(old_b) + self.overhead);
        let filled = self.filled - old + n * (b + self.overhead);
        if filled > self.room {
            return Err(17);
        }
        self.move_clock(t);
        self.filled = filled;
        self.latest.n[place] = n as u8;
        self.latest.b[place] = b as u16;
        self.changed = true;
        if n > 0 {
            self.reserved.put(k);
        } else {
            self.reserved.drop(k);
        }
        Ok(())
    }

    #[inline]
    fn until(&mut self, t: u64) -> Result<(), u32> {
        self.rows_11_12(t)?;
        self.move_clock(t);
        Ok(())
    }

    #[inline]
    fn rows_11_12(&self, t: u64) -> Result<(), u32> {
        if t > LAST_TIME || t < self.clock {
            Err(11)
        } else if self.due() < t {
            Err(12)
        } else {
            Ok(())
        }
    }

    /// Node k's place.
    #[inline]
    fn row_13(&self, k: u64) -> Result<u8, u32> {
        if k == 0 || k > self.nodes {
            Err(13)
        } else {
            Ok((k - 1) as u8)
        }
    }

    #[inline]
    fn row_15(&self, b: u64) -> Result<(), u32> {
        if (SHORTEST_PACKET..=self.longest).contains(&b) {
            Ok(())
        } else {
            Err(15)
        }
    }
}

impl Calls for Fast {
    fn call(&mut self, call: Call) -> Answer {
        Fast::call(self, call)
    }
}
