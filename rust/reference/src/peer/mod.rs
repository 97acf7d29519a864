//! A cascade hub as a good engineer writes it for speed, without proofs: the
//! fair peer of the proved one.
//!
//! Hub by hub by the rules in force (rules 1, 3 and 4 of document 01, and slip
//! 4's in place of rule 2), with the moves counted. Answers are those of
//! [`crate::control`]. One mask per class and hub is kept up to date, and
//! mending goes up the tree only as far as a hub begins or ceases to show
//! anything. A call allocates nothing. Here nodes, hubs and ports are numbered
//! from 0, and the root is hub 0.
//!
//! The six calls are functions of a library, as the archive's are, so none of
//! them is put into its caller's loop.
//!
//! - `tables`: what is kept, made from a plan, and how it is indexed.
//! - `events`, `steps`: the six calls.
//! - `control`: masks mended, and the walk of control.
//! - `frames`: a frame's start.
//! - `read`, `write`, [`log`]: event lines and log lines; the whole program.

mod control;
mod events;
mod frames;
pub mod log;
mod read;
mod steps;
mod tables;
mod write;

use crate::hub::{Answer, Call, Calls};
pub use tables::Peer;

impl Peer {
    /// Takes a call and answers it.
    #[inline]
    pub fn call(&mut self, call: Call) -> Answer {
        let row = match call {
            Call::Step { t } => return self.step(t),
            Call::Normal { t, k, b } => self.normal(t, k, b),
            Call::High { t, k, b } => self.high(t, k, b),
            Call::Off { t, k } => self.off(t, k),
            Call::Reserve { t, k, n, b } => self.reserve(t, k, n, b),
            Call::Until { t } => self.until(t),
        };
        match row {
            Ok(()) => Answer::Taken,
            Err(row) => Answer::Refused(row),
        }
    }
}

impl Calls for Peer {
    fn call(&mut self, call: Call) -> Answer {
        Peer::call(self, call)
    }
}
