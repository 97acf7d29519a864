//! The six calls of a hub, five events and the step, and their answers.

use crate::core::{Class, Core, Row, Step, Turns};
use crate::plan::Plan;

/// A call. Every number may be any u64.
#[derive(Clone, Copy, Debug, PartialEq, Eq)]
#[allow(missing_docs)]
pub enum Call {
    /// `(normal t k b)`
    Normal { t: u64, k: u64, b: u64 },
    /// `(high t k b)`
    High { t: u64, k: u64, b: u64 },
    /// `(off t k)`
    Off { t: u64, k: u64 },
    /// `(reserve t k n b)`
    Reserve { t: u64, k: u64, n: u64, b: u64 },
    /// `(until t)`
    Until { t: u64 },
    /// "A step with bound t."
    Step { t: u64 },
}

impl Call {
    /// The event's time, or the step's bound.
    pub fn time(&self) -> u64 {
        match *self {
            Call::Normal { t, .. }
            | Call::High { t, .. }
            | Call::Off { t, .. }
            | Call::Reserve { t, .. }
            | Call::Until { t }
            | Call::Step { t } => t,
        }
    }
}

/// An answer.
#[derive(Clone, Copy, Debug, PartialEq, Eq)]
#[allow(missing_docs)]
pub enum Answer {
    /// The event was accepted.
    Taken,
    /// Refused, with the row's number.
    Refused(u32),
    /// The step granted.
    Grant { time: u64, node: u64, class: Class, end: u64, moves: u64, wait: u64 },
    /// The step handled the end of a busy line, and no request counts.
    Rest { time: u64, moves: u64 },
    /// The step found no instant due before its bound.
    Quiet,
}

impl Answer {
    /// The answer with 0 moves, to compare hubs that have no control.
    pub fn without_moves(self) -> Answer {
        match self {
            Answer::Grant { time, node, class, end, wait, .. } => {
                Answer::Grant { time, node, class, end, moves: 0, wait }
            }
            Answer::Rest { time, .. } => Answer::Rest { time, moves: 0 },
            other => other,
        }
    }

    /// The moves of control, 0 where there are none.
    pub fn moves(self) -> u64 {
        match self {
            Answer::Grant { moves, .. } | Answer::Rest { moves, .. } => moves,
            _ => 0,
        }
    }

    /// The answer with this wait in place of its own, if it is a grant.
    pub fn with_wait(self, wait: u64) -> Answer {
        match self {
            Answer::Grant { time, node, class, end, moves, .. } => {
                Answer::Grant { time, node, class, end, moves, wait }
            }
            other => other,
        }
    }

    /// The wait of a grant.
    pub fn wait(self) -> Option<u64> {
        match self {
            Answer::Grant { wait, .. } => Some(wait),
            _ => None,
        }
    }
}

/// Anything that takes the six calls.
pub trait Calls {
    /// Takes a call and answers it.
    fn call(&mut self, call: Call) -> Answer;
}

/// A hub with its way of choosing turns.
#[derive(Clone, Debug)]
pub struct Hub<M> {
    core: Core<M>,
}

impl<M: Turns> Hub<M> {
    /// A plan's hub before any event.
    pub fn new(plan: &Plan, machine: M) -> Self {
        Hub { core: Core::new(plan, machine) }
    }

    /// Its way of choosing turns.
    pub fn turns(&mut self) -> &mut M {
        self.core.turns()
    }

    /// The clock.
    pub fn clock(&self) -> u64 {
        self.core.clock()
    }

    /// The latest accepted reservations, n and b; node k at k - 1.
    pub fn latest(&self) -> Vec<(u64, u64)> {
        self.core.latest()
    }

    /// O, the overhead of one packet.
    pub fn overhead(&self) -> u64 {
        self.core.overhead()
    }

    /// What a reserve would be refused by at a good time; it isn't made.
    pub fn reserve_row(&self, k: u64, n: u64, b: u64) -> Result<(), Row> {
        self.core.reserve_row(k, n, b)
    }

    /// Takes a call and answers it.
    pub fn call(&mut self, call: Call) -> Answer {
        let event = match call {
            Call::Normal { t, k, b } => self.core.normal(t, k, b),
            Call::High { t, k, b } => self.core.high(t, k, b),
            Call::Off { t, k } => self.core.off(t, k),
            Call::Reserve { t, k, n, b } => self.core.reserve(t, k, n, b),
            Call::Until { t } => self.core.until(t),
            Call::Step { t } => return answer(self.core.step(t)),
        };
        match event {
            Ok(()) => Answer::Taken,
            Err(row) => Answer::Refused(row),
        }
    }
}

fn answer(step: Result<Step, u32>) -> Answer {
    match step {
        Ok(Step::Grant { time, node, class, end, moves, wait }) => {
            Answer::Grant { time, node: node as u64, class, end, moves, wait }
        }
        Ok(Step::Rest { time, moves }) => Answer::Rest { time, moves },
        Ok(Step::Quiet) => Answer::Quiet,
        Err(row) => Answer::Refused(row),
    }
}

impl<M: Turns> Calls for Hub<M> {
    fn call(&mut self, call: Call) -> Answer {
        Hub::call(self, call)
    }
}
