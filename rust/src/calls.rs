//! The six calls and their answers as values.

use crate::{ffi, Refused};
use std::fmt;

/// A call of a [`Cascade`](crate::Cascade) as a value: one of the five events, or the step.
///
/// ```
/// use lembuya::{Answer, Call, Plan, Step};
///
/// let plan = Plan::read(b"(frame 100000)\n(overhead 1000)\n(interrupt 13000)\n(hub\n(node)\n)\n")?;
/// let mut hub = plan.cascade();
/// let event = Call::Normal { time: 500, node: 1, bits: 12_000 };
/// assert_eq!(event.time(), 500);
/// assert_eq!(hub.call(Call::Step { bound: event.time() }), Answer::Step(Step::Quiet));
/// assert_eq!(hub.call(event), Answer::Taken);
/// # Ok::<(), lembuya::PlanRefused>(())
/// ```
#[derive(Clone, Copy, Debug, PartialEq, Eq, Hash)]
pub enum Call {
    /// `(normal t k b)`: [`Cascade::normal`](crate::Cascade::normal).
    Normal {
        /// t, the time.
        time: u64,
        /// k, the node.
        node: u64,
        /// b, the packet's length.
        bits: u64,
    },
    /// `(high t k b)`: [`Cascade::high`](crate::Cascade::high), which may take it as normal.
    High {
        /// t, the time.
        time: u64,
        /// k, the node.
        node: u64,
        /// b, the packet's length.
        bits: u64,
    },
    /// `(off t k)`: [`Cascade::off`](crate::Cascade::off).
    Off {
        /// t, the time.
        time: u64,
        /// k, the node.
        node: u64,
    },
    /// `(reserve t k n b)`: [`Cascade::reserve`](crate::Cascade::reserve).
    Reserve {
        /// t, the time.
        time: u64,
        /// k, the node.
        node: u64,
        /// n, how many high packets a frame.
        packets: u64,
        /// b, the longest of these packets.
        bits: u64,
    },
    /// `(until t)`: [`Cascade::until`](crate::Cascade::until).
    Until {
        /// t, the time.
        time: u64,
    },
    /// A step: [`Cascade::step`](crate::Cascade::step).
    Step {
        /// t, the bound.
        bound: u64,
    },
}

impl Call {
    /// t: an event's time, or a step's bound.
    ///
    /// ```
    /// use lembuya::Call;
    ///
    /// assert_eq!(Call::Off { time: 5, node: 2 }.time(), 5);
    /// assert_eq!(Call::Step { bound: 7 }.time(), 7);
    /// ```
    pub fn time(self) -> u64 {
        match self {
            Call::Normal { time, .. }
            | Call::High { time, .. }
            | Call::Off { time, .. }
            | Call::Reserve { time, .. }
            | Call::Until { time }
            | Call::Step { bound: time } => time,
        }
    }

    /// k, where the call has a node.
    ///
    /// ```
    /// use lembuya::Call;
    ///
    /// assert_eq!(Call::Off { time: 5, node: 2 }.node(), Some(2));
    /// assert_eq!(Call::Until { time: 5 }.node(), None);
    /// ```
    pub fn node(self) -> Option<u64> {
        let [_, _, node, _, _] = self.fields();
        node
    }

    /// The five numbers of a call in the archive's lists: kind, t, k, n and b, as `include/lembuya.h` has them; 0 where
    /// its kind lacks one.
    ///
    /// ```
    /// use lembuya::Call;
    ///
    /// assert_eq!(Call::Normal { time: 5, node: 2, bits: 512 }.numbers(), [1, 5, 2, 0, 512]);
    /// ```
    pub fn numbers(self) -> [u64; 5] {
        self.fields().map(|number| number.unwrap_or(0))
    }

    /// The same numbers, and none where its kind lacks one: the archive doesn't look at that place.
    ///
    /// ```
    /// use lembuya::Call;
    ///
    /// assert_eq!(Call::Off { time: 5, node: 2 }.fields(), [Some(3), Some(5), Some(2), None, None]);
    /// ```
    pub fn fields(self) -> [Option<u64>; 5] {
        match self {
            Call::Normal { time, node, bits } => [Some(1), Some(time), Some(node), None, Some(bits)],
            Call::High { time, node, bits } => [Some(2), Some(time), Some(node), None, Some(bits)],
            Call::Off { time, node } => [Some(3), Some(time), Some(node), None, None],
            Call::Reserve { time, node, packets, bits } => {
                [Some(4), Some(time), Some(node), Some(packets), Some(bits)]
            }
            Call::Until { time } => [Some(5), Some(time), None, None, None],
            Call::Step { bound } => [Some(6), Some(bound), None, None, None],
        }
    }
}

/// A request's class.
///
/// ```
/// use lembuya::Class;
///
/// assert_eq!((Class::Normal.number(), Class::High.number()), (1, 2));
/// ```
#[derive(Clone, Copy, Debug, PartialEq, Eq, Hash)]
pub enum Class {
    /// Class 1.
    Normal = 1,
    /// Class 2, sought before normal.
    High = 2,
}

impl Class {
    /// The class's number in the log: 1 normal, 2 high.
    pub fn number(self) -> u32 {
        self as u32
    }

    fn numbered(number: u64) -> Class {
        match number {
            1 => Class::Normal,
            2 => Class::High,
            _ => unreachable!("no class has number {number}"),
        }
    }
}

/// What a step did.
///
/// `Display` is the log's form: `(grant s k class end moves wait)` and `(rest s moves)`. The log has no
/// line for quiet, which shows as `(quiet)`.
///
/// ```
/// use lembuya::{Class, Plan, Step};
///
/// let plan = Plan::read(b"(frame 100000)\n(overhead 1000)\n(interrupt 13000)\n(hub\n(node)\n)\n")?;
/// let mut hub = plan.cascade();
/// hub.normal(500, 1, 12_000)?;
/// let grant = hub.step(501)?;
/// assert_eq!(grant, Step::Grant { time: 500, node: 1, class: Class::Normal, end: 13_500, moves: 0, wait: 0 });
/// assert_eq!(grant.to_string(), "(grant 500 1 1 13500 0 0)");
/// assert_eq!(hub.step(13_500)?, Step::Quiet); // the line ends at its bound, not before it
/// assert_eq!(hub.step(13_501)?.to_string(), "(rest 13500 0)");
/// # Ok::<(), Box<dyn std::error::Error>>(())
/// ```
#[derive(Clone, Copy, Debug, PartialEq, Eq, Hash)]
pub enum Step {
    /// A node got the line.
    Grant {
        /// s, the time of the grant.
        time: u64,
        /// k, the node.
        node: u64,
        /// The class of its request as it stood. A high event may have been taken as normal, and a high request may have become
        /// normal at a frame's start.
        class: Class,
        /// The time at which the line is free again: s, the packet's bits and its overhead.
        end: u64,
        /// How often control passed between two hubs.
        moves: u64,
        /// How long the request stood: the time of the grant less the time at which it was [first put up](Step::put_up).
        wait: u64,
    },
    /// The line's busy time ended and no request counts.
    Rest {
        /// s, the time of that end.
        time: u64,
        /// How often control passed between two hubs.
        moves: u64,
    },
    /// No instant is due before the bound; nothing has changed.
    Quiet,
}

impl Step {
    /// When the request that is granted was first put up: the grant's time less its wait. None where nothing is granted.
    ///
    /// A request of the same class that replaces it keeps that time, and a change of class sets it anew: that of a request which a
    /// frame's start turns normal is that start. A high event that is taken as normal puts up a normal request. Behind an `off` or
    /// a grant the next request is a new one.
    ///
    /// ```
    /// use lembuya::Plan;
    ///
    /// let plan = Plan::read(b"(frame 100000)\n(overhead 1000)\n(interrupt 13000)\n(hub\n(node)\n(node)\n)\n")?;
    /// let mut hub = plan.cascade();
    /// hub.normal(0, 1, 12_000)?;
    /// hub.normal(0, 2, 6_000)?;
    /// assert_eq!(hub.step(1)?.to_string(), "(grant 0 1 1 13000 0 0)");
    /// hub.normal(5_000, 2, 8_000)?; // node 2 now asks for more, and has waited from 0 on all the same
    /// let grant = hub.step(13_001)?;
    /// assert_eq!(grant.to_string(), "(grant 13000 2 1 22000 0 13000)");
    /// assert_eq!(grant.put_up(), Some(0));
    /// # Ok::<(), Box<dyn std::error::Error>>(())
    /// ```
    pub fn put_up(self) -> Option<u64> {
        match self {
            // No wait is longer than its grant's time, whatever a table holds.
            Step::Grant { time, wait, .. } => Some(time.saturating_sub(wait)),
            Step::Rest { .. } | Step::Quiet => None,
        }
    }
}

impl fmt::Display for Step {
    fn fmt(&self, f: &mut fmt::Formatter<'_>) -> fmt::Result {
        match self {
            Step::Grant { time, node, class, end, moves, wait } => {
                write!(f, "(grant {time} {node} {} {end} {moves} {wait})", class.number())
            }
            Step::Rest { time, moves } => write!(f, "(rest {time} {moves})"),
            Step::Quiet => f.write_str("(quiet)"),
        }
    }
}

/// The answer to a [`Call`].
///
/// `Display` is the log's form where the log has a line: a grant and a rest are shown as their
/// [`Step`]. Taken shows as `(taken)`, and a refusal as `(refused number)`; where its line is known,
/// [`Refused::at`] gives the log's form of it.
///
/// ```
/// use lembuya::{Answer, Call, Plan, Refused};
///
/// let plan = Plan::read(b"(frame 100000)\n(overhead 1000)\n(interrupt 13000)\n(strict)\n(hub\n(node)\n)\n")?;
/// let answers = plan.cascade().calls(&[
///     Call::Normal { time: 0, node: 1, bits: 12_000 },
///     Call::High { time: 0, node: 1, bits: 12_000 },
///     Call::Step { bound: 1 },
/// ]);
/// assert_eq!(answers[..2], [Answer::Taken, Answer::Refused(Refused::Unreserved)]);
/// assert_eq!(answers[2].to_string(), "(grant 0 1 1 13000 0 0)");
/// # Ok::<(), lembuya::PlanRefused>(())
/// ```
#[derive(Clone, Copy, Debug, PartialEq, Eq, Hash)]
pub enum Answer {
    /// The event was taken.
    Taken,
    /// The step was made.
    Step(Step),
    /// The event or step was refused; nothing has changed.
    Refused(Refused),
}

impl Answer {
    /// The answer that the archive's seven numbers are: case, time, node, class, end, moves and wait.
    pub(crate) fn numbered([case, time, node, class, end, moves, wait]: ffi::Answer) -> Answer {
        match case {
            0 => Answer::Taken,
            1 => {
                let class = Class::numbered(class);
                Answer::Step(Step::Grant { time, node, class, end, moves, wait })
            }
            2 => Answer::Step(Step::Rest { time, moves }),
            3 => Answer::Step(Step::Quiet),
            row => Answer::Refused(Refused::row(row)),
        }
    }
}

impl From<Result<(), Refused>> for Answer {
    fn from(event: Result<(), Refused>) -> Answer {
        match event {
            Ok(()) => Answer::Taken,
            Err(refused) => Answer::Refused(refused),
        }
    }
}

impl From<Result<Step, Refused>> for Answer {
    fn from(step: Result<Step, Refused>) -> Answer {
        match step {
            Ok(step) => Answer::Step(step),
            Err(refused) => Answer::Refused(refused),
        }
    }
}

impl fmt::Display for Answer {
    fn fmt(&self, f: &mut fmt::Formatter<'_>) -> fmt::Result {
        match self {
            Answer::Taken => f.write_str("(taken)"),
            Answer::Step(step) => step.fmt(f),
            Answer::Refused(refused) => write!(f, "(refused {})", refused.number()),
        }
    }
}

#[cfg(test)]
mod tests {
    use super::*;

    #[test]
    fn answers_are_shown_in_the_logs_form() {
        let (time, node, end, moves, wait) = (112_000, 3, 117_000, 2, 12_000);
        let grant = Step::Grant { time, node, class: Class::High, end, moves, wait };
        let answers = [
            Answer::Taken,
            Answer::Step(grant),
            Answer::Step(Step::Rest { time: 119_000, moves: 0 }),
            Answer::Step(Step::Quiet),
            Answer::Refused(Refused::Full),
        ];
        assert_eq!(
            answers.map(|answer| answer.to_string()),
            ["(taken)", "(grant 112000 3 2 117000 2 12000)", "(rest 119000 0)", "(quiet)", "(refused 17)"]
        );
    }

    #[test]
    fn seven_numbers_are_an_answer() {
        let (time, node, end, moves, wait) = (7, 4, 9, 3, 5);
        let grant = Step::Grant { time, node, class: Class::Normal, end, moves, wait };
        assert_eq!(Answer::numbered([0, 0, 0, 0, 0, 0, 0]), Answer::Taken);
        assert_eq!(Answer::numbered([1, 7, 4, 1, 9, 3, 5]), Answer::Step(grant));
        assert_eq!(Answer::numbered([2, 7, 0, 0, 0, 3, 0]), Answer::Step(Step::Rest { time, moves }));
        assert_eq!(Answer::numbered([3, 0, 0, 0, 0, 0, 0]), Answer::Step(Step::Quiet));
        assert_eq!(Answer::numbered([12, 0, 0, 0, 0, 0, 0]), Answer::Refused(Refused::Due));
    }

    #[test]
    fn a_grant_tells_when_its_request_was_put_up() {
        let grant =
            |time, wait| Step::Grant { time, node: 1, class: Class::High, end: time + 1, moves: 0, wait };
        assert_eq!(grant(117_000, 17_000).put_up(), Some(100_000));
        assert_eq!(grant(5, 5).put_up(), Some(0));
        assert_eq!([Step::Rest { time: 5, moves: 0 }, Step::Quiet].map(Step::put_up), [None, None]);
    }
}
