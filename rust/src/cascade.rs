//! The cascade: a plan's hub at work.

use crate::{ffi, safe, Answer, Call, Plan, Refused, Step};
use std::fmt;
use std::iter::FusedIterator;

/// A plan's hub at work: who has asked for the line, who has it, and which hub has control.
///
/// It can only be made [fresh from a plan](Plan::cascade), or as a text's events leave it
/// ([`Cascade::behind`]), and keeps this plan. The five events tell
/// it what the nodes ask for; the [step](Cascade::step) tells who gets the line. The clock is the
/// latest time of an accepted event or a handled instant, at first 0; no call may be before it. An
/// event is taken only when nothing before its time is due, so make the
/// [steps](Cascade::steps_before) up to that time first.
///
/// A refused call changes nothing. A clone goes on from the same state on its own, and two that are
/// equal answer every call alike.
///
/// ```
/// use lembuya::{Plan, Refused};
///
/// let plan = Plan::read(b"(frame 100000)\n(overhead 1000)\n(interrupt 13000)\n(hub\n(node)\n)\n")?;
/// let mut hub = plan.cascade();
/// hub.reserve(0, 1, 2, 4_000)?; // from the next frame on
/// hub.until(100_000)?;
/// hub.high(100_000, 1, 4_000)?;
/// assert_eq!(hub.until(100_001), Err(Refused::Due)); // a grant at 100,000 comes first
/// assert_eq!(hub.step(100_001)?.to_string(), "(grant 100000 1 2 105000 0 0)");
/// hub.until(100_001)?;
/// # Ok::<(), Box<dyn std::error::Error>>(())
/// ```
#[derive(Clone, PartialEq, Eq)]
pub struct Cascade {
    plan: Plan,
    cells: Box<ffi::Cascade>,
}

impl Cascade {
    pub(crate) fn fresh(plan: Plan) -> Cascade {
        let mut cells = Box::new([0; ffi::CASCADE_CELLS]);
        safe::fresh(&mut cells);
        Cascade { plan, cells }
    }

    /// What calls on a plan's fresh cascade have left.
    pub(crate) fn left(plan: Plan, cells: Box<ffi::Cascade>) -> Cascade {
        Cascade { plan, cells }
    }

    /// The plan that this cascade was made from.
    pub fn plan(&self) -> &Plan {
        &self.plan
    }

    pub(crate) fn cells(&self) -> &ffi::Cascade {
        &self.cells
    }

    /// `(normal t k b)`: a normal request of `node` stands from `t` on, for a packet of `bits`, in
    /// place of any earlier one of its own. In place of a normal one it [waits](Step::put_up) from where that did, else from `t`.
    ///
    /// # Errors
    ///
    /// Rows 11, 12, 13 and 15.
    pub fn normal(&mut self, t: u64, node: u64, bits: u64) -> Result<(), Refused> {
        Refused::event(safe::normal(self.plan.cells(), &mut self.cells, t, node, bits))
    }

    /// `(high t k b)`: a high request of `node` stands from `t` on, for a packet of `bits`, in place
    /// of any earlier one of its own. In place of a high one it [waits](Step::put_up) from where that did, else from `t`.
    ///
    /// Where `node` has nothing reserved in force at `t`, it is a [normal](Cascade::normal) request that stands, and its grant
    /// is of class 1; it stays normal if a reservation comes into force meanwhile. A [strict](Plan::is_strict) plan refuses it
    /// instead. Of a node with a reservation, a packet longer than that is refused in both.
    ///
    /// # Examples
    ///
    /// A camera, node 1, with one packet of 4,000 bits a frame, and a laptop, node 2, that calls everything high:
    ///
    /// ```
    /// use lembuya::{Plan, Refused};
    ///
    /// let hall = |line: &str| {
    ///     let figures = "(frame 100000)\n(overhead 1000)\n(interrupt 13000)\n";
    ///     let plan = Plan::read(format!("{figures}{line}(hub\n(node)\n(node)\n)\n").as_bytes())?;
    ///     let mut hub = plan.cascade();
    ///     hub.reserve(0, 1, 1, 4_000)?;
    ///     let laptop = hub.high(100_000, 2, 12_000);
    ///     hub.high(100_000, 1, 4_000)?;
    ///     assert_eq!(hub.high(100_000, 1, 4_001), Err(Refused::Unreserved)); // longer than what is reserved
    ///     let turns: Result<Vec<_>, _> = hub.steps_before(200_000).collect();
    ///     let turns: Vec<_> = turns?.iter().map(|turn| turn.to_string()).collect();
    ///     Ok::<_, Box<dyn std::error::Error>>((laptop, turns))
    /// };
    /// // Taken as normal: it comes behind the camera, in class 1.
    /// let (laptop, turns) = hall("")?;
    /// assert_eq!(laptop, Ok(()));
    /// assert_eq!(turns, ["(grant 100000 1 2 105000 0 0)", "(grant 105000 2 1 118000 0 5000)", "(rest 118000 0)"]);
    /// // With the line it has no turn.
    /// let (laptop, turns) = hall("(strict)\n")?;
    /// assert_eq!(laptop, Err(Refused::Unreserved));
    /// assert_eq!(turns, ["(grant 100000 1 2 105000 0 0)", "(rest 105000 0)"]);
    /// # Ok::<(), Box<dyn std::error::Error>>(())
    /// ```
    ///
    /// # Errors
    ///
    /// Rows 11, 12, 13, 15 and 16.
    pub fn high(&mut self, t: u64, node: u64, bits: u64) -> Result<(), Refused> {
        Refused::event(safe::high(self.plan.cells(), &mut self.cells, t, node, bits))
    }

    /// `(off t k)`: the request of `node`, if any, is withdrawn.
    ///
    /// # Errors
    ///
    /// Rows 11, 12 and 13.
    pub fn off(&mut self, t: u64, node: u64) -> Result<(), Refused> {
        Refused::event(safe::off(self.plan.cells(), &mut self.cells, t, node))
    }

    /// `(reserve t k n b)`: from the next frame on, `node` may have `packets` high packets a frame,
    /// each at most `bits` long. No packets of no bits give the reservation up; the latest accepted
    /// one counts.
    ///
    /// # Errors
    ///
    /// Rows 11, 12, 13, 14, 15 and 17.
    pub fn reserve(&mut self, t: u64, node: u64, packets: u64, bits: u64) -> Result<(), Refused> {
        Refused::event(safe::reserve(self.plan.cells(), &mut self.cells, t, node, packets, bits))
    }

    /// `(until t)`: only moves the clock.
    ///
    /// # Errors
    ///
    /// Rows 11 and 12.
    pub fn until(&mut self, t: u64) -> Result<(), Refused> {
        Refused::event(safe::until(self.plan.cells(), &mut self.cells, t))
    }

    /// Handles the due instant if it is strictly before `bound`: a grant, a rest, or quiet where
    /// none is due before it.
    ///
    /// # Errors
    ///
    /// Row 11.
    pub fn step(&mut self, bound: u64) -> Result<Step, Refused> {
        match Answer::numbered(safe::step(self.plan.cells(), &mut self.cells, bound)) {
            Answer::Step(step) => Ok(step),
            Answer::Refused(refused) => Err(refused),
            Answer::Taken => unreachable!("a step is answered as a step"),
        }
    }

    /// All steps strictly before `t`, each made as it is asked for. Behind the last one an event at
    /// `t` doesn't meet row 12.
    ///
    /// A `t` refused by row 11 gives that refusal and no step.
    pub fn steps_before(&mut self, t: u64) -> StepsBefore<'_> {
        StepsBefore { cascade: self, bound: t, ended: false }
    }

    /// Makes one call.
    pub fn call(&mut self, call: Call) -> Answer {
        match call {
            Call::Normal { time, node, bits } => self.normal(time, node, bits).into(),
            Call::High { time, node, bits } => self.high(time, node, bits).into(),
            Call::Off { time, node } => self.off(time, node).into(),
            Call::Reserve { time, node, packets, bits } => self.reserve(time, node, packets, bits).into(),
            Call::Until { time } => self.until(time).into(),
            Call::Step { bound } => self.step(bound).into(),
        }
    }

    /// Makes a list of calls, one after the other, and gives each one's answer. The archive is
    /// entered once for the whole list.
    pub fn calls(&mut self, calls: &[Call]) -> Vec<Answer> {
        let calls: Vec<_> = calls.iter().map(|call| call.numbers()).collect();
        let mut answers = vec![ffi::Answer::default(); calls.len()];
        let number = safe::list(self.plan.cells(), &mut self.cells, &calls, &mut answers);
        assert_eq!(number, 0, "every call has a kind and a place for its answer");
        answers.into_iter().map(Answer::numbered).collect()
    }
}

impl fmt::Debug for Cascade {
    fn fmt(&self, f: &mut fmt::Formatter<'_>) -> fmt::Result {
        f.debug_struct("Cascade").field("plan", &self.plan).finish_non_exhaustive()
    }
}

/// The steps strictly before a time, made as they are asked for: [`Cascade::steps_before`].
///
/// It ends where a step is quiet, and never gives a [`Step::Quiet`]. A step that isn't asked for
/// isn't made.
///
/// ```
/// use lembuya::Plan;
///
/// let plan = Plan::read(b"(frame 100000)\n(overhead 1000)\n(interrupt 13000)\n(hub\n(node)\n)\n")?;
/// let mut hub = plan.cascade();
/// hub.normal(0, 1, 12_000)?;
/// let mut turns = Vec::new();
/// for step in hub.steps_before(50_000) {
///     turns.push(step?.to_string());
/// }
/// assert_eq!(turns, ["(grant 0 1 1 13000 0 0)", "(rest 13000 0)"]);
/// # Ok::<(), Box<dyn std::error::Error>>(())
/// ```
#[derive(Debug)]
#[must_use = "a step that isn't asked for isn't made"]
pub struct StepsBefore<'c> {
    cascade: &'c mut Cascade,
    bound: u64,
    ended: bool,
}

impl Iterator for StepsBefore<'_> {
    type Item = Result<Step, Refused>;

    fn next(&mut self) -> Option<Self::Item> {
        if self.ended {
            return None;
        }
        let step = self.cascade.step(self.bound);
        self.ended = matches!(step, Ok(Step::Quiet) | Err(_));
        Some(step).filter(|step| *step != Ok(Step::Quiet))
    }
}

impl FusedIterator for StepsBefore<'_> {}

#[cfg(test)]
mod tests {
    use super::*;
    use crate::example::PLAN;
    use crate::Class;

    /// Document 01's events.
    const EVENTS: [Call; 8] = [
        Call::Reserve { time: 0, node: 3, packets: 2, bits: 4_000 },
        Call::Normal { time: 0, node: 1, bits: 12_000 },
        Call::Normal { time: 0, node: 4, bits: 6_000 },
        Call::High { time: 0, node: 3, bits: 4_000 },
        Call::Normal { time: 99_000, node: 2, bits: 12_000 },
        Call::High { time: 100_000, node: 3, bits: 4_000 },
        Call::Normal { time: 100_000, node: 1, bits: 1_000 },
        Call::Until { time: 200_000 },
    ];

    fn hub() -> Cascade {
        Plan::read(PLAN.as_bytes()).unwrap().cascade()
    }

    fn is_send_and_sync<T: Send + Sync>(_: &T) {}

    #[test]
    fn the_example_gives_its_log() {
        let mut hub = hub();
        let mut log = format!("{}\n", hub.plan());
        for (line, event) in (hub.plan().events().line..).zip(EVENTS) {
            for step in hub.steps_before(event.time()) {
                log += &format!("{}\n", step.unwrap());
            }
            if let Answer::Refused(refused) = hub.call(event) {
                log += &format!("{}\n", refused.at(line));
            }
        }
        assert_eq!(log, crate::example::LOG);
    }

    #[test]
    fn a_list_gives_the_answers_of_its_calls() {
        let mut list = Vec::new();
        for event in EVENTS {
            list.extend([Call::Step { bound: event.time() }; 4]);
            list.extend([event, Call::Off { time: event.time(), node: 2 }, Call::Off { time: 0, node: 0 }]);
        }
        let (mut one, mut other) = (hub(), hub());
        let answers: Vec<_> = list.iter().map(|call| one.call(*call)).collect();
        assert_eq!(other.calls(&list), answers);
        assert_eq!(one, other);
        assert_eq!(one.calls(&[]), []);
    }

    #[test]
    fn a_grant_tells_its_six_values() {
        let mut hub = hub();
        hub.normal(10, 2, 12_000).unwrap();
        let (time, node, class, end, moves, wait) = (10, 2, Class::Normal, 13_010, 1, 0);
        assert_eq!(hub.step(11), Ok(Step::Grant { time, node, class, end, moves, wait }));
        assert_eq!(hub.step(13_010), Ok(Step::Quiet));
        assert_eq!(hub.step(13_011), Ok(Step::Rest { time: 13_010, moves: 1 }));
    }

    #[test]
    fn a_refusal_changes_nothing() {
        let mut hub = hub();
        hub.normal(10, 1, 512).unwrap();
        let before = hub.clone();
        assert_eq!(hub.normal(9, 1, 512), Err(Refused::Time));
        assert_eq!(hub.off(11, 1), Err(Refused::Due));
        assert_eq!(hub.step(9), Err(Refused::Time));
        assert_eq!(hub.step(10), Ok(Step::Quiet));
        assert_eq!(hub, before);
        hub.off(10, 1).unwrap();
        assert_ne!(hub, before);
    }

    #[test]
    fn a_bound_refused_is_told_once() {
        let mut hub = hub();
        let mut steps = hub.steps_before(1_000_000_000_000_001);
        assert_eq!(steps.next(), Some(Err(Refused::Time)));
        assert_eq!(steps.next(), None);
    }

    #[test]
    fn a_cascade_may_change_its_thread() {
        let mut hub = hub();
        is_send_and_sync(&hub);
        let granted = std::thread::spawn(move || {
            hub.normal(0, 1, 512).unwrap();
            hub.step(1).unwrap()
        });
        assert_eq!(granted.join().unwrap().to_string(), "(grant 0 1 1 1512 0 0)");
    }

    #[test]
    fn debug_leaves_the_cells_out() {
        let hub = hub();
        assert_eq!(format!("{hub:?}"), format!("Cascade {{ plan: {:?}, .. }}", hub.plan()));
    }
}
