//! The plan: a tree of hubs and its figures.

use crate::cells::plan as cells;
use crate::{ffi, safe, Cascade, Framing, PlanRefused};
use std::fmt;
use std::sync::Arc;

/// A plan that was taken: three figures, a framing, whether it is strict, and a tree of hubs.
///
/// It can only be made by [reading](Plan::read) a text, so every one there is keeps the limits of
/// documents 01 and 02. A clone shares the tables. `Display` is the log's first line, `(nodes N hubs H)`.
///
/// ```
/// use lembuya::Plan;
///
/// // The time frame, a packet's overhead, the longest interrupt, and a hub of two nodes.
/// let text = b"(frame 100000)\n(overhead 1000)\n(interrupt 13000)\n(hub\n(node)\n(node)\n)\n";
/// let plan = Plan::read(text)?;
/// assert_eq!((plan.nodes(), plan.hubs()), (2, 1));
/// assert_eq!(plan.to_string(), "(nodes 2 hubs 1)");
/// let mut hub = plan.cascade();
/// # hub.until(0).unwrap();
/// # Ok::<(), lembuya::PlanRefused>(())
/// ```
#[derive(Clone, PartialEq, Eq)]
pub struct Plan {
    read: Arc<Read>,
}

/// What reading gave.
#[derive(PartialEq, Eq)]
struct Read {
    cells: ffi::Plan,
    nodes: u64,
    hubs: u64,
    events: Events,
}

/// Where the events start in a plan's text: behind the plan's last line.
///
/// ```
/// use lembuya::Plan;
///
/// let text = "(frame 100000)\n(overhead 1000)\n(interrupt 13000)\n(hub\n(node)\n)\n(until 5)\n";
/// let events = Plan::read(text.as_bytes())?.events();
/// assert_eq!(&text[events.at..], "(until 5)\n");
/// assert_eq!(events.line, 7);
/// # Ok::<(), lembuya::PlanRefused>(())
/// ```
#[derive(Clone, Copy, Debug, PartialEq, Eq, Hash)]
pub struct Events {
    /// The byte, counted from 0.
    pub at: usize,
    /// The line's number, counted from 1.
    pub line: u64,
}

impl Plan {
    /// Reads the plan at the start of a text. What stands behind the plan is not looked at.
    ///
    /// # Errors
    ///
    /// The first line to which a row of a plan's lines applies, and the first such row.
    pub fn read(text: &[u8]) -> Result<Plan, PlanRefused> {
        let mut cells = [0; ffi::PLAN_CELLS];
        match safe::read(text, &mut cells) {
            (0, [nodes, hubs, at, line]) => {
                // No place lies behind the text's end, so it is a usize.
                let events = Events { at: at as usize, line };
                let read = Read { cells, nodes, hubs, events };
                Ok(Plan { read: Arc::new(read) })
            }
            (number, [.., line]) => Err(PlanRefused::named(line, number)),
        }
    }

    /// The latest time that an event or a step may have, by row 11 of document 01's table: 10^15.
    ///
    /// ```
    /// use lembuya::{Plan, Refused};
    ///
    /// let plan = Plan::read(b"(frame 100000)\n(overhead 1000)\n(interrupt 13000)\n(hub\n(node)\n)\n")?;
    /// let mut hub = plan.cascade();
    /// assert_eq!(hub.until(Plan::LATEST_TIME + 1), Err(Refused::Time));
    /// assert_eq!(hub.until(Plan::LATEST_TIME), Ok(()));
    /// # Ok::<(), lembuya::PlanRefused>(())
    /// ```
    pub const LATEST_TIME: u64 = 1_000_000_000_000_000;

    /// The longest packet that any plan has, in bits: that of [framing 5](Framing::TokenRing). [`Plan::longest_packet`] is
    /// one plan's own, which may be shorter.
    ///
    /// ```
    /// use lembuya::Plan;
    ///
    /// let ring = Plan::read(b"(frame 100000)\n(overhead 1000)\n(interrupt 37000)\n(framing 5)\n(hub\n(node)\n)\n")?;
    /// assert_eq!(Plan::LONGEST_PACKET, ring.longest_packet());
    /// # Ok::<(), lembuya::PlanRefused>(())
    /// ```
    pub const LONGEST_PACKET: u64 = 36_000;

    /// The largest overhead of a packet that any plan has.
    ///
    /// ```
    /// use lembuya::Plan;
    ///
    /// let taken = |overhead: u64| {
    ///     let figures = format!("(frame 100000)\n(overhead {overhead})\n(interrupt {})\n", Plan::LONGEST_PACKET + overhead);
    ///     Plan::read(format!("{figures}(hub\n(node)\n)\n").as_bytes()).is_ok()
    /// };
    /// assert!(taken(Plan::LARGEST_OVERHEAD) && !taken(Plan::LARGEST_OVERHEAD + 1));
    /// ```
    pub const LARGEST_OVERHEAD: u64 = 50_000;

    /// T, the time frame.
    ///
    /// ```
    /// use lembuya::Plan;
    ///
    /// let plan = Plan::read(b"(frame 100000)\n(overhead 1000)\n(interrupt 13000)\n(hub\n(node)\n)\n")?;
    /// assert_eq!(plan.frame(), 100_000);
    /// # Ok::<(), lembuya::PlanRefused>(())
    /// ```
    pub fn frame(&self) -> u64 {
        self.cell(cells::FRAME)
    }

    /// O, the overhead of one packet.
    ///
    /// ```
    /// use lembuya::Plan;
    ///
    /// let plan = Plan::read(b"(frame 100000)\n(overhead 1000)\n(interrupt 13000)\n(hub\n(node)\n)\n")?;
    /// assert_eq!(plan.overhead(), 1_000);
    /// # Ok::<(), lembuya::PlanRefused>(())
    /// ```
    pub fn overhead(&self) -> u64 {
        self.cell(cells::OVERHEAD)
    }

    /// D, the longest time that a packet in progress can hold the line.
    ///
    /// ```
    /// use lembuya::Plan;
    ///
    /// let plan = Plan::read(b"(frame 100000)\n(overhead 1000)\n(interrupt 13000)\n(hub\n(node)\n)\n")?;
    /// assert_eq!(plan.interrupt(), 13_000);
    /// # Ok::<(), lembuya::PlanRefused>(())
    /// ```
    pub fn interrupt(&self) -> u64 {
        self.cell(cells::INTERRUPT)
    }

    /// Which packets its line carries: what its framing line says, or [`Framing::Ethernet`] without one.
    ///
    /// ```
    /// use lembuya::{Framing, Plan};
    ///
    /// let plan = Plan::read(b"(frame 100000)\n(overhead 1000)\n(interrupt 13000)\n(hub\n(node)\n)\n")?;
    /// assert_eq!(plan.framing(), Framing::Ethernet);
    /// let ring = Plan::read(b"(frame 100000)\n(overhead 1000)\n(interrupt 37000)\n(framing 5)\n(hub\n(node)\n)\n")?;
    /// assert_eq!(ring.framing(), Framing::TokenRing);
    /// # Ok::<(), lembuya::PlanRefused>(())
    /// ```
    pub fn framing(&self) -> Framing {
        Framing::numbered(self.cell(cells::FRAMING))
    }

    /// The longest packet of this plan, in bits, which its [framing](Plan::framing) decides: a request for a longer one is
    /// refused by row 15. D is never less than it and its overhead.
    ///
    /// ```
    /// use lembuya::{Plan, Refused};
    ///
    /// let plan = Plan::read(b"(frame 100000)\n(overhead 1000)\n(interrupt 13000)\n(hub\n(node)\n)\n")?;
    /// assert_eq!(plan.longest_packet(), 12_000);
    /// let mut hub = plan.cascade();
    /// assert_eq!(hub.normal(0, 1, 12_000), Ok(()));
    /// assert_eq!(hub.normal(0, 1, 12_001), Err(Refused::Length));
    ///
    /// let ring = Plan::read(b"(frame 100000)\n(overhead 1000)\n(interrupt 37000)\n(framing 5)\n(hub\n(node)\n)\n")?;
    /// assert_eq!(ring.longest_packet(), 36_000);
    /// let mut hub = ring.cascade();
    /// assert_eq!(hub.normal(0, 1, 36_000), Ok(()));
    /// assert_eq!(hub.normal(0, 1, 36_001), Err(Refused::Length));
    /// # Ok::<(), lembuya::PlanRefused>(())
    /// ```
    pub fn longest_packet(&self) -> u64 {
        safe::longest(self.cells())
    }

    /// Whether its text has the line `(strict)`, just before the root's `(hub` and behind any framing's line.
    ///
    /// It decides what becomes of a high request of a node with nothing reserved in force: row 16 refuses it in a strict plan;
    /// in any other, which is the default, it is [taken as a normal one](Cascade::high). A reserved node has the same share and
    /// the same delay limit either way (proved).
    ///
    /// ```
    /// use lembuya::{Plan, Refused};
    ///
    /// let plan = Plan::read(b"(frame 100000)\n(overhead 1000)\n(interrupt 13000)\n(hub\n(node)\n)\n")?;
    /// assert!(!plan.is_strict());
    /// assert_eq!(plan.cascade().high(0, 1, 512), Ok(())); // nothing is reserved: taken as normal
    ///
    /// let strict = Plan::read(b"(frame 100000)\n(overhead 1000)\n(interrupt 13000)\n(strict)\n(hub\n(node)\n)\n")?;
    /// assert!(strict.is_strict());
    /// assert_eq!(strict.cascade().high(0, 1, 512), Err(Refused::Unreserved));
    /// # Ok::<(), lembuya::PlanRefused>(())
    /// ```
    pub fn is_strict(&self) -> bool {
        safe::strict(self.cells()) == 1
    }

    /// N, the number of nodes, 1 to 256. They are numbered from 1 in line order.
    pub fn nodes(&self) -> u64 {
        self.read.nodes
    }

    /// The number of hubs, 1 to 32. They are numbered from 1 in line order; hub 1 is the root.
    pub fn hubs(&self) -> u64 {
        self.read.hubs
    }

    /// Where the events start in the text that this plan was read from.
    pub fn events(&self) -> Events {
        self.read.events
    }

    /// A fresh cascade of this plan: its hub before any event.
    pub fn cascade(&self) -> Cascade {
        Cascade::fresh(self.clone())
    }

    pub(crate) fn cells(&self) -> &ffi::Plan {
        &self.read.cells
    }

    /// What a cell holds.
    pub(crate) fn cell(&self, at: usize) -> u64 {
        self.read.cells[at].into()
    }
}

impl fmt::Display for Plan {
    fn fmt(&self, f: &mut fmt::Formatter<'_>) -> fmt::Result {
        write!(f, "(nodes {} hubs {})", self.nodes(), self.hubs())
    }
}

impl fmt::Debug for Plan {
    fn fmt(&self, f: &mut fmt::Formatter<'_>) -> fmt::Result {
        f.debug_struct("Plan")
            .field("nodes", &self.nodes())
            .field("hubs", &self.hubs())
            .field("events", &self.events())
            .finish_non_exhaustive()
    }
}

#[cfg(test)]
mod tests {
    use super::*;
    use crate::example::{EVENTS, PLAN};

    #[test]
    fn the_example_is_taken() {
        let text = format!("{PLAN}{EVENTS}");
        let plan = Plan::read(text.as_bytes()).unwrap();
        assert_eq!((plan.nodes(), plan.hubs()), (4, 2));
        assert_eq!(plan.events(), Events { at: PLAN.len(), line: 13 });
        assert_eq!(plan.to_string(), "(nodes 4 hubs 2)");
        assert_eq!(
            format!("{plan:?}"),
            "Plan { nodes: 4, hubs: 2, events: Events { at: 100, line: 13 }, .. }"
        );
    }

    /// A line that says what is meant without it only moves the events.
    #[test]
    fn framing_3_may_be_left_out() {
        let said = PLAN.replace("13000)\n", "13000)\n(framing 3)\n");
        let [said, meant] = [&said, PLAN].map(|text| Plan::read(text.as_bytes()).unwrap());
        assert_eq!(said.cells(), meant.cells());
        assert_eq!(said.events(), Events { at: PLAN.len() + 12, line: 14 });
    }

    /// It moves the events by its own line, and changes nothing of the tables but its cell.
    #[test]
    fn the_strict_line_is_one_cell() {
        for framing in ["", "(framing 3)\n", "(framing 5)\n"] {
            let strict = PLAN.replace("13000)\n", &format!("37000)\n{framing}"));
            let [strict, default] = [strict.clone(), strict.replace("(strict)\n", "")]
                .map(|text| Plan::read(text.as_bytes()).unwrap());
            assert!(strict.is_strict() && !default.is_strict());
            let cells = (0..).zip(strict.cells().iter().zip(default.cells()));
            let differing: Vec<_> = cells.filter(|(_, (one, other))| one != other).collect();
            assert_eq!(differing, [(cells::STRICT, (&1, &0))]);
            let Events { at, line } = default.events();
            assert_eq!(strict.events(), Events { at: at + "(strict)\n".len(), line: line + 1 });
        }
    }

    #[test]
    fn plans_are_equal_where_their_trees_are() {
        let read = |text: &str| Plan::read(text.as_bytes()).unwrap();
        assert_eq!(read(PLAN), read(&format!("{PLAN}{EVENTS}")));
        assert_ne!(read(PLAN), read(&PLAN.replace("1000)", "999)")));
        // These have the same figures, the same tree and the same place of the events, and differ in the framing alone.
        let framed =
            |framing: u64| read(&PLAN.replace("13000)\n", &format!("37000)\n(framing {framing})\n")));
        assert_eq!(framed(5), framed(5));
        assert_ne!(framed(3), framed(5));
    }
}
