//! Every no: the rows of document 01's table "Where each no is said", and those that document 02's requests add to it.

use std::error::Error;
use std::fmt;

/// Why an event or a step was refused: a row of document 01's table. Nothing has changed then.
///
/// Where several rows apply, the first decides. `Display` gives the row's condition in the documents'
/// words, where t is the call's time (or a step's bound), k its node, n its packets and b its bits.
///
/// ```
/// use lembuya::{Plan, Refused};
///
/// let plan = Plan::read(b"(frame 100000)\n(overhead 1000)\n(interrupt 13000)\n(hub\n(node)\n)\n")?;
/// let mut hub = plan.cascade();
/// let no = hub.normal(0, 2, 12_000).unwrap_err();
/// assert_eq!(no, Refused::Node);
/// assert_eq!(no.number(), 13);
/// assert_eq!(no.to_string(), "k is 0 or above N");
/// assert_eq!(no.at(7).to_string(), "(refused 7 13)"); // as the log has it, on line 7
/// # Ok::<(), lembuya::PlanRefused>(())
/// ```
#[derive(Clone, Copy, Debug, PartialEq, Eq, Hash)]
pub enum Refused {
    /// Row 11, every event and step: t above 10^15, or before the clock.
    Time = 11,
    /// Row 12, every event: an instant strictly before t is due. Make the [steps] first.
    ///
    /// [steps]: crate::Cascade::steps_before
    Due = 12,
    /// Row 13, every event with a node: k is 0 or above N, the plan's [nodes](crate::Plan::nodes).
    Node = 13,
    /// Row 14, reserve: n above 64.
    Packets = 14,
    /// Row 15, normal, high and reserve: b outside 512 to the plan's
    /// [longest packet](crate::Plan::longest_packet); in a reserve with n = 0 instead: b not 0.
    Length = 15,
    /// Row 16, high: n in force at t is 0 and the plan is [strict](crate::Plan::is_strict), or it isn't 0 and b above the b in
    /// force. With n = 0 in any other plan the request is [taken as normal](crate::Cascade::high), so that there only a node
    /// with a reservation gets this row.
    Unreserved = 16,
    /// Row 17, reserve: the frame can't hold it.
    Full = 17,
}

impl Refused {
    /// Every row, by its number.
    const ALL: [Refused; 7] = [
        Refused::Time,
        Refused::Due,
        Refused::Node,
        Refused::Packets,
        Refused::Length,
        Refused::Unreserved,
        Refused::Full,
    ];

    /// The row's number, 11 to 17.
    pub fn number(self) -> u32 {
        self as u32
    }

    /// The row with a number, if a call can meet it: what a log's `(refused line number)` says of an event.
    ///
    /// ```
    /// use lembuya::Refused;
    ///
    /// assert_eq!(Refused::numbered(17), Some(Refused::Full));
    /// assert_eq!(Refused::numbered(18), None);
    /// ```
    pub fn numbered(number: u64) -> Option<Refused> {
        Refused::ALL.into_iter().find(|row| u64::from(row.number()) == number)
    }

    /// This refusal on a line of a text, to be shown as the log has it.
    pub fn at(self, line: u64) -> RefusedLine {
        RefusedLine { line, number: self.number() }
    }

    /// The row that the archive named.
    pub(crate) fn row(number: u64) -> Refused {
        Refused::numbered(number).unwrap_or_else(|| unreachable!("no row of a call has number {number}"))
    }

    /// What the archive answered an event: 0, or the row's number.
    pub(crate) fn event(number: u32) -> Result<(), Refused> {
        match number {
            0 => Ok(()),
            row => Err(Refused::row(row.into())),
        }
    }
}

impl fmt::Display for Refused {
    fn fmt(&self, f: &mut fmt::Formatter<'_>) -> fmt::Result {
        f.pad(match self {
            Refused::Time => "t above 10^15, or before the clock",
            Refused::Due => "an instant strictly before t is due",
            Refused::Node => "k is 0 or above N",
            Refused::Packets => "n above 64",
            Refused::Length => {
                "b outside 512 to the plan's longest packet; in a reserve with n = 0 instead: b not 0"
            }
            Refused::Unreserved => {
                "n in force at t is 0 and the plan is strict, or it isn't 0 and b above the b in force"
            }
            Refused::Full => "the frame can't hold it",
        })
    }
}

impl Error for Refused {}

/// Why a plan's line was refused: a row of document 01's table, or row 4, which request 3 of document 02 adds.
///
/// On the framing line row 4 comes before row 2.
///
/// ```
/// use lembuya::{Plan, PlanRow};
///
/// let no = Plan::read(b"(frame 100000)\n(overhead 1000)\n(interrupt 13000)\n(framing 4)\n").unwrap_err();
/// assert_eq!(no.row, PlanRow::Framing);
/// assert_eq!(no.row.number(), 4);
/// assert_eq!(no.row.to_string(), "the number is neither 3 nor 5");
/// ```
#[derive(Clone, Copy, Debug, PartialEq, Eq, Hash)]
pub enum PlanRow {
    /// Row 1: not the form allowed here, its LF is missing, or the text ends early (line after the
    /// last).
    Form = 1,
    /// Row 2: T, O or D out of range; on the framing line: D too small for framing 5.
    Figure = 2,
    /// Row 3: a limit of the tree passed; a `)` closing a hub without ports, or the whole plan
    /// without a node.
    Limit = 3,
    /// Row 4, the framing line: the number is neither 3 nor 5.
    Framing = 4,
}

impl PlanRow {
    /// Every row, by its number.
    const ALL: [PlanRow; 4] = [PlanRow::Form, PlanRow::Figure, PlanRow::Limit, PlanRow::Framing];

    /// The row's number, 1 to 4.
    pub fn number(self) -> u32 {
        self as u32
    }

    /// The row with a number, if it is a plan's: what a log's `(refused line number)` says of a refused plan.
    ///
    /// ```
    /// use lembuya::PlanRow;
    ///
    /// assert_eq!(PlanRow::numbered(4), Some(PlanRow::Framing));
    /// assert_eq!(PlanRow::numbered(5), None);
    /// ```
    pub fn numbered(number: u64) -> Option<PlanRow> {
        PlanRow::ALL.into_iter().find(|row| u64::from(row.number()) == number)
    }

    /// Its words, which hold on every line that it can refuse.
    fn words(self) -> &'static str {
        match self {
            PlanRow::Form => {
                "not the form allowed here, its LF is missing, or the text ends early (line after the last)"
            }
            PlanRow::Figure => "T, O or D out of range; on the framing line: D too small for framing 5",
            PlanRow::Limit => {
                "a limit of the tree passed; a `)` closing a hub without ports, or the whole plan without a node"
            }
            PlanRow::Framing => "the number is neither 3 nor 5",
        }
    }
}

impl fmt::Display for PlanRow {
    fn fmt(&self, f: &mut fmt::Formatter<'_>) -> fmt::Result {
        f.pad(self.words())
    }
}

/// A plan that was refused: at which line, and by which row. The first line from above, then the
/// first row, decides. `Display` gives the line and the row's condition [there](PlanRefused::words).
///
/// ```
/// use lembuya::{Plan, RefusedLine};
///
/// let no = Plan::read(b"(frame 100000)\n(overhead 1000)\n(interrupt 13000)\n(framing 4)\n").unwrap_err();
/// assert_eq!((no.line, no.number()), (4, 4));
/// assert_eq!(no.to_string(), "line 4: the number is neither 3 nor 5");
/// assert_eq!(RefusedLine::from(no).to_string(), "(refused 4 4)"); // as the log has it
/// ```
#[derive(Clone, Copy, Debug, PartialEq, Eq, Hash)]
pub struct PlanRefused {
    /// The line's number, from 1.
    pub line: u64,
    /// The row.
    pub row: PlanRow,
}

impl PlanRefused {
    /// The row's number, 1 to 4.
    pub fn number(self) -> u32 {
        self.row.number()
    }

    /// The row's condition on this line: T, O and D have their ranges on lines 1 to 3, and on line 4, which is the framing's,
    /// row 2 says something else.
    ///
    /// ```
    /// use lembuya::Plan;
    ///
    /// let words = |text: &str| Plan::read(text.as_bytes()).unwrap_err().words();
    /// assert_eq!(words("(frame 99999)\n"), "T, O or D out of range");
    /// assert_eq!(
    ///     words("(frame 100000)\n(overhead 1000)\n(interrupt 36999)\n(framing 5)\n"),
    ///     "D too small for framing 5, which needs 36,000 + O"
    /// );
    /// ```
    pub fn words(self) -> &'static str {
        match (self.line, self.row) {
            (1..=3, PlanRow::Figure) => "T, O or D out of range",
            (4, PlanRow::Figure) => "D too small for framing 5, which needs 36,000 + O",
            (_, row) => row.words(),
        }
    }

    /// The refusal that the archive named.
    pub(crate) fn named(line: u64, number: u32) -> PlanRefused {
        let row = PlanRow::numbered(number.into());
        let row = row.unwrap_or_else(|| unreachable!("no row of a plan has number {number}"));
        PlanRefused { line, row }
    }
}

impl fmt::Display for PlanRefused {
    fn fmt(&self, f: &mut fmt::Formatter<'_>) -> fmt::Result {
        write!(f, "line {}: {}", self.line, self.words())
    }
}

impl Error for PlanRefused {}

/// A refusal and its line, shown as the log has it: `(refused line number)`.
///
/// It is made by [`Refused::at`], and [from](From) a [`PlanRefused`].
///
/// ```
/// use lembuya::Refused;
///
/// assert_eq!(Refused::Unreserved.at(15).to_string(), "(refused 15 16)");
/// ```
#[derive(Clone, Copy, Debug, PartialEq, Eq, Hash)]
pub struct RefusedLine {
    line: u64,
    number: u32,
}

impl RefusedLine {
    /// The line's number, from 1.
    pub fn line(self) -> u64 {
        self.line
    }

    /// The row's number.
    pub fn number(self) -> u32 {
        self.number
    }
}

impl From<PlanRefused> for RefusedLine {
    fn from(refused: PlanRefused) -> RefusedLine {
        RefusedLine { line: refused.line, number: refused.number() }
    }
}

impl fmt::Display for RefusedLine {
    fn fmt(&self, f: &mut fmt::Formatter<'_>) -> fmt::Result {
        write!(f, "(refused {} {})", self.line, self.number)
    }
}

/// Row 18: the buffer lent to [`log_into`](crate::log_into) is shorter than the log, or one lent to
/// [`Cascade::offers_into`](crate::Cascade::offers_into) than the answers; or [`Cascade::offers`](crate::Cascade::offers) is given more
/// than 64 offers.
///
/// ```
/// use lembuya::{log_into, Short};
///
/// let mut buffer = [b'-'; 13];
/// assert_eq!(log_into(b"", &mut buffer), Err(Short)); // "(refused 1 1)" and its LF are 14 bytes
/// assert_eq!(buffer, [b'-'; 13]);
/// assert_eq!(Short.number(), 18);
/// ```
#[derive(Clone, Copy, Debug, PartialEq, Eq, Hash)]
pub struct Short;

impl Short {
    /// The row's number, 18.
    pub fn number(self) -> u32 {
        18
    }
}

impl fmt::Display for Short {
    fn fmt(&self, f: &mut fmt::Formatter<'_>) -> fmt::Result {
        f.pad("the lent buffer is shorter than the line; with offers instead: more than 64, or it is shorter than the answers")
    }
}

impl Error for Short {}

#[cfg(test)]
mod tests {
    use super::*;
    use crate::example::PLAN;
    use crate::{Cascade, Plan};

    /// A no of each row that a call can meet, in its order.
    fn refusals() -> [Result<(), Refused>; 7] {
        let hub = |calls: fn(&mut Cascade) -> Result<(), Refused>| {
            calls(&mut Plan::read(PLAN.as_bytes()).unwrap().cascade())
        };
        [
            hub(|hub| hub.until(1_000_000_000_000_001)),
            hub(|hub| {
                hub.normal(0, 1, 512)?;
                hub.until(1)
            }),
            hub(|hub| hub.off(0, 5)),
            hub(|hub| hub.reserve(0, 1, 65, 512)),
            hub(|hub| hub.normal(0, 1, 511)),
            hub(|hub| hub.high(0, 1, 512)),
            hub(|hub| hub.reserve(0, 1, 29, 2_001)),
        ]
    }

    #[test]
    fn each_row_of_a_call_is_met() {
        for (refused, row) in refusals().into_iter().zip(Refused::ALL) {
            assert_eq!(refused, Err(row));
        }
        assert_eq!(Refused::ALL.map(Refused::number), [11, 12, 13, 14, 15, 16, 17]);
    }

    #[test]
    fn each_row_of_a_plan_is_met() {
        let refused = |text: &str| {
            let no = Plan::read(text.as_bytes()).unwrap_err();
            (no.line, no.number())
        };
        assert_eq!(refused(""), (1, 1));
        assert_eq!(refused("(frame 100000)\n(overhead 1000)\n(interrupt 13000)\n"), (4, 1));
        assert_eq!(refused("(frame 99999)\n"), (1, 2));
        assert_eq!(refused("(frame 100000)\n(overhead 1000)\n(interrupt 13000)\n(hub\n)\n"), (5, 3));
        assert_eq!(refused("(frame 100000)\n(overhead 1000)\n(interrupt 13000)\n(framing 4)\n"), (4, 4));
        assert_eq!(PlanRow::ALL.map(PlanRow::number), [1, 2, 3, 4]);
    }

    /// Request 3 of document 02: on the framing line first 1, then 4, then 2; anywhere else such a line is 1.
    #[test]
    fn the_framing_line_has_its_rows_in_order() {
        let refused = |interrupt: u64, lines: &str| {
            let text =
                format!("(frame 100000)\n(overhead 1000)\n(interrupt {interrupt})\n{lines}(hub\n(node)\n)\n");
            Plan::read(text.as_bytes()).map_err(|no| (no.line, no.number())).err()
        };
        // D starts at 12,000 + 1,000 by framing 3, and at 36,000 + 1,000 by framing 5.
        assert_eq!(refused(13_000, "(framing 3)\n"), None);
        assert_eq!(refused(37_000, "(framing 5)\n"), None);
        assert_eq!(refused(36_999, "(framing 5)\n"), Some((4, 2)));
        assert_eq!(refused(12_999, "(framing 4)\n"), Some((3, 2)));
        assert_eq!(refused(13_000, "(framing 4)\n"), Some((4, 4)));
        assert_eq!(refused(13_000, "(framing 9999999999999999)\n"), Some((4, 4)));
        for line in ["(framing 10000000000000000)\n", "(framing 03)\n", "(framing)\n", "(framing 5 5)\n"] {
            assert_eq!(refused(13_000, line), Some((4, 1)), "{line}");
        }
        assert_eq!(refused(37_000, "(framing 5)\n(framing 5)\n"), Some((5, 1)));
    }

    /// Request 8 of document 02: the line stands just before the root's, behind any framing's, or it is 1.
    #[test]
    fn the_strict_line_has_one_place() {
        let refused = |text: &str| Plan::read(text.as_bytes()).map_err(|no| (no.line, no.number())).err();
        let figures = "(frame 100000)\n(overhead 1000)\n(interrupt 37000)\n";
        let tree = "(hub\n(node)\n)\n";
        let header = |lines: &str| refused(&format!("{figures}{lines}{tree}"));
        for framing in ["", "(framing 3)\n", "(framing 5)\n"] {
            let line = 4 + framing.lines().count() as u64;
            assert_eq!(header(&format!("{framing}(strict)\n")), None);
            assert_eq!(header(&format!("{framing}(strict)\n(strict)\n")), Some((line + 1, 1)));
            for form in ["(strict 1)\n", "(strict 0)\n", "(strict )\n", "(Strict)\n", "(strict\n"] {
                assert_eq!(header(&format!("{framing}{form}")), Some((line, 1)), "{form}");
            }
        }
        assert_eq!(header("(strict)\n(framing 5)\n"), Some((5, 1)));
        assert_eq!(refused(&format!("(strict)\n{figures}{tree}")), Some((1, 1)));
        assert_eq!(refused(&format!("{figures}(hub\n(strict)\n(node)\n)\n")), Some((5, 1)));
        assert_eq!(refused(&format!("{figures}(strict)\n")), Some((5, 1)));
    }

    #[test]
    fn the_words_are_the_documents() {
        assert_eq!(
            Refused::ALL.map(|row| row.to_string()),
            [
                "t above 10^15, or before the clock",
                "an instant strictly before t is due",
                "k is 0 or above N",
                "n above 64",
                "b outside 512 to the plan's longest packet; in a reserve with n = 0 instead: b not 0",
                "n in force at t is 0 and the plan is strict, or it isn't 0 and b above the b in force",
                "the frame can't hold it",
            ]
        );
        assert_eq!(
            PlanRow::ALL.map(|row| row.to_string()),
            [
                "not the form allowed here, its LF is missing, or the text ends early (line after the last)",
                "T, O or D out of range; on the framing line: D too small for framing 5",
                "a limit of the tree passed; a `)` closing a hub without ports, or the whole plan without a node",
                "the number is neither 3 nor 5",
            ]
        );
        assert_eq!(
            Short.to_string(),
            "the lent buffer is shorter than the line; with offers instead: more than 64, or it is shorter than the answers"
        );
    }

    /// Of row 2's two conditions a refused plan's line can only meet one.
    #[test]
    fn the_words_are_those_of_the_line() {
        let shown = |text: &str| Plan::read(text.as_bytes()).unwrap_err().to_string();
        assert_eq!(shown("(frame 99999)\n"), "line 1: T, O or D out of range");
        assert_eq!(shown("(frame 100000)\n(overhead 50001)\n"), "line 2: T, O or D out of range");
        let figures = |interrupt: u64| format!("(frame 100000)\n(overhead 1000)\n(interrupt {interrupt})\n");
        // D is less than 12,000 + 1,000 on its own line, and less than 36,000 + 1,000 on that of framing 5.
        assert_eq!(shown(&figures(12_999)), "line 3: T, O or D out of range");
        assert_eq!(
            shown(&(figures(36_999) + "(framing 5)\n")),
            "line 4: D too small for framing 5, which needs 36,000 + O"
        );
        assert_eq!(shown(&(figures(36_999) + "(framing 6)\n")), "line 4: the number is neither 3 nor 5");
        assert_eq!(
            shown(&(figures(37_000) + "(framing 5)\n(hub\n)\n")),
            "line 6: a limit of the tree passed; a `)` closing a hub without ports, or the whole plan without a node"
        );
        // The other rows have the same words on every line.
        for row in [PlanRow::Form, PlanRow::Limit, PlanRow::Framing] {
            assert!((1..=5).all(|line| PlanRefused { line, row }.words() == row.to_string()), "{row}");
        }
    }

    #[test]
    fn a_known_line_gives_the_logs_form() {
        assert_eq!(Refused::Unreserved.at(15).to_string(), "(refused 15 16)");
        let plan = PlanRefused { line: 8, row: PlanRow::Limit };
        assert_eq!(RefusedLine::from(plan).to_string(), "(refused 8 3)");
    }
}
