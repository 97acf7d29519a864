//! The framing: which packets a plan's line carries.

/// Which packets a plan's line carries: its fourth line may be `(framing 3)` or `(framing 5)`, by request 3 of document 02;
/// without it 3 is meant.
///
/// It decides the plan's [longest packet](crate::Plan::longest_packet).
///
/// ```
/// use lembuya::{Framing, Plan, PlanRow};
///
/// let framing = |line: &str| {
///     let figures = "(frame 100000)\n(overhead 1000)\n(interrupt 37000)\n";
///     Plan::read(format!("{figures}{line}(hub\n(node)\n)\n").as_bytes()).map(|plan| plan.framing())
/// };
/// assert_eq!(framing(""), Ok(Framing::Ethernet));
/// assert_eq!(framing("(framing 3)\n"), Ok(Framing::Ethernet));
/// assert_eq!(framing("(framing 5)\n"), Ok(Framing::TokenRing));
/// assert_eq!(framing("(framing 4)\n").unwrap_err().row, PlanRow::Framing);
/// ```
#[derive(Clone, Copy, Debug, Default, PartialEq, Eq, Hash)]
pub enum Framing {
    /// Framing 3, 802.3's: a packet has up to 12,000 bits.
    #[default]
    Ethernet = 3,
    /// Framing 5, 802.5's: a packet has up to 36,000 bits.
    TokenRing = 5,
}

impl Framing {
    /// The number on its line: 3 or 5.
    ///
    /// ```
    /// use lembuya::Framing;
    ///
    /// assert_eq!((Framing::Ethernet.number(), Framing::TokenRing.number()), (3, 5));
    /// ```
    pub fn number(self) -> u32 {
        self as u32
    }

    /// The framing in a taken plan's cell.
    pub(crate) fn numbered(number: u64) -> Framing {
        match number {
            3 => Framing::Ethernet,
            5 => Framing::TokenRing,
            _ => unreachable!("no framing has number {number}"),
        }
    }
}
