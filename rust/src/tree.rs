//! A plan's tree: its hubs, their ports, and where each node stands.

use crate::cells::plan as cells;
use crate::Plan;

/// What is on a hub's port.
///
/// ```
/// use lembuya::{Plan, Port};
///
/// let figures = "(frame 100000)\n(overhead 1000)\n(interrupt 13000)\n";
/// let plan = Plan::read(format!("{figures}(hub\n(node)\n(empty)\n(hub\n(node)\n)\n)\n").as_bytes())?;
/// let ports: Vec<_> = plan.root().ports().collect();
/// assert_eq!(ports, [Port::Node(1), Port::Empty, Port::Hub(2)]);
/// # Ok::<(), lembuya::PlanRefused>(())
/// ```
#[derive(Clone, Copy, Debug, PartialEq, Eq, Hash)]
pub enum Port {
    /// Nothing.
    Empty,
    /// A node, by its number.
    Node(u64),
    /// A lower hub, by its number.
    Hub(u64),
}

impl Port {
    /// The port that a cell tells.
    fn told(cell: u64) -> Port {
        match cell {
            0 => Port::Empty,
            node if node <= cells::HUB_CODE => Port::Node(node),
            hub => Port::Hub(hub - cells::HUB_CODE),
        }
    }
}

/// Where a node or a lower hub stands: a hub's number, and the port's, counted from 1 within its hub.
///
/// ```
/// use lembuya::{Place, Plan};
///
/// let plan = Plan::read(b"(frame 100000)\n(overhead 1000)\n(interrupt 13000)\n(hub\n(empty)\n(node)\n)\n")?;
/// assert_eq!(plan.node(1), Some(Place { hub: 1, port: 2 }));
/// # Ok::<(), lembuya::PlanRefused>(())
/// ```
#[derive(Clone, Copy, Debug, PartialEq, Eq, Hash)]
pub struct Place {
    /// The hub's number.
    pub hub: u64,
    /// The port's number there.
    pub port: u64,
}

/// A hub of a plan: [`Plan::root`], [`Plan::hub`].
///
/// ```
/// use lembuya::Plan;
///
/// let plan = Plan::read(b"(frame 100000)\n(overhead 1000)\n(interrupt 13000)\n(hub\n(node)\n)\n")?;
/// let root = plan.root();
/// assert_eq!((root.number(), root.level(), root.ports().len()), (1, 1, 1));
/// # Ok::<(), lembuya::PlanRefused>(())
/// ```
#[derive(Clone, Copy, Debug, PartialEq, Eq)]
pub struct Hub<'p> {
    plan: &'p Plan,
    number: usize,
}

impl Plan {
    /// Hub 1, in which all others are.
    ///
    /// ```
    /// use lembuya::Plan;
    ///
    /// let plan = Plan::read(b"(frame 100000)\n(overhead 1000)\n(interrupt 13000)\n(hub\n(node)\n)\n")?;
    /// assert_eq!(Some(plan.root()), plan.hub(1));
    /// # Ok::<(), lembuya::PlanRefused>(())
    /// ```
    pub fn root(&self) -> Hub<'_> {
        Hub { plan: self, number: 1 }
    }

    /// A hub by its number; none where the plan has no such hub.
    ///
    /// ```
    /// use lembuya::Plan;
    ///
    /// let plan = Plan::read(b"(frame 100000)\n(overhead 1000)\n(interrupt 13000)\n(hub\n(node)\n)\n")?;
    /// assert_eq!(plan.hub(1).map(|hub| hub.number()), Some(1));
    /// assert_eq!((plan.hub(0), plan.hub(2)), (None, None));
    /// # Ok::<(), lembuya::PlanRefused>(())
    /// ```
    pub fn hub(&self, hub: u64) -> Option<Hub<'_>> {
        // At most 32 hubs are in a plan, so the number is a usize.
        (1..=self.hubs()).contains(&hub).then_some(Hub { plan: self, number: hub as usize })
    }

    /// Where a node stands; none where the plan has no such node.
    ///
    /// ```
    /// use lembuya::{Place, Plan};
    ///
    /// let figures = "(frame 100000)\n(overhead 1000)\n(interrupt 13000)\n";
    /// let plan = Plan::read(format!("{figures}(hub\n(empty)\n(hub\n(node)\n)\n)\n").as_bytes())?;
    /// assert_eq!(plan.node(1), Some(Place { hub: 2, port: 1 }));
    /// assert_eq!((plan.node(0), plan.node(2)), (None, None));
    /// # Ok::<(), lembuya::PlanRefused>(())
    /// ```
    pub fn node(&self, node: u64) -> Option<Place> {
        // At most 256 nodes are in a plan, so the number is a usize.
        let cell = |cell| self.cell(cells::node(node as usize, cell));
        (1..=self.nodes())
            .contains(&node)
            .then(|| Place { hub: cell(cells::NODE_HUB), port: cell(cells::NODE_PORT) })
    }
}

impl<'p> Hub<'p> {
    /// Its number: hubs are counted from 1 in line order.
    ///
    /// ```
    /// use lembuya::{Plan, Port};
    ///
    /// let figures = "(frame 100000)\n(overhead 1000)\n(interrupt 13000)\n";
    /// let plan = Plan::read(format!("{figures}(hub\n(hub\n(node)\n)\n(hub\n(node)\n)\n)\n").as_bytes())?;
    /// assert_eq!(plan.root().number(), 1);
    /// assert_eq!(plan.root().ports().last(), Some(Port::Hub(3)));
    /// # Ok::<(), lembuya::PlanRefused>(())
    /// ```
    pub fn number(self) -> u64 {
        self.number as u64
    }

    /// Its level: 1 for the root, and one more for each hub above it.
    ///
    /// ```
    /// use lembuya::Plan;
    ///
    /// let figures = "(frame 100000)\n(overhead 1000)\n(interrupt 13000)\n";
    /// let plan = Plan::read(format!("{figures}(hub\n(hub\n(node)\n)\n(hub\n(node)\n)\n)\n").as_bytes())?;
    /// assert_eq!((1..=3).map(|hub| plan.hub(hub).unwrap().level()).collect::<Vec<_>>(), [1, 2, 2]);
    /// # Ok::<(), lembuya::PlanRefused>(())
    /// ```
    pub fn level(self) -> u64 {
        self.cell(cells::LEVEL)
    }

    /// The hub above it, and its port there; none for the root.
    ///
    /// ```
    /// use lembuya::{Place, Plan};
    ///
    /// let figures = "(frame 100000)\n(overhead 1000)\n(interrupt 13000)\n";
    /// let plan = Plan::read(format!("{figures}(hub\n(empty)\n(hub\n(node)\n)\n)\n").as_bytes())?;
    /// assert_eq!(plan.root().parent(), None);
    /// assert_eq!(plan.hub(2).unwrap().parent(), Some(Place { hub: 1, port: 2 }));
    /// # Ok::<(), lembuya::PlanRefused>(())
    /// ```
    pub fn parent(self) -> Option<Place> {
        let above = Place { hub: self.cell(cells::PARENT), port: self.cell(cells::PLACE) };
        (self.number > 1).then_some(above)
    }

    /// What is on its ports, in order: 1 to 32 of them.
    ///
    /// ```
    /// use lembuya::{Plan, Port};
    ///
    /// let plan = Plan::read(b"(frame 100000)\n(overhead 1000)\n(interrupt 13000)\n(hub\n(empty)\n(node)\n)\n")?;
    /// assert_eq!(plan.root().ports().collect::<Vec<_>>(), [Port::Empty, Port::Node(1)]);
    /// # Ok::<(), lembuya::PlanRefused>(())
    /// ```
    pub fn ports(self) -> impl ExactSizeIterator<Item = Port> + 'p {
        // At most 32 ports are in a hub, so their number is a usize.
        let ports = self.cell(cells::PORTS) as usize;
        (0..ports).map(move |port| Port::told(self.plan.cell(cells::port(self.number, port + 1))))
    }

    fn cell(self, cell: usize) -> u64 {
        self.plan.cell(cells::hub(self.number, cell))
    }
}
