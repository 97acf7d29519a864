//! The rows of a picture: the plan's hubs and nodes in line order, or, where no plan is known, control and the nodes.

use crate::log::Entry;
use crate::text::Text;
use lembuya::{Hub, Plan, Port};

/// A row: a hub, a node, or, where the plan isn't known, control.
#[derive(Clone, Debug, PartialEq, Eq)]
pub struct Row {
    /// How deep it stands in the tree, from 0.
    pub depth: usize,
    /// What stands beside it.
    pub label: String,
    /// A hub's row, or that of control.
    pub is_hub: bool,
}

/// Which row is whose.
pub struct Places {
    pub rows: Vec<Row>,
    /// The row of node k stands at k - 1.
    pub node: Vec<usize>,
    /// The row of its hub, which has control when it is granted.
    pub holder: Vec<usize>,
    pub root: usize,
}

impl Places {
    pub fn new(text: Option<&Text>, entries: &[Entry]) -> Places {
        match (text, entries.first()) {
            (Some(text), _) => Places::of_tree(&text.plan),
            (None, Some(Entry::Taken { nodes, .. })) => Places::of_nodes(*nodes as usize),
            _ => unreachable!("a log of a taken plan says how many nodes there are"),
        }
    }

    fn of_tree(plan: &Plan) -> Places {
        let mut places = Places { rows: Vec::new(), node: Vec::new(), holder: Vec::new(), root: 0 };
        places.add_hub(plan, plan.root());
        places
    }

    /// A hub's row, and below it those of what is on its ports: line order. Nodes so come in the order of their numbers.
    fn add_hub(&mut self, plan: &Plan, hub: Hub<'_>) {
        let (own, level) = (self.rows.len(), hub.level() as usize);
        self.rows.push(Row { depth: level - 1, label: format!("hub {}", hub.number()), is_hub: true });
        for port in hub.ports() {
            match port {
                Port::Empty => {}
                Port::Node(node) => {
                    self.node.push(self.rows.len());
                    self.holder.push(own);
                    self.rows.push(Row { depth: level, label: format!("node {node}"), is_hub: false });
                }
                Port::Hub(lower) => self.add_hub(plan, plan.hub(lower).expect("a hub of the plan")),
            }
        }
    }

    /// Without a plan: control, and the nodes one below the other.
    fn of_nodes(nodes: usize) -> Places {
        let control = Row { depth: 0, label: "moves".into(), is_hub: true };
        let node = (1..=nodes).map(|node| Row { depth: 1, label: format!("node {node}"), is_hub: false });
        Places {
            rows: [control].into_iter().chain(node).collect(),
            node: (1..=nodes).collect(),
            holder: vec![0; nodes],
            root: 0,
        }
    }

    pub fn figures(&self, text: Option<&Text>) -> String {
        let hubs = self.rows.iter().filter(|row| row.is_hub).count();
        match text {
            None => format!("{} nodes; times in bit times (10 ns)", self.node.len()),
            Some(Text { plan, .. }) => format!(
                "{} nodes, {hubs} hubs; frame {}, overhead {}, interrupt {} bit times (10 ns); framing {}, longest packet {} bits; {}",
                self.node.len(),
                plan.frame(),
                plan.overhead(),
                plan.interrupt(),
                plan.framing().number(),
                plan.longest_packet(),
                if plan.is_strict() { "strict" } else { "not strict" }
            ),
        }
    }
}

#[cfg(test)]
mod tests {
    use super::*;

    #[test]
    fn rows_are_in_line_order_and_empty_ports_have_none() {
        let tree = "(hub\n(node)\n(hub\n(node)\n(empty)\n(hub\n(node)\n)\n(node)\n)\n(empty)\n(node)\n)\n";
        let text = format!("(frame 100000)\n(overhead 1000)\n(interrupt 13000)\n{tree}");
        let places = Places::new(Text::read(text.as_bytes()).ok().as_ref(), &[]);
        let rows: Vec<_> =
            places.rows.iter().map(|row| (row.depth, row.label.as_str(), row.is_hub)).collect();
        assert_eq!(
            rows,
            [
                (0, "hub 1", true),
                (1, "node 1", false),
                (1, "hub 2", true),
                (2, "node 2", false),
                (2, "hub 3", true),
                (3, "node 3", false),
                (2, "node 4", false),
                (1, "node 5", false),
            ]
        );
        assert_eq!((places.node, places.holder), (vec![1, 3, 5, 6, 7], vec![0, 2, 4, 2, 0]));
    }

    #[test]
    fn figures_are_the_plans() {
        let figures = |text: &str| {
            let text = Text::read(text.as_bytes()).ok();
            Places::new(text.as_ref(), &[]).figures(text.as_ref())
        };
        let tree = "(hub\n(node)\n(hub\n(node)\n)\n)\n";
        assert_eq!(
            figures(&format!("(frame 100000)\n(overhead 1000)\n(interrupt 13000)\n{tree}")),
            "2 nodes, 2 hubs; frame 100000, overhead 1000, interrupt 13000 bit times (10 ns); framing 3, longest packet 12000 bits; not strict"
        );
        assert_eq!(
            figures(&format!("(frame 100000)\n(overhead 1000)\n(interrupt 37000)\n(framing 5)\n(strict)\n{tree}")),
            "2 nodes, 2 hubs; frame 100000, overhead 1000, interrupt 37000 bit times (10 ns); framing 5, longest packet 36000 bits; strict"
        );
    }
}
