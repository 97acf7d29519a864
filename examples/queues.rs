//! Nodes with queues before a hub, for the examples: what arrives is put up as requests, one at a time and high before normal.

use lembuya::{Cascade, Class, Plan, Refused, Step};
use std::cmp::Reverse;
use std::collections::{BinaryHeap, VecDeque};

/// A packet's wait: its node, the class it was asked for in, when its request was first put up (it stood at the head of its node's
/// queue), and its grant.
#[derive(Clone, Copy, Debug)]
pub struct Wait {
    // Not every example looks at it.
    #[allow(dead_code)]
    pub node: u64,
    pub class: Class,
    pub head: u64,
    pub granted: u64,
}

/// What is to come: packets of a node, or the end of a packet that a node is sending.
#[derive(Clone, Copy, PartialEq, Eq, PartialOrd, Ord)]
enum Coming {
    Packets {
        node: u64,
        is_high: bool,
        packets: u64,
        bits: u64,
    },
    Sent {
        node: u64,
    },
}

#[derive(Clone, Default)]
struct Node {
    high: VecDeque<u64>,
    normal: VecDeque<u64>,
    /// When the first packet of each class came to its queue's head and was asked for.
    high_head: Option<u64>,
    normal_head: Option<u64>,
    stands: Option<Class>,
    sending: bool,
}

/// A hub, its nodes' queues, and what is to come.
pub struct Hall {
    hub: Cascade,
    nodes: Vec<Node>,
    coming: BinaryHeap<Reverse<(u64, Coming)>>,
    /// Every event that was made, as a text's lines.
    pub lines: String,
    /// Every packet that was granted.
    pub waits: Vec<Wait>,
}

impl Hall {
    pub fn new(plan: &Plan) -> Hall {
        let nodes = vec![Node::default(); plan.nodes() as usize];
        let (coming, lines, waits) = (BinaryHeap::new(), String::new(), Vec::new());
        Hall {
            hub: plan.cascade(),
            nodes,
            coming,
            lines,
            waits,
        }
    }

    /// Reserves for a node, at time 0: in force from frame 1 on.
    pub fn reserve(&mut self, node: u64, packets: u64, bits: u64) -> Result<(), Refused> {
        self.hub.reserve(0, node, packets, bits)?;
        self.lines += &format!("(reserve 0 {node} {packets} {bits})\n");
        Ok(())
    }

    /// So many packets come to a node's queue at a time.
    pub fn arrive(&mut self, time: u64, node: u64, class: Class, packets: u64, bits: u64) {
        let is_high = class == Class::High;
        self.coming.push(Reverse((
            time,
            Coming::Packets {
                node,
                is_high,
                packets,
                bits,
            },
        )));
    }

    /// Lets time pass up to `end`.
    pub fn run(&mut self, end: u64) -> Result<(), Refused> {
        loop {
            let next = self
                .coming
                .peek()
                .map_or(end, |Reverse((time, _))| (*time).min(end));
            match self.hub.step(next)? {
                Step::Grant {
                    time, node, end, ..
                } => self.granted(time, node, end),
                Step::Rest { .. } => {}
                Step::Quiet if next == end => break,
                Step::Quiet => {
                    let Reverse((time, coming)) =
                        self.coming.pop().expect("something comes at that time");
                    self.meet(time, coming)?;
                }
            }
        }
        self.hub.until(end)?;
        self.lines += &format!("(until {end})\n");
        Ok(())
    }

    /// The packet that was asked for, whatever the grant's class: a high request may have been taken as normal, or become so.
    fn granted(&mut self, time: u64, node: u64, end: u64) {
        let at = &mut self.nodes[node as usize - 1];
        let class = at.stands.take().expect("it was asked for");
        let (queue, head) = match class {
            Class::High => (&mut at.high, &mut at.high_head),
            Class::Normal => (&mut at.normal, &mut at.normal_head),
        };
        queue.pop_front();
        let head = head.take().expect("it was asked for");
        at.sending = true;
        self.waits.push(Wait {
            node,
            class,
            head,
            granted: time,
        });
        self.coming.push(Reverse((end, Coming::Sent { node })));
    }

    fn meet(&mut self, time: u64, coming: Coming) -> Result<(), Refused> {
        let node = match coming {
            Coming::Packets {
                node,
                is_high,
                packets,
                bits,
            } => {
                let at = &mut self.nodes[node as usize - 1];
                let queue = if is_high {
                    &mut at.high
                } else {
                    &mut at.normal
                };
                queue.extend((0..packets).map(|_| bits));
                node
            }
            Coming::Sent { node } => {
                self.nodes[node as usize - 1].sending = false;
                node
            }
        };
        self.ask(time, node)
    }

    /// A node that isn't sending asks for its next packet, unless it does already.
    fn ask(&mut self, time: u64, node: u64) -> Result<(), Refused> {
        let at = &mut self.nodes[node as usize - 1];
        if at.sending {
            return Ok(());
        }
        if let (Some(bits), true) = (at.high.front(), at.stands != Some(Class::High)) {
            self.hub.high(time, node, *bits)?;
            self.lines += &format!("(high {time} {node} {bits})\n");
            at.high_head.get_or_insert(time);
            at.stands = Some(Class::High);
        } else if let (Some(bits), None) = (at.normal.front(), at.stands) {
            self.hub.normal(time, node, *bits)?;
            self.lines += &format!("(normal {time} {node} {bits})\n");
            at.normal_head.get_or_insert(time);
            at.stands = Some(Class::Normal);
        }
        Ok(())
    }
}
