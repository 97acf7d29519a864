//! Waits (slip 1 of document 02) worked out from calls and answers alone.
//!
//! No time is recorded as the calls go by. What a node has asked since its last
//! grant or `off` is kept as it was said, and so are the reservations accepted.
//! Only when it is granted is it found out in which classes its request stood.

use crate::core::Class;
use crate::hub::{Answer, Call, Calls};
use crate::plan::Plan;

/// An accepted normal or high event, with the class in which it was taken.
#[derive(Clone, Copy, Debug)]
struct Asked {
    t: u64,
    class: Class,
    b: u64,
}

/// An accepted reserve.
#[derive(Clone, Copy, Debug)]
struct Reserved {
    t: u64,
    n: u64,
    b: u64,
}

/// What the calls so far tell of one node.
#[derive(Clone, Debug, Default)]
struct Node {
    /// Since its last grant or `off`.
    asked: Vec<Asked>,
    reserved: Vec<Reserved>,
}

impl Node {
    /// n and b in force from a frame's start on: those of the last accepted
    /// reserve before it.
    fn in_force(&self, start: u64) -> (u64, u64) {
        let latest = self.reserved.iter().rev().find(|reserved| reserved.t < start);
        latest.map_or((0, 0), |reserved| (reserved.n, reserved.b))
    }
}

/// Listens to a list of calls.
#[derive(Clone, Debug)]
pub struct Waits {
    frame: u64,
    /// Node k at k - 1.
    nodes: Vec<Node>,
}

impl Waits {
    /// Of a plan's hub before any event.
    pub fn new(plan: &Plan) -> Waits {
        Waits { frame: plan.frame, nodes: vec![Node::default(); plan.nodes] }
    }

    /// The next call and its answer: the answer with the wait that these tell in
    /// place of its own.
    pub fn hear(&mut self, call: Call, answer: Answer) -> Answer {
        match (call, answer) {
            (_, Answer::Grant { time, node, .. }) => {
                let since = self.put_up(node, time);
                self.nodes[node as usize - 1].asked.clear();
                return answer.with_wait(time - since.unwrap_or(time));
            }
            (Call::Normal { t, k, b }, Answer::Taken) => self.ask(k, Asked { t, class: Class::Normal, b }),
            (Call::High { t, k, b }, Answer::Taken) => {
                // By slip 8 one of a node with n = 0 in force is taken as normal.
                let (n, _) = self.nodes[k as usize - 1].in_force(t / self.frame * self.frame);
                let class = if n == 0 { Class::Normal } else { Class::High };
                self.ask(k, Asked { t, class, b });
            }
            (Call::Off { k, .. }, Answer::Taken) => self.nodes[k as usize - 1].asked.clear(),
            (Call::Reserve { t, k, n, b }, Answer::Taken) => {
                self.nodes[k as usize - 1].reserved.push(Reserved { t, n, b });
            }
            _ => {}
        }
        answer
    }

    fn ask(&mut self, k: u64, asked: Asked) {
        self.nodes[k as usize - 1].asked.push(asked);
    }

    /// Since when k's request stands at a time in the class that it has then; none
    /// where k has none.
    pub fn put_up(&self, k: u64, time: u64) -> Option<u64> {
        let node = &self.nodes[k as usize - 1];
        let mut stood: Vec<(Class, u64)> = Vec::new();
        for (place, asked) in node.asked.iter().enumerate() {
            let until = node.asked.get(place + 1).map_or(time, |next| next.t);
            stood.push((asked.class, asked.t));
            stood.extend(self.turned(node, asked, until).map(|start| (Class::Normal, start)));
        }
        let &(class, _) = stood.last()?;
        let unbroken = stood.iter().rev().take_while(|stood| stood.0 == class);
        unbroken.last().map(|&(_, since)| since)
    }

    /// The frame start up to this time, that one too, at which a high request
    /// becomes normal. An event of the start's own time comes behind it.
    fn turned(&self, node: &Node, asked: &Asked, until: u64) -> Option<u64> {
        if asked.class == Class::Normal {
            return None;
        }
        let mut starts = (asked.t / self.frame + 1..=until / self.frame).map(|f| f * self.frame);
        starts.find(|&start| {
            let (n, b) = node.in_force(start);
            n == 0 || asked.b > b
        })
    }
}

/// A hub with the waits that its calls and answers tell, in place of its own.
#[derive(Clone, Debug)]
pub struct Told<H> {
    hub: H,
    waits: Waits,
}

impl<H: Calls> Told<H> {
    /// A plan's hub before any event.
    pub fn new(plan: &Plan, hub: H) -> Told<H> {
        Told { hub, waits: Waits::new(plan) }
    }
}

impl<H: Calls> Calls for Told<H> {
    fn call(&mut self, call: Call) -> Answer {
        let answer = self.hub.call(call);
        self.waits.hear(call, answer)
    }
}
