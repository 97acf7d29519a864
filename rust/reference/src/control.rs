//! Control, hub by hub: rules 1 to 4, with the moves counted. Rule 2 is slip 4's
//! of document 02; document 01's own is there as an option.

use crate::core::{Class, Turns};
use crate::plan::{Plan, Port, ROOT};

/// "Each hub has for each class a pointer to a port, with a mark (unfinished)
/// or none, at first port 1 without mark."
#[derive(Clone, Copy, Debug, PartialEq, Eq)]
struct Pointer {
    port: usize,
    marked: bool,
}

/// A pointer without mark.
fn unmarked(port: usize) -> Pointer {
    Pointer { port, marked: false }
}

/// How far control goes up where the class changes.
#[derive(Clone, Copy, Debug, PartialEq, Eq)]
pub enum Turning {
    /// Slip 4: "the lowest hub, the holder included, for which every hub above
    /// it on the holder's line has its pointer of the sought class marked and
    /// on that line".
    Nearest,
    /// Document 01, before that slip: to the root.
    Root,
}

/// "One hub has control, at first the root."
#[derive(Clone, Debug)]
pub struct Control {
    plan: Plan,
    turning: Turning,
    holder: usize,
    /// The class of the latest grant.
    latest: Option<Class>,
    /// By class, then by hub (hub h at h - 1).
    pointers: [Vec<Pointer>; 2],
    /// The "returns of the root's pointer to port 1" so far (slip 13).
    returns: u64,
}

impl Control {
    /// A plan's control before any grant.
    pub fn new(plan: &Plan) -> Control {
        Control::turning(plan, Turning::Nearest)
    }

    /// The same, where a change of class goes up as far as is said.
    pub fn turning(plan: &Plan, turning: Turning) -> Control {
        let pointers = vec![unmarked(1); plan.hubs.len()];
        let pointers = [pointers.clone(), pointers];
        Control { plan: plan.clone(), turning, holder: ROOT, latest: None, pointers, returns: 0 }
    }

    /// From now on a change of class goes up as far as is said.
    pub fn turn(&mut self, turning: Turning) {
        self.turning = turning;
    }

    /// How often the root's pointer of either class has returned to port 1.
    pub fn returns(&self) -> u64 {
        self.returns
    }

    /// "A hub sees of each port only which classes count there or below it":
    /// for each hub, whether the class counts in or below it. A lower hub has
    /// the higher number.
    fn counts_in(&self, counts: &dyn Fn(usize) -> bool) -> Vec<bool> {
        let mut hubs = vec![false; self.plan.hubs.len()];
        for h in (ROOT..=hubs.len()).rev() {
            hubs[h - 1] = self.plan.hub(h).ports.iter().any(|&port| shows(port, counts, &hubs));
        }
        hubs
    }

    /// Control goes up to a hub of the holder's line. "Pointers stay."
    fn up_to(&mut self, hub: usize) -> u64 {
        let moves = self.plan.hub(self.holder).level - self.plan.hub(hub).level;
        self.holder = hub;
        moves as u64
    }

    /// The hubs from the holder up to the root; with each but the first, the
    /// port at which the line goes on down.
    fn line(&self) -> Vec<(usize, usize)> {
        let mut line = vec![(self.holder, 0)];
        let mut below = self.holder;
        while let Some((above, port)) = self.plan.hub(below).parent {
            line.push((above, port));
            below = above;
        }
        line
    }

    /// Where control turns to a class.
    fn nearest(&self, class: Class) -> usize {
        let line = self.line();
        let on_line = |&(hub, port): &(usize, usize)| {
            self.pointers[class as usize][hub - 1] == Pointer { port, marked: true }
        };
        let lowest = (0..line.len()).find(|&i| line[i + 1..].iter().all(on_line));
        line[lowest.expect("no hub stands above the root")].0
    }
}

/// Whether a class counts at a port or below it.
fn shows(port: Port, counts: &dyn Fn(usize) -> bool, hubs: &[bool]) -> bool {
    match port {
        Port::Node(k) => counts(k),
        Port::Empty => false,
        Port::Hub(h) => hubs[h - 1],
    }
}

impl Turns for Control {
    fn choose(&mut self, class: Class, counts: &dyn Fn(usize) -> bool) -> (usize, u64) {
        let counts_in = self.counts_in(counts);
        let mut moves = 0;
        // 2. "The class sought differs from that of the latest grant."
        if self.latest != Some(class) {
            let hub = match self.turning {
                Turning::Nearest => self.nearest(class),
                Turning::Root => ROOT,
            };
            moves += self.up_to(hub);
        }
        self.latest = Some(class);
        let pointers = &mut self.pointers[class as usize];
        loop {
            let holder = self.holder;
            let hub = self.plan.hub(holder);
            let pointer = pointers[holder - 1];
            // 3. "The holder takes the lowest-numbered port at or after the
            // pointer whose request counts in that class."
            let taken = (pointer.port..=hub.ports.len())
                .map(|q| (q, hub.ports[q - 1]))
                .find(|&(_, port)| shows(port, counts, &counts_in));
            match taken {
                // "A node: it is granted; the pointer is the next port (perhaps
                // one past the last), unmarked."
                Some((q, Port::Node(k))) => {
                    pointers[holder - 1] = unmarked(q + 1);
                    return (k, moves);
                }
                // "A hub: the pointer is that port, marked, and control goes
                // down. If that port was the pointer's own and was marked, the
                // lower hub resumes at its pointer; otherwise it starts afresh
                // at port 1, unmarked."
                Some((q, Port::Hub(lower))) => {
                    let marked = Pointer { port: q, marked: true };
                    if pointer != marked {
                        pointers[lower - 1] = unmarked(1);
                    }
                    pointers[holder - 1] = marked;
                    self.holder = lower;
                    moves += 1;
                }
                // 4. "No such port: a lower hub hands control up, and its
                // parent's pointer becomes the port behind it, unmarked. The
                // root goes to port 1, unmarked. Repeat from 3."
                Some((_, Port::Empty)) | None => match hub.parent {
                    Some((above, q)) => {
                        pointers[above - 1] = unmarked(q + 1);
                        self.holder = above;
                        moves += 1;
                    }
                    None => {
                        pointers[ROOT - 1] = unmarked(1);
                        self.returns += 1;
                    }
                },
            }
        }
    }

    /// 1. "Nothing counts: control goes up to the root. Pointers stay."
    fn rest(&mut self) -> u64 {
        self.up_to(ROOT)
    }
}
