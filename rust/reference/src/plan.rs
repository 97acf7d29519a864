//! The plan: three figures, perhaps a framing, whether it is strict, and a tree
//! of hubs, read from a text and drawn.

use crate::text::{Line, Lines};
use std::ops::RangeInclusive;

/// "T, the time frame, is 100,000 to 4,000,000."
pub const FRAMES: RangeInclusive<u64> = 100_000..=4_000_000;
/// "O, the overhead of one packet, is 0 to 50,000."
pub const OVERHEADS: RangeInclusive<u64> = 0..=50_000;
/// "Limits: 32 hubs".
pub const MOST_HUBS: usize = 32;
/// "1 to 32 ports in a hub".
pub const MOST_PORTS: usize = 32;
/// "1 to 256 nodes in the plan".
pub const MOST_NODES: usize = 256;
/// "5 levels, the root hub being level 1".
pub const MOST_LEVELS: usize = 5;
/// "Hub 1 is the root."
pub const ROOT: usize = 1;

/// What a framing line says (slip 3 of document 02): "`(framing 3)` or
/// `(framing 5)`; without it, 3 is meant".
#[derive(Clone, Copy, Debug, Default, PartialEq, Eq)]
pub enum Framing {
    /// 3, the frames of 802.3.
    #[default]
    Ethernet,
    /// 5: "802.5 frames of up to 4,500 bytes".
    TokenRing,
}

impl Framing {
    /// Both, by their numbers.
    pub const BOTH: [Framing; 2] = [Framing::Ethernet, Framing::TokenRing];

    /// The framing of a number; none where it "is neither 3 nor 5".
    pub fn of(number: u64) -> Option<Framing> {
        Framing::BOTH.into_iter().find(|framing| framing.number() == number)
    }

    /// Its number on the framing line.
    pub fn number(self) -> u64 {
        match self {
            Framing::Ethernet => 3,
            Framing::TokenRing => 5,
        }
    }

    /// Its longest packet, in bits.
    pub fn longest_packet(self) -> u64 {
        match self {
            Framing::Ethernet => 12_000,
            Framing::TokenRing => 36_000,
        }
    }
}

/// "A port is `(node)`, `(empty)` or a hub."
#[derive(Clone, Copy, Debug, PartialEq, Eq)]
pub enum Port {
    /// A node, by its number.
    Node(usize),
    /// Nothing.
    Empty,
    /// A lower hub, by its number.
    Hub(usize),
}

/// One hub of the tree.
#[derive(Clone, Debug, PartialEq, Eq)]
pub struct Hub {
    /// The ports; port q is `ports[q - 1]`.
    pub ports: Vec<Port>,
    /// The hub above and the port there; none for the root.
    pub parent: Option<(usize, usize)>,
    /// The level, the root's being 1.
    pub level: usize,
}

/// A plan. "Nodes and hubs are numbered from 1 in line order, ports from 1
/// within their hub."
#[derive(Clone, Debug, PartialEq, Eq)]
pub struct Plan {
    /// T, the time frame.
    pub frame: u64,
    /// O, the overhead of one packet.
    pub overhead: u64,
    /// D, "the longest time that a packet in progress can hold the line".
    pub interrupt: u64,
    /// What the framing line says; none where the plan doesn't have the line.
    pub framing_line: Option<Framing>,
    /// Whether the plan has the line `(strict)` (slip 8 of document 02), which
    /// "keeps the refusal" of unreserved high requests.
    pub strict: bool,
    /// N, the number of nodes.
    pub nodes: usize,
    /// The hubs; hub h is `hubs[h - 1]`.
    pub hubs: Vec<Hub>,
}

/// "A limit of the tree passed", row 3.
#[derive(Clone, Copy, Debug, PartialEq, Eq)]
pub struct Passed;

impl Plan {
    /// A plan without a framing line and not strict, and its root, which has no
    /// port yet.
    pub fn new(frame: u64, overhead: u64, interrupt: u64) -> Plan {
        let root = Hub { ports: Vec::new(), parent: None, level: 1 };
        Plan { frame, overhead, interrupt, framing_line: None, strict: false, nodes: 0, hubs: vec![root] }
    }

    /// The plan's framing: "without it, 3 is meant".
    pub fn framing(&self) -> Framing {
        self.framing_line.unwrap_or_default()
    }

    /// The longest packet, in bits: "the check of a length now takes the longest
    /// packet from the plan, and so does everything that relied on 12,000".
    pub fn longest_packet(&self) -> u64 {
        self.framing().longest_packet()
    }

    /// Hub h.
    pub fn hub(&self, h: usize) -> &Hub {
        &self.hubs[h - 1]
    }

    /// The number of levels.
    pub fn levels(&self) -> usize {
        self.hubs.iter().map(|hub| hub.level).max().unwrap_or(0)
    }

    fn add(&mut self, h: usize, port: Port) -> Result<(), Passed> {
        let ports = &mut self.hubs[h - 1].ports;
        if ports.len() == MOST_PORTS {
            return Err(Passed);
        }
        ports.push(port);
        Ok(())
    }

    /// The next port of hub h is empty.
    pub fn add_empty(&mut self, h: usize) -> Result<(), Passed> {
        self.add(h, Port::Empty)
    }

    /// The next port of hub h is the next node.
    pub fn add_node(&mut self, h: usize) -> Result<(), Passed> {
        if self.nodes == MOST_NODES {
            return Err(Passed);
        }
        self.add(h, Port::Node(self.nodes + 1))?;
        self.nodes += 1;
        Ok(())
    }

    /// The next port of hub h is the next hub; its number.
    pub fn add_hub(&mut self, h: usize) -> Result<usize, Passed> {
        let lower = self.hubs.len() + 1;
        let level = self.hub(h).level + 1;
        if lower > MOST_HUBS || level > MOST_LEVELS {
            return Err(Passed);
        }
        self.add(h, Port::Hub(lower))?;
        let parent = Some((h, self.hub(h).ports.len()));
        self.hubs.push(Hub { ports: Vec::new(), parent, level });
        Ok(lower)
    }

    /// Hub h is closed: "a `)` closing a hub without ports, or the whole plan
    /// without a node" passes a limit.
    pub fn close(&self, h: usize) -> Result<(), Passed> {
        if self.hub(h).ports.is_empty() || (h == ROOT && self.nodes == 0) {
            return Err(Passed);
        }
        Ok(())
    }
}

/// A plan that was taken, and where its text ends.
#[derive(Clone, Debug, PartialEq, Eq)]
pub struct Taken {
    /// The plan.
    pub plan: Plan,
    /// Where the line behind the plan begins.
    pub at: usize,
    /// The number of the line behind the plan.
    pub line: u64,
}

/// A plan that was refused: "a refusal gives its number (a plan also the
/// line)".
#[derive(Clone, Copy, Debug, PartialEq, Eq)]
pub struct Refused {
    /// The line refused.
    pub line: u64,
    /// The row's number: 1 to 4.
    pub number: u32,
}

/// Reads a plan from the front of a text. "The first line from above, then
/// the first row, decides."
pub fn read(text: &[u8]) -> Result<Taken, Refused> {
    let mut lines = Lines::new(text);
    let mut plan = header(&mut lines)?;
    let mut open = Some(ROOT);
    while let Some(h) = open {
        let line = next(&mut lines)?;
        let row3 = |Passed| Refused { line: line.number, number: 3 };
        // "A hub is the line `(hub`, its ports, and the line `)`."
        if line.is(b"(node)") {
            plan.add_node(h).map_err(row3)?;
        } else if line.is(b"(empty)") {
            plan.add_empty(h).map_err(row3)?;
        } else if line.is(b"(hub") {
            open = Some(plan.add_hub(h).map_err(row3)?);
        } else if line.is(b")") {
            plan.close(h).map_err(row3)?;
            open = plan.hub(h).parent.map(|(above, _)| above);
        } else {
            return Err(Refused { line: line.number, number: 1 });
        }
    }
    Ok(Taken { plan, at: lines.at, line: lines.number })
}

/// The lines down to the root's `(hub`: "First `(frame T)`, then `(overhead O)`,
/// then `(interrupt D)`, then one hub", by slip 3 perhaps a framing line "as its
/// fourth line", and by slip 8 perhaps `(strict)` "just before the root hub".
fn header(lines: &mut Lines) -> Result<Plan, Refused> {
    let frame = figure(lines, "frame", FRAMES)?;
    let overhead = figure(lines, "overhead", OVERHEADS)?;
    // "D [..] is 12,000 + O to T" on its own line, whatever the framing.
    let least = Framing::Ethernet.longest_packet() + overhead;
    let interrupt = figure(lines, "interrupt", least..=frame)?;
    let mut plan = Plan::new(frame, overhead, interrupt);
    let mut line = next(lines)?;
    if let Some([number]) = line.form("framing") {
        plan.framing_line = Some(framing(&plan, line.number, number)?);
        line = next(lines)?;
    }
    // It "goes behind any framing line", so none may follow it.
    if line.is(b"(strict)") {
        plan.strict = true;
        line = next(lines)?;
    }
    if !line.is(b"(hub") {
        return Err(Refused { line: line.number, number: 1 });
    }
    Ok(plan)
}

/// The framing of a line `(framing number)`: row 4, "the number is neither 3 nor
/// 5, after 1; a D too small for framing 5 is 2 on the framing line, after 4".
fn framing(plan: &Plan, line: u64, number: u64) -> Result<Framing, Refused> {
    let framing = Framing::of(number).ok_or(Refused { line, number: 4 })?;
    if plan.interrupt < framing.longest_packet() + plan.overhead {
        return Err(Refused { line, number: 2 });
    }
    Ok(framing)
}

/// The next line; row 1 where "the text ends early (line after the last)".
fn next<'a>(lines: &mut Lines<'a>) -> Result<Line<'a>, Refused> {
    let line = lines.number;
    lines.next().ok_or(Refused { line, number: 1 })
}

/// The number of a line `(word number)`: row 1, then row 2, "T, O or D out of
/// range".
fn figure(lines: &mut Lines, word: &str, range: RangeInclusive<u64>) -> Result<u64, Refused> {
    let line = next(lines)?;
    match line.form(word) {
        None => Err(Refused { line: line.number, number: 1 }),
        Some([number]) if !range.contains(&number) => Err(Refused { line: line.number, number: 2 }),
        Some([number]) => Ok(number),
    }
}

/// The text of a plan.
pub fn draw(plan: &Plan) -> String {
    let mut text =
        format!("(frame {})\n(overhead {})\n(interrupt {})\n", plan.frame, plan.overhead, plan.interrupt);
    if let Some(framing) = plan.framing_line {
        text.push_str(&format!("(framing {})\n", framing.number()));
    }
    if plan.strict {
        text.push_str("(strict)\n");
    }
    draw_hub(plan, ROOT, &mut text);
    text
}

fn draw_hub(plan: &Plan, h: usize, text: &mut String) {
    text.push_str("(hub\n");
    for port in &plan.hub(h).ports {
        match *port {
            Port::Node(_) => text.push_str("(node)\n"),
            Port::Empty => text.push_str("(empty)\n"),
            Port::Hub(lower) => draw_hub(plan, lower, text),
        }
    }
    text.push_str(")\n");
}
