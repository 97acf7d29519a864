//! Plans that are taken and refused, and what their tables tell.

use crate::archive::{self, on_all, setting, Archive, Fenced};
use crate::common::{control, Found};
use crate::{cut_down, FILL_CELL};
use reference::hub::{Call, Calls};
use reference::plan;
use reference::random::{framings, plans, stricts, Random};

/// Lines that a plan's line may become.
const LINES: [&str; 19] = [
    "(node)",
    "(empty)",
    "(hub",
    ")",
    "",
    " (node)",
    "(node) ",
    "(node",
    "(hub)",
    "(Node)",
    "))",
    "(hub ",
    "(nodes)",
    "(frame 100000)",
    "(overhead 0)",
    "(interrupt 12000)",
    "(framing 3)",
    "(framing 5)",
    "(strict)",
];

/// Figures about the limits of T, O and D, D's by both framings, and such as are no numbers.
const FIGURES: [&str; 27] = [
    "0",
    "1",
    "11999",
    "12000",
    "12001",
    "35999",
    "36000",
    "36001",
    "49999",
    "50000",
    "50001",
    "61999",
    "62000",
    "85999",
    "86000",
    "99999",
    "100000",
    "100001",
    "3999999",
    "4000000",
    "4000001",
    "9999999999999999",
    "10000000000000000",
    "0100000",
    "-1",
    "",
    "4294967296",
];

/// A plan's text, mostly with something changed in it.
fn plan_text(random: &mut Random) -> Vec<u8> {
    let plan = plans::plan(random);
    let mut lines: Vec<String> = plan::draw(&plan).lines().map(String::from).collect();
    match random.below(12) {
        0..=2 => {}
        10 | 11 => fill_up(random, &plan, &mut lines),
        // A figure about the limits.
        3..=5 => {
            let at = random.place(3 + usize::from(plan.framing_line.is_some()));
            let word = lines[at].split_once(' ').unwrap().0;
            lines[at] = format!("{word} {})", random.one_of(&FIGURES));
        }
        6..=8 => add_ports(random, &mut lines),
        // Lines lost, doubled and replaced.
        _ => {
            for _ in 0..random.within(1..=2) {
                let at = random.place(lines.len());
                match random.below(3) {
                    0 => drop(lines.remove(at)),
                    1 => lines.insert(at, random.one_of(&LINES).into()),
                    _ => lines[at] = random.one_of(&LINES).into(),
                }
            }
        }
    }
    let mut text = lines.join("\n").into_bytes();
    end(random, &mut text);
    if random.chance(15) {
        framings::damage(random, &mut text);
    }
    if random.chance(20) {
        stricts::damage(random, &mut text);
    }
    text
}

/// Some place behind the root's first line.
fn in_tree(random: &mut Random, lines: &[String]) -> usize {
    let root = lines.iter().position(|line| line == "(hub").expect("a plan has a root");
    root + 1 + random.place(lines.len() - root - 1)
}

/// Up to the most hubs or the most nodes, or one more.
fn fill_up(random: &mut Random, plan: &plan::Plan, lines: &mut Vec<String>) {
    let (form, left) = if random.chance(50) {
        ("(hub\n(node)\n)", 32 - plan.hubs.len())
    } else {
        ("(node)", 256 - plan.nodes)
    };
    for _ in 0..left + random.place(2) {
        lines.insert(in_tree(random, lines), form.into());
    }
}

/// More ports, nodes, hubs or levels.
fn add_ports(random: &mut Random, lines: &mut Vec<String>) {
    let form = match random.below(6) {
        0 => "(node)",
        1 => "(empty)",
        2 => "(hub\n(node)\n)",
        3 => "(hub\n(hub\n(empty)\n)\n)",
        4 => "(hub\n)",
        _ => "(hub",
    };
    let at = in_tree(random, lines);
    for _ in 0..random.one_of(&[1, 1, 2, 3, 4, 5, 30, 31, 32]) {
        lines.insert(at, form.into());
    }
}

/// The last LF, mostly; or none, a text cut off, a byte changed, or something behind the plan.
fn end(random: &mut Random, text: &mut Vec<u8>) {
    match random.below(20) {
        0 => {}
        1 => text.truncate(random.place(text.len() + 1)),
        2 => {
            let at = random.place(text.len());
            text[at] = random.number() as u8;
        }
        3 => text.extend_from_slice(b"\n(until 0)\n(node)\n"),
        4 => text.extend(std::iter::repeat_n(b' ', 100)),
        _ => text.push(b'\n'),
    }
}

/// Whether the crate tells of a taken plan's table the figures and the tree that the reference read.
fn same_tree(text: &[u8], expected: &plan::Plan) -> Result<(), String> {
    let told = lembuya::Plan::read(text).expect("the archive took it");
    let mut tree = plan::Plan::new(told.frame(), told.overhead(), told.interrupt());
    // Whether framing 3 had its line isn't told.
    let framing = plan::Framing::of(told.framing().number().into()).expect("3 or 5");
    tree.framing_line = expected.framing_line.and(Some(framing));
    tree.strict = told.is_strict();
    tree.nodes = told.nodes() as usize;
    tree.hubs = (1..=told.hubs()).map(|hub| of_reference(told.hub(hub).expect("up to H"))).collect();
    if tree != *expected {
        return Err(format!("reference: {expected:?}\narchive: {tree:?}"));
    }
    let (found, known) = ((framing, told.longest_packet()), (expected.framing(), expected.longest_packet()));
    if found != known {
        return Err(format!("reference: {known:?}\narchive: {found:?}"));
    }
    // What the framing decides, and whether a node with nothing reserved may ask high.
    let lengths = [12_000, 12_001, 36_000, 36_001].map(|b| Call::Normal { t: 0, k: 1, b });
    for call in lengths.into_iter().chain([Call::High { t: 0, k: 1, b: 512 }]) {
        let (found, known) = (Archive::new(expected).call(call), control(expected).call(call));
        if found != known {
            return Err(format!("{call:?}\nreference: {known:?}\narchive: {found:?}"));
        }
    }
    // The reference has no table of nodes: a node's place is where its port is.
    let place = |hub, at| Some(lembuya::Place { hub: hub as u64 + 1, port: at as u64 + 1 });
    for (hub, ports) in expected.hubs.iter().map(|hub| &hub.ports).enumerate() {
        for (at, port) in ports.iter().enumerate() {
            if matches!(port, plan::Port::Node(node) if told.node(*node as u64) != place(hub, at)) {
                return Err(format!("{port:?} isn't where the table of nodes says"));
            }
        }
    }
    Ok(())
}

fn of_reference(hub: lembuya::Hub<'_>) -> plan::Hub {
    let port = |port| match port {
        lembuya::Port::Empty => plan::Port::Empty,
        lembuya::Port::Node(node) => plan::Port::Node(node as usize),
        lembuya::Port::Hub(hub) => plan::Port::Hub(hub as usize),
    };
    plan::Hub {
        ports: hub.ports().map(port).collect(),
        parent: hub.parent().map(|place| (place.hub as usize, place.port as usize)),
        level: hub.level() as usize,
    }
}

/// Whether `lembuya_read` says of a text what the reference says; if not, what it says.
fn same_plan(text: &[u8]) -> Result<(), String> {
    let mut lent = Fenced::new(text.len());
    let lent = lent.last(text.len());
    lent.copy_from_slice(text);
    let mut hub = Archive::blank(FILL_CELL, text.len().is_multiple_of(2));
    let found = archive::read(lent, hub.plan());
    let untouched = hub.plan().iter().all(|&cell| cell == FILL_CELL);
    let expected = match plan::read(text) {
        Ok(taken) => {
            (0, [taken.plan.nodes as u64, taken.plan.hubs.len() as u64, taken.at as u64, taken.line])
        }
        Err(refused) => (refused.number, [u64::MAX, u64::MAX, u64::MAX, refused.line]),
    };
    if found != expected {
        return Err(format!("reference: {expected:?}\narchive: {found:?}"));
    }
    if (expected.0 != 0) != untouched {
        return Err(format!("{expected:?}, and the table is untouched: {untouched}"));
    }
    if *lent != *text {
        return Err("the text was changed".into());
    }
    // What stood in the table before doesn't matter.
    let mut other = Archive::blank(0, true);
    if expected.0 == 0 && (archive::read(text, other.plan()) != found || other.plan() != hub.plan()) {
        return Err("another table before, another table behind".into());
    }
    Ok(())
}

fn count_taken(found: &mut Found, plan: &plan::Plan) {
    found.count("taken");
    let framing = plan.framing_line.map_or(0, |framing| framing.number());
    found.count(format!("framing line {framing}"));
    let strict = if plan.strict { "strict" } else { "not strict" };
    found.count(format!("{strict} behind framing line {framing}"));
    found.count(format!("levels {}", plan.levels()));
    found.add("256 nodes", u64::from(plan.nodes == 256));
    found.add("32 hubs", u64::from(plan.hubs.len() == 32));
}

/// By row, and once more those on the line where a framing's may stand, and those of a line like `(strict)`.
fn count_refused(found: &mut Found, text: &[u8], refused: &plan::Refused) {
    found.count(format!("row {}", refused.number));
    if refused.line == 4 {
        found.count(format!("row {} on line 4", refused.number));
    }
    let line = text.split(|&byte| byte == b'\n').nth(refused.line as usize - 1).unwrap_or_default();
    if line == b"(strict)" {
        found.count("(strict) where none may stand");
    } else if line.starts_with(b"(strict") {
        found.count("no form of (strict)");
    }
}

#[test]
fn plans_are_taken_and_refused_alike() {
    let plans = setting("LEMBUYA_TEXTS", 10_000) * 4;
    let found = on_all(
        0..plans,
        |seed, found| {
            let text = plan_text(&mut Random::new(seed));
            if same_plan(&text).is_err() {
                let short = cut_down(&text, |text| same_plan(text).is_err());
                panic!(
                    "seed {seed}: {}\n{}",
                    same_plan(&short).unwrap_err(),
                    String::from_utf8_lossy(&short)
                );
            }
            match plan::read(&text) {
                Ok(taken) => {
                    same_tree(&text, &taken.plan).unwrap_or_else(|wrong| panic!("seed {seed}: {wrong}"));
                    count_taken(found, &taken.plan);
                }
                Err(refused) => count_refused(found, &text, &refused),
            }
        },
        Found::join,
    );
    println!("{found:?}");
    let least = plans / 200;
    found.assert_met(
        least,
        &["taken", "row 1", "row 2", "row 3", "row 4", "256 nodes", "32 hubs", "levels 1", "levels 5"],
    );
    found.assert_met(least, &["framing line 0", "framing line 3", "framing line 5"]);
    found.assert_met(least, &["row 1 on line 4", "row 4 on line 4", "row 2 on line 4"]);
    for framing in [0, 3, 5] {
        let lines = ["strict", "not strict"].map(|strict| format!("{strict} behind framing line {framing}"));
        found.assert_met(least, &[&lines[0], &lines[1]]);
    }
    found.assert_met(least, &["(strict) where none may stand", "no form of (strict)"]);
}
