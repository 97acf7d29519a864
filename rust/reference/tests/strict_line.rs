//! Slip 8 of document 02: the line `(strict)`, where it may stand, and that it changes
//! nothing else of a plan.

mod common;

use common::{by_default, logged, plan, PLAN};
use reference::plan::{draw, read, Plan};
use reference::random::stricts::NO_FORMS;
use reference::random::{plans, texts, Random};

/// These lines behind T and O, then a hub of one node.
fn header(lines: &str) -> String {
    format!("(frame 200000)\n(overhead 1000)\n{lines}(hub\n(node)\n)\n")
}

/// A text's plan is refused at this line by this row.
fn refused(text: &str, line: u64, number: u32) {
    logged(text, &format!("(refused {line} {number})\n"));
}

/// A text's plan is taken, and it is strict or not.
fn taken(text: &str, strict: bool) {
    logged(text, "(nodes 1 hubs 1)\n");
    assert_eq!(plan(text).strict, strict, "{text}");
}

/// "Just before the root hub, behind any framing line": there it is taken.
#[test]
fn where_the_line_stands() {
    for framing in ["", "(framing 3)\n", "(framing 5)\n"] {
        let above = format!("(interrupt 37000)\n{framing}");
        taken(&header(&above), false);
        taken(&header(&format!("{above}(strict)\n")), true);
    }
    // "Behind any framing line": one behind it is 1, whatever it says.
    for framing in ["(framing 3)", "(framing 5)", "(framing 4)", "(framing 03)", "(framing)"] {
        refused(&header(&format!("(interrupt 13000)\n(strict)\n{framing}\n")), 5, 1);
    }
    refused(&header("(interrupt 37000)\n(framing 5)\n(strict)\n(framing 5)\n"), 6, 1);
}

/// Before every other line of a plan, it is 1 there; a second one is 1 as well.
#[test]
fn the_line_anywhere_else() {
    for (above, root) in [("(interrupt 37000)\n", 4), ("(interrupt 37000)\n(framing 5)\n", 5)] {
        let text = header(above);
        let lines: Vec<&str> = text.lines().collect();
        for at in 1..=lines.len() {
            let mut all = lines.clone();
            all.insert(at - 1, "(strict)");
            let text = all.join("\n") + "\n";
            match at {
                at if at == root => taken(&text, true),
                // The framing line is the one that may not stand here any more.
                4 => refused(&text, 5, 1),
                at => refused(&text, at as u64, 1),
            }
        }
        let twice = header(&format!("{above}(strict)\n(strict)\n"));
        refused(&twice, root as u64 + 1, 1);
    }
}

/// "With a number" and every other broken form.
#[test]
fn broken_lines() {
    for form in NO_FORMS {
        refused(&header(&format!("(interrupt 37000)\n{form}\n")), 4, 1);
        refused(&header(&format!("(interrupt 37000)\n(framing 5)\n{form}\n")), 5, 1);
        refused(&header(&format!("(interrupt 37000)\n(strict)\n{form}\n")), 5, 1);
    }
    let long = format!("(interrupt 37000)\n(strict){}\n", " ".repeat(80));
    refused(&header(&long), 4, 1);
}

/// The line above decides first, and so does a text's end.
#[test]
fn the_lines_about_it() {
    refused(&header("(interrupt 12999)\n(strict)\n"), 3, 2);
    refused(&header("(interrupt 13000)\n(framing 4)\n(strict)\n"), 4, 4);
    refused(&header("(interrupt 13000)\n(framing 5)\n(strict)\n"), 4, 2);
    refused(&header("(interrupt 13000)\n(framing 5)\n(strict 1)\n"), 4, 2);
    let figures = "(frame 200000)\n(overhead 1000)\n(interrupt 13000)\n";
    refused(&format!("{figures}(strict)"), 4, 1);
    refused(&format!("{figures}(strict)\n"), 5, 1);
    refused(&format!("{figures}(strict)\n(hub"), 5, 1);
    refused(&format!("{figures}(strict)\n(hub\n)\n"), 6, 3);
    refused(&format!("{figures}(framing 3)\n(strict)"), 5, 1);
}

/// Behind the plan it is no event, whether the plan has it or not.
#[test]
fn the_line_among_the_events() {
    let events = "(strict)\n(high 0 1 512)\n(strict)\n(until 1)\n";
    let expected = "(nodes 4 hubs 2)\n(refused 13 1)\n(refused 14 16)\n(refused 15 1)\n";
    logged(&format!("{PLAN}{events}"), expected);
    let expected = "(nodes 4 hubs 2)\n(refused 12 1)\n(refused 14 1)\n(grant 0 1 1 1512 0 0)\n";
    logged(&format!("{}{events}", by_default(PLAN)), expected);
}

/// What the line says is read and drawn, and the text behind it starts a line on.
#[test]
fn the_line_is_read_and_drawn() {
    let mut random = Random::new(8);
    for _ in 0..500 {
        let drawn = plans::plan(&mut random);
        let [bare, strict] = [false, true].map(|strict| {
            let plan = Plan { strict, ..drawn.clone() };
            let text = draw(&plan);
            let taken = read(text.as_bytes()).unwrap();
            assert_eq!(taken.plan, plan);
            assert_eq!(taken.at, text.len());
            (text, taken.line)
        });
        assert_eq!(bare.1 + 1, strict.1);
        assert_eq!(strict.0, bare.0.replacen("(hub\n", "(strict)\n(hub\n", 1));
    }
}

/// Random texts, good and damaged: with the line put in before the first hub, the
/// plan is the same and strict, or is refused by the same row at the same line.
#[test]
fn a_plan_with_the_line_is_the_same_plan() {
    let (mut plans, mut refused) = (0, 0);
    for seed in 0..4_000 {
        let text = texts::text(&mut Random::new(seed));
        let mut lines: Vec<&[u8]> = text.split_inclusive(|&byte| byte == b'\n').collect();
        let Some(root) = lines.iter().position(|line| *line == b"(hub\n") else { continue };
        if lines[..root].iter().any(|line| line.starts_with(b"(strict")) {
            continue;
        }
        lines.insert(root, b"(strict)\n");
        match (read(&text), read(&lines.concat())) {
            (Ok(bare), Ok(strict)) => {
                assert!(!bare.plan.strict && strict.plan.strict, "seed {seed}");
                assert_eq!(Plan { strict: true, ..bare.plan }, strict.plan, "seed {seed}");
                plans += 1;
            }
            (Err(bare), Err(strict)) => {
                let more = u64::from(bare.line > root as u64 + 1);
                assert_eq!((bare.line + more, bare.number), (strict.line, strict.number), "seed {seed}");
                refused += 1;
            }
            (bare, strict) => panic!("seed {seed}: {bare:?}, {strict:?}"),
        }
    }
    println!("{plans} plans taken, {refused} refused");
    assert!(plans > 500 && refused > 300);
}
