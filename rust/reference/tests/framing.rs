//! Slip 3 of document 02: the framing line's rows in their order, each with its
//! line, where the line may stand, and what it changes.

mod common;

use common::{framed, PLAN};
use reference::log::{log, LONGEST_TEXT};
use reference::peer;
use reference::plan::{draw, read, Framing, Plan};
use reference::random::framings::{NEITHER, NO_FORMS, TAKEN};
use reference::random::{plans, texts, Random};

/// T is 200,000 and O 1,000, so D starts at 13,000 on its own line and at 37,000
/// by framing 5. These lines, then a hub of one node.
fn header(lines: &str) -> String {
    format!("(frame 200000)\n(overhead 1000)\n{lines}(hub\n(node)\n)\n")
}

/// Line and number of the row that refuses a text, or none.
fn refused(text: &str) -> Option<(u64, u32)> {
    let refused = read(text.as_bytes()).err().map(|refused| (refused.line, refused.number));
    let shown = refused.map(|(line, number)| format!("(refused {line} {number})\n"));
    let expected = shown.unwrap_or("(nodes 1 hubs 1)\n".into());
    assert_eq!(String::from_utf8(log(text.as_bytes())), Ok(expected.clone()), "{text}");
    assert_eq!(String::from_utf8(peer::log::log(text.as_bytes())), Ok(expected), "{text}");
    refused
}

/// Each of these as fourth line behind each D is refused so.
fn fourth_line(forms: &[&str], interrupts: &[u64], expected: Option<(u64, u32)>) {
    for interrupt in interrupts {
        for form in forms {
            let text = header(&format!("(interrupt {interrupt})\n{form}\n"));
            assert_eq!(refused(&text), expected, "{text}");
        }
    }
}

/// "On the framing line": 1, then 4, then 2, each whatever the later ones say.
#[test]
fn rows_1_4_and_2_in_this_order() {
    let all = [13_000, 36_999, 37_000, 200_000];
    fourth_line(&NO_FORMS, &all, Some((4, 1)));
    fourth_line(&NEITHER, &all, Some((4, 4)));
    fourth_line(&["(framing 5)"], &[13_000, 13_001, 36_999], Some((4, 2)));
    fourth_line(&["(framing 5)"], &[37_000, 37_001, 200_000], None);
    fourth_line(&["(framing 3)"], &all, None);
}

/// "D below 12,000 + O is 2 on its own line, as before", and so is one above T.
#[test]
fn the_line_above_decides_first() {
    for forms in [&NO_FORMS[..], &NEITHER, &TAKEN] {
        fourth_line(forms, &[0, 12_000, 12_999, 200_001], Some((3, 2)));
    }
    assert_eq!(refused(&header("(interrupt 12999)\n")), Some((3, 2)));
    assert_eq!(refused(&header("(interrupt 13000)\n")), None);
}

/// The bound is D's at its own O, and T holds it at the largest.
#[test]
fn the_least_d_by_framing_5_follows_the_overhead() {
    for (overhead, least) in [(0, 36_000), (1, 36_001), (50_000, 86_000)] {
        for (interrupt, expected) in [(least - 1, Some((4, 2))), (least, None), (100_000, None)] {
            let figures = format!("(frame 100000)\n(overhead {overhead})\n(interrupt {interrupt})\n");
            assert_eq!(refused(&format!("{figures}(framing 5)\n(hub\n(node)\n)\n")), expected, "{figures}");
        }
    }
}

/// Row 1 where its LF is missing, whatever its number, and where the text ends
/// behind it.
#[test]
fn a_text_that_ends_at_the_line() {
    for number in ["3", "5", "4", "03"] {
        let text = format!("(frame 200000)\n(overhead 1000)\n(interrupt 13000)\n(framing {number})");
        assert_eq!(refused(&text), Some((4, 1)), "{text}");
    }
    for (number, expected) in [("3", (5, 1)), ("5", (4, 2)), ("4", (4, 4)), ("03", (4, 1))] {
        let text = format!("(frame 200000)\n(overhead 1000)\n(interrupt 13000)\n(framing {number})\n");
        assert_eq!(refused(&text), Some(expected), "{text}");
    }
}

/// A line put into a text before each of these lines is refused there by 1.
fn refused_there(text: &str, form: &str, lines: &[u64]) {
    for &line in lines {
        let mut all: Vec<&str> = text.lines().collect();
        all.insert(line as usize - 1, form);
        let text = all.join("\n") + "\n";
        assert_eq!(refused(&text), Some((line, 1)), "{text}");
    }
}

/// "A framing line anywhere else is 1", whatever it says.
#[test]
fn a_framing_line_anywhere_else() {
    for form in ["(framing 3)", "(framing 5)", "(framing 4)", "(framing 03)"] {
        refused_there(&header("(interrupt 37000)\n"), form, &[1, 2, 3, 5, 6]);
        refused_there(&header("(interrupt 37000)\n(framing 3)\n"), form, &[1, 2, 3, 5, 6, 7]);
        refused_there(&header("(interrupt 37000)\n(framing 5)\n"), form, &[1, 2, 3, 5, 6, 7]);
    }
}

/// Behind the plan it is no event; events are numbered with the line counted.
#[test]
fn a_framing_line_among_the_events() {
    for (plan, first) in
        [(PLAN.into(), 13), (framed(Framing::Ethernet), 14), (framed(Framing::TokenRing), 14)]
    {
        let text = format!("{plan}(framing 3)\n(normal 0 9 512)\n(framing 5)\n(normal 0 1 512)\n(until 1)\n");
        let refused = [(first, 1), (first + 1, 13), (first + 2, 1)];
        let refused = refused.map(|(line, number)| format!("(refused {line} {number})\n")).concat();
        let expected = format!("(nodes 4 hubs 2)\n{refused}(grant 0 1 1 1512 0 0)\n");
        assert_eq!(String::from_utf8(log(text.as_bytes())), Ok(expected));
    }
}

/// What the line says is read and drawn, and the text behind it starts a line on.
#[test]
fn the_line_is_read_and_drawn() {
    let lines = [(None, 0), (Some(Framing::Ethernet), 1), (Some(Framing::TokenRing), 1)];
    let mut random = Random::new(3);
    for _ in 0..200 {
        let mut plan = plans::plan(&mut random);
        plan.interrupt = plan.interrupt.max(36_000 + plan.overhead);
        let bare = draw(&Plan { framing_line: None, ..plan.clone() });
        for (framing_line, more) in lines {
            let plan = Plan { framing_line, ..plan.clone() };
            let text = draw(&plan);
            let taken = read(text.as_bytes()).unwrap();
            assert_eq!(taken.plan, plan);
            assert_eq!(taken.line, bare.lines().count() as u64 + 1 + more);
            assert_eq!(taken.at, bare.len() + 12 * more as usize);
            assert_eq!(plan.longest_packet(), if text.contains("(framing 5)") { 36_000 } else { 12_000 });
        }
    }
}

/// A log with the lines behind the third numbered one higher.
fn shifted(log: &[u8]) -> String {
    let log = String::from_utf8(log.to_vec()).unwrap();
    let shift = |line: &str| match common::numbers(line, "(refused ") {
        Some(refusal) if refusal[0] > 3 => format!("(refused {} {})\n", refusal[0] + 1, refusal[1]),
        _ => format!("{line}\n"),
    };
    log.lines().map(shift).collect()
}

/// "Without it, 3 is meant": a text without the line, good or damaged, has the
/// log of the same with `(framing 3)`, but for the numbers of lines.
#[test]
fn framing_3_says_what_no_line_says() {
    let (mut plans, mut refused) = (0, 0);
    for seed in 0..4_000 {
        let text = texts::text(&mut Random::new(seed));
        let mut lines: Vec<&[u8]> = text.split_inclusive(|&byte| byte == b'\n').collect();
        let ended = lines.len() >= 3 && lines[2].ends_with(b"\n");
        let without = lines.get(3).is_none_or(|line| !line.starts_with(b"(framing"));
        if !ended || !without || text.len() + 12 > LONGEST_TEXT {
            continue;
        }
        lines.insert(3, b"(framing 3)\n");
        let (bare, with) = (log(&text), log(&lines.concat()));
        assert_eq!(String::from_utf8(with), Ok(shifted(&bare)), "seed {seed}");
        plans += u64::from(bare.starts_with(b"(nodes"));
        refused += u64::from(bare.starts_with(b"(refused"));
    }
    println!("{plans} plans taken, {refused} refused");
    assert!(plans > 400 && refused > 200);
}
