//! The random plans, calls and texts do make the cases of both framings.

mod common;

use common::Found;
use reference::fast::Fast;
use reference::hub::{Answer, Call};
use reference::log::event;
use reference::plan::{read, Framing, Plan, Refused};
use reference::random::calls::{list, Style};
use reference::random::{plans, texts, Random};
use reference::text::Lines;

/// Where D stands between the least D of both framings.
fn place_of_d(plan: &Plan) -> &'static str {
    let [least, by_token_ring] = Framing::BOTH.map(|framing| framing.longest_packet() + plan.overhead);
    match plan.interrupt {
        d if d == least => "at 12,000 + O",
        d if d < by_token_ring - 1 => "between",
        d if d < by_token_ring => "one below 36,000 + O",
        d if d == by_token_ring => "at 36,000 + O",
        _ => "above",
    }
}

#[test]
fn plans_have_both_framings_and_every_d() {
    let mut found = Found::default();
    let mut random = Random::new(0);
    for _ in 0..4_000 {
        let plan = plans::plan(&mut random);
        let line = plan.framing_line.map_or("no line".into(), |framing| format!("line {}", framing.number()));
        found.count(format!("{line}, D {}", place_of_d(&plan)));
    }
    let places = ["at 12,000 + O", "between", "one below 36,000 + O", "at 36,000 + O", "above"];
    for place in places {
        found.assert_met(20, &[&format!("no line, D {place}"), &format!("line 3, D {place}")]);
    }
    found.assert_met(200, &["line 5, D at 36,000 + O", "line 5, D above"]);
    assert_eq!(found.0.keys().filter(|what| what.starts_with("line 5")).count(), 2, "{found:?}");
}

#[test]
fn calls_have_lengths_about_both_longest() {
    let mut found = Found::default();
    for seed in 0..1_000 {
        let mut random = Random::new(seed);
        let plan = plans::plan(&mut random);
        let style = if random.chance(60) { Style::Mixed } else { Style::Loaded };
        for (call, answer) in list(&plan, random.number(), style, 400, &mut Fast::new(&plan)) {
            let (kind, b) = match call {
                Call::Normal { b, .. } => ("normal", b),
                Call::High { b, .. } => ("high", b),
                Call::Reserve { n, b, .. } if n > 0 => ("reserve", b),
                _ => continue,
            };
            let number = plan.framing().number();
            match (answer, b) {
                (Answer::Taken | Answer::Refused(15), 12_000 | 12_001 | 36_000 | 36_001) => {
                    found.count(format!("framing {number}, {kind} {b} {answer:?}"));
                }
                (Answer::Taken, 12_002..) => found.count(format!("framing {number}, {kind} longer")),
                _ => {}
            }
        }
    }
    for kind in ["normal", "high", "reserve"] {
        let taken = [(3, 12_000), (5, 12_000), (5, 36_000)].map(|(f, b)| (f, b, "Taken"));
        let refused =
            [(3, 12_001), (3, 36_000), (3, 36_001), (5, 36_001)].map(|(f, b)| (f, b, "Refused(15)"));
        for (number, b, answer) in taken.into_iter().chain(refused) {
            found.assert_met(20, &[&format!("framing {number}, {kind} {b} {answer}")]);
        }
        // One bit above framing 3's longest, where framing 5 takes it.
        found.assert_met(5, &[&format!("framing 5, {kind} 12001 Taken")]);
        found.assert_met(200, &[&format!("framing 5, {kind} longer")]);
        found.assert_unmet(&format!("framing 3, {kind} longer"));
    }
}

/// What a line 4 that begins as a framing line is.
fn fourth(bytes: &[u8]) -> &'static str {
    let digits = bytes.iter().filter(|byte| byte.is_ascii_digit()).count();
    match bytes {
        b"(framing 3)" => "3",
        b"(framing 5)" => "5",
        b"(framing 4)" => "4",
        b"(framing)" => "no number",
        b"(framing 03)" | b"(framing 05)" => "a leading zero",
        _ if digits == 16 => "16 digits",
        _ if digits == 17 => "17 digits",
        _ => "others",
    }
}

/// Counts what the lines of a text tell of the framing.
fn look_at(text: &[u8], found: &mut Found) {
    let lines: Vec<_> = Lines::new(text).collect();
    let is_framing =
        |at: u64| lines.get(at as usize - 1).is_some_and(|line| line.bytes.starts_with(b"(framing"));
    match read(text) {
        Ok(taken) => {
            let line = taken.plan.framing_line.map_or("none".into(), |framing| framing.number().to_string());
            found.count(format!("taken, line {line}"));
            let behind = Lines::from(text, taken.at, taken.line);
            if behind.into_iter().any(|line| line.bytes.starts_with(b"(framing") && event(&line).is_none()) {
                found.count("as an event line");
            }
        }
        Err(Refused { line: 4, number }) if is_framing(4) => {
            let line = lines[3];
            found.count(format!("row {number} on line 4"));
            match line.ended {
                true => found.count(format!("row {number} on line 4: {}", fourth(line.bytes))),
                false => found.count(format!("row {number} on line 4: without LF")),
            }
        }
        Err(Refused { line, number: 1 }) if is_framing(line) => match line {
            0..=3 => found.count("before the interrupt"),
            5 if is_framing(4) => found.count("twice"),
            5 if lines[3].bytes == b"(strict)" => found.count("behind the strict line"),
            _ => found.count("behind the hub"),
        },
        Err(Refused { line, .. }) => found.count(if line <= 3 { "refused above" } else { "refused below" }),
    }
}

#[test]
fn texts_have_every_broken_framing_line() {
    let mut found = Found::default();
    for seed in 0..10_000 {
        look_at(&texts::text(&mut Random::new(seed)), &mut found);
    }
    println!("{found:?}");
    found.assert_met(500, &["taken, line none", "taken, line 3", "taken, line 5"]);
    found.assert_met(50, &["row 1 on line 4", "row 4 on line 4", "row 2 on line 4"]);
    found.assert_met(
        10,
        &[
            "row 1 on line 4: no number",
            "row 1 on line 4: a leading zero",
            "row 1 on line 4: 17 digits",
            "row 1 on line 4: without LF",
            "row 4 on line 4: 4",
            "row 4 on line 4: 16 digits",
            "row 2 on line 4: 5",
            "twice",
            "before the interrupt",
            "behind the strict line",
            "behind the hub",
            "as an event line",
        ],
    );
}
