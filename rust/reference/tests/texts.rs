//! Random texts, the plan's drawing, and shrinking.

mod common;

use common::{control, flat, framed, numbers, without_last, without_waits, PLAN};
use reference::fast::Fast;
use reference::log::{log, log_of};
use reference::peer::{self, Peer};
use reference::plan::{draw, read, Framing, Taken};
use reference::random::{plans, texts, Random};
use reference::shrink::shrink;
use reference::waits::Told;
use std::collections::BTreeMap;

/// A log without the moves of its grants and rests, and without waits.
fn without_moves(log: &[u8]) -> Vec<u8> {
    without_last(&without_waits(log), &["(grant", "(rest"])
}

#[test]
fn a_drawn_plan_reads_as_itself() {
    let mut random = Random::new(1);
    let (mut most_nodes, mut most_hubs, mut most_levels, mut most_ports) = (0, 0, 0, 0);
    for _ in 0..2_000 {
        let plan = plans::plan(&mut random);
        most_nodes = most_nodes.max(plan.nodes);
        most_hubs = most_hubs.max(plan.hubs.len());
        most_levels = most_levels.max(plan.levels());
        most_ports = most_ports.max(plan.hubs.iter().map(|hub| hub.ports.len()).max().unwrap());
        let text = draw(&plan);
        let (at, line) = (text.len(), text.lines().count() as u64 + 1);
        assert_eq!(read(text.as_bytes()), Ok(Taken { plan: plan.clone(), at, line }));
        let more = format!("{text})\n(until 3");
        assert_eq!(read(more.as_bytes()), Ok(Taken { plan, at, line }));
    }
    assert_eq!((most_nodes, most_hubs, most_levels, most_ports), (256, 32, 5, 32));
}

#[test]
fn random_texts_have_one_log() {
    let mut refused: BTreeMap<(bool, String), u64> = BTreeMap::new();
    for seed in 0..3_000 {
        let text = texts::text(&mut Random::new(seed));
        let by_control = log(&text);
        assert_eq!(by_control, log_of(&text, control));
        assert!(by_control == log_of(&text, Peer::new), "seed {seed}");
        assert!(by_control == peer::log::log(&text), "seed {seed}");
        assert!(by_control == log_of(&text, |plan| Told::new(plan, control(plan))), "seed {seed}");
        assert!(without_moves(&by_control) == without_moves(&log_of(&text, flat)), "seed {seed}");
        assert!(without_moves(&by_control) == without_moves(&log_of(&text, Fast::new)), "seed {seed}");
        let cut = &text[..text.len().min(65_536)];
        assert!(by_control == log(cut), "seed {seed}");
        let lines = String::from_utf8(by_control).unwrap();
        let bad_plan = lines.starts_with("(refused");
        for line in lines.lines().filter(|line| line.starts_with("(refused")) {
            let number = line.trim_end_matches(')').rsplit(' ').next().unwrap();
            *refused.entry((bad_plan, number.to_string())).or_default() += 1;
        }
    }
    println!("{refused:?}");
    for (bad_plan, number) in [(true, 1), (true, 2), (true, 3), (true, 4), (false, 1), (false, 11)] {
        assert!(refused[&(bad_plan, number.to_string())] > 20, "{refused:?}");
    }
    for number in 13..=17 {
        assert!(refused[&(false, number.to_string())] > 20, "{refused:?}");
    }
    assert!(!refused.contains_key(&(false, "12".to_string())), "it never meets 12");
}

#[test]
fn a_failing_text_shrinks() {
    let fails = |text: &[u8]| String::from_utf8(log(text)).unwrap().contains(" 17)\n(");
    let seed = (0..).find(|&seed| fails(&texts::whole(&mut Random::new(seed)))).unwrap();
    let text = texts::whole(&mut Random::new(seed));
    let short = shrink(&text, fails);
    println!("{} bytes:\n{}", text.len(), String::from_utf8_lossy(&short));
    assert!(fails(&short));
    assert!(short.split_inclusive(|&byte| byte == b'\n').count() <= 8);
    // A number stops just above where it no longer fails: 12,000 + 8 × 11,001.
    let over = |text: &[u8]| log(text).ends_with(b"(refused 13 17)\n");
    let text = format!("{PLAN}(reserve 99 1 29 12000)\n");
    let short = String::from_utf8(shrink(text.as_bytes(), over)).unwrap();
    let figures = "(frame 100000)\n(overhead 0)\n(interrupt 12000)\n";
    assert!(short.starts_with(figures) && short.ends_with("(reserve 0 1 8 11001)\n"), "{short}");
}

/// A grant of a packet that only framing 5 has.
fn grants_a_longer_packet(text: &[u8]) -> bool {
    let Ok(Taken { plan, .. }) = read(text) else { return false };
    let log = String::from_utf8(log(text)).unwrap();
    let mut grants = log.lines().filter_map(|line| numbers(line, "(grant "));
    grants.any(|grant| grant[3] - grant[0] > plan.overhead + 12_000)
}

/// Where a failure doesn't need the framing line it goes; where it needs a line
/// there it becomes framing 3, and D its least; where it needs framing 5 it stays.
#[test]
fn a_framing_line_shrinks() {
    let shrunk = |text: &str, fails: fn(&[u8]) -> bool| {
        let short = String::from_utf8(shrink(text.as_bytes(), fails)).unwrap();
        short.strip_prefix("(frame 100000)\n(overhead 0)\n").expect(&short).to_string()
    };
    let text = format!("{}(reserve 99 1 29 12000)\n", framed(Framing::TokenRing));
    let short = shrunk(&text, |text| log(text).ends_with(b" 17)\n"));
    assert_eq!(short, "(interrupt 12000)\n(hub\n(node)\n)\n(reserve 0 1 8 11001)\n");
    let short = shrunk(&text, |text| log(text).ends_with(b"(refused 14 17)\n"));
    assert!(short.starts_with("(interrupt 12000)\n(framing 3)\n(strict)\n(hub\n"), "{short}");
    let text = format!("{}(normal 99 1 36000)\n(until 100)\n", framed(Framing::TokenRing));
    let short = shrunk(&text, grants_a_longer_packet);
    let events = "(normal 0 1 12001)\n(until 1)\n";
    assert_eq!(short, format!("(interrupt 36000)\n(framing 5)\n(hub\n(node)\n)\n{events}"));
}
