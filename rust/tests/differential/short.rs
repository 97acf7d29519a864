//! Buffers and lists that are too short, and lists that are none.

use crate::archive::{self, five, Archive, Fenced};
use crate::common::{by_default, control, PLAN};
use crate::{FILL, FILL_CELL};
use reference::log::log;
use reference::plan::Plan;
use reference::random::calls::{list, Style};
use reference::random::{plans, texts, Random};

/// The text of document 01's log, and some other small ones.
fn small_texts() -> Vec<Vec<u8>> {
    let events = "(reserve 0 3 2 4000)\n(normal 0 1 12000)\n(normal 0 4 6000)\n(high 0 3 4000)\n(normal 99000 2 12000)\n\
        (high 100000 3 4000)\n(normal 100000 1 1000)\n(until 200000)\n";
    let (plan, example) = (PLAN, format!("{PLAN}{events}"));
    let mut texts: Vec<Vec<u8>> = [
        by_default(&example),
        example,
        plan.replace("(strict)", "(strict)\n(strict)"),
        plan.into(),
        String::new(),
        plan.replace("13000", "12999"),
        plan.replace("13000)", "37000)\n(framing 5)") + "(normal 0 1 36000)\n(normal 0 2 36001)\n(until 1)\n",
        plan.replace("13000)", "37000)\n(framing 4)"),
        format!("{plan}(until 1000000000000000)\n(normal 1000000000000000 4 512)\n(until 999)\nend"),
    ]
    .map(String::into_bytes)
    .into();
    let mut random = Random::new(7);
    while texts.len() < 16 {
        let text = texts::text(&mut random);
        if (100..3_000).contains(&log(&text).len()) {
            texts.push(text);
        }
    }
    texts
}

#[test]
fn every_shorter_buffer() {
    for text in small_texts() {
        let whole = log(&text);
        for length in 0..=whole.len() + 2 {
            let mut buffer = Fenced::new(length + 8);
            for (last, filled) in [(true, FILL), (false, b'\n')] {
                // Bytes behind the buffer lent, where there are some, are the caller's.
                let behind = if last { 0 } else { 8 };
                let buffer = buffer.part(last, length + behind);
                buffer.fill(filled);
                let mut hub = Archive::blank(FILL_CELL, last);
                let (plan_table, cascade) = hub.tables();
                let (number, end) = archive::run(&text, plan_table, cascade, &mut buffer[..length]);
                let fits = length >= whole.len();
                assert_eq!(
                    (number, end),
                    if fits { (0, whole.len() as u64) } else { (18, u64::MAX) },
                    "length {length}"
                );
                let written = if fits { whole.len() } else { 0 };
                assert!(buffer[..written] == whole[..written], "length {length}");
                assert!(buffer[written..].iter().all(|&byte| byte == filled), "length {length}");
                if !fits {
                    let untouched = |cells: &[u32]| cells.iter().all(|&cell| cell == FILL_CELL);
                    assert!(untouched(hub.plan()) && untouched(hub.cascade()), "length {length}");
                }
            }
        }
    }
}

/// Lends a list and a table of answers of this length: the archive answers this number, and nothing is done.
fn nothing_done(plan: &Plan, calls: &[u64], answers: usize, number: u32) {
    let mut lent = Fenced::new(calls.len());
    let lent = lent.last(calls.len());
    lent.copy_from_slice(calls);
    let mut table = Fenced::new(answers);
    let table = table.last(answers);
    table.fill(77);
    let mut hub = Archive::new(plan);
    // A table that no call leaves: it is compared as it is.
    *hub.cascade().last_mut().unwrap() = 5;
    let before = (*hub.plan(), *hub.cascade());
    let (plan_table, cascade) = hub.tables();
    let answered = archive::list(plan_table, cascade, lent, table);
    assert_eq!(answered, number, "{} numbers, {answers}", calls.len());
    assert!(table.iter().all(|&number| number == 77) && before == (*hub.plan(), *hub.cascade()));
}

#[test]
fn lists_that_are_not_done() {
    let plan = plans::small_plan(&mut Random::new(5), 8);
    let calls: Vec<u64> = list(&plan, 5, Style::Mixed, 40, &mut control(&plan))
        .iter()
        .flat_map(|&(call, _)| five(call, || u64::MAX))
        .collect();
    let mut tried = 0;
    let mut nothing_done = |calls: &[u64], answers: usize, number: u32| {
        nothing_done(&plan, calls, answers, number);
        tried += 1;
    };
    for count in 0..=40 {
        // One answer's number too few, and all shorter ones.
        for answers in (0..count * 7).step_by(if count < 8 { 1 } else { 17 }) {
            nothing_done(&calls[..count * 5], answers, 18);
        }
        if count > 0 {
            nothing_done(&calls[..count * 5], count * 7 - 1, 18);
        }
        // Ragged, with answers enough and without.
        for more in (1..5).filter(|_| count < 40) {
            nothing_done(&calls[..count * 5 + more], 300, 1);
            nothing_done(&calls[..count * 5 + more], 0, 1);
        }
        for calls in of_no_kind(&calls[..count * 5]) {
            nothing_done(&calls, 300, 1);
            nothing_done(&calls, 0, 1);
        }
    }
    println!("{tried} lists");
    let mut hub = Archive::new(&plan);
    let (plan_table, cascade) = hub.tables();
    assert_eq!(archive::list(plan_table, cascade, &[], &mut []), 0, "no call, no answer");
}

/// A list with each call in turn made one of no kind.
fn of_no_kind(calls: &[u64]) -> Vec<Vec<u64>> {
    let kinds = [0, 7, 8, 256, 1 << 32, (1 << 32) + 1, (1 << 63) + 6, u64::MAX];
    let places = (0..calls.len()).step_by(5);
    let changed = places.flat_map(|place| kinds.map(|kind| (place, kind)));
    let list = |(place, kind): (usize, u64)| {
        let mut list = calls.to_vec();
        list[place] = kind;
        list
    };
    changed.map(list).collect()
}
