//! Whole texts: the log, and what the run leaves.

use crate::archive::{self, on_all, setting, Archive, Fenced};
use crate::common::Found;
use crate::{cut_down, Lent, FILL, FILL_CELL};
use lembuya::{ffi, LONGEST_LOG};
use reference::log::{log, log_of};
use reference::peer;
use reference::plan;
use reference::random::{texts, Random};

/// Whether the archive writes the log expected, into a buffer that has some bytes more or none, or that has
/// room for every log, so that it isn't measured first; or what is wrong.
fn writes(text: &[u8], expected: &[u8], last: bool) -> Result<(), String> {
    let mut lent = Fenced::new(text.len());
    let lent = lent.part(last, text.len());
    lent.copy_from_slice(text);
    let length = match text.len() % 4 {
        3 => LONGEST_LOG,
        spare => expected.len() + spare * 50,
    };
    let mut log = Fenced::new(length);
    let log = log.part(last, length);
    log.fill(FILL);
    let mut hub = Archive::blank(FILL_CELL, last);
    let (plan_table, cascade) = hub.tables();
    let (number, end) = archive::run(lent, plan_table, cascade, log);
    if (number, end) != (0, expected.len() as u64) || !log.starts_with(expected) {
        let written = log.iter().rposition(|&byte| byte != FILL).map_or(0, |at| at + 1);
        return Err(format!(
            "number {number}, end {end}\n{}",
            String::from_utf8_lossy(&log[..written.max(end.min(log.len() as u64) as usize)])
        ));
    }
    if log[expected.len()..].iter().any(|&byte| byte != FILL) {
        return Err("a byte behind the log was changed".into());
    }
    if *lent != *text {
        return Err("the text was changed".into());
    }
    let (plan_left, cascade_left) = hub.tables();
    tables_left(text, plan_left, cascade_left)
}

/// A taken plan's tables are those that reading it gives, and the cascade's those that the calls give, one
/// by one. A refused plan leaves both as they were.
fn tables_left(text: &[u8], plan_left: &ffi::Plan, cascade_left: &ffi::Cascade) -> Result<(), String> {
    let mut hub = Archive::blank(FILL_CELL, true);
    let by_calls = log_of(text, |plan| {
        hub.begin(plan);
        Lent(&mut hub)
    });
    if by_calls != log(text) {
        return Err(format!("by single calls:\n{}", String::from_utf8_lossy(&by_calls)));
    }
    if hub.plan() != plan_left || hub.cascade() != cascade_left {
        return Err("the tables left differ from those of the single calls".into());
    }
    Ok(())
}

/// Whether the archive's log of a text is the reference's and the peer's; if not, what it is.
fn same_log(text: &[u8]) -> Result<(), String> {
    let expected = log(text);
    writes(text, &expected, !text.len().is_multiple_of(4))?;
    let by_peer = peer::log::log(text);
    if by_peer != expected {
        return Err(format!("by the peer:\n{}", String::from_utf8_lossy(&by_peer)));
    }
    Ok(())
}

/// Fails with a text cut down, and both logs. It looks at some more seeds for a shorter text.
fn show_text(seed: u64, text: Vec<u8>) -> ! {
    let differs = |text: &[u8]| same_log(text).is_err();
    let others = (seed + 1..seed + 100).map(|seed| texts::text(&mut Random::new(seed)));
    let text = others.filter(|text| differs(text)).chain([text]).min_by_key(Vec::len).unwrap();
    let short = cut_down(&text, differs);
    panic!(
        "seed {seed}: the logs differ for the text\n{}\nreference:\n{}\narchive:\n{}\n",
        String::from_utf8_lossy(&short),
        String::from_utf8_lossy(&log(&short)),
        same_log(&short).unwrap_err()
    )
}

fn count_log(found: &mut Found, log: &[u8]) {
    let log = std::str::from_utf8(log).unwrap();
    let bad_plan = log.starts_with("(refused");
    for line in log.lines() {
        let word = line.split(' ').next().unwrap();
        let number = line.trim_end_matches(')').rsplit(' ').next().unwrap();
        match (word, bad_plan) {
            ("(refused", true) => found.count(format!("plan {number}")),
            ("(refused", false) => found.count(format!("event {number}")),
            _ => found.count(&word[1..]),
        }
    }
    found.add("bytes", log.len() as u64);
}

#[test]
fn whole_logs() {
    let texts = setting("LEMBUYA_TEXTS", 10_000);
    let found = on_all(
        0..texts,
        |seed, found| {
            let text = texts::text(&mut Random::new(seed));
            if same_log(&text).is_err() {
                show_text(seed, text);
            }
            let log = log(&text);
            count_log(found, &log);
            let strict = plan::read(&text).is_ok_and(|taken| taken.plan.strict);
            let row_16 = |line: &&[u8]| line.starts_with(b"(refused ") && line.ends_with(b" 16)");
            let refused = log.split(|&byte| byte == b'\n').filter(row_16).count();
            let name = if strict { "event 16, strict" } else { "event 16, default" };
            found.add(name, refused as u64);
            found.count("texts");
            found.add("longer than is read", u64::from(text.len() > 65_536));
        },
        Found::join,
    );
    println!("{found:?}");
    let least = texts / 500;
    found.assert_met(
        least,
        &["nodes", "grant", "rest", "plan 1", "plan 2", "plan 3", "plan 4", "longer than is read"],
    );
    found.assert_met(
        least,
        &["event 1", "event 11", "event 13", "event 14", "event 15", "event 16", "event 17"],
    );
    found.assert_met(least, &["event 16, strict", "event 16, default"]);
    // A run never meets 12.
    found.assert_unmet("event 12");
}
