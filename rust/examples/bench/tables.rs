//! The page's tables.

use crate::cases::{Case, Row, LOADS};
use crate::goals::name;
use crate::hubs::{ARCHIVE, BIT_SETS, PEER};
use crate::longest::Worst;
use crate::offers::Offers;
use crate::page::commas;
use crate::rounds::Rounds;
use std::fmt::Write;

pub const DEEPEST: &str = "256 nodes, all at level 5";

/// The times of archive, peer and bit sets a call.
fn three(rounds: &Rounds) -> String {
    let [archive, peer, fast] = [ARCHIVE, PEER, BIT_SETS].map(|hub| rounds.figure(hub));
    format!("{archive:.1} / {peer:.1} / {fast:.1}")
}

/// Their longest times.
fn three_longest(longest: [f64; 3]) -> String {
    longest.map(commas).join(" / ")
}

pub fn call_table(page: &mut String, rows: &[(&Case, &Row)]) {
    writeln!(
        page,
        "## Calls\n\nNanoseconds a call of archive / peer / bit sets, and the archive's in parts of the peer's.\n\n\
         | Plan | {} |\n|---|{}",
        LOADS.map(|load| format!("{load} | ÷ peer")).join(" | "),
        "---|---|".repeat(LOADS.len())
    )
    .unwrap();
    for (case, row) in rows {
        let cells = row.calls.each_ref().map(|rounds| {
            let ratio = rounds.ratio(ARCHIVE, PEER);
            format!("{} | **{ratio:.2}**", three(rounds))
        });
        writeln!(page, "| {} | {} |", name(case), cells.join(" | ")).unwrap();
    }
    writeln!(page).unwrap();
}

pub fn longest_table(page: &mut String, rows: &[(&Case, &Row)], deepest: &Worst) {
    writeln!(
        page,
        "## The longest calls\n\nNanoseconds of archive / peer / bit sets. Events have reserves among them, which are the longest from 32 nodes on.\n\n\
         | Plan | Step within a frame | ÷ peer | Step at a frame's start | ÷ peer | ÷ bit sets | Event within | Event at a start |\n\
         |---|---|---|---|---|---|---|---|"
    )
    .unwrap();
    let mut line = |name: &str, worst: &Worst| {
        let (step, start) = (worst.step, worst.step_at_start);
        writeln!(
            page,
            "| {name} | {} | **{:.2}** | {} | **{:.2}** | {:.2} | {} | {} |",
            three_longest(step),
            step[ARCHIVE] / step[PEER],
            three_longest(start),
            start[ARCHIVE] / start[PEER],
            start[ARCHIVE] / start[BIT_SETS],
            three_longest(worst.event),
            three_longest(worst.event_at_start)
        )
        .unwrap();
    };
    for (case, row) in rows {
        line(&name(case), &row.worst);
    }
    line(DEEPEST, deepest);
    writeln!(page).unwrap();
}

pub fn offers_table(page: &mut String, offers: Offers) {
    writeln!(
        page,
        "## Offers\n\nNanoseconds of 64 offers to as many nodes, against 256 that all have a reservation; each second one fits, and the others are refused by 17. \
         Without `lembuya_offers` a caller copies the table for each and reserves there.\n\n\
         | `lembuya_offers` | an offer | 64 copies and `lembuya_reserve` |\n|---|---|---|\n| {} | {:.1} | {} |\n",
        commas(offers.pass),
        offers.pass / 64.0,
        commas(offers.copies)
    )
    .unwrap();
}

pub fn log_table(page: &mut String, rows: &[(&Case, &Row)]) {
    writeln!(
        page,
        "## Whole logs\n\nMicroseconds of a text of 65,000 bytes under full load: the text is read, the hub run and the log written. The peer's plan is read by the reference, which allocates.\n\n\
         | Plan | `lembuya_run` | peer | ÷ peer | `lembuya_run` into a buffer just as long as the log |\n|---|---|---|---|---|"
    )
    .unwrap();
    for (case, row) in rows {
        let [archive, peer, exact] = [0, 1, 2].map(|place| commas(row.log.figure(place)));
        let ratio = row.log.ratio(ARCHIVE, PEER);
        writeln!(page, "| {} | {archive} | {peer} | **{ratio:.2}** | {exact} |", name(case)).unwrap();
    }
    writeln!(page).unwrap();
}

/// How the cost grows with nodes, and with levels.
pub fn growth_tables(page: &mut String, all: &[(&Case, &Row)]) {
    writeln!(
        page,
        "## Growth\n\nNanoseconds of archive / peer / bit sets: with nodes, at two levels; with levels, at 32 nodes.\n"
    )
    .unwrap();
    let mut sorted = all.to_vec();
    sorted.sort_by_key(|(case, _)| (case.nodes, case.levels));
    let by_nodes = sorted.iter().filter(|(case, _)| case.levels == 2);
    growth_table(page, "Nodes", by_nodes.map(|(case, row)| (case.nodes, *row)).collect());
    let by_levels = sorted.iter().filter(|(case, _)| case.nodes == 32);
    growth_table(page, "Levels", by_levels.map(|(case, row)| (case.levels, *row)).collect());
}

fn growth_table(page: &mut String, what: &str, columns: Vec<(usize, &Row)>) {
    let heads: Vec<String> = columns.iter().map(|(number, _)| number.to_string()).collect();
    writeln!(page, "| {what} | {} |\n|---|{}", heads.join(" | "), "---|".repeat(heads.len())).unwrap();
    let mut line = |name: &str, cell: &dyn Fn(&Row) -> String| {
        let cells: Vec<String> = columns.iter().map(|(_, row)| cell(row)).collect();
        writeln!(page, "| {name} | {} |", cells.join(" | ")).unwrap();
    };
    for (load, name) in LOADS.iter().enumerate() {
        line(&format!("a call, {name}"), &|row| three(&row.calls[load]));
    }
    line("longest step within a frame", &|row| three_longest(row.worst.step));
    line("longest step at a frame's start", &|row| three_longest(row.worst.step_at_start));
    writeln!(page).unwrap();
}
