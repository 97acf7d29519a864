//! The page's head and how its figures were measured.

use crate::cases::{Case, Row};
use crate::hubs::{ARCHIVE, PEER};
use crate::loads::CALLS;
use crate::longest::{Effort, Worst};
use std::fmt::Write;

fn output(command: &str, words: &[&str]) -> String {
    let output = std::process::Command::new(command).args(words).output();
    let text = output.map_or(String::new(), |output| String::from_utf8_lossy(&output.stdout).into_owned());
    text.trim().to_string()
}

fn machine() -> String {
    let lscpu = output("lscpu", &[]);
    let field = |name: &str| {
        let found = lscpu.lines().find_map(|line| line.strip_prefix(name));
        found.map_or("unknown".into(), |rest| rest.trim().to_string())
    };
    format!("{}, {} processors", field("Model name:"), field("CPU(s):"))
}

/// What the shortest packet, 512 bits at 100 Mbit/s, lasts in nanoseconds.
pub const SHORTEST: f64 = 5_120.0;

/// A number with a comma before each three digits.
pub fn commas(number: f64) -> String {
    let digits = format!("{number:.0}");
    let places = digits.char_indices().map(|(at, digit)| {
        let comma = at > 0 && (digits.len() - at).is_multiple_of(3);
        format!("{}{digit}", if comma { "," } else { "" })
    });
    places.collect()
}

/// What the figures mean, in three sentences.
pub fn head(page: &mut String, rows: &[(&Case, &Row)], deepest: &Worst) {
    let worst = || rows.iter().map(|(_, row)| &row.worst).chain([deepest]);
    let start = worst().map(|worst| worst.step_at_start[ARCHIVE]).fold(0.0, f64::max);
    let within = worst().map(|worst| worst.step[ARCHIVE]).fold(0.0, f64::max);
    let (_, largest) = rows[rows.len() - 1];
    let call = largest.calls.iter().map(|rounds| rounds.figure(ARCHIVE)).fold(0.0, f64::max);
    writeln!(
        page,
        "# Speed\n\n\
         The shortest packet holds the line for 5,120 ns; with its tables in the cache the hub names the next turn in at most {} ns, or {} ns ({:.0} % of that packet) where a frame starts. \
         In the largest hall, 256 nodes in five levels, a call takes {call:.0} ns, and a packet needs three at most (asked, granted, and the line rests), so one core keeps up with \
         {} such lines even if all packets are the shortest. \
         A text of 65,000 bytes becomes its log in {} µs, where a good engineer's hub without proofs takes {}.\n",
        commas(within),
        commas(start),
        start / SHORTEST * 100.0,
        commas((SHORTEST / (3.0 * call)).floor()),
        commas(largest.log.figure(ARCHIVE)),
        commas(largest.log.figure(PEER)),
    )
    .unwrap();
}

pub fn method(page: &mut String, effort: Effort) {
    writeln!(
        page,
        "## How it was measured\n\n\
         Written by `cargo run --release --example bench > ../docs/BENCHMARKS.md` in `rust/`, on {}, {}, {}, load {}.\n\n\
         The **peer** (`rust/reference/src/peer`) is a cascade hub written for speed without proofs: hub by hub by the rules in force, moves counted, masks kept with an \
         early end, unchecked indexing. The **bit-set hub** (`fast.rs` there) is the floor: it has 256 bits a class, no tree and no moves. All get the same calls and answer alike; archive and peer are called as functions of a library, \
         the bit-set hub is put into the caller's loop.\n\n\
         The hubs take turns in each of {} rounds of {} calls, another one first each time. A time is the median over the rounds, a ratio the median of the ratios within a round. \
         T is 1,000,000, O 1,000, D 13,000. Each second node has reserved two packets of 1,500 bits a frame and asks high, the others normal with 512 to 12,000 bits. \
         Under light load one node at a time asks, is granted, and the line rests (an event and two steps); under full load all ask all the time (a step and an event by turns), \
         in its second form without reservations. Frame starts are included, and tables and calls are in the cache.\n",
        output("date", &["-u", "+%Y-%m-%d %H:%M UTC"]),
        machine(),
        output("rustc", &["--version"]),
        output("cut", &["-d ", "-f1", "/proc/loadavg"]),
        effort.rounds,
        commas(CALLS as f64)
    )
    .unwrap();
    writeln!(
        page,
        "A longest call is, of each call, the least time of {} repeats from the same state, and of these the most: {} calls of each load, walks between nodes \
         far apart, and calls at a frame's start while every node has a high request (counting, held, or becoming normal).\n",
        effort.repeats * effort.passes,
        commas(effort.calls as f64)
    )
    .unwrap();
}

/// Why goals are missed: written by hand from counted instructions and the machine code.
pub fn why(page: &mut String) {
    page.push_str(include_str!("why.md"));
    page.push('\n');
}
