//! The whole program: plan and events in, the log out.

use crate::control::Control;
use crate::hub::{Answer, Call, Calls, Hub};
use crate::plan::{self, Plan};
use crate::text::{Line, Lines};
use std::io::Write;

/// "At most 65,536 bytes; bytes behind these count as not there."
pub const LONGEST_TEXT: usize = 65_536;

/// The log of a text.
pub fn log(text: &[u8]) -> Vec<u8> {
    log_of(text, |plan| Hub::new(plan, Control::new(plan)))
}

/// The log of a text, by any hub.
pub fn log_of<H: Calls>(text: &[u8], hub: impl FnOnce(&Plan) -> H) -> Vec<u8> {
    let text = &text[..text.len().min(LONGEST_TEXT)];
    let mut log = Vec::new();
    let taken = match plan::read(text) {
        Ok(taken) => taken,
        // "A bad plan gives only the refused line."
        Err(plan::Refused { line, number }) => {
            write_line(&mut log, format_args!("(refused {line} {number})"));
            return log;
        }
    };
    let (nodes, hubs) = (taken.plan.nodes, taken.plan.hubs.len());
    write_line(&mut log, format_args!("(nodes {nodes} hubs {hubs})"));
    let mut hub = hub(&taken.plan);
    for line in Lines::from(text, taken.at, taken.line) {
        let Some(call) = event(&line) else {
            write_line(&mut log, format_args!("(refused {} 1)", line.number));
            continue;
        };
        steps(&mut hub, call.time(), |step| write_step(&mut log, step));
        if let Answer::Refused(number) = hub.call(call) {
            write_line(&mut log, format_args!("(refused {} {number})", line.number));
        }
    }
    log
}

/// The event of a line; none where it is "no form above, or its LF is missing".
pub fn event(line: &Line) -> Option<Call> {
    if let Some([t, k, b]) = line.form("normal") {
        Some(Call::Normal { t, k, b })
    } else if let Some([t, k, b]) = line.form("high") {
        Some(Call::High { t, k, b })
    } else if let Some([t, k]) = line.form("off") {
        Some(Call::Off { t, k })
    } else if let Some([t, k, n, b]) = line.form("reserve") {
        Some(Call::Reserve { t, k, n, b })
    } else if let Some([t]) = line.form("until") {
        Some(Call::Until { t })
    } else {
        None
    }
}

/// "Before an event with a time allowed by row 11 it makes all steps strictly
/// before t." Row 11 is the step's too, so where it forbids t there is none.
pub fn steps(hub: &mut impl Calls, t: u64, mut made: impl FnMut(Answer)) {
    loop {
        match hub.call(Call::Step { t }) {
            Answer::Quiet | Answer::Refused(_) => return,
            step => made(step),
        }
    }
}

/// `(grant s k class end moves wait)` or `(rest s moves)`.
fn write_step(log: &mut Vec<u8>, step: Answer) {
    match step {
        Answer::Grant { time, node, class, end, moves, wait } => {
            let class = class.number();
            write_line(log, format_args!("(grant {time} {node} {class} {end} {moves} {wait})"));
        }
        Answer::Rest { time, moves } => write_line(log, format_args!("(rest {time} {moves})")),
        _ => {}
    }
}

fn write_line(log: &mut Vec<u8>, line: std::fmt::Arguments) {
    writeln!(log, "{line}").expect("a Vec takes every byte");
}
