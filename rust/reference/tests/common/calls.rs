//! The lists of calls of another model, and their lines.

use super::vectors;
use reference::core::Class;
use reference::hub::{Answer, Call};
use reference::plan::{read, Plan};
use std::path::PathBuf;

/// What a list says.
pub enum Said {
    /// "A fresh cascade of that plan. The calls behind it are made on it."
    Plan(Plan),
    /// "`CALL = ANSWER`, a call and its answer."
    Call(String, String),
}

/// The lists of these requests, by their numbers of two digits.
pub fn files(requests: &[&str]) -> Vec<PathBuf> {
    let entries = std::fs::read_dir(vectors().join("calls")).unwrap().map(|entry| entry.unwrap().path());
    let name = |path: &PathBuf| path.file_name().unwrap().to_str().unwrap().to_owned();
    let calls = entries.filter(|path| name(path).ends_with(".calls"));
    let mut files: Vec<_> =
        calls.filter(|path| requests.iter().any(|number| name(path).starts_with(number))).collect();
    files.sort();
    files
}

/// All that a list says. "Blank lines and those that begin with `#` say nothing";
/// any other line is taken, or is an error.
pub fn said(path: &PathBuf) -> Vec<Said> {
    let text = std::fs::read_to_string(path).unwrap();
    let mut lines = text.lines().filter(|line| !line.is_empty() && !line.starts_with('#'));
    let mut said = Vec::new();
    while let Some(line) = lines.next() {
        if line == "plan" {
            let plan: String =
                lines.by_ref().take_while(|&line| line != ".").map(|line| format!("{line}\n")).collect();
            said.push(Said::Plan(read(plan.as_bytes()).expect("a good plan").plan));
        } else {
            let (call, answer) = line.split_once(" = ").unwrap_or_else(|| panic!("{path:?}: {line}"));
            said.push(Said::Call(call.into(), answer.into()));
        }
    }
    said
}

/// Numbers with single spaces between them, perhaps none.
pub fn numbers(text: &str) -> Vec<u64> {
    text.split_whitespace().map(|word| word.parse().expect("a number")).collect()
}

/// One of the six calls.
pub fn call(line: &str) -> Call {
    let (word, behind) = line.split_once(' ').expect("numbers behind the word");
    match (word, &numbers(behind)[..]) {
        ("normal", &[t, k, b]) => Call::Normal { t, k, b },
        ("high", &[t, k, b]) => Call::High { t, k, b },
        ("off", &[t, k]) => Call::Off { t, k },
        ("reserve", &[t, k, n, b]) => Call::Reserve { t, k, n, b },
        ("until", &[t]) => Call::Until { t },
        ("step", &[t]) => Call::Step { t },
        _ => panic!("{line}"),
    }
}

/// The answer to one of the six calls.
pub fn answer(line: &str) -> Answer {
    let (word, behind) = line.split_once(' ').unwrap_or((line, ""));
    match (word, &numbers(behind)[..]) {
        ("quiet", []) => Answer::Quiet,
        ("rest", &[time, moves]) => Answer::Rest { time, moves },
        ("grant", &[time, node, class, end, moves, wait]) => {
            let class = if class == 2 { Class::High } else { Class::Normal };
            Answer::Grant { time, node, class, end, moves, wait }
        }
        ("0", []) => Answer::Taken,
        (row, []) => Answer::Refused(row.parse().expect("a row")),
        _ => panic!("{line}"),
    }
}
