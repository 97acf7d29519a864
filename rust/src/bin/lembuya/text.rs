//! A text that was read: its plan and its events.
//!
//! Whether a line is refused is the archive's word alone: here a plan is looked at only when it was taken, and of the events
//! only those that the log doesn't refuse count as accepted.

use crate::log::Entry;
use lembuya::{Call, Plan, PlanRefused};

/// An event line.
#[derive(Clone, Copy, Debug, PartialEq, Eq)]
pub struct Event {
    /// The line's number in its text.
    pub line: u64,
    /// What it says.
    pub call: Call,
}

/// A text whose plan was taken.
pub struct Text {
    /// Its plan.
    pub plan: Plan,
    /// Every event line that has a form, refused or not.
    pub events: Vec<Event>,
}

/// What is looked at of a text.
fn looked_at(bytes: &[u8]) -> &[u8] {
    &bytes[..bytes.len().min(lembuya::LONGEST_TEXT)]
}

/// The plan of a text. The archive decides whether it is taken.
pub fn plan(bytes: &[u8]) -> Result<Plan, PlanRefused> {
    Plan::read(looked_at(bytes))
}

impl Text {
    /// Reads a text, if its plan is taken.
    pub fn read(bytes: &[u8]) -> Result<Text, PlanRefused> {
        let (plan, bytes) = (plan(bytes)?, looked_at(bytes));
        let behind = plan.events();
        let lines = (behind.line..).zip(bytes[behind.at..].split(|byte| *byte == b'\n'));
        let event = |(line, bytes)| {
            let call = std::str::from_utf8(bytes).ok()?.parse().ok()?;
            Some(Event { line, call })
        };
        let events = lines.filter_map(event).collect();
        Ok(Text { plan, events })
    }

    /// The events that the log doesn't refuse. (A last line without its LF is refused, and so are lines of no form.)
    pub fn accepted(&self, log: &[Entry]) -> Vec<Call> {
        let refused: std::collections::HashSet<u64> = log.iter().filter_map(Entry::refused_line).collect();
        let accepted = self.events.iter().filter(|event| !refused.contains(&event.line));
        accepted.map(|event| event.call).collect()
    }
}

#[cfg(test)]
mod tests {
    use super::*;

    const EXAMPLE: &str = include_str!("../../../../examples/example.text");

    #[test]
    fn the_examples_events_have_their_lines() {
        let text = Text::read(EXAMPLE.as_bytes()).unwrap();
        let lines: Vec<&str> = EXAMPLE.lines().collect();
        let shown = text.events.iter().map(|event| (event.call.to_string(), lines[event.line as usize - 1]));
        assert!(shown.clone().all(|(shown, line)| shown == line));
        assert_eq!((shown.count(), text.events[0].line), (8, 13));
    }

    #[test]
    fn refused_events_are_not_accepted() {
        let text = Text::read(EXAMPLE.as_bytes()).unwrap();
        let log = crate::log::read(&lembuya::log(EXAMPLE.as_bytes())).unwrap();
        let accepted = text.accepted(&log);
        let refused = Call::High { time: 0, node: 3, bits: 4_000 };
        assert!(text.events.iter().any(|event| event.call == refused) && !accepted.contains(&refused));
        assert_eq!(accepted.len(), 7);
    }

    #[test]
    fn a_line_of_no_form_is_no_event() {
        let text = EXAMPLE.replace("(normal 0 1 12000)", "(normal 0 1)").into_bytes();
        let lines: Vec<u64> = Text::read(&text).unwrap().events.iter().map(|event| event.line).collect();
        assert_eq!(lines, [13, 15, 16, 17, 18, 19, 20]);
    }
}
