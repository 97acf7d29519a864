//! The log's lines as values.

use lembuya::{Class, Plan, PlanRefused, PlanRow, Refused, Step};

/// A line of the log.
#[derive(Clone, Copy, Debug, PartialEq, Eq)]
pub enum Entry {
    /// `(nodes N hubs H)`.
    Taken {
        /// N.
        nodes: u64,
        /// H.
        hubs: u64,
    },
    /// A grant or a rest.
    Step(Step),
    /// `(refused line number)`.
    Refused {
        /// The line of the text.
        line: u64,
        /// The row's number.
        number: u64,
    },
}

impl Entry {
    /// The text's line that this entry refuses.
    pub fn refused_line(&self) -> Option<u64> {
        match self {
            Entry::Refused { line, .. } => Some(*line),
            _ => None,
        }
    }

    fn read(line: &str) -> Option<Entry> {
        let mut words = line.strip_prefix('(')?.strip_suffix(')')?.split(' ');
        let word = words.next()?;
        let rest: Vec<&str> = words.collect();
        let numbers: Vec<u64> = rest.iter().filter_map(|word| word.parse().ok()).collect();
        match (word, &numbers[..], &rest[..]) {
            ("nodes", &[nodes, hubs], [_, "hubs", _]) => Some(Entry::Taken { nodes, hubs }),
            ("grant", &[time, node, class @ (1 | 2), end, moves, wait], [_, _, _, _, _, _])
                if wait <= time && time < end && end <= LATEST =>
            {
                let class = if class == 1 { Class::Normal } else { Class::High };
                Some(Entry::Step(Step::Grant { time, node, class, end, moves, wait }))
            }
            ("rest", &[time, moves], [_, _]) if time <= LATEST => {
                Some(Entry::Step(Step::Rest { time, moves }))
            }
            ("refused", &[line, number], [_, _]) => Some(Entry::Refused { line, number }),
            _ => None,
        }
    }
}

/// No time of a log lies behind this one: the end of the longest packet of any plan, which is framing 5's, granted at the
/// latest time. A log alone doesn't tell its plan's own figures, so those of every plan are taken.
pub const LATEST: u64 = Plan::LATEST_TIME + Plan::LONGEST_PACKET + Plan::LARGEST_OVERHEAD;

/// A log's lines, without their LF; that of the last one may be missing.
pub fn lines(bytes: &[u8]) -> Vec<&[u8]> {
    bytes.strip_suffix(b"\n").unwrap_or(bytes).split(|byte| *byte == b'\n').collect()
}

/// Reads a log; the number of the first line that is none is the error.
pub fn read(bytes: &[u8]) -> Result<Vec<Entry>, usize> {
    let read = |(at, line)| std::str::from_utf8(line).ok().and_then(Entry::read).ok_or(at + 1);
    lines(bytes).into_iter().enumerate().map(read).collect()
}

/// Why a line is none of a log, where that can be told: a grant that lacks its wait is of a log from before there were waits.
pub fn from_before(line: &[u8]) -> Option<&'static str> {
    let without = std::str::from_utf8(line).ok()?.strip_suffix(')')?;
    let with = Entry::read(&format!("{without} 0)"));
    matches!(with, Some(Entry::Step(Step::Grant { .. })))
        .then_some("a grant without its wait: the log was written before grants had one, and 'lembuya run' writes it anew")
}

/// The words of the documents' tables for `(refused line number)` in the log of a text with this plan, or whose plan is refused.
/// A plan's row 1 and an event line's row 1 differ, row 2 asks the line, and rows 15 and 16 the plan.
pub fn words(line: u64, number: u64, plan: Option<&Plan>) -> String {
    let words = match plan {
        None => PlanRow::numbered(number).map(|row| PlanRefused { line, row }.words().into()),
        Some(_) if number == 1 => Some("no form above, or its LF is missing".into()),
        Some(plan) => Refused::numbered(number).map(|row| event_words(row, plan)),
    };
    words.unwrap_or_else(|| "no row has this number".into())
}

/// A row's words for an event, with what the plan tells of it: row 15's figure, and which of row 16's cases there are.
fn event_words(row: Refused, plan: &Plan) -> String {
    match row {
        Refused::Length => {
            let lengths = format!("512 to the plan's longest packet, here {}", plan.longest_packet());
            format!("b outside {lengths}; in a reserve with n = 0 instead: b not 0")
        }
        Refused::Unreserved if !plan.is_strict() => "b above the b in force".into(),
        other => other.to_string(),
    }
}

#[cfg(test)]
mod tests {
    use super::*;

    #[test]
    fn every_form_is_read_and_nothing_else() {
        let log = b"(nodes 4 hubs 2)\n(refused 15 16)\n(grant 700 1 2 13000 0 600)\n(rest 20000 1)\n";
        let (time, node, class, end, moves, wait) = (700, 1, Class::High, 13_000, 0, 600);
        assert_eq!(
            read(log),
            Ok(vec![
                Entry::Taken { nodes: 4, hubs: 2 },
                Entry::Refused { line: 15, number: 16 },
                Entry::Step(Step::Grant { time, node, class, end, moves, wait }),
                Entry::Step(Step::Rest { time: 20_000, moves: 1 }),
            ])
        );
        for line in [
            "(grant 0 1 3 13000 0 0)",
            "(grant 5 1 1 5 0 0)",
            "(grant 5 1 1 9 0 6)",
            "(grant 5 1 1 9 0)",
            "(grant 5 1 1 9 0 5 5)",
            "(grant 5 1 1 9 0 x)",
            "(nodes 4 2)",
            "(rest 1)",
            "rest 1 2",
            "(rest a b 1 2)",
        ] {
            assert_eq!(read(format!("(rest 1 0)\n{line}\n").as_bytes()), Err(2), "{line}");
        }
        assert_eq!(read(b""), Err(1));
    }

    /// 10^15, 36,000 bits and an overhead of 50,000.
    #[test]
    fn the_latest_end_is_that_of_framing_5() {
        let grant = |end: u64| read(format!("(grant 1000000000000000 1 1 {end} 0 0)\n").as_bytes());
        assert!(grant(1_000_000_000_086_000).is_ok());
        assert_eq!(grant(1_000_000_000_086_001), Err(1));
    }

    #[test]
    fn a_grant_from_before_is_told_apart() {
        assert!(from_before(b"(grant 0 1 1 13000 0)").is_some_and(|words| words.contains("without its wait")));
        for line in [
            &b"(grant 0 1 1 13000 0 0)"[..],
            b"(grant 0 1 3 13000 0)",
            b"(grant 0 1 1 13000)",
            b"(grant 0 1 1 13000 0",
            b"(rest 0)",
            b"(rest 0 0)",
            b"",
        ] {
            assert_eq!(from_before(line), None, "{}", String::from_utf8_lossy(line));
        }
    }

    #[test]
    fn each_number_has_its_rows_words() {
        let plan = plan("");
        let of_plan = |line, number| words(line, number, None);
        let of_event = |number| words(9, number, Some(&plan));
        assert_eq!(of_plan(1, 2), "T, O or D out of range");
        assert_eq!(of_plan(3, 2), "T, O or D out of range");
        assert_eq!(of_plan(4, 2), "D too small for framing 5, which needs 36,000 + O");
        assert_eq!(of_plan(4, 4), "the number is neither 3 nor 5");
        assert!(of_plan(1, 1).starts_with("not the form allowed here"));
        assert_eq!(of_event(1), "no form above, or its LF is missing");
        assert_eq!(of_event(17), "the frame can't hold it");
        let rows = (1..=4).map(|number| of_plan(1, number)).chain((11..=17).map(of_event));
        assert_eq!(rows.chain([of_event(1)]).collect::<std::collections::HashSet<_>>().len(), 12);
        // A plan's rows are no event's, and an event's no plan's.
        let none = "no row has this number";
        assert!((2..=4).all(|number| of_event(number) == none));
        assert!((11..=17).all(|number| of_plan(1, number) == none));
        assert!([0, 5, 18, 99].iter().all(|&number| of_event(number) == none && of_plan(1, number) == none));
    }

    #[test]
    fn row_15_has_the_plans_figure() {
        for (line, longest) in [("", "12000"), ("(framing 3)\n", "12000"), ("(framing 5)\n", "36000")] {
            let found = words(9, 15, Some(&plan(line)));
            assert!(
                found.starts_with(&format!("b outside 512 to the plan's longest packet, here {longest}; "))
            );
            // Without the figure they are the row's own words.
            assert_eq!(found.replace(&format!(", here {longest}"), ""), Refused::Length.to_string());
        }
    }

    /// Without `(strict)` a request with n = 0 is taken, so that one refused by 16 is too long.
    #[test]
    fn row_16_has_the_plans_cases() {
        let found = |line: &str| words(9, 16, Some(&plan(line)));
        assert_eq!(found(""), "b above the b in force");
        assert_eq!(found("(framing 5)\n"), found(""));
        assert_eq!(found("(strict)\n"), Refused::Unreserved.to_string());
        assert_eq!(found("(framing 5)\n(strict)\n"), found("(strict)\n"));
    }

    /// A plan with these lines before its root's.
    fn plan(lines: &str) -> Plan {
        let figures = "(frame 100000)\n(overhead 1000)\n(interrupt 37000)\n";
        Plan::read(format!("{figures}{lines}(hub\n(node)\n)\n").as_bytes()).unwrap()
    }
}
