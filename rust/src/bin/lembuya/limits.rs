//! `lembuya limits`: what a plan's reservations take of the frame, and what they are promised.

use crate::args::{Args, Options, Wrong};
use crate::shares::{self, Share};
use crate::{run, End};
use lembuya::Plan;

pub const OPTIONS: Options = &[];

pub const HELP: &str = "\
lembuya limits TEXT..

The plan's figures, the frame's load and each reserved node's delay limit, by the latest accepted
reservations of each text: a plan and its events. '-' is standard input. Times are bit times, 10 ns each.

    framing       3, or 5 where the plan's fourth line says (framing 5): it decides the longest packet,
                  12,000 or 36,000 bits, above which a request or a reserve is refused by 15;
                  D is at least 12,000 + O, with (framing 5) 36,000 + O
    strict        where the plan has the line (strict), just before the root's (hub: a high request of a
                  node with nothing reserved in force is refused by 16; without the line it is taken
                  as a normal one. The limits below are the same either way
    load          D plus the sum of n x (b + O): at most T, or a reserve is refused by 17
    share         the node's n x (b + O), and what part of the frame that is
    delay limit   counted from the frame's start: a node whose request stands from there on has
                  had its n high packets by then, whatever the others do (demand 3)

A refused line is said on standard error: FILE:LINE: refused NUMBER: the table's words.

Exit status: 0; 1 where a plan is refused; 2 for bad usage.
";

pub fn command(args: &Args) -> Result<End, Wrong> {
    run::pages(args, |file, text, entries| {
        let shares = shares::reserved(&text.plan, &text.accepted(entries), u64::MAX);
        page(file, &text.plan, &shares)
    })
}

/// The table of one text.
fn page(file: &str, plan: &Plan, shares: &[Share]) -> String {
    let (frame, overhead, interrupt) = (plan.frame(), plan.overhead(), plan.interrupt());
    let (framing, longest) = (plan.framing().number(), plan.longest_packet());
    let (strict, unreserved) = strictness(plan);
    let load = shares::load(plan, shares);
    let mut page = format!(
        "{file}: frame {frame} ({} us), overhead {overhead}, interrupt {interrupt}, framing {framing}, longest packet {longest}, {strict}\n\
         load {load} of {frame} bit times, {} %\n",
        microseconds(frame),
        per_cent(load, frame),
    );
    let reserved: Vec<usize> = (0..shares.len()).filter(|k| shares[*k].packets > 0).collect();
    if reserved.is_empty() {
        return page + "nothing is reserved; " + unreserved + "\n";
    }
    page += &row(["node", "n", "b", "share", "share %", "delay limit", "delay limit us"].map(String::from));
    for k in reserved {
        let (share, limit) = (shares[k], shares::delay_limit(plan, shares, k));
        let own = share.load(plan);
        let numbers = [k as u64 + 1, share.packets, share.bits, own].map(|number| number.to_string());
        let [node, n, b, own_shown] = numbers;
        page += &row([node, n, b, own_shown, per_cent(own, frame), limit.to_string(), microseconds(limit)]);
    }
    page + unreserved + "\n"
}

/// Whether the plan is strict, and what that means for a node without a reservation, which has no row in the table.
fn strictness(plan: &Plan) -> (&'static str, &'static str) {
    if plan.is_strict() {
        ("strict", "a high request without a reservation is refused by 16")
    } else {
        ("not strict", "a high request without a reservation is taken as normal")
    }
}

/// A line of the table, in columns.
fn row(cells: [String; 7]) -> String {
    let [node, n, b, share, part, limit, time] = cells;
    format!("{node:>4} {n:>3} {b:>6} {share:>8} {part:>8} {limit:>12} {time:>15}\n")
}

/// Bit times as microseconds: 100 of them are one.
fn microseconds(time: u64) -> String {
    format!("{}.{:02}", time / 100, time % 100)
}

/// A part of a whole in per cent, rounded to two places.
fn per_cent(part: u64, whole: u64) -> String {
    let hundredths = (part * 10_000 + whole / 2) / whole;
    format!("{}.{:02}", hundredths / 100, hundredths % 100)
}

#[cfg(test)]
mod tests {
    use super::*;

    #[test]
    fn the_examples_page() {
        let plan = Plan::read(include_bytes!("../../../../examples/example.text")).unwrap();
        let none = Share::default();
        let shares = [none, none, Share { packets: 2, bits: 4_000 }, none];
        assert_eq!(
            page("a", &plan, &shares),
            "a: frame 100000 (1000.00 us), overhead 1000, interrupt 13000, framing 3, longest packet 12000, strict\n\
             load 23000 of 100000 bit times, 23.00 %\n\
             node   n      b    share  share %  delay limit  delay limit us\n   \
                3   2   4000    10000    10.00        23000          230.00\n\
             a high request without a reservation is refused by 16\n"
        );
        assert!(page("a", &plan, &[none]).ends_with(
            "load 13000 of 100000 bit times, 13.00 %\n\
             nothing is reserved; a high request without a reservation is refused by 16\n"
        ));
    }

    #[test]
    fn a_page_of_framing_5() {
        let text =
            "(frame 200000)\n(overhead 1000)\n(interrupt 40000)\n(framing 5)\n(hub\n(node)\n(node)\n)\n";
        let plan = Plan::read(text.as_bytes()).unwrap();
        let shares = [Share { packets: 1, bits: 36_000 }, Share { packets: 3, bits: 4_000 }];
        // c is 36,000 + 1,000 = 37,000 and 4,000 + 1,000 = 5,000. Load: 40,000 + 1 × 37,000 + 3 × 5,000 = 92,000, 46 % of T.
        // Node 1: 40,000 + 37,000 + min(1, 3) × 5,000 = 82,000. Node 2: 40,000 + 15,000 + min(3, 1) × 37,000 = 92,000.
        assert_eq!(
            page("ring", &plan, &shares),
            "ring: frame 200000 (2000.00 us), overhead 1000, interrupt 40000, framing 5, longest packet 36000, not strict\n\
             load 92000 of 200000 bit times, 46.00 %\n\
             node   n      b    share  share %  delay limit  delay limit us\n   \
                1   1  36000    37000    18.50        82000          820.00\n   \
                2   3   4000    15000     7.50        92000          920.00\n\
             a high request without a reservation is taken as normal\n"
        );
    }

    /// The line is named, and what it means; not a figure of the table depends on it.
    #[test]
    fn the_strict_line_moves_no_limit() {
        let text = include_str!("../../../../examples/example.text");
        let shares = [Share { packets: 2, bits: 4_000 }, Share { packets: 1, bits: 11_000 }];
        let [strict, default] = [text.into(), text.replace("(strict)\n", "")]
            .map(|text: String| page("a", &Plan::read(text.as_bytes()).unwrap(), &shares));
        assert!(default.lines().next().unwrap().ends_with(", longest packet 12000, not strict"));
        assert!(default.ends_with("\na high request without a reservation is taken as normal\n"));
        assert_eq!(
            strict,
            default.replace("not strict", "strict").replace("taken as normal", "refused by 16")
        );
    }

    #[test]
    fn figures_are_rounded() {
        assert_eq!(microseconds(1_011), "10.11");
        assert_eq!(microseconds(5), "0.05");
        assert_eq!(per_cent(2, 3), "66.67");
        assert_eq!(per_cent(1, 3), "33.33");
    }
}
