//! Random framing lines, good and broken, where they may stand and elsewhere.

use super::texts::lines;
use super::Random;

/// The two framing lines that there are.
pub const TAKEN: [&str; 2] = ["(framing 3)", "(framing 5)"];

/// Numbers that are forms and neither; some would be 3 or 5 to a reader who
/// keeps only 8, 16 or 32 bits of them.
pub const NEITHER: [&str; 12] = [
    "(framing 0)",
    "(framing 1)",
    "(framing 2)",
    "(framing 4)",
    "(framing 6)",
    "(framing 35)",
    "(framing 259)",
    "(framing 65541)",
    "(framing 4294967299)",
    "(framing 4294967301)",
    "(framing 3000000000000000)",
    "(framing 9999999999999999)",
];

/// Lines that are no form of the framing's, nor of any other line.
pub const NO_FORMS: [&str; 22] = [
    "(framing)",
    "(framing )",
    "(framing 03)",
    "(framing 05)",
    "(framing 00)",
    "(framing 0000000000000003)",
    "(framing 30000000000000000)",
    "(framing 50000000000000000)",
    "(framing 10000000000000004)",
    "(framing 18446744073709551619)",
    "(framing 18446744073709551621)",
    "(framing -3)",
    "(framing +5)",
    "(framing 3 5)",
    "(framing 3 )",
    "(framing  3)",
    "(framing 3",
    " (framing 3)",
    "(framing 5) ",
    "(framings 3)",
    "(Framing 5)",
    "(framing 5)\r",
];

/// Puts a framing line into a text. Mostly it is the fourth line, in place of
/// one that is there or before it; else it stands anywhere, and early more often
/// than late. Sometimes the text ends with it, and its LF is missing.
pub fn damage(random: &mut Random, text: &mut Vec<u8>) {
    // Framing 5 more often, since most plans of 3 have a D too small for it.
    let forms = [&TAKEN[..], &NEITHER, &NO_FORMS].concat();
    let form = if random.chance(25) { "(framing 5)" } else { random.one_of(&forms) }.as_bytes();
    let ends = random.chance(8);
    lines(text, |lines| {
        let at = match random.below(10) {
            0..=5 => 3,
            6 | 7 => random.place(8),
            _ => random.place(lines.len() + 1),
        };
        let at = at.min(lines.len());
        let there = lines.get(at).is_some_and(|line| line.starts_with(b"(framing"));
        if there && random.chance(70) {
            lines.remove(at);
        }
        lines.insert(at, [form, b"\n"].concat());
        if ends {
            lines.truncate(at + 1);
            lines[at].pop();
        }
    });
}
