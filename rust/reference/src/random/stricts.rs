//! Random lines `(strict)`, good and broken, where they may stand and elsewhere.

use super::texts::lines;
use super::Random;

/// The line that there is.
pub const TAKEN: &str = "(strict)";

/// Lines that are no form of it, nor of any other line; some only have a number.
pub const NO_FORMS: [&str; 22] = [
    "(strict 0)",
    "(strict 1)",
    "(strict 5)",
    "(strict 01)",
    "(strict 9999999999999999)",
    "(strict )",
    "(strict  )",
    "( strict)",
    " (strict)",
    "(strict) ",
    "(strict",
    "strict)",
    "strict",
    "(Strict)",
    "(STRICT)",
    "(stric)",
    "(strictly)",
    "(strict))",
    "((strict)",
    "(strict)(hub",
    "(strict)\r",
    "(strict\t)",
];

/// Puts such a line into a text: just before the root hub, where a good one may
/// stand once, or in front of T, between the figures, before any framing line,
/// inside a hub, or anywhere. Sometimes the text ends with it, and its LF is missing.
pub fn damage(random: &mut Random, text: &mut Vec<u8>) {
    let form = if random.chance(60) { TAKEN } else { random.one_of(&NO_FORMS) };
    let ends = random.chance(8);
    lines(text, |lines| {
        let root = lines.iter().position(|line| line == b"(hub\n").unwrap_or(lines.len());
        let at = match random.below(10) {
            0..=3 => root,
            4 => random.place(2),
            5 => 2,
            6 => 3,
            7 => root + 1 + random.place(6),
            _ => random.place(lines.len() + 1),
        };
        let at = at.min(lines.len());
        let behind = at > 0 && lines[at - 1].starts_with(b"(strict");
        let at = if behind && random.chance(50) { at - 1 } else { at };
        let there = lines.get(at).is_some_and(|line| line.starts_with(b"(strict"));
        if there && random.chance(50) {
            lines.remove(at);
        }
        lines.insert(at, [form.as_bytes(), b"\n"].concat());
        if ends {
            lines.truncate(at + 1);
            lines[at].pop();
        }
    });
}
