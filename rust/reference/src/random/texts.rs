//! Random texts of a plan and events, valid and damaged.

use super::calls::{Caller, Style};
use super::{framings, plans, stricts, Random};
use crate::fast::Fast;
use crate::hub::Call;
use crate::log::{steps, LONGEST_TEXT};
use crate::plan::draw;

/// Figures at the ends of their ranges and one past them.
const FIGURES: [&str; 32] = [
    "0",
    "1",
    "2",
    "4",
    "5",
    "32",
    "33",
    "64",
    "65",
    "256",
    "257",
    "511",
    "512",
    "11999",
    "12000",
    "12001",
    "35999",
    "36000",
    "36001",
    "50000",
    "50001",
    "99999",
    "100000",
    "4000000",
    "4000001",
    "999999999999999",
    "1000000000000000",
    "1000000000000001",
    "9999999999999999",
    "10000000000000000",
    "00",
    "18446744073709551616",
];

/// A random text: nearly half of them valid plans with events some of which are
/// refused, the others damaged, in the framing line or by a line `(strict)` alone
/// or elsewhere too.
pub fn text(random: &mut Random) -> Vec<u8> {
    let mut text = whole(random);
    if random.chance(50) {
        for _ in 0..random.within(1..=4) {
            damage(random, &mut text);
        }
    }
    if random.chance(15) {
        framings::damage(random, &mut text);
    }
    if random.chance(15) {
        stricts::damage(random, &mut text);
    }
    text
}

/// A plan with events, none of them damaged.
pub fn whole(random: &mut Random) -> Vec<u8> {
    let plan = plans::plan(random);
    let mut text = draw(&plan);
    let style = if random.chance(70) { Style::Mixed } else { Style::Loaded };
    let mut caller = Caller::new(&plan, random.number(), style);
    let mut hub = Fast::new(&plan);
    let calls = if random.chance(3) { 4_000 } else { random.within(0..=120) };
    for _ in 0..calls {
        let call = caller.next_call();
        if let Call::Step { .. } = call {
            continue;
        }
        // The program makes the steps itself.
        steps(&mut hub, call.time(), |step| caller.hear(Call::Step { t: call.time() }, step));
        let answer = hub.call(call);
        caller.hear(call, answer);
        text.push_str(&line(call));
    }
    text.into_bytes()
}

/// An event's line. A step has none.
pub fn line(call: Call) -> String {
    match call {
        Call::Normal { t, k, b } => format!("(normal {t} {k} {b})\n"),
        Call::High { t, k, b } => format!("(high {t} {k} {b})\n"),
        Call::Off { t, k } => format!("(off {t} {k})\n"),
        Call::Reserve { t, k, n, b } => format!("(reserve {t} {k} {n} {b})\n"),
        Call::Until { t } => format!("(until {t})\n"),
        Call::Step { .. } => String::new(),
    }
}

/// One damage.
fn damage(random: &mut Random, text: &mut Vec<u8>) {
    if text.is_empty() {
        return;
    }
    match random.below(13) {
        kind @ 0..=5 => damage_bytes(random, text, kind),
        kind @ 6..=9 => lines(text, |lines| damage_lines(random, lines, kind)),
        // Longer than the program reads.
        10 if random.chance(20) => {
            let tail = text[text.len() / 2..].to_vec();
            while text.len() <= LONGEST_TEXT {
                text.extend_from_slice(&tail);
            }
        }
        // A figure in place of another; early ones are the plan's.
        _ => {
            let early = random.chance(30);
            lines(text, |lines| {
                let at = random.place(if early { lines.len().min(4) } else { lines.len() });
                let figure = random.one_of(&FIGURES);
                replace_figure(random, &mut lines[at], figure);
            });
        }
    }
}

fn damage_bytes(random: &mut Random, text: &mut Vec<u8>, kind: u64) {
    let at = random.place(text.len());
    match kind {
        // A bit flipped, and a byte in place of another.
        0 => text[at] ^= 1 << random.below(8),
        1 => text[at] = random.one_of(b"()0 19\n\r\t\0nh\xff"),
        // A byte more, or many, so that a line is too long; and a byte less.
        2 => {
            let byte = random.one_of(b"()0 19\n\r");
            let many = random.one_of(&[1, 1, 1, 80, 300]);
            text.splice(at..at, std::iter::repeat_n(byte, many));
        }
        3 => {
            text.remove(at);
        }
        // A text cut anywhere, and one without its last LF.
        4 => text.truncate(at),
        _ => {
            text.pop();
        }
    }
}

/// Lines cut, doubled, swapped, and one line put in some times.
fn damage_lines(random: &mut Random, lines: &mut Vec<Vec<u8>>, kind: u64) {
    let (at, other) = (random.place(lines.len()), random.place(lines.len()));
    match kind {
        6 => {
            lines.remove(at);
        }
        7 => {
            let line = lines[at].clone();
            lines.insert(other, line);
        }
        8 => lines.swap(at, other),
        _ => {
            let word: &[u8] = random.one_of(&[b"(node)\n", b"(empty)\n", b"(hub\n", b")\n", b"\n"]);
            for _ in 0..random.one_of(&[1, 1, 5, 33, 257]) {
                lines.insert(at, word.to_vec());
            }
        }
    }
}

/// Works on a text line by line.
pub(super) fn lines(text: &mut Vec<u8>, work: impl FnOnce(&mut Vec<Vec<u8>>)) {
    let mut lines: Vec<Vec<u8>> = text.split_inclusive(|&byte| byte == b'\n').map(<[u8]>::to_vec).collect();
    if !lines.is_empty() {
        work(&mut lines);
    }
    *text = lines.concat();
}

/// One of a line's words becomes this figure, if it is a number.
fn replace_figure(random: &mut Random, line: &mut Vec<u8>, figure: &str) {
    let starts: Vec<usize> =
        (1..line.len()).filter(|&at| line[at].is_ascii_digit() && !line[at - 1].is_ascii_digit()).collect();
    if starts.is_empty() {
        return;
    }
    let start = starts[random.place(starts.len())];
    let digits = line[start..].iter().take_while(|byte| byte.is_ascii_digit()).count();
    line.splice(start..start + digits, figure.bytes());
}
