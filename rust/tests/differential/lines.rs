//! Event lines, as the crate reads and writes them.

use crate::archive::{of_crate, on_all, setting};
use crate::common::Found;
use reference::log::event;
use reference::plan;
use reference::random::{texts, Random};
use reference::text::Lines;

/// A line is an event to the crate just where it is one to the reference, and the same one; it is shown as it was read.
#[test]
fn event_lines_are_read_and_shown_alike() {
    let texts = setting("LEMBUYA_TEXTS", 10_000) / 10;
    let found = on_all(
        0..texts,
        |seed, found| {
            let text = texts::text(&mut Random::new(seed));
            let Ok(taken) = plan::read(&text) else { return };
            // A line without its LF is the text's matter, not the form's.
            for line in Lines::from(&text, taken.at, taken.line).filter(|line| line.ended) {
                let expected = event(&line).map(of_crate);
                let shown = String::from_utf8_lossy(line.bytes);
                assert_eq!(shown.parse::<lembuya::Call>().ok(), expected, "seed {seed}: {shown}");
                if let Some(call) = expected {
                    assert_eq!(call.to_string(), shown, "seed {seed}");
                }
                found.count(if expected.is_some() { "event" } else { "no event" });
            }
        },
        Found::join,
    );
    println!("{found:?}");
    found.assert_met(10 * texts, &["event", "no event"]);
}
