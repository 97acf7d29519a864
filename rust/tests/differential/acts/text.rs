//! Acts as text, to cut them down: the plan's lines, then one line a call, one for what would make an offer fit, and for offers `(lend)`,
//! one line a byte of the buffer, and one line an offer. Bytes and offers belong to the `(lend)` before them, so that lines can be dropped
//! one by one.

use super::Act;
use crate::lists::{call_of, line, words};
use reference::offers::Offer;
use reference::plan::{self, Plan};

pub fn acts_text(plan: &Plan, acts: &[Act]) -> Vec<u8> {
    let lines: String = acts.iter().map(act_lines).collect();
    (plan::draw(plan) + &lines).into_bytes()
}

fn act_lines(act: &Act) -> String {
    match act {
        &Act::Call(call) => line(call),
        Act::Fit(Offer { k, n, b }) => format!("(fit {k} {n} {b})\n"),
        Act::Offers(offers, buffer) => {
            let bytes = buffer.iter().map(|byte| format!("(byte {byte})\n"));
            let offers = offers.iter().map(|Offer { k, n, b }| format!("(offer {k} {n} {b})\n"));
            std::iter::once("(lend)\n".into()).chain(bytes).chain(offers).collect()
        }
    }
}

/// The plan and the acts of such a text; none where it isn't one.
pub fn acts_of(text: &[u8]) -> Option<(Plan, Vec<Act>)> {
    let taken = plan::read(text).ok()?;
    let mut lines = std::str::from_utf8(&text[taken.at..]).ok()?.lines();
    let acts = lines.try_fold(Vec::new(), |mut acts, line| {
        let (word, numbers) = words(line)?;
        match (word, &numbers[..], acts.last_mut()) {
            ("lend", [], _) => acts.push(Act::Offers(Vec::new(), Vec::new())),
            ("byte", &[byte], Some(Act::Offers(_, buffer))) => buffer.push(byte.try_into().ok()?),
            ("offer", &[k, n, b], Some(Act::Offers(offers, _))) => offers.push(Offer { k, n, b }),
            ("fit", &[k, n, b], _) => acts.push(Act::Fit(Offer { k, n, b })),
            (word, numbers, _) => acts.push(Act::Call(call_of(word, numbers)?)),
        }
        Some(acts)
    });
    Some((taken.plan, acts?))
}
