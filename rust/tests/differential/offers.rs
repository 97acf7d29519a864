//! Offers among calls: the archive's answers are the reference's and those of `lembuya_reserve`, and no call behind them knows of them.

mod junk;
mod ragged;

use crate::acts::{among_calls, compare, Act};
use crate::archive::{self, on_all, setting, Archive, Fenced};
use crate::common::Found;
use lembuya::ffi::MOST_OFFERS;
use reference::control::Control;
use reference::hub::{Call, Hub};
use reference::offers::Offer;
use reference::plan::Plan;
use reference::random::{offers, plans, Random};

/// The numbers of these offers, three each.
pub fn numbers(offers: &[Offer]) -> Vec<u64> {
    offers.iter().flat_map(|&Offer { k, n, b }| [k, n, b]).collect()
}

/// What `lembuya_offers` answers where all that it is lent lies against the page behind or before: its number, and what becomes of a
/// buffer that holds these bytes.
pub fn asked(
    hub: &mut Archive,
    numbers: &[u64],
    buffer: &[u8],
    last: bool,
) -> Result<(u32, Vec<u8>), String> {
    let (mut lent, mut answers) = (Fenced::new(numbers.len()), Fenced::new(buffer.len()));
    let (lent, answers) = (lent.part(last, numbers.len()), answers.part(last, buffer.len()));
    lent.copy_from_slice(numbers);
    answers.copy_from_slice(buffer);
    let before = (*hub.plan(), *hub.cascade());
    let (plan, cascade) = hub.tables();
    let number = archive::offers(plan, cascade, lent, answers);
    if (*plan, *cascade) != before || lent != numbers {
        return Err("what is lent for reading was changed".into());
    }
    Ok((number, answers.to_vec()))
}

/// What `lembuya_reserve` answers one offer at a time, on a copy of the table.
pub fn alone(hub: &mut Archive, t: u64, &Offer { k, n, b }: &Offer) -> u8 {
    let mut copy = *hub.cascade();
    let [number, ..] = archive::single(hub.plan(), &mut copy, Call::Reserve { t, k, n, b });
    number.try_into().expect("a row's number is a byte")
}

/// These offers have these answers, of `lembuya_reserve` too at this clock, and reversed the reversed ones.
fn each_alone(hub: &mut Archive, clock: u64, offers: &[Offer], answers: &[u8]) -> Result<(), String> {
    for (offer, &answer) in offers.iter().zip(answers) {
        let found = alone(hub, clock, offer);
        if found != answer {
            return Err(format!("{offer:?} is {answer}, and alone lembuya_reserve answers {found}"));
        }
    }
    let reversed: Vec<Offer> = offers.iter().rev().copied().collect();
    let (number, mut backwards) = asked(hub, &numbers(&reversed), &vec![99; answers.len()], true)?;
    backwards.reverse();
    if (number, &backwards[..]) != (0, answers) {
        return Err(format!("reversed they are {number}, {backwards:?}, else {answers:?}"));
    }
    Ok(())
}

/// Whether a hub answers these offers as the reference does; if not, how they differ.
pub fn same_offers(
    reference: &Hub<Control>,
    hub: &mut Archive,
    offers: &[Offer],
    buffer: &[u8],
    found: &mut Found,
) -> Result<(), String> {
    let mut left = buffer.to_vec();
    let expected = (reference.offers(offers, &mut left), left);
    count_offers(found, offers.len(), expected.0, &expected.1);
    for last in [true, false] {
        let found = asked(hub, &numbers(offers), buffer, last)?;
        if found != expected {
            return Err(format!("the answers differ\nreference: {expected:?}\narchive: {found:?}"));
        }
    }
    match expected {
        (0, answers) => each_alone(hub, reference.clock(), offers, &answers[..offers.len()]),
        _ => Ok(()),
    }
}

/// So many random calls, with offers before one in twenty. They are made for what the reference has reserved at that place.
pub fn random_acts(plan: &Plan, random: &mut Random, length: usize) -> Vec<Act> {
    among_calls(plan, random, length, |random, hub| {
        if !random.chance(5) {
            return Vec::new();
        }
        let list = offers::list_to(random, plan, hub);
        let buffer = offers::buffer(random, list.len());
        vec![Act::Offers(list, buffer)]
    })
}

/// Counts a list of offers, its number and its answers.
fn count_offers(found: &mut Found, offers: usize, number: u32, answers: &[u8]) {
    found.count("lists");
    match number {
        0 if offers == MOST_OFFERS => found.count("64 offers"),
        0 if offers == 0 => found.count("no offer"),
        0 => found.count("some offers"),
        18 if offers > MOST_OFFERS => found.count("18 by the offers"),
        _ => found.count(format!("{number} by the buffer")),
    }
    for answer in answers.iter().take(if number == 0 { offers } else { 0 }) {
        found.count(format!("answer {answer}"));
    }
}

#[test]
fn offers_among_calls() {
    const LENGTH: usize = 200;
    let cases = setting("LEMBUYA_CALLS", 1_000_000).div_ceil(1_000);
    let found = on_all(
        0..cases,
        |seed, found| {
            let mut random = Random::new(seed);
            let plan = plans::plan(&mut random);
            let acts = random_acts(&plan, &mut random, LENGTH);
            compare(seed, &plan, &acts, found);
        },
        Found::join,
    );
    println!("{found:?}");
    found.assert_met(10 * cases, &["answer 0", "answer 13", "answer 14", "answer 15", "answer 17"]);
    found.assert_met(cases, &["some offers", "64 offers", "framing 3", "framing 5"]);
    found.assert_met(cases / 10, &["18 by the offers", "18 by the buffer", "no offer"]);
    // No calls leave a clock that is too late, or an instant due before it; and no row else is a reserve's.
    for other in ["answer 1", "answer 11", "answer 12", "answer 16", "answer 18"] {
        found.assert_unmet(other);
    }
}
