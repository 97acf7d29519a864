//! What would make an offer fit, asked among calls: the archive's answers are the reference's, and `lembuya_reserve` takes what is named.

mod command;
mod junk;
mod reading;

use crate::acts::{among_calls, compare, Act};
use crate::archive::{self, on_all, setting, Archive, Fenced};
use crate::common::Found;
use crate::offers::alone;
use reference::control::Control;
use reference::fit::Fit;
use reference::hub::{Call, Hub};
use reference::offers::Offer;
use reference::plan::Plan;
use reference::random::{fit, plans, Random};

/// What `change` holds before it is lent. None is a change, so that each one that is written shows.
const MARKS: [[u64; 2]; 2] = [[u64::MAX; 2], [77, 78]];

/// What `lembuya_fit` answers; both tables are what they were.
fn asked(hub: &mut Archive, offer: Offer, change: &mut [u64; 2]) -> Result<u32, String> {
    let before = (*hub.plan(), *hub.cascade());
    let (plan, cascade) = hub.tables();
    let number = archive::fit(plan, cascade, offer, change);
    if (*plan, *cascade) != before {
        return Err(format!("{offer:?}: what is lent for reading was changed"));
    }
    Ok(number)
}

/// The number and the change that tell this; where it is no change, what stood there stays.
fn told(fit: Fit, mark: [u64; 2]) -> (u32, [u64; 2]) {
    match fit {
        Fit::Answer(row) => (row, mark),
        Fit::Packets(n) => (17, [1, n]),
        Fit::Bits(b) => (17, [2, b]),
        Fit::Release(j) => (17, [3, j]),
        Fit::Nothing => (17, [4, 0]),
    }
}

/// Whether `lembuya_fit` tells this of an offer, whatever `change` holds, and wherever it lies; if not, what it tells.
fn tells(hub: &mut Archive, offer: Offer, expected: Fit) -> Result<(), String> {
    let mut lent = Fenced::new(2);
    for (mark, last) in MARKS.into_iter().zip([true, false]) {
        let change: &mut [u64; 2] = lent.part(last, 2).try_into().unwrap();
        *change = mark;
        let found = (asked(hub, offer, change)?, *change);
        if found != told(expected, mark) {
            return Err(format!("{offer:?}, over {mark:?}\nexpected: {expected}\narchive: {found:?}"));
        }
    }
    Ok(())
}

/// What `lembuya_reserve` answers an offer at a time, on a copy of the table in which a node gave up its reservation.
fn without(hub: &mut Archive, t: u64, j: u64, Offer { k, n, b }: Offer) -> u64 {
    let mut copy = *hub.cascade();
    let mut reserve = |k, n, b| archive::single(hub.plan(), &mut copy, Call::Reserve { t, k, n, b })[0];
    assert_eq!(reserve(j, 0, 0), 0, "a release");
    reserve(k, n, b)
}

/// Whether `lembuya_reserve` takes what is named at this clock, and refuses what is a packet or a bit more.
fn shown(hub: &mut Archive, clock: u64, offer: Offer, named: Fit) -> bool {
    let mut turns_at =
        |fits: Offer, more: Offer| [fits, more].map(|offer| alone(hub, clock, &offer)) == [0, 17];
    match named {
        Fit::Packets(n) => turns_at(Offer { n, ..offer }, Offer { n: n + 1, ..offer }),
        Fit::Bits(b) => turns_at(Offer { b, ..offer }, Offer { b: b + 1, ..offer }),
        Fit::Release(j) => without(hub, clock, j, offer) == 0,
        Fit::Answer(_) | Fit::Nothing => true,
    }
}

/// Whether a hub tells what would make an offer fit as the reference does; if not, how they differ.
pub fn same_fit(
    plan: &Plan,
    reference: &Hub<Control>,
    hub: &mut Archive,
    offer: Offer,
    found: &mut Found,
) -> Result<(), String> {
    let expected = reference.fit(offer);
    tells(hub, offer, expected)?;
    if !shown(hub, reference.clock(), offer, expected) {
        return Err(format!("{expected} isn't what lembuya_reserve takes of {offer:?}"));
    }
    count_fit(found, plan, &reference.latest(), offer, expected);
    Ok(())
}

/// The row of an answer, or the change's word.
fn case(fit: Fit) -> String {
    match fit {
        Fit::Answer(_) | Fit::Nothing => fit.to_string(),
        Fit::Packets(_) => "packets".into(),
        Fit::Bits(_) => "bits".into(),
        Fit::Release(_) => "release".into(),
    }
}

/// Counts what an offer was told where these are reserved, and cases in which little decides.
fn count_fit(found: &mut Found, plan: &Plan, latest: &[(u64, u64)], offer: Offer, fit: Fit) {
    found.count("questions");
    found.count(format!("{}, framing {}", case(fit), plan.framing().number()));
    match fit {
        Fit::Bits(512) => found.count("bits 512"),
        Fit::Release(j) => count_release(found, plan, latest, offer, j),
        _ => {}
    }
    if matches!(fit, Fit::Release(_) | Fit::Nothing) && latest[offer.k as usize - 1].0 > 0 {
        found.count(format!("{}, in place of its own", case(fit)));
    }
}

/// Counts where another suffices too: one that has as much, or one that has more, but by n × b less.
fn count_release(found: &mut Found, plan: &Plan, latest: &[(u64, u64)], offer: Offer, j: u64) {
    let load = |&(n, b): &(u64, u64)| n * (b + plan.overhead);
    let named = latest[j as usize - 1];
    let others = (1..).zip(latest).filter(|&(i, _)| i != j && i != offer.k);
    let suffice: Vec<_> =
        others.map(|(_, other)| other).filter(|other| load(other) >= load(&named)).collect();
    if suffice.iter().any(|other| load(other) == load(&named)) {
        found.count("release, a tie");
    }
    if suffice.iter().any(|(n, b)| n * b < named.0 * named.1) {
        found.count("release, another by n × b");
    }
}

/// A plan; mostly D leaves what a few reservations fill.
pub fn any_plan(random: &mut Random) -> Plan {
    if random.chance(80) {
        fit::plan(random)
    } else {
        plans::plan(random)
    }
}

/// Some questions to a hub, mostly behind reserves that fill its frame.
fn questions(plan: &Plan, random: &mut Random, hub: &Hub<Control>) -> Vec<Act> {
    let mut hub = hub.clone();
    let reserves = if random.chance(60) { fit::reserves(random, plan, &hub) } else { Vec::new() };
    for &call in &reserves {
        hub.call(call);
    }
    let count = random.within(1..=4);
    let asked = (0..count).map(|_| Act::Fit(fit::offer_to(random, plan, &hub)));
    reserves.into_iter().map(Act::Call).chain(asked).collect()
}

/// So many random calls, with questions before one in thirty.
pub fn random_acts(plan: &Plan, random: &mut Random, length: usize) -> Vec<Act> {
    among_calls(plan, random, length, |random, hub| {
        if random.chance(3) {
            questions(plan, random, hub)
        } else {
            Vec::new()
        }
    })
}

#[test]
fn fits_among_calls() {
    const LENGTH: usize = 100;
    let cases = setting("LEMBUYA_CALLS", 1_000_000).div_ceil(500);
    let found = on_all(
        0..cases,
        |seed, found| {
            let mut random = Random::new(seed);
            let plan = any_plan(&mut random);
            let acts = random_acts(&plan, &mut random, LENGTH);
            compare(seed, &plan, &acts, found);
        },
        Found::join,
    );
    println!("{found:?}");
    let by_framings = |what: &str| [3, 5].map(|framing| format!("{what}, framing {framing}"));
    for what in ["answer 0", "packets", "bits", "release", "nothing"] {
        found.assert_met(cases / 5, &by_framings(what).each_ref().map(String::as_str));
    }
    for what in ["answer 13", "answer 14", "answer 15"] {
        found.assert_met(cases / 40, &by_framings(what).each_ref().map(String::as_str));
    }
    found.assert_met(cases / 20, &["release, a tie", "release, another by n × b"]);
    found.assert_met(
        cases / 50,
        &["release, in place of its own", "nothing, in place of its own", "bits 512"],
    );
    // As of an offer: no calls leave a clock that is too late, or an instant due before it.
    for row in [11, 12, 16, 17, 18] {
        by_framings(&format!("answer {row}")).iter().for_each(|other| found.assert_unmet(other));
    }
}
