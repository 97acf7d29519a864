//! The random offers do make every answer, and each is the one that the rows give
//! when they are looked up one by one.

mod common;

use common::{control, Found};
use reference::control::Control;
use reference::hub::{Answer, Call, Hub};
use reference::offers::Offer;
use reference::plan::Plan;
use reference::random::calls::{list, Style};
use reference::random::{offers, plans, Random};

/// The latest accepted reservations of a list, n and b; node k at k - 1.
fn latest(plan: &Plan, list: &[(Call, Answer)]) -> Vec<(u64, u64)> {
    let mut latest = vec![(0, 0); plan.nodes];
    for &(call, answer) in list {
        if let (Call::Reserve { k, n, b, .. }, Answer::Taken) = (call, answer) {
            latest[k as usize - 1] = (n, b);
        }
    }
    latest
}

/// D and all reservations with this one in place of its node's old.
fn filled(plan: &Plan, latest: &[(u64, u64)], offer: Offer) -> u64 {
    let mut with = latest.to_vec();
    with[offer.k as usize - 1] = (offer.n, offer.b);
    plan.interrupt + with.iter().map(|(n, b)| n * (b + plan.overhead)).sum::<u64>()
}

/// Rows 13, 14, 15 and 17, the first that refuses.
fn by_rows(plan: &Plan, latest: &[(u64, u64)], offer: Offer) -> u8 {
    let Offer { k, n, b } = offer;
    let lengths = if n == 0 { 0..=0 } else { 512..=plan.longest_packet() };
    if k == 0 || k > plan.nodes as u64 {
        13
    } else if n > 64 {
        14
    } else if !lengths.contains(&b) {
        15
    } else if filled(plan, latest, offer) > plan.frame {
        17
    } else {
        0
    }
}

/// Row 11 or 12, if one of them refuses a time: a copy is asked for a step with that
/// bound, and "quiet means that no instant is due before t".
fn by_time(hub: &Hub<Control>, t: u64) -> Option<u8> {
    match hub.clone().call(Call::Step { t }) {
        Answer::Refused(row) => Some(row as u8),
        Answer::Quiet => None,
        _ => Some(12),
    }
}

/// Counts the answer to an offer, and where it lies close.
fn look_at(plan: &Plan, latest: &[(u64, u64)], offer: Offer, answer: u8, found: &mut Found) {
    let Offer { k, n, b } = offer;
    found.count(format!("answer {answer}"));
    let framing = plan.framing().number();
    if [0, 1, 64, 65].contains(&n) {
        found.count(format!("framing {framing}, n {n}, answer {answer}"));
    }
    if [0, 511, 512, 12_000, 12_001, 36_000, 36_001].contains(&b) {
        found.count(format!("framing {framing}, b {b}, answer {answer}"));
    }
    for (what, number) in [("k", k), ("n", n), ("b", b)] {
        if number > 1 << 31 {
            found.count(format!("huge {what}, answer {answer}"));
        }
    }
    if n == 0 || answer != 0 && answer != 17 {
        return;
    }
    match filled(plan, latest, offer).checked_sub(plan.frame) {
        Some(0) => found.count("fills the frame"),
        Some(1) => found.count("one bit too much"),
        Some(more) if more <= n => found.count("one bit too much in each packet"),
        _ => {}
    }
    if answer == 0 && latest[k as usize - 1].0 > 0 {
        // Whether it would fit behind its node's old one, too.
        let (old_n, old_b) = latest[k as usize - 1];
        let with_both = filled(plan, latest, offer) + old_n * (old_b + plan.overhead);
        found.count(if with_both > plan.frame {
            "fits only in place of its old"
        } else {
            "fits beside its old"
        });
    }
}

/// Offers these and compares every byte.
fn offered(plan: &Plan, hub: &Hub<Control>, latest: &[(u64, u64)], random: &mut Random, found: &mut Found) {
    let offers = offers::list_to(random, plan, hub);
    let mut buffer = offers::buffer(random, offers.len());
    let before = buffer.clone();
    let answer = hub.offers(&offers, &mut buffer);
    if offers.len() > 64 || buffer.len() < offers.len() {
        assert_eq!((answer, &buffer), (18, &before));
        found.count(if offers.len() > 64 { "18 by the offers" } else { "18 by the buffer" });
        return;
    }
    assert_eq!((answer, &buffer[offers.len()..]), (0, &before[offers.len()..]));
    found.count(match offers.len() {
        0 => "no offer",
        64 => "64 offers",
        _ => "some offers",
    });
    for (place, &offer) in offers.iter().enumerate() {
        assert_eq!(buffer[place], by_rows(plan, latest, offer), "{offer:?}");
        look_at(plan, latest, offer, buffer[place], found);
        if offers[..place].iter().any(|earlier| earlier.k == offer.k) {
            found.count("the same node again");
        }
    }
}

/// A hub that took a list of calls, and what it has reserved.
fn used(plan: &Plan, random: &mut Random) -> (Hub<Control>, Vec<(u64, u64)>) {
    let style = if random.chance(50) { Style::Mixed } else { Style::Loaded };
    let (seed, length) = (random.number(), random.place(80));
    let mut hub = control(plan);
    let list = list(plan, seed, style, length, &mut hub);
    (hub, latest(plan, &list))
}

#[test]
fn offers_have_every_answer() {
    let mut found = Found::default();
    for seed in 0..600 {
        let mut random = Random::new(seed);
        let plan = plans::plan(&mut random);
        let (hub, latest) = used(&plan, &mut random);
        let before = format!("{hub:?}");
        for _ in 0..3 {
            offered(&plan, &hub, &latest, &mut random, &mut found);
        }
        assert_eq!(format!("{hub:?}"), before, "nothing is reserved: seed {seed}");
    }
    println!("{found:?}");
    found.assert_met(1_000, &["answer 0", "answer 13", "answer 14", "answer 15", "answer 17"]);
    found.assert_met(30, &["18 by the offers", "18 by the buffer", "no offer", "64 offers"]);
    found.assert_met(200, &["fills the frame", "one bit too much", "one bit too much in each packet"]);
    found.assert_met(200, &["fits only in place of its old", "fits beside its old", "the same node again"]);
    found.assert_met(100, &["huge k, answer 13", "huge n, answer 14", "huge b, answer 15"]);
    let limits =
        [(3, 12_000, 0), (3, 12_001, 15), (3, 36_000, 15), (5, 12_001, 0), (5, 36_000, 0), (5, 36_001, 15)];
    for (number, b, answer) in limits {
        found.assert_met(50, &[&format!("framing {number}, b {b}, answer {answer}")]);
    }
    for (n, answer) in [(0, 0), (0, 15), (1, 0), (1, 17), (64, 0), (64, 17), (65, 14)] {
        found.assert_met(50, &[&format!("framing 3, n {n}, answer {answer}")]);
    }
    for answer in ["11", "12", "16", "18"] {
        found.assert_unmet(&format!("answer {answer}"));
    }
}

/// Those made without a hub meet the limits of one before any event.
#[test]
fn offers_to_a_fresh_hub_have_every_answer() {
    let mut found = Found::default();
    for seed in 0..300 {
        let mut random = Random::new(seed);
        let plan = plans::plan(&mut random);
        let offers = offers::list(&mut random, &plan);
        let mut buffer = vec![0xee; offers.len()];
        found.count(format!("all {}", control(&plan).offers(&offers, &mut buffer)));
        for answer in buffer {
            found.count(format!("answer {answer}"));
        }
    }
    found.assert_met(100, &["answer 0", "answer 13", "answer 14", "answer 15", "answer 17", "all 0"]);
    found.assert_met(5, &["all 18"]);
}

/// A time of any kind: 11 or 12 for all offers, or the rows of each.
#[test]
fn offers_at_a_time_have_every_answer() {
    let mut found = Found::default();
    for seed in 0..300 {
        let mut random = Random::new(seed);
        let plan = plans::plan(&mut random);
        let (hub, latest) = used(&plan, &mut random);
        let ahead = random.one_of(&[0, 1, 20_000, plan.frame, 1 << 60]);
        let t = if random.chance(15) { random.below(hub.clock() + 1) } else { hub.clock() + ahead };
        let mut offers = offers::list_to(&mut random, &plan, &hub);
        offers.truncate(64);
        let mut buffer = vec![0xee; offers.len()];
        assert_eq!(hub.offers_at(t, &offers, &mut buffer), 0);
        for (&offer, answer) in offers.iter().zip(buffer) {
            let expected = by_time(&hub, t).unwrap_or_else(|| by_rows(&plan, &latest, offer));
            assert_eq!(answer, expected, "seed {seed}, {t}: {offer:?}");
            found.count(format!("answer {answer}"));
        }
    }
    let rows = ["11", "12", "13", "14", "15", "17", "0"].map(|row| format!("answer {row}"));
    found.assert_met(100, &rows.each_ref().map(String::as_str));
}
