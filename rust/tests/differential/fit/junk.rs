//! What would make an offer fit on tables of any content: the archive tells what another reading of the cells does.

use super::reading::Reading;
use super::{asked, case, tells};
use crate::archive::cells::{cascade, plan};
use crate::archive::{self, on_all, Archive};
use crate::common::Found;
use crate::junk::{any_three, spoiled, JUNKS};
use crate::offers::numbers;
use reference::fit::Fit;
use reference::offers::Offer;
use reference::random::Random;

/// What is answered but 17.
const ROWS: [u32; 6] = [0, 11, 12, 13, 14, 15];

/// Reservations of which many take as much as others, or nothing.
fn any_share(random: &mut Random) -> u32 {
    let n = random.one_of(&[0, 1, 1, 2, 3, 64, 65, 65_535]);
    n * 65_536 + random.one_of(&[0, 0, 1, 512, 1_024, 4_000, 12_000, 36_000, 65_535])
}

/// Puts such reservations into the table, a few or for every node.
fn share_out(random: &mut Random, hub: &mut Archive) {
    let latest = cascade::node(1, cascade::LATEST);
    let nodes = &mut hub.cascade()[latest..latest + cascade::NODE_TABLE];
    if random.chance(70) {
        nodes.fill(0);
    }
    for _ in 0..random.one_of(&[1, 3, 10, 300]) {
        nodes[random.place(cascade::NODE_TABLE)] = any_share(random);
    }
}

/// Puts figures about the limits into the plan's table, and a clock before which nothing can be due.
fn put_figures(random: &mut Random, hub: &mut Archive) {
    let (table, times) = hub.tables();
    table[plan::NODE_COUNT] = random.one_of(&[1, 2, 3, 8, 40, 255, 256, 257, u32::MAX]);
    table[plan::OVERHEAD] = random.one_of(&[0, 0, 1, 1_000, 50_000, u32::MAX]);
    table[plan::INTERRUPT] = random.one_of(&[0, 12_000, 37_000, 4_000_000, u32::MAX]);
    table[plan::FRAMING] = random.one_of(&[3, 5, 5, 0, u32::MAX]);
    times[cascade::CLOCK] = 0;
    times[cascade::CLOCK + cascade::HIGH_HALF] = 0;
}

/// Makes T what leaves a node so much, or a bit less, where a cell can hold it.
fn leave(hub: &mut Archive, random: &mut Random) {
    let reading = Reading::of(hub);
    let k = node(random, &reading);
    let packet = reading.load(1, 512);
    let left = match random.below(6) {
        0 => 0,
        1 => random.below(600).into(),
        2 => packet - 1 + u128::from(random.below(3)),
        3..=4 => packet * u128::from(random.within(1..=20)),
        _ => random.below(3_000_000).into(),
    };
    let frame = (reading.taken(k) + left).saturating_sub(random.below(2).into());
    hub.plan()[plan::FRAME] = frame.try_into().unwrap_or(u32::MAX);
}

/// Tables of random content, mostly with figures and reservations of which every change can come.
fn tables(random: &mut Random) -> Archive {
    let junks = [random.one_of(&JUNKS), random.one_of(&JUNKS)];
    let mut hub = spoiled(random, junks);
    if random.chance(80) {
        put_figures(random, &mut hub);
    }
    if random.chance(80) {
        share_out(random, &mut hub);
    }
    if random.chance(80) {
        leave(&mut hub, random);
    }
    hub
}

/// A node of the table, where it has one.
fn node(random: &mut Random, reading: &Reading) -> u64 {
    random.within_or_end(1..=reading.nodes().max(1))
}

/// So many packets that take about so much each, as far as a length can.
fn of_about(random: &mut Random, reading: &Reading, k: u64, n: u64, each: u128) -> Offer {
    let b = (each + u128::from(random.below(3))).saturating_sub(1 + reading.load(1, 0));
    let longest = random.one_of(&[12_000, 36_000]);
    Offer { k, n, b: b.clamp(512, longest) as u64 }
}

/// An offer that takes about what a node has room for and some other's reservation, or none's.
fn about_the_room(random: &mut Random, reading: &Reading) -> Offer {
    let (k, n) = (node(random, reading), random.within_or_end(1..=64));
    let loads: Vec<u128> = reading.others(k).filter(|other| other.1 > 0).map(|other| other.2).collect();
    let more = if loads.is_empty() || random.chance(40) { 0 } else { random.one_of(&loads) };
    of_about(random, reading, k, n, (reading.room(k) + more) / u128::from(n))
}

/// A few packets, of which one alone takes about what a node has room for, or more: shorter ones may fit.
fn too_long(random: &mut Random, reading: &Reading) -> Offer {
    let (k, n) = (node(random, reading), random.within_or_end(1..=8));
    let more = random.one_of(&[0, 1, 1, 10_000]);
    of_about(random, reading, k, n, reading.room(k) + more)
}

fn any_offer(random: &mut Random, reading: &Reading) -> Offer {
    let k = node(random, reading);
    match random.below(10) {
        0..=2 => about_the_room(random, reading),
        3..=4 => too_long(random, reading),
        5..=6 => Offer { k, n: random.within_or_end(1..=64), b: random.within_or_end(512..=12_000) },
        7 => Offer { k, n: 0, b: 0 },
        8 => Offer { k, n: random.within_or_end(0..=65), b: random.within_or_end(511..=36_001) },
        _ => {
            let [k, n, b] = any_three(random);
            Offer { k, n, b }
        }
    }
}

/// The answer of `lembuya_offers`, or, where that is 17, the change that the other reading finds.
fn expected(hub: &mut Archive, reading: &Reading, offer: Offer) -> Result<Fit, String> {
    let mut answer = [99];
    let (plan, cascade) = hub.tables();
    let number = archive::offers(plan, cascade, &numbers(&[offer]), &mut answer);
    let [answer] = answer;
    if number != 0 || [0, 17].contains(&answer) && reading.fits(offer) != (answer == 0) {
        return Err(format!("lembuya_offers answers {offer:?} {number}, {answer}"));
    }
    Ok(if answer == 17 { reading.change(offer) } else { Fit::Answer(answer.into()) })
}

/// Counts what an offer was told, and what only junk has.
fn count_junk(found: &mut Found, reading: &Reading, offer: Offer, fit: Fit) {
    found.count("questions");
    found.count(case(fit));
    if matches!(fit, Fit::Answer(_)) {
        return;
    }
    if offer.n == 0 {
        found.count(format!("{}, no packet", case(fit)));
    }
    if fit == Fit::Bits(512) {
        found.count("bits 512");
    }
    found.count(format!("{}, {}", case(fit), if reading.overfull(offer.k) { "overfull" } else { "room" }));
    if let Fit::Release(j) = fit {
        count_release(found, reading, offer, j);
    }
}

/// Counts where another way would release another node, or none.
fn count_release(found: &mut Found, reading: &Reading, offer: Offer, j: u64) {
    let others: Vec<_> = reading.others(offer.k).filter(|other| other.1 > 0).collect();
    let load = others.iter().find(|other| other.0 == j).expect("one of them").2;
    if load == 0 {
        found.count("release, of load 0");
    }
    if others.iter().filter(|other| other.2 == load).count() > 1 {
        found.count("release, a tie");
    }
    if !reading.fits_without(offer, load) {
        found.count("release, by the cut alone");
    }
    if reading.load(offer.n.into(), offer.b.into()) == reading.room(offer.k) + load {
        found.count("release, to the bit");
    }
}

/// Some offers to a pair of tables.
fn try_junk(seed: u64, found: &mut Found) -> Result<(), String> {
    let mut random = Random::new(seed);
    let mut hub = tables(&mut random);
    let reading = Reading::of(&mut hub);
    for _ in 0..10 {
        let offer = any_offer(&mut random, &reading);
        let fit = expected(&mut hub, &reading, offer)?;
        tells(&mut hub, offer, fit)?;
        count_junk(found, &reading, offer, fit);
    }
    Ok(())
}

#[test]
fn fits_of_junk_tables() {
    let try_seed = |seed, found: &mut Found| {
        try_junk(seed, found).unwrap_or_else(|what| panic!("seed {seed}: {what}"));
    };
    let found = on_all(0..5_000, try_seed, Found::join);
    println!("{found:?}");
    let answers = ROWS.map(|row| format!("answer {row}"));
    found.assert_met(500, &answers.each_ref().map(String::as_str));
    found.assert_met(500, &["packets", "bits", "release, room", "nothing, room"]);
    found.assert_met(500, &["release, overfull", "nothing, overfull", "release, by the cut alone"]);
    found.assert_met(500, &["release, a tie", "release, to the bit", "release, no packet"]);
    found.assert_met(100, &["nothing, no packet", "release, of load 0", "bits 512"]);
    for other in ["packets, overfull", "bits, overfull"] {
        found.assert_unmet(other);
    }
}

/// Nothing is reserved or given up, not even for a moment: the tables lie where nobody may write.
#[test]
fn fits_of_tables_that_may_only_be_read() {
    const MARK: [u64; 2] = [5; 2];
    let try_seed = |seed, found: &mut Found| {
        let mut random = Random::new(seed);
        let mut hub = tables(&mut random);
        let reading = Reading::of(&mut hub);
        for _ in 0..10 {
            let offer = any_offer(&mut random, &reading);
            // What is written for good fails here, with words; a fault has none.
            let mut expected = MARK;
            let told = asked(&mut hub, offer, &mut expected);
            let told = told.unwrap_or_else(|what| panic!("seed {seed}: {what}"));
            let mut change = MARK;
            let number = hub.sealed(|plan, cascade| archive::fit(plan, cascade, offer, &mut change));
            assert_eq!((number, change), (told, expected), "seed {seed}");
            found.count(if number == 17 {
                format!("change {}", change[0])
            } else {
                format!("answer {number}")
            });
        }
    };
    let found = on_all(0..1_000, try_seed, Found::join);
    println!("{found:?}");
    let answers = ROWS.map(|row| format!("answer {row}"));
    found.assert_met(50, &answers.each_ref().map(String::as_str));
    found.assert_met(50, &["change 1", "change 2", "change 3", "change 4"]);
}
