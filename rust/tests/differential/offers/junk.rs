//! Offers to tables of any content: each is answered as `lembuya_reserve` answers it on a copy at the table's clock.

use super::{alone, asked, count_offers, each_alone, numbers};
use crate::archive::cells::cascade::{time, CLOCK};
use crate::archive::cells::plan;
use crate::archive::{self, on_all, Archive, Fenced};
use crate::common::Found;
use crate::junk::{any_three, spoiled, JUNKS};
use lembuya::ffi::{self, MOST_OFFERS};
use reference::core::LAST_TIME;
use reference::offers::Offer;
use reference::random::{offers, Random};

/// A node of the table, where it has one.
fn node(hub: &mut Archive, random: &mut Random) -> u64 {
    let nodes = hub.plan()[plan::NODE_COUNT];
    random.within_or_end(1..=nodes.clamp(1, 256).into())
}

/// The longest packets of which `lembuya_reserve` takes so many for a node, found by halving, and those that are a bit longer: where a
/// sum over junk is taken another way, these are the first that show it.
fn at_the_turn(hub: &mut Archive, random: &mut Random) -> [Offer; 2] {
    let (k, n) = (node(hub, random), random.within_or_end(1..=64));
    let t = time(hub.cascade(), CLOCK);
    let (mut fits, mut full) = (512, 36_001);
    while full - fits > 1 {
        let b = (fits + full) / 2;
        match alone(hub, t, &Offer { k, n, b }) {
            0 => fits = b,
            _ => full = b,
        }
    }
    [fits, full].map(|b| Offer { k, n, b })
}

/// 0 to 66 offers about the limits.
fn any_offers(hub: &mut Archive, random: &mut Random) -> Vec<Offer> {
    let most = MOST_OFFERS as u64;
    let count = if random.chance(10) { most + random.within(1..=2) } else { random.within_or_end(0..=most) };
    let mut list = Vec::new();
    while list.len() < count as usize {
        let [k, n, b] = any_three(random);
        let known = node(hub, random);
        match random.below(10) {
            0..=1 => list.extend(at_the_turn(hub, random)),
            2..=4 => {
                let (n, b) = (random.within_or_end(0..=65), random.within_or_end(511..=36_001));
                list.push(Offer { k: known, n, b });
            }
            5 => list.push(Offer { k: known, n: 0, b: 0 }),
            6..=7 => list.push(Offer { k: known, n, b }),
            _ => list.push(Offer { k, n, b }),
        }
    }
    list.truncate(count as usize);
    list
}

/// Rows 11, 14 and 15 as the words of the rows are, whatever the tables hold. Only the tables know of the others.
fn by_words(plan: &ffi::Plan, clock: u64, &Offer { n, b, .. }: &Offer, answer: u8) -> bool {
    let longest = unsafe { ffi::lembuya_longest(plan) };
    let lengths = if n == 0 { 0..=0 } else { 512..=longest };
    match answer {
        11 => clock > LAST_TIME,
        12 | 13 => clock <= LAST_TIME,
        14 => clock <= LAST_TIME && n > 64,
        15 => clock <= LAST_TIME && n <= 64 && !lengths.contains(&b),
        0 | 17 => clock <= LAST_TIME && n <= 64 && lengths.contains(&b),
        _ => false,
    }
}

/// Some offers to a pair of tables of random content. A time's row, 11 or 12, is every offer's or none's.
fn try_junk(seed: u64, found: &mut Found) -> Result<(), String> {
    let mut random = Random::new(seed);
    let junks = [random.one_of(&JUNKS), random.one_of(&JUNKS)];
    let mut hub = spoiled(&mut random, junks);
    let clock = time(hub.cascade(), CLOCK);
    let list = any_offers(&mut hub, &mut random);
    let buffer = offers::buffer(&mut random, list.len());
    let (number, answers) = asked(&mut hub, &numbers(&list), &buffer, random.chance(50))?;
    count_offers(found, list.len(), number, &answers);
    let fits = list.len() <= MOST_OFFERS && list.len() <= buffer.len();
    let written = if fits { list.len() } else { 0 };
    if number != if fits { 0 } else { 18 } || answers[written..] != buffer[written..] {
        return Err(format!("{} offers, {buffer:?}: {number}, {answers:?}", list.len()));
    }
    if !fits {
        return Ok(());
    }
    let answers = &answers[..written];
    each_alone(&mut hub, clock, &list, answers).map_err(|what| format!("{junks:?}: {what}"))?;
    let times = answers.iter().filter(|answer| [11, 12].contains(*answer)).count();
    let worded = list.iter().zip(answers).all(|(offer, &answer)| by_words(hub.plan(), clock, offer, answer));
    if ![0, written].contains(&times) || !worded {
        return Err(format!("{junks:?}, clock {clock}, {list:?}: {answers:?} aren't the rows' words"));
    }
    // Of two offers that differ by a bit in a packet the first fits, and the second doesn't.
    let longer = |offer: Offer| Offer { b: offer.b.wrapping_add(1), ..offer };
    let turn = |(two, told): &(&[Offer], &[u8])| longer(two[0]) == two[1] && *told == [0, 17];
    found.add("a bit too much", list.windows(2).zip(answers.windows(2)).filter(turn).count() as u64);
    Ok(())
}

#[test]
fn offers_to_junk_tables() {
    let try_seed = |seed, found: &mut Found| {
        try_junk(seed, found).unwrap_or_else(|what| panic!("seed {seed}: {what}"));
    };
    let found = on_all(0..10_000, try_seed, Found::join);
    println!("{found:?}");
    let answers = [0, 11, 12, 13, 14, 15, 17].map(|row| format!("answer {row}"));
    found.assert_met(1_000, &answers.each_ref().map(String::as_str));
    found.assert_met(200, &["a bit too much"]);
    found.assert_met(200, &["18 by the offers", "18 by the buffer", "no offer", "64 offers", "some offers"]);
}

/// Nothing is reserved, not even for a moment: the tables lie where nobody may write.
#[test]
fn offers_to_tables_that_may_only_be_read() {
    let try_seed = |seed, found: &mut Found| {
        let mut random = Random::new(seed);
        let junks = [random.one_of(&JUNKS), random.one_of(&JUNKS)];
        let mut hub = spoiled(&mut random, junks);
        let list = any_offers(&mut hub, &mut random);
        let mut buffer = vec![99; list.len()];
        // What is written for good fails here, with words; a fault has none.
        let expected = asked(&mut hub, &numbers(&list), &buffer, true);
        let expected = expected.unwrap_or_else(|what| panic!("seed {seed}: {what}"));
        let mut lent = Fenced::new(3 * list.len());
        lent.last(3 * list.len()).copy_from_slice(&numbers(&list));
        lent.seal(true);
        let lent = &*lent.last(3 * list.len());
        let number = hub.sealed(|plan, cascade| archive::offers(plan, cascade, lent, &mut buffer));
        count_offers(found, list.len(), number, &buffer);
        assert_eq!((number, buffer), expected, "seed {seed}");
    };
    let found = on_all(0..1_000, try_seed, Found::join);
    let answers = [0, 11, 12, 13, 14, 15, 17].map(|row| format!("answer {row}"));
    found.assert_met(100, &answers.each_ref().map(String::as_str));
}
