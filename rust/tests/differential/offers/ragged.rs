//! Numbers that end within an offer, and more offers than are answered, on real tables and on tables of any content.

use super::{asked, numbers};
use crate::archive::{on_all, Archive};
use crate::common::{control, Found};
use crate::junk::{spoiled, JUNKS};
use crate::FILL;
use lembuya::ffi::MOST_OFFERS;
use reference::plan::Plan;
use reference::random::calls::{list, Style};
use reference::random::{offers, plans, Random};

/// A plan's hub after some calls, or tables of any content in its place.
fn any_hub(plan: &Plan, random: &mut Random) -> Archive {
    if random.chance(50) {
        let junks = [random.one_of(&JUNKS), random.one_of(&JUNKS)];
        return spoiled(random, junks);
    }
    let mut hub = Archive::new(plan);
    let length = random.place(100);
    list(plan, random.number(), Style::Loaded, length, &mut hub);
    hub
}

/// The archive answers this number, and writes nothing.
fn nothing_written(hub: &mut Archive, numbers: &[u64], buffer: &[u8], expected: u32) -> Result<(), String> {
    for last in [true, false] {
        let found = asked(hub, numbers, buffer, last)?;
        if found != (expected, buffer.to_vec()) {
            return Err(format!("{numbers:?} into {buffer:?}, {expected} expected: {found:?}"));
        }
    }
    Ok(())
}

/// A list that ends one or two numbers behind an offer's last: 1, however many offers there are, and however short the buffer.
fn try_ragged(seed: u64, found: &mut Found) -> Result<(), String> {
    let mut random = Random::new(seed);
    let plan = plans::plan(&mut random);
    let mut hub = any_hub(&plan, &mut random);
    let list = offers::list_to(&mut random, &plan, &control(&plan));
    let mut ragged = numbers(&list);
    for _ in 0..random.within(1..=2) {
        ragged.push(random.one_of(&[0, 1, 512, u64::MAX]));
    }
    let buffer = if random.chance(20) { vec![] } else { offers::buffer(&mut random, list.len()) };
    nothing_written(&mut hub, &ragged, &buffer, 1)?;
    found.count(match (list.len(), buffer.len()) {
        (offers, _) if offers > MOST_OFFERS => "1, and more than 64",
        (offers, bytes) if bytes < offers => "1, and too short",
        (0, _) => "1, and no whole offer",
        _ => "1 alone",
    });
    Ok(())
}

#[test]
fn numbers_that_end_within_an_offer() {
    let try_seed = |seed, found: &mut Found| {
        try_ragged(seed, found).unwrap_or_else(|what| panic!("seed {seed}: {what}"));
    };
    let found = on_all(0..4_000, try_seed, Found::join);
    println!("{found:?}");
    found.assert_met(50, &["1, and more than 64", "1, and too short", "1, and no whole offer", "1 alone"]);
}

/// Every length up to some hundred numbers: 1 where it ends within an offer, else 18 where there are too many or the buffer is short.
#[test]
fn every_length_of_both() {
    let mut hub = Archive::new(&plans::plan(&mut Random::new(6)));
    let all = [1, 0, 0].repeat(100);
    let mut met = Found::default();
    for length in 0..=all.len() {
        let count = length / 3;
        for bytes in [0, 1, count.saturating_sub(1), count, count + 1, 63, 64, 65, 300] {
            let expected = match length {
                ragged if !ragged.is_multiple_of(3) => 1,
                _ if count > MOST_OFFERS || bytes < count => 18,
                _ => 0,
            };
            let found = asked(&mut hub, &all[..length], &vec![FILL; bytes], bytes.is_multiple_of(2)).unwrap();
            let written = if expected == 0 { count } else { 0 };
            let left = [vec![0; written], vec![FILL; bytes - written]].concat();
            assert_eq!(found, (expected, left), "{length} numbers, {bytes} bytes");
            met.count(expected.to_string());
        }
    }
    met.assert_met(200, &["0", "1", "18"]);
}

/// Far more offers than are answered, in numbers that mustn't be taken for fewer.
#[test]
fn thousands_of_offers() {
    let mut hub = Archive::new(&plans::plan(&mut Random::new(6)));
    for count in [256, 257, 1_000, 21_845, 21_846, 65_536, 65_537, 65_600] {
        let numbers = [1, 0, 0].repeat(count);
        for bytes in [0, 1, 64, count] {
            nothing_written(&mut hub, &numbers, &vec![FILL; bytes], 18).unwrap();
            nothing_written(&mut hub, &numbers[1..], &vec![FILL; bytes], 1).unwrap();
        }
    }
}
