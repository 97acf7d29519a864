//! Lists of calls, one by one and through `lembuya_list`.

use crate::archive::{self, answer, five, on_all, setting, Archive, Fenced};
use crate::common::{control, Found, Shares};
use crate::{cut_down, FILL_CELL};
use lembuya::ffi;
use reference::fast::Fast;
use reference::flat::Flat;
use reference::hub::{Answer, Call, Hub};
use reference::peer::Peer;
use reference::plan::{self, Plan};
use reference::random::calls::{list, Style};
use reference::random::{plans, texts, Random};

/// A call's line.
pub fn line(call: Call) -> String {
    match call {
        Call::Step { t } => format!("(step {t})\n"),
        event => texts::line(event),
    }
}

/// The word and the numbers of a line; none where it has others.
pub fn words(line: &str) -> Option<(&str, Vec<u64>)> {
    let mut words = line.strip_prefix('(')?.strip_suffix(')')?.split(' ');
    let word = words.next()?;
    Some((word, words.map(|number| number.parse().ok()).collect::<Option<_>>()?))
}

/// The call of a line's word and numbers; none where they are no call's.
pub fn call_of(word: &str, numbers: &[u64]) -> Option<Call> {
    match (word, numbers) {
        ("normal", &[t, k, b]) => Some(Call::Normal { t, k, b }),
        ("high", &[t, k, b]) => Some(Call::High { t, k, b }),
        ("off", &[t, k]) => Some(Call::Off { t, k }),
        ("reserve", &[t, k, n, b]) => Some(Call::Reserve { t, k, n, b }),
        ("until", &[t]) => Some(Call::Until { t }),
        ("step", &[t]) => Some(Call::Step { t }),
        _ => None,
    }
}

/// A list as text, to cut it down: the plan's lines, then one line a call.
fn list_text(plan: &Plan, calls: impl IntoIterator<Item = Call>) -> Vec<u8> {
    let lines: String = calls.into_iter().map(line).collect();
    (plan::draw(plan) + &lines).into_bytes()
}

/// The plan and the calls of such a text; none where it isn't one.
fn list_of(text: &[u8]) -> Option<(Plan, Vec<Call>)> {
    let taken = plan::read(text).ok()?;
    let mut lines = std::str::from_utf8(&text[taken.at..]).ok()?.lines();
    let calls = lines.try_fold(Vec::new(), |mut calls, line| {
        let (word, numbers) = words(line)?;
        calls.push(call_of(word, &numbers)?);
        Some(calls)
    });
    Some((taken.plan, calls?))
}

/// Whether every hub's answers are those of the reference's control; if not, where they differ.
fn same_answers(plan: &Plan, list: &[(Call, Answer)]) -> Result<(), String> {
    let (mut flat, mut fast) = (Hub::new(plan, Flat::new(plan)), Fast::new(plan));
    let mut peer = Peer::new(plan);
    let mut hub = Archive::blank(FILL_CELL, list.len().is_multiple_of(2));
    hub.begin(plan);
    let table = *hub.plan();
    let most_moves = 4 * (plan.levels() as u64 - 1);
    for (place, &(call, expected)) in list.iter().enumerate() {
        let before = *hub.cascade();
        let seven = hub.seven(call);
        let found = answer(call, seven);
        let wrong = |what: &str| {
            Err(format!(
                "{what} at call {place}: {call:?}\nreference: {expected:?}\narchive: {found:?}, {seven:?}"
            ))
        };
        if found != Some(expected) {
            return wrong("the answers differ");
        }
        if matches!(expected, Answer::Refused(_) | Answer::Quiet) && before != *hub.cascade() {
            return wrong("a refusal or a quiet step changed the table");
        }
        if expected.moves() > most_moves {
            return wrong("too many moves");
        }
        let peer = peer.call(call);
        if found != Some(peer) {
            return wrong(&format!("peer {peer:?}"));
        }
        let (flat, fast) = (flat.call(call), fast.call(call));
        if flat != expected.without_moves() || fast != expected.without_moves() {
            return wrong(&format!("flat {flat:?}, fast {fast:?}"));
        }
    }
    if *hub.plan() != table {
        return Err("the plan's table was changed".into());
    }
    through_list(plan, list, hub.cascade())
}

/// The same through `lembuya_list`, in parts of several lengths.
fn through_list(plan: &Plan, list: &[(Call, Answer)], left: &ffi::Cascade) -> Result<(), String> {
    let mut random = Random::new(list.len() as u64);
    let mut hub = Archive::new(plan);
    let mut rest = list;
    while !rest.is_empty() {
        let length = random.within_or_end(1..=rest.len() as u64) as usize;
        let (part, behind) = rest.split_at(length);
        let mut calls = Fenced::new(length * 5);
        let calls = calls.last(length * 5);
        for (five_numbers, &(call, _)) in calls.chunks_exact_mut(5).zip(part) {
            five_numbers.copy_from_slice(&five(call, || random.number()));
        }
        let spare = random.place(8);
        let mut answers = Fenced::new(length * 7 + spare);
        let answers = answers.last(length * 7 + spare);
        answers.fill(u64::MAX);
        let (plan_table, cascade) = hub.tables();
        let number = archive::list(plan_table, cascade, calls, answers);
        if number != 0 {
            return Err(format!("lembuya_list answers {number}"));
        }
        for (place, (seven, &(call, expected))) in answers.chunks_exact(7).zip(part).enumerate() {
            if answer(call, seven.try_into().unwrap()) != Some(expected) {
                let place = list.len() - rest.len() + place;
                return Err(format!(
                    "in a list, at call {place}: {call:?}\nreference: {expected:?}\narchive: {seven:?}"
                ));
            }
        }
        if answers[length * 7..].iter().any(|&number| number != u64::MAX) {
            return Err("a number behind the answers was changed".into());
        }
        rest = behind;
    }
    if hub.cascade() != left {
        return Err("the list leaves another table than the single calls".into());
    }
    Ok(())
}

fn answered(plan: &Plan, calls: Vec<Call>) -> Vec<(Call, Answer)> {
    let mut hub = control(plan);
    calls.into_iter().map(|call| (call, hub.call(call))).collect()
}

/// Fails with a plan and a list cut down.
fn show_list(seed: u64, plan: &Plan, list: &[(Call, Answer)]) -> ! {
    let same = |text: &[u8]| match list_of(text) {
        Some((plan, calls)) => {
            let list = answered(&plan, calls);
            same_answers(&plan, &list)
        }
        None => Ok(()),
    };
    let text = list_text(plan, list.iter().map(|&(call, _)| call));
    let short = cut_down(&text, |text| same(text).is_err());
    panic!("seed {seed}: {}\n{}", same(&short).unwrap_err(), String::from_utf8_lossy(&short))
}

fn count_answer(found: &mut Found, plan: &Plan, answer: &Answer) {
    match answer {
        Answer::Refused(row) => found.count(format!("row {row}")),
        Answer::Grant { class, .. } => found.count(format!("grant {class:?}")),
        Answer::Taken => found.count("taken"),
        Answer::Rest { .. } => found.count("rest"),
        Answer::Quiet => found.count("quiet"),
    }
    if matches!(answer, Answer::Grant { time, end, .. } if end - time > plan.overhead + 12_000) {
        found.count("grant by framing 5 alone");
    }
    if answer.moves() >= 12 {
        found.count("12 moves or more");
    }
    match answer.wait() {
        None => {}
        Some(0) => found.count("wait 0"),
        Some(wait) if wait > plan.frame => found.count("wait above a frame"),
        Some(_) => found.count("wait above 0"),
    }
}

/// High requests by what was in force at their time, where no row before 16 refused them.
fn count_high(found: &mut Found, plan: &Plan, list: &[(Call, Answer)]) {
    let mut shares = Shares::new(plan);
    let strict = if plan.strict { "strict" } else { "default" };
    for &(call, answer) in list {
        if let (Call::High { t, k, .. }, Answer::Taken | Answer::Refused(16)) = (call, answer) {
            let reserved = if shares.at(t, k).0 == 0 { "unreserved" } else { "reserved" };
            let taken = if answer == Answer::Taken { "taken" } else { "refused" };
            found.count(format!("{strict}, {reserved}: {taken}"));
        }
        shares.hear(call, answer);
    }
}

#[test]
fn lists_of_calls() {
    const LENGTH: usize = 500;
    let calls = setting("LEMBUYA_CALLS", 1_000_000);
    let found = on_all(
        0..calls.div_ceil(LENGTH as u64),
        |seed, found| {
            let mut random = Random::new(seed);
            let plan = plans::plan(&mut random);
            let style = if random.chance(60) { Style::Mixed } else { Style::Loaded };
            let list = list(&plan, random.number(), style, LENGTH, &mut control(&plan));
            if same_answers(&plan, &list).is_err() {
                show_list(seed, &plan, &list);
            }
            found.add("calls", LENGTH as u64);
            list.iter().for_each(|(_, answer)| count_answer(found, &plan, answer));
            count_high(found, &plan, &list);
        },
        Found::join,
    );
    println!("{found:?}");
    let least = calls / 1_000;
    found.assert_met(least, &["row 11", "row 12", "row 13", "row 14", "row 15", "row 16", "row 17", "taken"]);
    found.assert_met(least, &["grant Normal", "grant High", "grant by framing 5 alone", "rest", "quiet"]);
    found.assert_met(calls / 100_000, &["12 moves or more", "wait above a frame"]);
    found.assert_met(least, &["wait 0", "wait above 0"]);
    found.assert_met(least, &["strict, unreserved: refused", "default, unreserved: taken"]);
    found.assert_met(least, &["strict, reserved: taken", "default, reserved: taken"]);
    found.assert_met(least, &["strict, reserved: refused", "default, reserved: refused"]);
    for other in ["strict, unreserved: taken", "default, unreserved: refused"] {
        found.assert_unmet(other);
    }
}

#[test]
fn a_list_survives_being_text() {
    let plan = plans::plan(&mut Random::new(3));
    let calls: Vec<Call> =
        list(&plan, 3, Style::Mixed, 300, &mut control(&plan)).iter().map(|&(call, _)| call).collect();
    assert_eq!(list_of(&list_text(&plan, calls.clone())), Some((plan, calls)));
}
