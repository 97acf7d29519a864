//! What is done with a hub: calls, and among them questions, which no call behind them knows of.

mod text;

use crate::archive::{answer, Archive};
use crate::common::{control, Found};
use crate::{cut_down, fit, offers, FILL_CELL};
use reference::control::Control;
use reference::hub::{Call, Hub};
use reference::offers::Offer;
use reference::plan::Plan;
use reference::random::calls::{Caller, Style};
use reference::random::{plans, Random};

/// What is done with a hub.
#[derive(Clone, Debug, PartialEq)]
pub enum Act {
    Call(Call),
    /// Offers, and the buffer lent for their answers.
    Offers(Vec<Offer>, Vec<u8>),
    /// What would make an offer fit.
    Fit(Offer),
}

/// So many random calls, and before each of them what is done with the reference's hub of that place.
pub fn among_calls(
    plan: &Plan,
    random: &mut Random,
    length: usize,
    before: impl Fn(&mut Random, &Hub<Control>) -> Vec<Act>,
) -> Vec<Act> {
    let style = if random.chance(60) { Style::Mixed } else { Style::Loaded };
    let (mut caller, mut hub) = (Caller::new(plan, random.number(), style), control(plan));
    let mut acts = Vec::new();
    for _ in 0..length {
        let done = acts.len();
        acts.extend(before(random, &hub));
        for call in calls(&acts[done..]) {
            caller.hear(call, hub.call(call));
        }
        let call = caller.next_call();
        caller.hear(call, hub.call(call));
        acts.push(Act::Call(call));
    }
    acts
}

/// The calls among these acts.
fn calls(acts: &[Act]) -> impl Iterator<Item = Call> + '_ {
    acts.iter().filter_map(|act| if let &Act::Call(call) = act { Some(call) } else { None })
}

/// Whether a hub answers all as the reference does, and its table is that of one of which only the calls are made; if not, where it
/// differs. It counts what is asked.
fn same_acts(plan: &Plan, acts: &[Act], found: &mut Found) -> Result<(), String> {
    let (mut reference, mut unasked) = (control(plan), Archive::new(plan));
    let mut hub = Archive::blank(FILL_CELL, acts.len().is_multiple_of(2));
    hub.begin(plan);
    for (place, act) in acts.iter().enumerate() {
        let told = match act {
            Act::Offers(offers, buffer) => offers::same_offers(&reference, &mut hub, offers, buffer, found),
            &Act::Fit(offer) => fit::same_fit(plan, &reference, &mut hub, offer, found),
            &Act::Call(call) => {
                let (expected, seven) = (reference.call(call), hub.seven(call));
                let same = answer(call, seven) == Some(expected) && unasked.seven(call) == seven;
                let differ = || format!("the answers differ\nreference: {expected:?}\narchive: {seven:?}");
                same.then_some(()).ok_or_else(differ)
            }
        };
        told.map_err(|what| format!("at act {place}, {act:?}: {what}"))?;
        if hub.tables() != unasked.tables() {
            return Err(format!("at act {place}, {act:?}: the table isn't that of a hub without questions"));
        }
        found.count(match act {
            Act::Call(_) => "calls".into(),
            _ => format!("framing {}", plan.framing().number()),
        });
    }
    Ok(())
}

/// Does all with a hub of the archive, counts what is asked, and fails where it differs from the reference, with a plan and acts cut
/// down.
pub fn compare(seed: u64, plan: &Plan, acts: &[Act], found: &mut Found) {
    if same_acts(plan, acts, found).is_ok() {
        return;
    }
    let same = |text: &[u8]| {
        text::acts_of(text).map_or(Ok(()), |(plan, acts)| same_acts(&plan, &acts, &mut Found::default()))
    };
    let short = cut_down(&text::acts_text(plan, acts), |text| same(text).is_err());
    panic!("seed {seed}: {}\n{}", same(&short).unwrap_err(), String::from_utf8_lossy(&short))
}

#[test]
fn acts_survive_being_text() {
    let mut random = Random::new(4);
    let plan = plans::plan(&mut random);
    let mut acts = offers::random_acts(&plan, &mut random, 300);
    acts.extend([Act::Offers(vec![], vec![]), Act::Offers(vec![Offer { k: 1, n: 0, b: 0 }], vec![])]);
    assert_eq!(text::acts_of(&text::acts_text(&plan, &acts)), Some((plan, acts)));
}

#[test]
fn acts_with_fits_survive_being_text() {
    let mut random = Random::new(4);
    let plan = fit::any_plan(&mut random);
    let acts = fit::random_acts(&plan, &mut random, 300);
    assert_eq!(text::acts_of(&text::acts_text(&plan, &acts)), Some((plan, acts)));
}
