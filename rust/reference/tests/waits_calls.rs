//! The lists of calls of another model that have waits and no call that the hubs
//! lack, but for those that change nothing here: offers, fits, prices and bills.

mod common;

use common::calls::{answer, call, files, said, Said};
use common::hubs;
use reference::hub::{Answer, Call};
use reference::plan::Plan;
use std::path::PathBuf;

fn changes_nothing(line: &str) -> bool {
    ["offers ", "fit ", "price ", "bill "].iter().any(|word| line.starts_with(word))
}

/// The plan of a file and its list of calls and answers.
fn list(path: &PathBuf) -> (Plan, Vec<(Call, Answer)>) {
    let (mut plan, mut list) = (None, Vec::new());
    for said in said(path) {
        match said {
            Said::Plan(only) => assert_eq!(plan.replace(only), None, "{path:?} has one plan"),
            Said::Call(line, heard) if !changes_nothing(&line) => list.push((call(&line), answer(&heard))),
            Said::Call(..) => {}
        }
    }
    (plan.expect("a plan"), list)
}

#[test]
fn every_answer_is_the_one_given() {
    let (mut lists, mut grants, mut waited) = (0, 0, 0);
    for path in files(&["09", "10", "12"]) {
        let (plan, list) = list(&path);
        for (which, hub) in hubs(&plan).iter_mut().enumerate() {
            for (place, &(call, answer)) in list.iter().enumerate() {
                let expected = if which < 2 { answer } else { answer.without_moves() };
                assert_eq!(hub.call(call), expected, "{path:?}, hub {which}, call {place}: {call:?}");
            }
        }
        lists += 1;
        grants += list.iter().filter(|(_, answer)| answer.wait().is_some()).count();
        waited += list.iter().filter(|(_, answer)| answer.wait().is_some_and(|wait| wait > 0)).count();
    }
    println!("{lists} lists, {grants} grants, {waited} waited");
    assert_eq!((lists, grants, waited), (34, 339, 90));
}
