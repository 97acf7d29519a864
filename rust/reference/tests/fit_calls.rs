//! The lists of calls of another model that ask what would make an offer fit: every
//! answer is the one given.

mod common;

use common::calls::{answer, call, files, numbers, said, Said};
use common::{control, flat, Found};
use reference::core::Turns;
use reference::hub::{Answer, Hub};
use reference::offers::Offer;
use reference::plan::Plan;
use std::path::PathBuf;

/// The line `fit k n b` behind its word.
fn asked(line: &str) -> Offer {
    let [k, n, b] = numbers(line)[..] else { panic!("{line}") };
    Offer { k, n, b }
}

/// What was compared of a list: its calls, and the kinds of its fits' answers. A hub
/// without control has no moves.
fn compared<M: Turns + Clone>(
    path: &PathBuf,
    fresh: fn(&Plan) -> Hub<M>,
    known: fn(Answer) -> Answer,
) -> Found {
    let (mut hub, mut found) = (None, Found::default());
    for said in said(path) {
        let (line, heard) = match said {
            Said::Plan(plan) => {
                hub = Some(fresh(&plan));
                continue;
            }
            Said::Call(line, heard) => (line, heard),
        };
        let hub = hub.as_mut().expect("a plan before the calls");
        if let Some(offer) = line.strip_prefix("fit ").map(asked) {
            assert_eq!(hub.fit(offer).to_string(), heard, "{path:?}: {line}");
            found.count("fits");
            found.count(heard.split(' ').next().unwrap());
        } else {
            assert_eq!(hub.call(call(&line)), known(answer(&heard)), "{path:?}: {line}");
            found.count("other calls");
        }
    }
    found.assert_met(1, &["fits"]);
    found
}

#[test]
fn every_answer_is_the_one_given() {
    let (mut files_seen, mut found) = (0, Found::default());
    for path in files(&["10"]) {
        let by_control = compared(&path, control, |answer| answer);
        assert_eq!(compared(&path, flat, Answer::without_moves).0, by_control.0);
        files_seen += 1;
        found.join(by_control);
    }
    println!("{files_seen} files: {found:?}");
    let counts = ["other calls", "fits", "answer", "packets", "bits", "release", "nothing"];
    let seen = counts.map(|what| found.0[what]);
    assert_eq!((files_seen, seen), (12, [513, 389, 284, 59, 8, 22, 16]));
}
