//! The lists of calls of another model that have offers: every answer is the one
//! given, and every byte of every buffer.

mod common;

use common::calls::{answer, call, files, numbers, said, Said};
use common::{control, flat};
use reference::core::Turns;
use reference::hub::{Answer, Hub};
use reference::offers::Offer;
use reference::plan::Plan;
use std::path::PathBuf;

/// A byte that is no answer.
const UNTOUCHED: u8 = 0xee;

/// The line `offers L | k n b | ..` behind its word: a buffer of L bytes, and the
/// offers. Some lists say an L that isn't the number of the offers.
fn lent(line: &str) -> (Vec<u8>, Vec<Offer>) {
    let mut parts = line.split('|').map(numbers);
    let [length] = parts.next().unwrap()[..] else { panic!("{line}") };
    let offers = parts.map(|part| {
        let [k, n, b] = part[..] else { panic!("{line}") };
        Offer { k, n, b }
    });
    (vec![UNTOUCHED; length as usize], offers.collect())
}

/// What `0 | a a ..` or 18 says of the answer and of a buffer that was untouched.
fn given(line: &str, mut buffer: Vec<u8>, offers: usize) -> (u32, Vec<u8>) {
    let Some(answers) = line.strip_prefix("0 |").map(numbers) else {
        assert_eq!(line, "18");
        return (18, buffer);
    };
    assert_eq!(answers.len(), offers, "an answer for each offer: {line}");
    for (byte, answer) in buffer.iter_mut().zip(answers) {
        *byte = answer as u8;
    }
    (0, buffer)
}

/// How many calls, offers among them, of a list were compared. A hub without control
/// has no moves.
fn compared<M: Turns + Clone>(
    path: &PathBuf,
    fresh: fn(&Plan) -> Hub<M>,
    known: fn(Answer) -> Answer,
) -> [u64; 3] {
    let (mut hub, mut calls, mut lists, mut answers) = (None, 0, 0, 0);
    for said in said(path) {
        let (line, heard) = match said {
            Said::Plan(plan) => {
                hub = Some(fresh(&plan));
                continue;
            }
            Said::Call(line, heard) => (line, heard),
        };
        let hub = hub.as_mut().expect("a plan before the calls");
        if let Some(offered) = line.strip_prefix("offers ") {
            let (mut buffer, offers) = lent(offered);
            let expected = given(&heard, buffer.clone(), offers.len());
            assert_eq!((hub.offers(&offers, &mut buffer), buffer), expected, "{path:?}: {line}");
            lists += 1;
            answers += if expected.0 == 0 { offers.len() as u64 } else { 0 };
        } else {
            assert_eq!(hub.call(call(&line)), known(answer(&heard)), "{path:?}: {line}");
            calls += 1;
        }
    }
    assert!(lists > 0, "{path:?} has no offers");
    [calls, lists, answers]
}

#[test]
fn every_answer_is_the_one_given() {
    let (mut files_seen, mut seen) = (0, [0; 3]);
    for path in files(&["09"]) {
        let by_control = compared(&path, control, |answer| answer);
        assert_eq!(compared(&path, flat, Answer::without_moves), by_control);
        files_seen += 1;
        for (sum, some) in seen.iter_mut().zip(by_control) {
            *sum += some;
        }
    }
    println!("{files_seen} files; calls, offers and their answers: {seen:?}");
    assert_eq!((files_seen, seen), (11, [364, 85, 295]));
}
