//! All pairs of text and log, byte for byte.

mod common;

use common::{by_default, control, texts, texts_by, texts_now, vectors, without_waits};
use reference::control::{Control, Turning};
use reference::hub::Hub;
use reference::log::{log, log_of};
use reference::peer;
use reference::plan::Plan;
use reference::waits::Told;
use std::path::PathBuf;

/// So many texts have the logs that stand beside them.
fn logs_are_given(texts: Vec<PathBuf>, count: usize, log: impl Fn(&[u8]) -> Vec<u8>) {
    let given = |path: &PathBuf| std::fs::read(path.with_extension("log")).unwrap();
    let wrong = texts.iter().filter(|&path| log(&std::fs::read(path).unwrap()) != given(path));
    assert_eq!(wrong.collect::<Vec<_>>(), Vec::<&PathBuf>::new());
    assert_eq!(texts.len(), count);
}

#[test]
fn every_log_is_the_one_given() {
    logs_are_given(texts_now(), 117, log);
    logs_are_given(texts_now(), 117, peer::log::log);
    logs_are_given(texts_now(), 117, |text| log_of(text, |plan| Told::new(plan, control(plan))));
}

/// Slip 1: "Grants and moves are unaffected." Without waits every log is the one
/// given before that slip.
#[test]
fn every_log_without_waits_is_the_one_given_before() {
    logs_are_given(texts_by(|number| number != "1"), 116, |text| without_waits(&log(text)));
}

/// All of its texts but one stood before as they are now.
#[test]
fn the_texts_of_slip_1_are_the_earlier_ones() {
    let read = |path: &PathBuf| std::fs::read(path).unwrap();
    let mut same = 0;
    for path in texts_by(|number| number != "1") {
        let now = vectors().join("after-1").join(path.file_name().unwrap());
        assert!(read(&now) == read(&path), "{now:?}");
        same += 1;
    }
    assert_eq!((same, texts(&vectors().join("after-1")).len()), (116, 117));
}

/// Strict, by document 01's own rule 2 and without waits every log is the one given
/// before slips 4, 8 and 1.
#[test]
fn every_log_by_the_root_is_the_one_given_before() {
    let by_root = |text: &[u8]| {
        without_waits(&log_of(text, |plan| {
            let plan = Plan { strict: true, ..plan.clone() };
            Hub::new(&plan, Control::turning(&plan, Turning::Root))
        }))
    };
    logs_are_given(texts(&vectors()), 53, by_root);
}

/// "NAME-default is NAME without the line": the pairs of slip 8, of which all but
/// one have logs that differ in more than what is refused.
#[test]
fn a_default_text_is_the_other_without_the_line() {
    let (mut pairs, mut differ) = (0, 0);
    for path in texts(&vectors().join("after-8")) {
        let name = path.file_stem().unwrap().to_str().unwrap();
        let Some(strict) = name.strip_suffix("-default") else { continue };
        let strict = path.with_file_name(strict).with_extension("text");
        let read = |path: &PathBuf| std::fs::read_to_string(path).unwrap();
        assert_eq!(read(&path), by_default(&read(&strict)), "{name}");
        let grants = |path: &PathBuf| {
            let log = read(&path.with_extension("log"));
            log.lines().filter(|line| !line.starts_with("(refused")).map(str::to_string).collect::<Vec<_>>()
        };
        pairs += 1;
        differ += u64::from(grants(&path) != grants(&strict));
    }
    assert_eq!((pairs, differ), (20, 19));
}
