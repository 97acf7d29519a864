//! Waits as a caller meets them: worked texts for each reading of request 1, and the limits of `lembuya waits` on random texts.

use lembuya::{Class, Plan, Step};
use reference::control::Control;
use reference::hub::{Call, Hub};
use reference::plan;
use reference::random::calls::{list, Style};
use reference::random::{plans, texts, Random};
use std::collections::BTreeMap;
use std::io::Write;
use std::process::{Command, Stdio};

/// T, O and D are 100,000, 1,000 and 13,000; three nodes in one hub. From frame 1 on node 2 has one packet of 4,000 bits a frame.
const PLAN: &str = "(frame 100000)\n(overhead 1000)\n(interrupt 13000)\n(hub\n(node)\n(node)\n(node)\n)\n(reserve 0 2 1 4000)\n";
/// Node 1 has the line up to 113,000.
const BUSY: &str = "(normal 100000 1 12000)\n(until 100001)\n";
/// Node 1 has the line from 195,000 up to 208,000, so over the start of frame 2.
const BUSY_OVER: &str = "(normal 195000 1 12000)\n(until 196000)\n";

/// The grants of a text that aren't node 1's: time, node, class and wait, as the crate's calls tell them. The log has the same.
fn grants(events: &str) -> Vec<(u64, u64, Class, u64)> {
    let text = format!("{PLAN}{events}(until 400000)\n");
    let plan = Plan::read(text.as_bytes()).unwrap();
    let (mut hub, mut turns) = (plan.cascade(), Vec::new());
    for line in text[plan.events().at..].lines() {
        let event: lembuya::Call = line.parse().unwrap();
        // A time before the clock makes no step, and the event is refused.
        turns.extend(hub.steps_before(event.time()).filter_map(Result::ok));
        hub.call(event);
    }
    let log = String::from_utf8(lembuya::log(text.as_bytes())).unwrap();
    let lines: Vec<&str> =
        log.lines().filter(|line| line.starts_with("(grant") || line.starts_with("(rest")).collect();
    assert_eq!(turns.iter().map(Step::to_string).collect::<Vec<_>>(), lines, "{text}");
    let grant = |turn: &Step| match *turn {
        Step::Grant { time, node, class, wait, .. } if node != 1 => Some((time, node, class, wait)),
        _ => None,
    };
    turns.iter().filter_map(grant).collect()
}

/// The only grant of the events, which isn't node 1's: its class and its wait.
fn wait(events: &str) -> (Class, u64) {
    let grants = grants(events);
    assert_eq!(grants.len(), 1, "{events}");
    (grants[0].2, grants[0].3)
}

const NORMAL: Class = Class::Normal;
const HIGH: Class = Class::High;

/// Each is granted at 113,000.
#[test]
fn a_replacing_request_of_the_same_class_keeps_the_time() {
    let behind = |events: &str| wait(&format!("{BUSY}{events}"));
    assert_eq!(
        behind("(normal 101000 2 512)\n(normal 105000 2 600)\n(normal 112000 2 512)\n"),
        (NORMAL, 12_000)
    );
    assert_eq!(behind("(high 101000 2 4000)\n(high 105000 2 3000)\n"), (HIGH, 12_000));
    // A high request that is taken as normal over a normal one, and a normal one over it.
    assert_eq!(behind("(normal 101000 3 512)\n(high 105000 3 600)\n"), (NORMAL, 12_000));
    assert_eq!(behind("(high 101000 3 512)\n(normal 105000 3 600)\n"), (NORMAL, 12_000));
}

#[test]
fn a_change_of_class_sets_it_anew() {
    let behind = |events: &str| wait(&format!("{BUSY}{events}"));
    assert_eq!(behind("(normal 101000 2 512)\n(high 105000 2 4000)\n"), (HIGH, 8_000));
    assert_eq!(behind("(high 101000 2 4000)\n(normal 105000 2 512)\n"), (NORMAL, 8_000));
    // There and back again: the first time is forgotten.
    let events = "(normal 101000 2 512)\n(high 105000 2 4000)\n(normal 106000 2 512)\n";
    assert_eq!(behind(events), (NORMAL, 7_000));
}

#[test]
fn behind_an_off_or_a_grant_the_next_request_is_a_new_one() {
    let off = format!("{BUSY}(normal 101000 2 512)\n(off 105000 2)\n(normal 110000 2 512)\n");
    assert_eq!(wait(&off), (NORMAL, 3_000));
    let twice = format!("{BUSY}(normal 101000 2 512)\n(until 113001)\n(normal 114000 2 512)\n");
    assert_eq!(grants(&twice), [(113_000, 2, NORMAL, 12_000), (114_512, 2, NORMAL, 512)]);
}

#[test]
fn a_refused_event_changes_no_time() {
    let refused =
        "(normal 105000 2 511)\n(high 105000 2 4001)\n(normal 100500 2 512)\n(normal 105000 4 512)\n";
    assert_eq!(wait(&format!("{BUSY}(normal 101000 2 512)\n{refused}")), (NORMAL, 12_000));
}

/// Put up at 196,000; its reservation is given up, or too small, from frame 2 on, which starts at 200,000. Granted at 208,000.
#[test]
fn a_request_that_a_frames_start_turns_normal_has_that_start() {
    let turned = |reserve: &str, events: &str| {
        wait(&format!("(reserve 150000 2 {reserve})\n{BUSY_OVER}(high 196000 2 4000)\n{events}"))
    };
    for reserve in ["0 0", "1 3000"] {
        assert_eq!(turned(reserve, ""), (NORMAL, 8_000));
        // Also where a later event meets the start: another's, or one of its own, which finds a normal request.
        assert_eq!(turned(reserve, "(off 204000 3)\n"), (NORMAL, 8_000));
        assert_eq!(turned(reserve, "(normal 204000 2 512)\n"), (NORMAL, 8_000));
    }
    assert_eq!(turned("0 0", "(high 204000 2 4000)\n"), (NORMAL, 8_000)); // taken as normal
    assert_eq!(turned("1 3000", "(high 204000 2 3000)\n"), (HIGH, 4_000));
    // A start that leaves its class as it is leaves its time too.
    assert_eq!(turned("2 4000", ""), (HIGH, 12_000));
}

/// Its one packet of frame 1 is had at 100,000, so that the next request is held from 100,001 to 200,000.
#[test]
fn a_held_request_waits_from_its_put_up() {
    let events = "(high 100000 2 4000)\n(until 100001)\n(high 100001 2 4000)\n";
    assert_eq!(grants(events), [(100_000, 2, HIGH, 0), (200_000, 2, HIGH, 99_999)]);
}

/// The number behind a name in an object of `lembuya waits --json`; none where that is null.
fn field(object: &str, name: &str) -> Option<u64> {
    let behind = object.split_once(&format!("\"{name}\":")).expect(name).1;
    let digits: String = behind.chars().take_while(char::is_ascii_digit).collect();
    digits.parse().ok()
}

fn objects(text: &[u8]) -> String {
    let mut command = Command::new(env!("CARGO_BIN_EXE_lembuya"));
    command.args(["waits", "--json", "-"]).stdin(Stdio::piped()).stdout(Stdio::piped()).stderr(Stdio::null());
    let mut child = command.spawn().unwrap();
    child.stdin.take().unwrap().write_all(text).unwrap();
    String::from_utf8(child.wait_with_output().unwrap().stdout).unwrap()
}

/// A text of events that load a small plan's hub.
fn loaded(seed: u64) -> String {
    let mut random = Random::new(seed);
    let plan = plans::small_plan(&mut random, 10);
    let mut hub = Hub::new(&plan, Control::new(&plan));
    let calls = list(&plan, random.number(), Style::Loaded, 600, &mut hub);
    let events = calls.iter().filter(|(call, _)| !matches!(call, Call::Step { .. }));
    plan::draw(&plan) + &events.map(|(call, _)| texts::line(*call)).collect::<String>()
}

/// What a high row tells of limits: whether the greatest wait has none, and the greatest one that has a limit, with it.
fn limits(row: &str) -> (bool, Option<(u64, u64)>) {
    let limited = row.split_once("\"limited\":").map(|(_, limited)| limited);
    match limited {
        Some(limited) if limited.starts_with("null") => (true, None),
        _ => {
            let row = limited.unwrap_or(row);
            (limited.is_some(), Some((field(row, "greatest").unwrap(), field(row, "limit").unwrap())))
        }
    }
}

/// The start of each row that a log asks for: by node, of a node high before normal, each mean in tenths with a half rounded up.
fn starts(log: &str) -> Vec<String> {
    let mut waits = BTreeMap::<_, Vec<u64>>::new();
    for line in log.lines().filter_map(|line| line.strip_prefix("(grant ")?.strip_suffix(')')) {
        let numbers: Vec<u64> = line.split(' ').map(|number| number.parse().unwrap()).collect();
        waits.entry((numbers[1], numbers[2] == 1)).or_default().push(numbers[5]);
    }
    let start = |(&(node, normal), waits): (&(u64, bool), &Vec<u64>)| {
        let (count, ten) = (waits.len() as u64, 10 * waits.iter().sum::<u64>());
        let tenths = ten / count + u64::from(2 * (ten % count) >= count);
        let class = if normal { "normal" } else { "high" };
        let (mean, greatest) = (format!("{}.{}", tenths / 10, tenths % 10), waits.iter().max().unwrap());
        let which = format!("\"file\":\"-\",\"node\":{node},\"class\":\"{class}\"");
        format!("{{{which},\"grants\":{count},\"mean\":{mean},\"greatest\":{greatest},")
    };
    waits.iter().map(start).collect()
}

/// Node and class, grants, mean and greatest wait of every row are those of the log's own lines.
#[test]
fn each_row_tells_the_logs_grants() {
    let mut rows = 0;
    for seed in 400..500 {
        let text = loaded(seed);
        let (found, log) = (objects(text.as_bytes()), lembuya::log(text.as_bytes()));
        let expected = starts(std::str::from_utf8(&log).unwrap());
        assert_eq!(found.lines().count(), expected.len(), "seed {seed}");
        for (row, start) in found.lines().zip(&expected) {
            assert!(row.starts_with(start), "seed {seed}: {row}, and the log has {start}");
        }
        rows += expected.len();
    }
    assert!(rows > 300, "{rows}");
}

/// Where the summary gives a limit, no wait is above it; and its grants are the log's.
#[test]
fn no_wait_is_above_its_limit() {
    let (mut limited, mut met, mut spent, mut changed) = (0, 0, 0, 0);
    for seed in 0..400 {
        let text = loaded(seed);
        let rows = objects(text.as_bytes());
        let counted: u64 = rows.lines().map(|row| field(row, "grants").unwrap()).sum();
        let log = lembuya::log(text.as_bytes());
        let logged = log.split(|byte| *byte == b'\n').filter(|line| line.starts_with(b"(grant ")).count();
        assert_eq!(counted, logged as u64, "seed {seed}");
        for row in rows.lines().filter(|row| row.contains("\"class\":\"high\"")) {
            let (unlimited, greatest) = limits(row);
            assert_eq!(unlimited, row.contains("\"limit\":null"), "seed {seed}: {row}");
            spent += u64::from(row.contains("\"why\":\"share spent\""));
            changed += u64::from(row.contains("\"why\":\"change\""));
            let Some((greatest, limit)) = greatest else { continue };
            assert!(greatest <= limit, "seed {seed}: {row}");
            limited += 1;
            met += u64::from(2 * greatest > limit);
        }
    }
    println!("{limited} rows with a limit, {met} above half of it; {spent} with a share spent, {changed} over a change");
    assert!(limited > 500 && met > 50 && spent > 50 && changed > 0, "{limited}, {met}, {spent}, {changed}");
}
