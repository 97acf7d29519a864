//! Slip 1 of document 02, "Log by waiting time", by worked cases.

mod common;

use common::{by_default, flat, framed, hubs, logged, numbers, plan, PLAN};
use reference::core::Class;
use reference::hub::Answer::{self, Refused, Rest, Taken};
use reference::hub::Call::{self, High, Normal, Off, Reserve, Step, Until};
use reference::log::log;
use reference::peer;
use reference::plan::{Framing, Plan};
use reference::waits::Told;

const ALL: Call = Step { t: 1_000_000_000_000_000 };

/// Calls and their answers.
type Table = [(Call, Answer)];

/// The moves aren't looked at here.
fn grant(time: u64, node: u64, class: u64, end: u64, wait: u64) -> Answer {
    let class = if class == 1 { Class::Normal } else { Class::High };
    Answer::Grant { time, node, class, end, moves: 0, wait }
}

/// These calls get these answers of each hub, and by calls and answers alone.
fn trial(plan: &Plan, tables: &[&Table]) {
    let told = Told::new(plan, flat(plan));
    for (which, hub) in hubs(plan).iter_mut().chain([&mut (Box::new(told) as _)]).enumerate() {
        for (place, &(call, answer)) in tables.concat().iter().enumerate() {
            let strict = plan.strict;
            let said = hub.call(call).without_moves();
            assert_eq!(said, answer, "hub {which}, strict {strict}, call {place}: {call:?}");
        }
    }
}

fn trial_of_both(plan: &Plan, tables: &[&Table]) {
    for strict in [true, false] {
        trial(&Plan { strict, ..plan.clone() }, tables);
    }
}

fn normal(t: u64, k: u64, b: u64) -> (Call, Answer) {
    (Normal { t, k, b }, Taken)
}

fn high(t: u64, k: u64, b: u64) -> (Call, Answer) {
    (High { t, k, b }, Taken)
}

fn reserve(t: u64, k: u64, n: u64, b: u64) -> (Call, Answer) {
    (Reserve { t, k, n, b }, Taken)
}

/// Node 1's packet of 12,000 bits makes the line busy for 13,000.
fn busy(t: u64) -> [(Call, Answer); 2] {
    [normal(t, 1, 12_000), (ALL, grant(t, 1, 1, t + 13_000, 0))]
}

/// "0, 13000, 0, 12000 and 17000 in document 01's log."
#[test]
fn the_log_of_document_01() {
    let events = "(reserve 0 3 2 4000)\n(normal 0 1 12000)\n(normal 0 4 6000)\n(high 0 3 4000)\n\
        (normal 99000 2 12000)\n(high 100000 3 4000)\n(normal 100000 1 1000)\n(until 200000)\n";
    let text = format!("{PLAN}{events}");
    let expected = "(nodes 4 hubs 2)\n(refused 16 16)\n(grant 0 1 1 13000 0 0)\n\
        (grant 13000 4 1 20000 0 13000)\n(rest 20000 0)\n(grant 99000 2 1 112000 1 0)\n\
        (grant 112000 3 2 117000 2 12000)\n(grant 117000 1 1 119000 1 17000)\n(rest 119000 0)\n";
    logged(&text, expected);
    for log in [log(text.as_bytes()), peer::log::log(text.as_bytes())] {
        let log = String::from_utf8(log).unwrap();
        let grants = log.lines().filter_map(|line| numbers(line, "(grant "));
        assert_eq!(grants.map(|grant| grant[5]).collect::<Vec<_>>(), [0, 13_000, 0, 12_000, 17_000]);
    }
}

/// "A replacing request of the same class keeps that time", three times in a row,
/// whatever its length.
#[test]
fn the_same_class_keeps_its_time() {
    let normals = [normal(1_000, 2, 600), normal(2_000, 2, 12_000), normal(2_000, 2, 512)];
    let grants = [normal(12_999, 2, 700), (ALL, grant(13_000, 2, 1, 14_700, 12_000))];
    trial_of_both(&plan(PLAN), &[&busy(0), &normals, &grants]);
    let highs = [high(101_000, 3, 4_000), high(102_000, 3, 3_000), high(103_000, 3, 512)];
    let grants = [high(112_999, 3, 4_000), (ALL, grant(113_000, 3, 2, 118_000, 12_000))];
    trial_of_both(&plan(PLAN), &[&[reserve(0, 3, 2, 4_000)], &busy(100_000), &highs, &grants]);
}

/// A held one keeps it over a frame's start that leaves it high, also where the
/// replacing event itself crosses this.
#[test]
fn a_held_request_keeps_its_time() {
    let held = [
        reserve(0, 3, 1, 4_000),
        high(100_000, 3, 4_000),
        (ALL, grant(100_000, 3, 2, 105_000, 0)),
        high(100_500, 3, 4_000),
        high(104_000, 3, 3_000),
        (ALL, Rest { time: 105_000, moves: 0 }),
        high(150_000, 3, 2_000),
    ];
    let granted = [(ALL, grant(200_000, 3, 2, 203_000, 99_500))];
    trial_of_both(&plan(PLAN), &[&held, &granted]);
    trial_of_both(&plan(PLAN), &[&held, &[high(200_000, 3, 2_000)], &granted]);
}

/// "A change of class sets it anew", in both directions and back again.
#[test]
fn a_change_of_class_sets_it_anew() {
    let cases: [(&Table, u64, u64); 6] = [
        (&[normal(101_000, 3, 4_000), high(102_000, 3, 4_000)], 2, 102_000),
        (&[high(101_000, 3, 4_000), normal(102_000, 3, 4_000)], 1, 102_000),
        (&[normal(101_000, 3, 600), high(102_000, 3, 600), normal(103_000, 3, 4_000)], 1, 103_000),
        (&[high(101_000, 3, 600), normal(102_000, 3, 600), high(103_000, 3, 4_000)], 2, 103_000),
        (&[normal(101_000, 3, 600), high(102_000, 3, 600), high(103_000, 3, 4_000)], 2, 102_000),
        (&[high(101_000, 3, 600), normal(101_000, 3, 600), normal(103_000, 3, 4_000)], 1, 101_000),
    ];
    for (calls, class, since) in cases {
        let granted = [(ALL, grant(113_000, 3, class, 118_000, 113_000 - since))];
        trial_of_both(&plan(PLAN), &[&[reserve(0, 3, 2, 4_000)], &busy(100_000), calls, &granted]);
    }
}

/// Node 3's high request of 4,000 bits stands since 199,500 and the line is busy to
/// 212,000, as its reservation becomes this one at 200,000.
fn over_the_start(n: u64, b: u64) -> Vec<(Call, Answer)> {
    let reserves = [reserve(0, 3, 1, 4_000), reserve(150_000, 3, n, b)];
    [&reserves[..], &busy(199_000), &[high(199_500, 3, 4_000)]].concat()
}

/// "Also the change at a frame's start": f × T, however much later the call comes,
/// and that is kept by normal ones.
#[test]
fn turned_at_a_frame_s_start() {
    let since_the_start = [(ALL, grant(212_000, 3, 1, 217_000, 12_000))];
    let then: [&Table; 8] = [
        &[],
        &[(Until { t: 200_000 }, Taken)],
        &[(Until { t: 211_999 }, Taken), normal(212_000, 3, 4_000)],
        &[reserve(205_000, 2, 1, 600), normal(206_000, 3, 4_000)],
        // These cross the start themselves.
        &[normal(200_000, 3, 4_000)],
        &[normal(200_001, 3, 4_000)],
        &[normal(205_000, 3, 512), normal(206_000, 3, 4_000)],
        &[normal(212_000, 3, 600), normal(212_000, 3, 4_000)],
    ];
    for (n, b) in [(0, 0), (1, 3_999), (2, 512)] {
        for calls in then {
            trial_of_both(&plan(PLAN), &[&over_the_start(n, b), calls, &since_the_start]);
        }
    }
    // By default a laptop's high request is a normal one and keeps it too.
    let default = plan(&by_default(PLAN));
    for t in [200_000, 205_000] {
        trial(&default, &[&over_the_start(0, 0), &[high(t, 3, 4_000)], &since_the_start]);
    }
}

/// What the start leaves high, and a high request behind one that it turned.
#[test]
fn high_behind_a_frame_s_start() {
    let stays = [(ALL, grant(212_000, 3, 2, 217_000, 12_500))];
    trial_of_both(&plan(PLAN), &[&over_the_start(1, 4_000), &stays]);
    trial_of_both(&plan(PLAN), &[&over_the_start(2, 4_000), &[high(205_000, 3, 4_000)], &stays]);
    // Turned and high again, at the start or behind it: a change of class.
    for t in [200_000, 205_000] {
        let anew = [high(t, 3, 3_000), (ALL, grant(212_000, 3, 2, 216_000, 212_000 - t))];
        trial_of_both(&plan(PLAN), &[&over_the_start(1, 3_000), &anew]);
        trial_of_both(&plan(PLAN), &[&over_the_start(1, 3_000), &[(Until { t }, Taken)], &anew]);
    }
    // Normal before the start: it isn't changed there.
    let before = [normal(199_700, 3, 4_000), normal(205_000, 3, 4_000)];
    let since_before = [(ALL, grant(212_000, 3, 1, 217_000, 12_300))];
    trial_of_both(&plan(PLAN), &[&over_the_start(0, 0), &before, &since_before]);
}

/// Behind an `off` or a grant the next request is new.
#[test]
fn off_or_a_grant_and_then_a_new_one() {
    let off = |t, k| (Off { t, k }, Taken);
    let calls = [normal(1_000, 2, 600), off(2_000, 2), normal(3_000, 2, 600)];
    trial_of_both(&plan(PLAN), &[&busy(0), &calls, &[(ALL, grant(13_000, 2, 1, 14_600, 10_000))]]);
    let calls = [normal(1_000, 2, 600), off(1_000, 2), off(1_000, 2), normal(1_000, 2, 600)];
    trial_of_both(&plan(PLAN), &[&busy(0), &calls, &[(ALL, grant(13_000, 2, 1, 14_600, 12_000))]]);
    // Its own packet runs as it asks again.
    let calls = [normal(1, 1, 600), (ALL, grant(13_000, 1, 1, 14_600, 12_999))];
    let again = [normal(14_600, 1, 600), (ALL, grant(14_600, 1, 1, 16_200, 0))];
    trial_of_both(&plan(PLAN), &[&busy(0), &calls, &again]);
    // Withdrawn by an event that crosses the start at which it is turned.
    let calls = [off(205_000, 3), normal(206_000, 3, 600)];
    let granted = [(ALL, grant(212_000, 3, 1, 213_600, 6_000))];
    trial_of_both(&plan(PLAN), &[&over_the_start(0, 0), &calls, &granted]);
    // Of another node, and of one that has none.
    let calls = [normal(1_000, 2, 600), off(2_000, 3), normal(3_000, 2, 600)];
    trial_of_both(&plan(PLAN), &[&busy(0), &calls, &[(ALL, grant(13_000, 2, 1, 14_600, 12_000))]]);
}

#[test]
fn a_refused_event_changes_nothing() {
    let refused = [
        (Normal { t: 999, k: 2, b: 600 }, Refused(11)),
        (Normal { t: 13_001, k: 2, b: 600 }, Refused(12)),
        (Off { t: 13_001, k: 2 }, Refused(12)),
        (Off { t: 2_000, k: 0 }, Refused(13)),
        (Normal { t: 2_000, k: 2, b: 511 }, Refused(15)),
        (High { t: 2_000, k: 2, b: 12_001 }, Refused(15)),
    ];
    let granted = [(ALL, grant(13_000, 2, 1, 14_600, 12_000))];
    let stands = [normal(1_000, 2, 600)];
    trial_of_both(&plan(PLAN), &[&busy(0), &stands, &refused, &granted]);
    let unreserved = [(High { t: 2_000, k: 2, b: 600 }, Refused(16))];
    trial(&plan(PLAN), &[&busy(0), &stands, &unreserved, &granted]);
    // Over high ones, in the frame and behind the start that turns it.
    let refused = [
        (Normal { t: 199_499, k: 3, b: 600 }, Refused(11)),
        (High { t: 199_600, k: 3, b: 4_001 }, Refused(16)),
        (Normal { t: 205_000, k: 3, b: 511 }, Refused(15)),
        (High { t: 205_000, k: 3, b: 4_000 }, Refused(16)),
        (Off { t: 212_001, k: 3 }, Refused(12)),
    ];
    let granted = [(ALL, grant(212_000, 3, 1, 217_000, 12_000))];
    trial_of_both(&plan(PLAN), &[&over_the_start(1, 3_999), &refused, &granted]);
}

/// Slip 8's high request, taken as normal, is one of the class normal.
#[test]
fn an_unreserved_high_request() {
    let default = plan(&by_default(PLAN));
    let granted = [(ALL, grant(13_000, 2, 1, 14_600, 12_000))];
    trial(&default, &[&busy(0), &[normal(1_000, 2, 512), high(2_000, 2, 600)], &granted]);
    trial(&default, &[&busy(0), &[high(1_000, 2, 512), normal(2_000, 2, 600)], &granted]);
    trial(&default, &[&busy(0), &[high(1_000, 2, 512), high(2_000, 2, 600)], &granted]);
    // It stays normal as a reservation comes into force.
    let laptop = [high(99_500, 3, 4_000), reserve(99_600, 3, 1, 4_000)];
    let since_then = [(ALL, grant(112_000, 3, 1, 117_000, 12_500))];
    trial(&default, &[&busy(99_000), &laptop, &since_then]);
    trial(&default, &[&busy(99_000), &laptop, &[normal(105_000, 3, 4_000)], &since_then]);
    // High only from a high event in that frame on.
    let anew = [high(105_000, 3, 4_000), (ALL, grant(112_000, 3, 2, 117_000, 7_000))];
    trial(&default, &[&busy(99_000), &laptop, &anew]);
}

/// 20 nodes with the longest packets of a framing, in one hub.
fn queue(framing: Framing) -> Plan {
    let longest = framing.longest_packet();
    let (frame, interrupt) = (2 * longest + 100_000, longest + 50_000);
    let figures = format!("(frame {frame})\n(overhead 50000)\n(interrupt {interrupt})\n");
    let nodes = "(node)\n".repeat(20);
    plan(&format!("{figures}(framing {})\n(hub\n{nodes})\n", framing.number()))
}

/// Node 20's request stands over many frame starts, the first of which turns it,
/// and is replaced on the way.
#[test]
fn over_many_frame_starts() {
    for framing in Framing::BOTH {
        let plan = queue(framing);
        let (b, frame) = (framing.longest_packet(), plan.frame);
        let (packet, start) = (b + 50_000, 2 * frame);
        let first = start - 1_000;
        let mut table = vec![reserve(0, 20, 1, b), reserve(frame, 20, 0, 0)];
        table.extend((1..=19).map(|k| normal(first, k, b)));
        table.push((ALL, grant(first, 1, 1, first + packet, 0)));
        table.push(high(first + 500, 20, b));
        for k in 2..=19 {
            let time = first + (k - 1) * packet;
            table.push((ALL, grant(time, k, 1, time + packet, time - first)));
            if k % 6 == 0 {
                table.push(normal(time + 1, 20, b));
            }
        }
        let time = first + 19 * packet;
        table.push((ALL, grant(time, 20, 1, time + packet, time - start)));
        assert_eq!((start..=time).step_by(frame as usize).count(), 10);
        trial_of_both(&plan, &[&table]);
    }
}

/// The longest packets of framing 5, of both classes.
#[test]
fn waits_by_framing_5() {
    let plan = plan(&framed(Framing::TokenRing));
    let calls = [
        reserve(0, 3, 1, 36_000),
        reserve(150_000, 3, 1, 35_999),
        normal(199_999, 1, 36_000),
        (ALL, grant(199_999, 1, 1, 236_999, 0)),
        high(199_999, 3, 36_000),
        normal(230_000, 2, 36_000),
        (ALL, grant(236_999, 2, 1, 273_999, 6_999)),
        normal(240_000, 3, 12_001),
        high(250_000, 4, 36_000),
    ];
    let granted =
        [(ALL, grant(273_999, 3, 1, 287_000, 73_999)), (ALL, grant(287_000, 4, 1, 324_000, 37_000))];
    trial(&Plan { strict: false, ..plan }, &[&calls, &granted]);
}
