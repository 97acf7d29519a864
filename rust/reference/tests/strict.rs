//! Slip 8 of document 02, "Unreserved high requests", by worked cases: what a high
//! event puts up with and without the line `(strict)`.

mod common;

use common::{by_default, framed, grant, logged, plan, trial, trial_of_both, PLAN};
use reference::core::{class_put_up, Class};
use reference::hub::Answer::{self, Quiet, Refused, Rest, Taken};
use reference::hub::Call::{self, High, Normal, Off, Reserve, Step, Until};
use reference::plan::{Framing, Plan};

const ALL: Call = Step { t: 1_000_000_000_000_000 };

/// Document 01's events of the log, and what it writes: with the line the refused
/// one is 16; without it node 3 has its turn as a normal one.
#[test]
fn the_log_of_document_01() {
    let events = "(reserve 0 3 2 4000)\n(normal 0 1 12000)\n(normal 0 4 6000)\n(high 0 3 4000)\n\
        (normal 99000 2 12000)\n(high 100000 3 4000)\n(normal 100000 1 1000)\n(until 200000)\n";
    let nodes = "(nodes 4 hubs 2)\n";
    let behind = "(grant 99000 2 1 112000 1 0)\n(grant 112000 3 2 117000 2 12000)\n\
        (grant 117000 1 1 119000 1 17000)\n(rest 119000 0)\n";
    let text = format!("{PLAN}{events}");
    let refused = "(refused 16 16)\n(grant 0 1 1 13000 0 0)\n(grant 13000 4 1 20000 0 13000)\n\
        (rest 20000 0)\n";
    logged(&text, &format!("{nodes}{refused}{behind}"));
    let taken = "(grant 0 1 1 13000 0 0)\n(grant 13000 3 1 18000 1 13000)\n\
        (grant 18000 4 1 25000 1 18000)\n(rest 25000 0)\n";
    logged(&by_default(&text), &format!("{nodes}{taken}{behind}"));
}

/// Document 01's plan, strict and not.
fn strict_and_not() -> [Plan; 2] {
    [plan(PLAN), plan(&by_default(PLAN))]
}

/// The one function, at the ends of what it tells apart.
#[test]
fn the_class_put_up() {
    for strict in [true, false] {
        for n in [1, 64] {
            assert_eq!(class_put_up(strict, n, 4_000, 512), Ok(Class::High));
            assert_eq!(class_put_up(strict, n, 4_000, 4_000), Ok(Class::High));
            assert_eq!(class_put_up(strict, n, 4_000, 4_001), Err(16));
        }
    }
    for b in [512, 12_000, 36_000] {
        assert_eq!(class_put_up(true, 0, 0, b), Err(16));
        assert_eq!(class_put_up(false, 0, 0, b), Ok(Class::Normal));
    }
}

/// A laptop that calls everything high gets what a normal caller gets.
#[test]
fn an_unreserved_high_request() {
    let [strict, default] = strict_and_not();
    let high = |t, k| High { t, k, b: 1_000 };
    trial(&strict, &[(high(0, 1), Refused(16)), (ALL, Quiet)]);
    trial(
        &default,
        &[
            (high(0, 1), Taken),
            (ALL, grant(0, 1, 1, 2_000, 0)),
            (high(1, 1), Taken),
            (Normal { t: 1, k: 4, b: 1_000 }, Taken),
            // Node 4 is next, as if both were normal.
            (ALL, grant(2_000, 4, 1, 4_000, 0)),
            (ALL, grant(4_000, 1, 1, 6_000, 0)),
            (ALL, Rest { time: 6_000, moves: 0 }),
            // It stands in place of an earlier one, and off withdraws it.
            (Normal { t: 6_000, k: 1, b: 12_000 }, Taken),
            (high(6_000, 1), Taken),
            (ALL, grant(6_000, 1, 1, 8_000, 0)),
            (high(6_001, 1), Taken),
            (Off { t: 6_002, k: 1 }, Taken),
            (ALL, Rest { time: 8_000, moves: 0 }),
        ],
    );
}

/// "n in force is that at t, which may be a frame later than the clock": reserved
/// in frame 0, given up in frame 1.
#[test]
fn a_frame_later_than_the_clock() {
    let reserve = (Reserve { t: 0, k: 3, n: 1, b: 4_000 }, Taken);
    let high = |t| High { t, k: 3, b: 4_000 };
    let [strict, default] = strict_and_not();
    // In frame 0 nothing is reserved, to its last bit time.
    trial(&strict, &[reserve, (high(99_999), Refused(16)), (ALL, Quiet)]);
    trial(&default, &[reserve, (high(99_999), Taken), (ALL, grant(99_999, 3, 1, 104_999, 1))]);
    // From the next start on it is, though the clock is still 0.
    trial_of_both(&strict, &[reserve, (high(100_000), Taken), (ALL, grant(100_000, 3, 2, 105_000, 1))]);
    trial_of_both(&strict, &[reserve, (high(950_000), Taken), (ALL, grant(950_000, 3, 2, 955_000, 1))]);
    let given_up =
        [reserve, (Until { t: 100_000 }, Taken), (Reserve { t: 100_000, k: 3, n: 0, b: 0 }, Taken)];
    let trial_behind = |plan: &Plan, more: &[(Call, Answer)]| trial(plan, &[&given_up[..], more].concat());
    for plan in [&strict, &default] {
        trial_behind(plan, &[(high(199_999), Taken), (ALL, grant(199_999, 3, 2, 204_999, 1))]);
    }
    trial_behind(&strict, &[(high(200_000), Refused(16)), (ALL, Quiet)]);
    trial_behind(&default, &[(high(200_000), Taken), (ALL, grant(200_000, 3, 1, 205_000, 1))]);
}

/// "Row 15 comes before", and 11, 12 and 13 before that.
#[test]
fn the_rows_before() {
    for framing in Framing::BOTH {
        let longest = framing.longest_packet();
        let strict = plan(&framed(framing));
        let high = |t, k, b| High { t, k, b };
        for b in [0, 511, longest + 1, u64::MAX] {
            trial_of_both(&strict, &[(high(0, 1, b), Refused(15)), (ALL, Quiet)]);
        }
        trial_of_both(&strict, &[(high(0, 0, 512), Refused(13)), (high(0, 5, 512), Refused(13))]);
        trial_of_both(&strict, &[(high(u64::MAX, 1, 512), Refused(11))]);
        trial_of_both(&strict, &[(Normal { t: 0, k: 2, b: 512 }, Taken), (high(1, 1, 512), Refused(12))]);
        let default = Plan { strict: false, ..strict.clone() };
        for b in [512, longest] {
            trial(&strict, &[(high(0, 1, b), Refused(16)), (ALL, Quiet)]);
            trial(&default, &[(high(0, 1, b), Taken), (ALL, grant(0, 1, 1, b + 1_000, 0))]);
        }
    }
}

/// "A reserved unit's high request longer than the b in force is refused as
/// before", in the clock's frame and a frame later, and changes nothing.
#[test]
fn a_reserved_node_asks_too_long() {
    let reserve = (Reserve { t: 0, k: 3, n: 2, b: 4_000 }, Taken);
    let high = |t, b| High { t, k: 3, b };
    let plan = plan(PLAN);
    for b in [4_001, 12_000] {
        trial_of_both(&plan, &[reserve, (high(100_000, b), Refused(16)), (Until { t: 99_999 }, Taken)]);
        trial_of_both(
            &plan,
            &[reserve, (Until { t: 100_000 }, Taken), (high(100_000, b), Refused(16)), (ALL, Quiet)],
        );
    }
    trial_of_both(
        &plan,
        &[
            reserve,
            (Normal { t: 100_000, k: 3, b: 600 }, Taken),
            (high(100_000, 4_001), Refused(16)),
            (ALL, grant(100_000, 3, 1, 101_600, 1)),
            (high(100_001, 4_000), Taken),
            (high(100_001, 4_001), Refused(16)),
            (ALL, grant(101_600, 3, 2, 106_600, 2)),
            // Its share is spent after the next; a request is then held, or refused.
            (high(101_601, 512), Taken),
            (ALL, grant(106_600, 3, 2, 108_112, 2)),
            (high(106_601, 4_001), Refused(16)),
            (high(106_601, 4_000), Taken),
            (ALL, Rest { time: 108_112, moves: 1 }),
            (ALL, grant(200_000, 3, 2, 205_000, 3)),
        ],
    );
}

/// Node 1's packet holds the line over a start, from which on node 3 has two packets
/// a frame. Before it node 3 asked high, which is taken as normal, and node 2 normal.
fn over_a_start() -> Vec<(Call, Answer)> {
    vec![
        (Normal { t: 99_000, k: 1, b: 12_000 }, Taken),
        (ALL, grant(99_000, 1, 1, 112_000, 0)),
        (Reserve { t: 99_500, k: 3, n: 2, b: 4_000 }, Taken),
        (High { t: 99_500, k: 3, b: 3_000 }, Taken),
        (Normal { t: 99_500, k: 2, b: 1_000 }, Taken),
    ]
}

/// "A request taken as normal stays normal when a reservation comes into force while
/// it stands", and its grant takes nothing of the share.
#[test]
fn taken_as_normal_stays_normal() {
    let [_, default] = strict_and_not();
    for until in [None, Some((Until { t: 100_000 }, Taken))] {
        let mut table = over_a_start();
        table.extend(until);
        table.extend([
            (ALL, grant(112_000, 2, 1, 114_000, 1)),
            (ALL, grant(114_000, 3, 1, 118_000, 0)),
            (High { t: 114_001, k: 3, b: 4_000 }, Taken),
            (ALL, grant(118_000, 3, 2, 123_000, 2)),
            (High { t: 118_001, k: 3, b: 4_000 }, Taken),
            (ALL, grant(123_000, 3, 2, 128_000, 2)),
            (High { t: 123_001, k: 3, b: 4_000 }, Taken),
            (ALL, Rest { time: 128_000, moves: 1 }),
            (ALL, grant(200_000, 3, 2, 205_000, 3)),
        ]);
        trial(&default, &table);
    }
}

/// From the start on the node's next high request is a real one, and takes its place.
#[test]
fn a_real_high_request_takes_its_place() {
    let [_, default] = strict_and_not();
    let mut table = over_a_start();
    table.extend([
        // Not before the start, and not one that is too long.
        (High { t: 99_999, k: 3, b: 12_000 }, Taken),
        (High { t: 100_000, k: 3, b: 4_001 }, Refused(16)),
        (High { t: 100_000, k: 3, b: 4_000 }, Taken),
        (ALL, grant(112_000, 3, 2, 117_000, 1)),
        (ALL, grant(117_000, 2, 1, 119_000, 2)),
        (ALL, Rest { time: 119_000, moves: 1 }),
    ]);
    trial(&default, &table);
    // Refused, it leaves the earlier one as it was.
    let mut table = over_a_start();
    table.extend([
        (High { t: 100_000, k: 3, b: 4_001 }, Refused(16)),
        (ALL, grant(112_000, 2, 1, 114_000, 1)),
        (ALL, grant(114_000, 3, 1, 118_000, 0)),
    ]);
    trial(&default, &table);
}

/// A real high request whose reservation ends becomes normal at the start under
/// both; what the node calls high from then on is taken as normal, or refused.
#[test]
fn a_reservation_that_ends() {
    let before = [
        (Reserve { t: 0, k: 3, n: 1, b: 4_000 }, Taken),
        (Reserve { t: 100_000, k: 3, n: 0, b: 0 }, Taken),
        (Normal { t: 199_000, k: 1, b: 12_000 }, Taken),
        (ALL, grant(199_000, 1, 1, 212_000, 0)),
        (High { t: 199_000, k: 3, b: 4_000 }, Taken),
        (Normal { t: 199_000, k: 2, b: 1_000 }, Taken),
    ];
    let [strict, default] = strict_and_not();
    for (plan, answer, end) in [(strict, Refused(16), 219_000), (default, Taken, 215_600)] {
        let behind = [
            (High { t: 200_000, k: 3, b: 600 }, answer),
            (ALL, grant(212_000, 2, 1, 214_000, 1)),
            (ALL, grant(214_000, 3, 1, end, 0)),
        ];
        trial(&plan, &[&before[..], &behind].concat());
    }
}
