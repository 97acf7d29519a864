//! Document 01's trial cases M1 to M10 and slip 4's, by control and the peer with
//! their moves and by the flat hubs without.

mod common;

use common::{by_default, framed, grant, plan, trial, trial_of_both, PLAN};
use reference::control::{Control, Turning};
use reference::hub::Answer::{Quiet, Refused, Rest, Taken};
use reference::hub::Call::{self, High, Normal, Off, Reserve, Step, Until};
use reference::hub::Hub;
use reference::plan::{read, Framing, Plan};

fn nine() -> Plan {
    plan(&format!("(frame 100000)\n(overhead 1000)\n(interrupt 13000)\n(hub\n{})\n", "(node)\n".repeat(9)))
}

const ALL: Call = Step { t: 1_000_000_000_000_000 };

#[test]
fn m1_and_m2_go_round() {
    let normal = |t, k| (Normal { t, k, b: 1000 }, Taken);
    trial_of_both(
        &nine(),
        &[
            normal(0, 2),
            (ALL, grant(0, 2, 1, 2000, 0)),
            normal(10, 2),
            normal(10, 3),
            normal(10, 5),
            normal(10, 9),
            (ALL, grant(2000, 3, 1, 4000, 0)),
            (ALL, grant(4000, 5, 1, 6000, 0)),
            (ALL, grant(6000, 9, 1, 8000, 0)),
            (ALL, grant(8000, 2, 1, 10000, 0)),
            (ALL, Rest { time: 10000, moves: 0 }),
            (ALL, Quiet),
        ],
    );
    trial_of_both(
        &nine(),
        &[normal(0, 8), (ALL, grant(0, 8, 1, 2000, 0)), normal(10, 1), (ALL, grant(2000, 1, 1, 4000, 0))],
    );
}

#[test]
fn m3_the_same_node_again() {
    trial_of_both(
        &plan(PLAN),
        &[
            (Normal { t: 0, k: 2, b: 1000 }, Taken),
            (ALL, grant(0, 2, 1, 2000, 1)),
            (Normal { t: 5, k: 2, b: 1000 }, Taken),
            (ALL, grant(2000, 2, 1, 4000, 2)),
        ],
    );
}

#[test]
fn m4_a_change_of_class_and_back() {
    trial_of_both(
        &plan(PLAN),
        &[
            (Reserve { t: 0, k: 4, n: 1, b: 4000 }, Taken),
            (Normal { t: 100_000, k: 2, b: 1000 }, Taken),
            (ALL, grant(100_000, 2, 1, 102_000, 1)),
            (High { t: 100_001, k: 4, b: 4000 }, Taken),
            (ALL, grant(102_000, 4, 2, 107_000, 1)),
            (Normal { t: 102_001, k: 2, b: 1000 }, Taken),
            (Normal { t: 102_001, k: 3, b: 1000 }, Taken),
            (ALL, grant(107_000, 3, 1, 109_000, 1)),
        ],
    );
}

#[test]
fn m5_admission() {
    trial_of_both(&plan(PLAN), &[(Reserve { t: 0, k: 1, n: 29, b: 2000 }, Taken)]);
    trial_of_both(&plan(PLAN), &[(Reserve { t: 0, k: 1, n: 29, b: 2001 }, Refused(17))]);
    // By framing 5: 37,000 + 21 × 3,000 = 100,000.
    let token_ring = plan(&framed(Framing::TokenRing));
    trial_of_both(&token_ring, &[(Reserve { t: 0, k: 1, n: 21, b: 2000 }, Taken)]);
    trial_of_both(&token_ring, &[(Reserve { t: 0, k: 1, n: 21, b: 2001 }, Refused(17))]);
}

#[test]
fn m6_packets_a_frame() {
    trial_of_both(
        &plan(PLAN),
        &[
            // 64 packets pass row 14; here the frame can't hold them.
            (Reserve { t: 0, k: 1, n: 64, b: 512 }, Refused(17)),
            (Reserve { t: 0, k: 1, n: 65, b: 512 }, Refused(14)),
            (Reserve { t: 0, k: 1, n: 0, b: 512 }, Refused(15)),
            (Reserve { t: 0, k: 1, n: 0, b: 0 }, Taken),
        ],
    );
}

#[test]
fn m7_lengths() {
    let plans =
        [(PLAN.into(), 12_000), (framed(Framing::Ethernet), 12_000), (framed(Framing::TokenRing), 36_000)];
    for (text, longest) in plans {
        let plan = plan(&text);
        for b in [511, 512, 11_999, 12_000, 12_001, 35_999, 36_000, 36_001, 65_536 + 512, u64::MAX] {
            let answer = if (512..=longest).contains(&b) { Taken } else { Refused(15) };
            let reserve = (Reserve { t: 0, k: 1, n: 1, b }, answer);
            trial_of_both(&plan, &[(Normal { t: 0, k: 1, b }, answer), reserve]);
            let high = if answer == Taken { Refused(16) } else { answer };
            trial(&plan, &[(High { t: 0, k: 1, b }, high)]);
            // By slip 8 it is taken as normal, as long as a normal one may be.
            let by_default = Plan { strict: false, ..plan.clone() };
            trial(&by_default, &[(High { t: 0, k: 1, b }, answer)]);
        }
    }
}

/// A frame by framing 5, worked out by hand: the longest packets of both classes,
/// D kept free, and one bit more than was reserved.
#[test]
fn the_longest_packets_of_framing_5() {
    let normal = |t, k| (Normal { t, k, b: 36_000 }, Taken);
    trial_of_both(
        &plan(&framed(Framing::TokenRing)),
        &[
            // 37,000 + 37,000 + 26,000 = 100,000.
            (Reserve { t: 0, k: 3, n: 1, b: 36_000 }, Taken),
            (Reserve { t: 0, k: 4, n: 1, b: 25_001 }, Refused(17)),
            (Reserve { t: 0, k: 4, n: 1, b: 25_000 }, Taken),
            normal(99_999, 1),
            (ALL, grant(99_999, 1, 1, 136_999, 0)),
            (High { t: 100_000, k: 4, b: 25_001 }, Refused(16)),
            (High { t: 100_000, k: 4, b: 25_000 }, Taken),
            (High { t: 100_000, k: 3, b: 36_000 }, Taken),
            (ALL, grant(136_999, 3, 2, 173_999, 1)),
            (ALL, grant(173_999, 4, 2, 199_999, 1)),
            normal(173_999, 2),
            (ALL, grant(199_999, 2, 1, 236_999, 1)),
            (ALL, Rest { time: 236_999, moves: 1 }),
        ],
    );
}

#[test]
fn m8_held_to_the_next_frame() {
    trial_of_both(
        &plan(PLAN),
        &[
            (Reserve { t: 0, k: 3, n: 1, b: 4000 }, Taken),
            (High { t: 100_000, k: 3, b: 4000 }, Taken),
            (ALL, grant(100_000, 3, 2, 105_000, 1)),
            (High { t: 100_500, k: 3, b: 4000 }, Taken),
            (ALL, Rest { time: 105_000, moves: 1 }),
            (Step { t: 200_000 }, Quiet),
            (ALL, grant(200_000, 3, 2, 205_000, 3)),
        ],
    );
}

#[test]
fn m9_a_bound_at_the_due_instant() {
    trial_of_both(
        &plan(PLAN),
        &[
            (Normal { t: 7, k: 1, b: 1000 }, Taken),
            (Step { t: 7 }, Quiet),
            (Step { t: 8 }, grant(7, 1, 1, 2007, 0)),
            (Step { t: 2007 }, Quiet),
            (Off { t: 2007, k: 1 }, Taken),
            (Until { t: 2008 }, Refused(12)),
            (Step { t: 2008 }, Rest { time: 2007, moves: 0 }),
        ],
    );
}

/// Three levels: nodes 1 and 2 in hub 3, 3 and 4 in hub 2, 5 in the root. The
/// moves by slip 4 and by document 01's own rule 2, worked out by hand.
#[test]
fn m11_a_change_of_class_turns_at_the_nearest_hub() {
    let figures = &PLAN[..PLAN.find("(hub").unwrap()];
    let nodes = "(node)\n(node)\n";
    let plan = plan(&format!("{figures}(hub\n(hub\n(hub\n{nodes})\n{nodes})\n(node)\n)\n"));
    let turns = [(Turning::Nearest, [2, 3, 1, 1, 5, 4, 0]), (Turning::Root, [2, 3, 3, 3, 7, 6, 4])];
    for (turning, moves) in turns {
        let mut hub = Hub::new(&plan, Control::turning(&plan, turning));
        for k in [2, 3, 4] {
            assert_eq!(hub.call(Reserve { t: 0, k, n: 1, b: 1000 }), Taken);
        }
        let grants = [(1, 1), (3, 2), (2, 1), (4, 2), (1, 1), (2, 2), (2, 1)];
        for (i, (k, class)) in (0..).zip(grants) {
            let start = 100_000 + 2000 * i;
            let t = if i == 0 { start } else { start - 1999 };
            let ask = if class == 1 { Normal { t, k, b: 1000 } } else { High { t, k, b: 1000 } };
            assert_eq!(hub.call(ask), Taken);
            let expected = grant(start, k, class, start + 2000, moves[i as usize]).with_wait(start - t);
            assert_eq!(hub.call(Step { t: start + 1 }), expected, "{turning:?}");
        }
        assert_eq!(hub.call(ALL), Rest { time: 114_000, moves: 2 });
    }
}

#[test]
fn m10_plans() {
    let figures = PLAN.replace("13000", "12999");
    assert_eq!(read(figures.as_bytes()).map_err(|refused| (refused.line, refused.number)), Err((3, 2)));
    let token_ring = framed(Framing::TokenRing).replace("37000", "36999");
    assert_eq!(read(token_ring.as_bytes()).map_err(|refused| (refused.line, refused.number)), Err((4, 2)));
    let six = format!("{}{}(node)\n", &PLAN[..PLAN.find("(hub").unwrap()], "(hub\n".repeat(6));
    assert_eq!(read(six.as_bytes()).map_err(|refused| (refused.line, refused.number)), Err((10, 3)));
    let six = by_default(&six);
    assert_eq!(read(six.as_bytes()).map_err(|refused| (refused.line, refused.number)), Err((9, 3)));
}

#[test]
fn times_up_to_the_largest_number() {
    let last = 1_000_000_000_000_000;
    trial_of_both(
        &plan(PLAN),
        &[
            (Until { t: u64::MAX }, Refused(11)),
            (Step { t: u64::MAX }, Refused(11)),
            (Normal { t: last, k: u64::MAX, b: 512 }, Refused(13)),
            (Reserve { t: last, k: 1, n: u64::MAX, b: u64::MAX }, Refused(14)),
            (Reserve { t: last, k: 1, n: 64, b: u64::MAX }, Refused(15)),
            (Normal { t: last, k: 1, b: 512 }, Taken),
            (Step { t: last }, Quiet),
            (Step { t: last + 1 }, Refused(11)),
            (Until { t: last }, Taken),
            (Until { t: last - 1 }, Refused(11)),
        ],
    );
}
