//! Slip 10 by hand: "the smallest single change that would turn it into a grant".

mod common;

use common::{control, framed, plan, PLAN};
use reference::control::Control;
use reference::core::LAST_TIME;
use reference::fit::Fit::{self, *};
use reference::hub::{Answer as Said, Call, Hub};
use reference::offers::Offer;
use reference::plan::Framing;

/// Document 01's plan before any event: what D leaves of the frame is 87,000, and c
/// is b + 1,000.
fn fresh() -> Hub<Control> {
    control(&plan(PLAN))
}

/// The same with these reservations: k, n and b.
fn with<const L: usize>(reservations: [(u64, u64, u64); L]) -> Hub<Control> {
    filled(fresh(), reservations)
}

fn filled<const L: usize>(mut hub: Hub<Control>, reservations: [(u64, u64, u64); L]) -> Hub<Control> {
    for (k, n, b) in reservations {
        let t = hub.clock();
        taken(&mut hub, Call::Reserve { t, k, n, b });
    }
    hub
}

/// Reservations of 30,000, 30,000 and 24,000, which leave 3,000.
fn reserved() -> Hub<Control> {
    with([(1, 10, 2_000), (2, 10, 2_000), (3, 8, 2_000)])
}

/// Reservations of 2,512 and 83,488, which leave 1,000: less than any packet's c.
fn nearly_full() -> Hub<Control> {
    with([(1, 1, 1_512), (2, 32, 1_609)])
}

/// Reservations that leave this much: node 3 has one packet, node 1 more than it.
fn leaving(spare: u64) -> Hub<Control> {
    let of_1 = if spare < 7_000 { 6 } else { 5 };
    with([(1, of_1, 12_000), (3, 1, 87_000 - 13_000 * of_1 - spare - 1_000)])
}

/// The same plan with this D, before any event.
fn of_interrupt(interrupt: u64) -> Hub<Control> {
    control(&plan(&PLAN.replace("(interrupt 13000)", &format!("(interrupt {interrupt})"))))
}

/// D takes the whole frame.
fn without_room() -> Hub<Control> {
    of_interrupt(100_000)
}

fn taken(hub: &mut Hub<Control>, call: Call) {
    assert_eq!(hub.call(call), Said::Taken, "{call:?}");
}

/// The answers at the clock.
fn fits<const L: usize>(hub: &Hub<Control>, offers: [(u64, u64, u64); L]) -> [Fit; L] {
    offers.map(|(k, n, b)| hub.fit(Offer { k, n, b }))
}

/// The answers at a time.
fn fits_at<const L: usize>(hub: &Hub<Control>, t: u64, offers: [(u64, u64, u64); L]) -> [Fit; L] {
    offers.map(|(k, n, b)| hub.fit_at(t, Offer { k, n, b }))
}

/// The words of the lists of calls.
#[test]
fn in_words() {
    let words = [Answer(13), Packets(8), Bits(2_000), Release(3), Nothing].map(|fit| fit.to_string());
    assert_eq!(words, ["answer 13", "packets 8", "bits 2000", "release 3", "nothing"]);
}

/// The list of the edges, said once more.
#[test]
fn the_edges_of_the_vectors() {
    let hub = reserved();
    assert_eq!(fits(&hub, [(1, 9, 3_000), (4, 2, 2_000)]), [Packets(8), Packets(1)]);
    assert_eq!(fits(&hub, [(4, 1, 2_001), (4, 1, 12_000)]), [Bits(2_000), Bits(2_000)]);
    assert_eq!(fits(&hub, [(4, 6, 3_000), (4, 8, 3_000)]), [Release(3), Release(1)]);
    assert_eq!(fits(&hub, [(4, 10, 3_000)]), [Nothing]);
    assert_eq!(fits(&hub, [(3, 64, 12_000), (3, 64, 512)]), [Packets(2), Packets(17)]);
}

/// M5: "alone, 29 packets of 2,000 [..], granted; of 2,001: 17".
#[test]
fn about_29_packets_of_2000() {
    let offers = [(1, 29, 2_000), (1, 29, 2_001), (1, 30, 2_000), (1, 64, 2_000), (1, 64, 2_001)];
    assert_eq!(fits(&fresh(), offers), [Answer(0), Packets(28), Packets(29), Packets(29), Packets(28)]);
    assert_eq!(
        fits(&fresh(), [(4, 57, 512), (4, 58, 512), (4, 64, 512)]),
        [Answer(0), Packets(57), Packets(57)]
    );
    assert_eq!(fits(&fresh(), [(4, 6, 12_000), (4, 7, 12_000)]), [Answer(0), Packets(6)]);
}

/// "An offer whose Slip 9 answer isn't 17 gets that answer back", with any numbers.
#[test]
fn what_is_not_17_comes_back() {
    let (hub, max, high) = (reserved(), u64::MAX, 1 << 32);
    assert_eq!(fits(&hub, [(4, 1, 2_000), (1, 11, 2_000), (1, 0, 0), (4, 0, 0)]), [Answer(0); 4]);
    assert_eq!(
        fits(&hub, [(0, 64, 12_000), (5, 65, 511), (max, max, max), (high + 4, 6, 3_000)]),
        [Answer(13); 4]
    );
    assert_eq!(
        fits(&hub, [(4, 65, 12_000), (4, 65, 511), (4, max, max), (4, high + 6, 3_000)]),
        [Answer(14); 4]
    );
    assert_eq!(
        fits(&hub, [(4, 64, 511), (4, 64, 12_001), (4, 0, 512), (4, 6, high + 3_000)]),
        [Answer(15); 4]
    );
}

/// "First choice: the largest lower n of at least 1": a packet and a bit decide.
#[test]
fn packets_before_all_else() {
    // 3,000 are left to node 4: a shorter packet or a release would do too.
    assert_eq!(
        fits(&reserved(), [(4, 2, 2_000), (4, 2, 1_999), (4, 2, 2_001)]),
        [Packets(1), Packets(1), Release(3)]
    );
    assert_eq!(fits(&reserved(), [(4, 64, 2_000), (4, 2, 512)]), [Packets(1), Packets(1)]);
    // 33,000 are left to node 1.
    assert_eq!(
        fits(&reserved(), [(1, 12, 2_000), (1, 12, 2_001), (1, 64, 512)]),
        [Packets(11), Packets(10), Packets(21)]
    );
}

/// "If none, the largest lower b from 512 on at the same n."
#[test]
fn bits_where_no_packet_fits() {
    assert_eq!(fits(&reserved(), [(4, 1, 2_001), (4, 1, 2_002), (4, 1, 12_000)]), [Bits(2_000); 3]);
    let two_of_512 = leaving(3_024);
    assert_eq!(
        fits(&two_of_512, [(4, 2, 2_024), (4, 2, 2_025), (4, 2, 12_000)]),
        [Packets(1), Bits(512), Bits(512)]
    );
    assert_eq!(
        fits(&two_of_512, [(4, 1, 2_024), (4, 1, 2_025), (4, 3, 2_025)]),
        [Answer(0), Bits(2_024), Release(1)]
    );
    assert_eq!(fits(&leaving(3_023), [(4, 2, 2_023), (4, 2, 2_024)]), [Packets(1), Release(3)]);
    assert_eq!(fits(&leaving(3_025), [(4, 2, 2_026)]), [Bits(512)]);
    assert_eq!(fits(&leaving(3_026), [(4, 2, 2_027)]), [Bits(513)]);
}

/// The longest that can be named is a bit below the plan's longest packet.
#[test]
fn a_bit_below_the_longest_packet() {
    let ask = |hub: &Hub<Control>, k, b| fits(hub, [(k, 1, b)]);
    assert_eq!(ask(&leaving(13_000), 4, 12_000), [Answer(0)]);
    assert_eq!(ask(&leaving(12_999), 4, 12_000), [Bits(11_999)]);
    assert_eq!(ask(&leaving(12_998), 4, 12_000), [Bits(11_998)]);
    // By framing 5 D leaves 63,000.
    let of_framing_5 = |b| filled(control(&plan(&framed(Framing::TokenRing))), [(1, 1, b)]);
    assert_eq!(ask(&of_framing_5(25_000), 2, 36_000), [Answer(0)]);
    assert_eq!(ask(&of_framing_5(25_001), 2, 36_000), [Bits(35_999)]);
    assert_eq!(ask(&of_framing_5(25_002), 2, 36_000), [Bits(35_998)]);
    assert_eq!(ask(&of_framing_5(25_001), 2, 36_001), [Answer(15)]);
    assert_eq!(fits(&of_framing_5(25_001), [(2, 2, 36_000), (2, 2, 35_999)]), [Bits(17_499), Packets(1)]);
}

/// One packet of 512 has no lower n and no lower b.
#[test]
fn neither_a_lower_n_nor_a_lower_b() {
    assert_eq!(
        fits(&leaving(1_512), [(4, 1, 512), (4, 1, 513), (4, 2, 512)]),
        [Answer(0), Bits(512), Packets(1)]
    );
    assert_eq!(fits(&leaving(1_511), [(4, 1, 512), (4, 1, 513), (4, 2, 512)]), [Release(3); 3]);
    assert_eq!(fits(&without_room(), [(4, 1, 512), (4, 1, 12_000), (4, 64, 512)]), [Nothing; 3]);
}

/// "If none, the other node whose whole release suffices", to the bit.
#[test]
fn a_release_that_suffices() {
    // 2,512 and 83,488 are reserved, and 1,000 are left.
    let offers = [(4, 1, 512), (4, 1, 2_512), (4, 2, 512), (4, 2, 756)];
    assert_eq!(fits(&nearly_full(), offers), [Release(1); 4]);
    let offers = [(4, 1, 2_513), (4, 2, 757), (4, 3, 512), (4, 8, 9_561)];
    assert_eq!(fits(&nearly_full(), offers), [Release(2); 4]);
    assert_eq!(fits(&nearly_full(), [(4, 8, 9_562), (4, 64, 512), (4, 64, 12_000)]), [Nothing; 3]);
}

/// "With the least n × c", not the least n, b or n × b, nor the lowest number.
#[test]
fn the_cheapest_release() {
    // 24,192, 23,000 and 38,808.
    let hub = with([(1, 16, 512), (2, 2, 10_500), (3, 24, 617)]);
    assert_eq!(fits(&hub, [(4, 1, 12_000), (4, 2, 11_000)]), [Release(2), Release(2)]);
    assert_eq!(
        fits(&hub, [(4, 2, 11_001), (4, 2, 11_596), (4, 2, 11_597)]),
        [Release(1), Release(1), Release(3)]
    );
    // 13,000, 12,000 and 61,000.
    let hub = with([(1, 1, 12_000), (2, 2, 5_000), (3, 40, 525)]);
    assert_eq!(
        fits(&hub, [(4, 1, 12_000), (4, 2, 5_501), (4, 2, 6_001)]),
        [Release(2), Release(1), Release(3)]
    );
}

/// "The lower number winning a tie", whatever n and b make up the same n × c.
#[test]
fn the_lower_number_wins_a_tie() {
    assert_eq!(fits(&reserved(), [(4, 8, 3_000)]), [Release(1)]);
    let hub = with([(4, 10, 2_000), (3, 8, 2_000), (2, 5, 5_000)]);
    assert_eq!(fits(&hub, [(1, 6, 3_000), (1, 8, 3_000), (1, 9, 3_000)]), [Release(3), Release(2), Nothing]);
    // 28,000 each.
    let hub = with([(4, 14, 1_000), (3, 7, 3_000), (2, 4, 6_000)]);
    assert_eq!(fits(&hub, [(1, 8, 2_875), (1, 8, 2_876)]), [Release(2), Nothing]);
}

/// "The other node": its own old one is replaced in every try, and never named.
#[test]
fn its_own_reservation_is_never_named() {
    let full = filled(reserved(), [(4, 1, 2_000)]);
    assert_eq!(
        fits(&full, [(4, 1, 2_000), (4, 2, 2_000), (4, 1, 2_001)]),
        [Answer(0), Packets(1), Bits(2_000)]
    );
    // Releases leave it 27,000 or 33,000, and not its own 3,000 once more.
    assert_eq!(fits(&full, [(4, 3, 8_000), (4, 3, 8_001)]), [Release(3), Release(1)]);
    assert_eq!(fits(&full, [(4, 3, 10_000), (4, 3, 10_001)]), [Release(1), Nothing]);
    // 3,000 are all that there is, and node 4 has them.
    let alone = filled(of_interrupt(97_000), [(4, 1, 2_000)]);
    assert_eq!(fits(&alone, [(4, 2, 2_001), (4, 64, 12_000)]), [Nothing; 2]);
    assert_eq!(fits(&alone, [(1, 1, 512), (1, 2, 2_001)]), [Release(4), Nothing]);
}

/// A node with nothing reserved is never named, whether it gave up or never had any.
#[test]
fn nothing_reserved_is_nothing_to_release() {
    let hub = filled(reserved(), [(3, 0, 0), (2, 18, 2_000)]);
    assert_eq!(fits(&hub, [(4, 6, 3_000), (3, 6, 3_000)]), [Release(1); 2]);
    assert_eq!(
        fits(&without_room(), [(1, 1, 512), (4, 64, 12_000), (4, 0, 0)]),
        [Nothing, Nothing, Answer(0)]
    );
}

/// The table is that of the latest accepted reservations, in force or not.
#[test]
fn the_present_table() {
    let mut hub = reserved();
    taken(&mut hub, Call::Until { t: 150_000 });
    let offers = [(4, 2, 2_000), (4, 1, 2_001), (4, 6, 3_000), (4, 10, 3_000)];
    assert_eq!(fits(&hub, offers), [Packets(1), Bits(2_000), Release(3), Nothing]);
    taken(&mut hub, Call::Reserve { t: 150_000, k: 3, n: 0, b: 0 });
    taken(&mut hub, Call::Reserve { t: 150_000, k: 2, n: 19, b: 2_000 });
    assert_eq!(fits(&hub, offers), [Release(1), Release(1), Release(1), Release(2)]);
}

/// The hub is only read: it is as it was in all its parts.
#[test]
fn the_hub_stays_as_it_was() {
    let mut hub = reserved();
    taken(&mut hub, Call::Until { t: 100_000 });
    taken(&mut hub, Call::High { t: 100_000, k: 1, b: 2_000 });
    let before = format!("{hub:?}");
    let offers = [(4, 1, 2_000), (4, 2, 2_000), (4, 1, 2_001), (4, 6, 3_000), (4, 10, 3_000)];
    let expected = [Answer(0), Packets(1), Bits(2_000), Release(3), Nothing];
    assert_eq!(fits(&hub, offers), expected);
    assert_eq!(fits_at(&hub, 100_000, offers), expected);
    assert_eq!(format!("{hub:?}"), before);
}

/// A time of any kind: 11, then 12, before all other answers; else as at the clock.
#[test]
fn at_any_time() {
    let mut hub = reserved();
    taken(&mut hub, Call::Normal { t: 50_000, k: 2, b: 12_000 });
    let offers = [(4, 1, 2_000), (4, 2, 2_000), (4, 1, 2_001), (4, 6, 3_000), (4, 10, 3_000), (0, 65, 511)];
    let good = [Answer(0), Packets(1), Bits(2_000), Release(3), Nothing, Answer(13)];
    for t in [0, 49_999, LAST_TIME + 1, u64::MAX] {
        assert_eq!(fits_at(&hub, t, offers), [Answer(11); 6], "{t}");
    }
    assert_eq!(fits_at(&hub, 50_000, offers), good);
    for t in [50_001, 150_000, LAST_TIME] {
        assert_eq!(fits_at(&hub, t, offers), [Answer(12); 6], "{t}");
    }
    taken(&mut hub, Call::Off { t: 50_000, k: 2 });
    for t in [50_000, 100_000, LAST_TIME] {
        assert_eq!(fits_at(&hub, t, offers), good, "{t}");
    }
}

/// At a frame's start a held request is due, but not before it: a release there is
/// tried like any other.
#[test]
fn at_a_frame_start_with_a_held_request() {
    let mut hub = reserved();
    taken(&mut hub, Call::Reserve { t: 0, k: 4, n: 1, b: 2_000 });
    taken(&mut hub, Call::High { t: 100_000, k: 4, b: 2_000 });
    assert!(matches!(hub.call(Call::Step { t: 100_001 }), Said::Grant { .. }));
    taken(&mut hub, Call::High { t: 100_500, k: 4, b: 2_000 });
    assert!(matches!(hub.call(Call::Step { t: 103_001 }), Said::Rest { .. }));
    let offers = [(4, 2, 2_000), (4, 1, 2_001), (4, 2, 2_001), (4, 3, 10_001)];
    assert_eq!(fits_at(&hub, 200_000, offers), [Packets(1), Bits(2_000), Release(3), Nothing]);
    assert_eq!(fits_at(&hub, 200_001, offers), [Answer(12); 4]);
}
