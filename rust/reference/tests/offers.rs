//! Slip 9 by hand: offers, each as if alone, and the buffer lent for the answers.

mod common;

use common::{control, framed, plan, PLAN};
use reference::control::Control;
use reference::core::LAST_TIME;
use reference::hub::{Answer, Call, Hub};
use reference::offers::{Offer, MOST_OFFERS};
use reference::plan::Framing;

/// A byte that is no answer.
const UNTOUCHED: u8 = 0xee;

fn offer((k, n, b): (u64, u64, u64)) -> Offer {
    Offer { k, n, b }
}

/// Document 01's plan before any event: what D leaves of the frame is 87,000, and c
/// is b + 1,000.
fn fresh() -> Hub<Control> {
    control(&plan(PLAN))
}

/// The same with reservations of 30,000, 30,000 and 24,000, which leave 3,000.
fn reserved() -> Hub<Control> {
    let mut hub = fresh();
    for (k, n) in [(1, 10), (2, 10), (3, 8)] {
        taken(&mut hub, Call::Reserve { t: 0, k, n, b: 2_000 });
    }
    hub
}

fn taken(hub: &mut Hub<Control>, call: Call) {
    assert_eq!(hub.call(call), Answer::Taken, "{call:?}");
}

/// What becomes of a buffer of this length, and the answer.
fn lent(hub: &Hub<Control>, offers: &[Offer], length: usize) -> (u32, Vec<u8>) {
    let mut buffer = vec![UNTOUCHED; length];
    (hub.offers(offers, &mut buffer), buffer)
}

/// The answers to these offers at the clock.
fn answers<const L: usize>(hub: &Hub<Control>, offers: [(u64, u64, u64); L]) -> [u8; L] {
    let mut buffer = [UNTOUCHED; L];
    assert_eq!(hub.offers(&offers.map(offer), &mut buffer), 0);
    buffer
}

/// The answers to these offers at a time.
fn answers_at<const L: usize>(hub: &Hub<Control>, t: u64, offers: [(u64, u64, u64); L]) -> [u8; L] {
    let mut buffer = [UNTOUCHED; L];
    assert_eq!(hub.offers_at(t, &offers.map(offer), &mut buffer), 0);
    buffer
}

/// "More than 64 offers [..] is 18, and nothing is written", however long the buffer.
#[test]
fn up_to_64_offers() {
    let (hub, offers) = (fresh(), [Offer { k: 1, n: 1, b: 512 }; 70]);
    for count in [1, 63, MOST_OFFERS] {
        assert_eq!(lent(&hub, &offers[..count], count), (0, vec![0; count]));
    }
    for (count, length) in [(65, 64), (65, 65), (65, 66), (66, 66), (70, 1_000), (65, 0)] {
        assert_eq!(lent(&hub, &offers[..count], length), (18, vec![UNTOUCHED; length]));
    }
}

/// "A buffer shorter than the answers, is 18, and nothing is written." "Bytes behind
/// the answers stay."
#[test]
fn a_buffer_short_exact_and_longer() {
    let (hub, offers) = (fresh(), [(1, 1, 512), (0, 1, 512), (1, 1, 511)].map(offer));
    for short in 0..3 {
        assert_eq!(lent(&hub, &offers, short), (18, vec![UNTOUCHED; short]));
    }
    assert_eq!(lent(&hub, &offers, 3), (0, vec![0, 13, 15]));
    assert_eq!(lent(&hub, &offers, 4), (0, vec![0, 13, 15, UNTOUCHED]));
    let most = [offers[2]; MOST_OFFERS];
    assert_eq!(lent(&hub, &most, 63), (18, vec![UNTOUCHED; 63]));
    assert_eq!(lent(&hub, &most, 66), (0, [vec![15; 64], vec![UNTOUCHED; 2]].concat()));
}

/// "No offer and an empty buffer are 0."
#[test]
fn no_offer() {
    for hub in [fresh(), reserved()] {
        assert_eq!(lent(&hub, &[], 0), (0, vec![]));
        assert_eq!(lent(&hub, &[], 5), (0, vec![UNTOUCHED; 5]));
        assert_eq!(hub.offers_at(u64::MAX, &[], &mut []), 0);
    }
}

/// "n = 0 with b = 0 is an offer", of a node that has a reservation or none.
#[test]
fn giving_up_is_an_offer() {
    assert_eq!(answers(&reserved(), [(1, 0, 0), (4, 0, 0), (0, 0, 0), (5, 0, 0)]), [0, 0, 13, 13]);
    assert_eq!(answers(&reserved(), [(1, 0, 1), (4, 0, 512), (4, 0, u64::MAX)]), [15; 3]);
}

/// M5 to M7 as offers.
#[test]
fn the_limits_of_each_row() {
    let hub = fresh();
    assert_eq!(answers(&hub, [(1, 29, 2_000), (1, 29, 2_001), (4, 29, 2_000)]), [0, 17, 0]);
    assert_eq!(answers(&hub, [(0, 1, 512), (1, 1, 512), (4, 1, 512), (5, 1, 512)]), [13, 0, 0, 13]);
    assert_eq!(answers(&hub, [(1, 57, 512), (1, 58, 512), (1, 64, 512), (1, 65, 512)]), [0, 17, 17, 14]);
    assert_eq!(answers(&hub, [(1, 1, 511), (1, 1, 512), (1, 1, 12_000), (1, 1, 12_001)]), [15, 0, 0, 15]);
    let of_framing_5 = control(&plan(&framed(Framing::TokenRing)));
    let lengths = [(1, 1, 12_001), (1, 1, 35_999), (1, 1, 36_000), (1, 1, 36_001)];
    assert_eq!(answers(&of_framing_5, lengths), [0, 0, 0, 15]);
}

/// "Rows 13, 14, 15, 17 in their order": each offer breaks all rows from its own on.
#[test]
fn rows_in_their_order() {
    let broken = [(5, 65, 511), (0, 65, 12_001), (1, 65, 511), (1, 64, 12_001), (1, 64, 12_000)];
    assert_eq!(answers(&reserved(), broken), [13, 13, 14, 15, 17]);
    assert_eq!(answers(&reserved(), [(1, 65, 0), (1, 65, 12_000), (9, 1, 512)]), [14, 14, 13]);
}

/// The new one stands "in place of its node's old".
#[test]
fn its_own_old_reservation_makes_room() {
    let offers = [(1, 11, 2_000), (1, 12, 2_000), (1, 10, 2_300), (1, 10, 2_301), (1, 10, 2_000)];
    assert_eq!(answers(&reserved(), offers), [0, 17, 0, 17, 0]);
    assert_eq!(answers(&reserved(), [(3, 9, 2_000), (3, 10, 2_000), (4, 9, 2_000)]), [0, 17, 17]);
}

/// "Each as if alone": "the same node may be offered twice", and what one offer
/// would take or give up is not seen by the others.
#[test]
fn no_offer_knows_of_another() {
    let twice = [(4, 1, 2_000), (4, 1, 2_000), (4, 1, 2_001), (4, 1, 2_000)];
    assert_eq!(answers(&reserved(), twice), [0, 0, 17, 0]);
    assert_eq!(answers(&fresh(), [(1, 29, 2_000), (2, 29, 2_000), (1, 29, 2_000)]), [0; 3]);
    assert_eq!(answers(&reserved(), [(1, 0, 0), (4, 2, 2_000), (1, 0, 0)]), [0, 17, 0]);
}

/// "The order of the offers changes no answer."
#[test]
fn reversed_offers_have_reversed_answers() {
    let offers =
        [(4, 1, 2_000), (4, 1, 2_001), (9, 65, 0), (1, 65, 0), (1, 64, 511), (1, 0, 0), (1, 11, 2_000)];
    let mut reversed = offers;
    reversed.reverse();
    let mut backwards = answers(&reserved(), reversed);
    backwards.reverse();
    assert_eq!(answers(&reserved(), offers), [0, 17, 13, 14, 15, 0, 0]);
    assert_eq!(backwards, answers(&reserved(), offers));
}

/// "Node, n and b are u64": some would be good to one who keeps only their low bits,
/// and some products would come out small.
#[test]
fn any_numbers_at_all() {
    let hub = reserved();
    let (max, high) = (u64::MAX, 1 << 63);
    assert_eq!(answers(&hub, [(max, max, max), (max, 0, 0), (high + 1, 1, 512)]), [13; 3]);
    assert_eq!(answers(&hub, [(257, 1, 512), ((1 << 16) + 1, 1, 512), ((1 << 32) + 1, 1, 512)]), [13; 3]);
    assert_eq!(answers(&hub, [(1, max, max), (1, high, 2), (1, (1 << 32) + 1, 512), (1, 257, 512)]), [14; 4]);
    assert_eq!(
        answers(&hub, [(1, 64, max), (1, 1, max - 999), (1, 1, (1 << 32) + 512), (1, 0, high)]),
        [15; 4]
    );
    assert_eq!(hub.offers(&[Offer { k: max, n: max, b: max }; 65], &mut [0; 65]), 18);
}

/// The table is that of the latest accepted reservations, in force or not.
#[test]
fn the_present_table() {
    let mut hub = reserved();
    taken(&mut hub, Call::Until { t: 150_000 });
    assert_eq!(answers(&hub, [(4, 1, 2_000), (4, 1, 2_001)]), [0, 17]);
    taken(&mut hub, Call::Reserve { t: 150_000, k: 1, n: 0, b: 0 });
    assert_eq!(answers(&hub, [(4, 11, 2_000), (4, 12, 2_000), (1, 11, 2_000)]), [0, 17, 0]);
    taken(&mut hub, Call::Reserve { t: 150_000, k: 4, n: 11, b: 2_000 });
    assert_eq!(answers(&hub, [(1, 1, 512), (1, 0, 0), (4, 11, 2_000)]), [17, 0, 0]);
}

/// "Nothing is reserved": the hub is as it was in all its parts, and goes on as one
/// to which nothing was offered.
#[test]
fn the_hub_stays_as_it_was() {
    let mut hub = reserved();
    taken(&mut hub, Call::Until { t: 100_000 });
    taken(&mut hub, Call::High { t: 100_000, k: 1, b: 2_000 });
    let mut without = hub.clone();
    assert_eq!(answers(&hub, [(4, 1, 2_000), (1, 0, 0), (2, 11, 2_000), (3, 64, 12_000)]), [0, 0, 0, 17]);
    assert_eq!(answers_at(&hub, 100_000, [(4, 1, 2_000), (9, 1, 2_000)]), [0, 13]);
    assert_eq!(format!("{hub:?}"), format!("{without:?}"));
    let calls = [
        Call::Reserve { t: 100_000, k: 4, n: 1, b: 2_001 },
        Call::Reserve { t: 100_000, k: 4, n: 1, b: 2_000 },
        Call::Step { t: 200_000 },
        Call::Step { t: 200_000 },
        Call::High { t: 200_000, k: 1, b: 2_000 },
        Call::High { t: 200_000, k: 4, b: 2_000 },
        Call::Step { t: 300_000 },
        Call::Step { t: 300_000 },
    ];
    assert_eq!(calls.map(|call| hub.call(call)), calls.map(|call| without.call(call)));
    assert_eq!(format!("{hub:?}"), format!("{without:?}"));
}

/// At the clock neither 11 nor 12 can be, even where an instant is due there or the
/// line is busy, and at the end of time.
#[test]
fn at_the_clock_the_time_is_good() {
    let mut hub = reserved();
    taken(&mut hub, Call::Normal { t: 50_000, k: 2, b: 12_000 });
    assert_eq!(answers(&hub, [(4, 1, 2_000), (4, 1, 2_001), (0, 0, 0)]), [0, 17, 13]);
    assert!(matches!(hub.call(Call::Step { t: 50_001 }), Answer::Grant { .. }));
    assert_eq!(answers(&hub, [(4, 1, 2_000), (4, 1, 2_001), (0, 0, 0)]), [0, 17, 13]);
    assert!(matches!(hub.call(Call::Step { t: 63_001 }), Answer::Rest { .. }));
    taken(&mut hub, Call::Until { t: LAST_TIME });
    assert_eq!(answers(&hub, [(4, 1, 2_000), (4, 1, 2_001), (0, 0, 0)]), [0, 17, 13]);
}

/// "In a hall it is a later clock, and 12 can be there": before all rows behind it,
/// and only where the instant is strictly before the time.
#[test]
fn later_than_an_instant_due() {
    let mut hub = reserved();
    taken(&mut hub, Call::Normal { t: 50_000, k: 2, b: 12_000 });
    let offers = [(4, 1, 2_000), (4, 1, 2_001), (0, 65, 511), (u64::MAX, 0, 0), (1, 0, 0)];
    assert_eq!(answers_at(&hub, 50_000, offers), [0, 17, 13, 13, 0]);
    assert_eq!(answers_at(&hub, 50_001, offers), [12; 5]);
    assert!(matches!(hub.call(Call::Step { t: 50_001 }), Answer::Grant { end: 63_000, .. }));
    assert_eq!(answers_at(&hub, 63_000, offers), [0, 17, 13, 13, 0]);
    assert_eq!(answers_at(&hub, 63_001, offers), [12; 5]);
    assert_eq!(answers_at(&hub, LAST_TIME, offers), [12; 5]);
    let mut buffer = [UNTOUCHED; 65];
    assert_eq!(hub.offers_at(63_001, &[offer((1, 0, 0)); 65], &mut buffer), 18);
    assert_eq!(buffer, [UNTOUCHED; 65]);
}

/// A request that is held makes the next frame's start due.
#[test]
fn later_than_a_frame_start_with_a_held_request() {
    let mut hub = fresh();
    taken(&mut hub, Call::Reserve { t: 0, k: 3, n: 1, b: 4_000 });
    taken(&mut hub, Call::High { t: 100_000, k: 3, b: 4_000 });
    assert!(matches!(hub.call(Call::Step { t: 100_001 }), Answer::Grant { .. }));
    taken(&mut hub, Call::High { t: 100_500, k: 3, b: 4_000 });
    assert!(matches!(hub.call(Call::Step { t: 105_001 }), Answer::Rest { .. }));
    assert_eq!(answers_at(&hub, 200_000, [(1, 1, 512), (9, 1, 512)]), [0, 13]);
    assert_eq!(answers_at(&hub, 200_001, [(1, 1, 512), (9, 1, 512)]), [12, 12]);
}

/// "t above 10^15, or before the clock" is 11 for each offer, before 12 and the rest.
#[test]
fn a_time_that_is_none() {
    let mut hub = reserved();
    taken(&mut hub, Call::Normal { t: 50_000, k: 2, b: 12_000 });
    let offers = [(4, 1, 2_000), (4, 1, 2_001), (0, 65, 511), (1, 0, 0)];
    for t in [0, 49_999, LAST_TIME + 1, u64::MAX] {
        assert_eq!(answers_at(&hub, t, offers), [11; 4], "{t}");
    }
    taken(&mut hub, Call::Off { t: 50_000, k: 2 });
    assert_eq!(answers_at(&hub, LAST_TIME, offers), [0, 17, 13, 0]);
    assert_eq!(answers_at(&hub, LAST_TIME + 1, offers), [11; 4]);
}
