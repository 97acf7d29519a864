//! What would make an offer fit: the smallest single change with which a reservation that is refused by 17 would be taken.

use crate::{safe, Cascade, Offer, Refused};
use std::fmt;

/// What would make an offer fit, as [`Cascade::fit`] tells it: the answer, where that isn't 17, or the smallest single change.
///
/// `Display` is in words for a planner, and [`Fit::line`] is what the command `lembuya offers --fit` writes.
///
/// ```
/// use lembuya::{Fit, Refused};
///
/// assert_eq!(Fit::Packets(8).to_string(), "8 packets a frame would fit");
/// assert_eq!(Fit::Bits(2_000).to_string(), "packets of up to 2000 bits would fit");
/// assert_eq!(Fit::Release(3).to_string(), "it would fit if node 3's reservation were given up");
/// assert_eq!(Fit::Nothing.to_string(), "no single change makes it fit");
/// assert_eq!(Fit::Answer(Ok(())).to_string(), "it fits as it is");
/// assert_eq!(Fit::Answer(Err(Refused::Node)).to_string(), "k is 0 or above N");
/// ```
#[derive(Clone, Copy, Debug, PartialEq, Eq, Hash)]
pub enum Fit {
    /// The offer isn't refused by 17: its answer, as [`Cascade::offers`] has it. It is `Ok` where the offer fits as it is, and
    /// never [`Refused::Full`].
    Answer(Result<(), Refused>),
    /// The largest lower n, 1 at least, that fits for the same node and b.
    Packets(u64),
    /// No lower n fits. The largest lower b, 512 at least, that fits at the same n.
    Bits(u64),
    /// No lower b fits either. The other node whose reservation, given up whole, makes room enough: of several the one that has
    /// the least n × (b + O), of equal ones the lower number.
    Release(u64),
    /// Nor does such a node's release: no single change makes the offer fit.
    Nothing,
}

impl Fit {
    /// The change that the archive named: its case and its number.
    fn named(change: [u64; 2]) -> Fit {
        match change {
            [1, packets] => Fit::Packets(packets),
            [2, bits] => Fit::Bits(bits),
            [3, node] => Fit::Release(node),
            [4, _] => Fit::Nothing,
            [case, _] => unreachable!("no change has case {case}"),
        }
    }

    /// The line that the command `lembuya offers --fit` writes behind an answer of 17, without an LF; none for another answer.
    ///
    /// ```
    /// use lembuya::{Fit, Refused};
    ///
    /// let lines = [Fit::Packets(8), Fit::Bits(2_000), Fit::Release(3), Fit::Nothing].map(|fit| fit.line().unwrap());
    /// assert_eq!(lines, ["(fit packets 8)", "(fit bits 2000)", "(fit release 3)", "(fit nothing)"]);
    /// assert_eq!(Fit::Answer(Err(Refused::Node)).line(), None);
    /// ```
    pub fn line(self) -> Option<String> {
        match self {
            Fit::Answer(_) => None,
            Fit::Packets(packets) => Some(format!("(fit packets {packets})")),
            Fit::Bits(bits) => Some(format!("(fit bits {bits})")),
            Fit::Release(node) => Some(format!("(fit release {node})")),
            Fit::Nothing => Some("(fit nothing)".into()),
        }
    }

    /// The offer that fits in place of the one that was asked about, where the change is one of the offer itself: with fewer
    /// packets, or shorter ones.
    ///
    /// ```
    /// use lembuya::{Fit, Offer};
    ///
    /// let offer = Offer { node: 1, packets: 10, bits: 12_000 };
    /// assert_eq!(Fit::Packets(9).changed(offer), Some(Offer { packets: 9, ..offer }));
    /// assert_eq!(Fit::Bits(8_000).changed(offer), Some(Offer { bits: 8_000, ..offer }));
    /// assert_eq!(Fit::Release(3).changed(offer), None); // it fits unchanged, once node 3 gives up its own
    /// ```
    pub fn changed(self, offer: Offer) -> Option<Offer> {
        match self {
            Fit::Packets(packets) => Some(Offer { packets, ..offer }),
            Fit::Bits(bits) => Some(Offer { bits, ..offer }),
            Fit::Answer(_) | Fit::Release(_) | Fit::Nothing => None,
        }
    }
}

impl fmt::Display for Fit {
    fn fmt(&self, f: &mut fmt::Formatter<'_>) -> fmt::Result {
        match self {
            Fit::Answer(Ok(())) => f.pad("it fits as it is"),
            Fit::Answer(Err(refused)) => refused.fmt(f),
            Fit::Packets(1) => f.pad("1 packet a frame would fit"),
            Fit::Packets(packets) => write!(f, "{packets} packets a frame would fit"),
            Fit::Bits(bits) => write!(f, "packets of up to {bits} bits would fit"),
            Fit::Release(node) => write!(f, "it would fit if node {node}'s reservation were given up"),
            Fit::Nothing => f.pad("no single change makes it fit"),
        }
    }
}

impl Cascade {
    /// What would make an offer fit that [`Cascade::offers`] answers by 17: the smallest single change, at the clock, against
    /// what is reserved now. Another answer is given back. Nothing is reserved.
    ///
    /// The change is the first of these that there is: a lower n for the same node and b, a lower b at the same n, another
    /// node's whole release. As an offer does, each stands in place of the node's own latest reservation, which is never named
    /// for release; nor is a node that has nothing reserved.
    ///
    /// # Examples
    ///
    /// Of the frame 100,000 - 13,000 = 87,000 can be reserved, and a packet of b bits takes b + 1,000. Nodes 1 and 2 have
    /// 8 × 5,000 each, so that 7,000 are left for node 3:
    ///
    /// ```
    /// use lembuya::{Fit, Offer, Plan, Refused};
    ///
    /// let plan = Plan::read(b"(frame 100000)\n(overhead 1000)\n(interrupt 13000)\n(hub\n(node)\n(node)\n(node)\n)\n")?;
    /// let mut hub = plan.cascade();
    /// hub.reserve(0, 1, 8, 4_000)?;
    /// hub.reserve(0, 2, 8, 4_000)?;
    /// let fit = |packets, bits| hub.fit(Offer { node: 3, packets, bits });
    /// assert_eq!(fit(4, 4_000), Fit::Packets(1)); // 5,000
    /// assert_eq!(fit(1, 8_000), Fit::Bits(6_000)); // 7,000; there is no n below 1
    /// // 5 × 9,000 = 45,000: one packet is too much, and so are five of 512 bits. 7,000 + 40,000 are enough.
    /// assert_eq!(fit(5, 8_000), Fit::Release(1)); // or node 2, which has as much: the lower number is named
    /// assert_eq!(fit(6, 8_000), Fit::Nothing); // 54,000
    /// assert_eq!(fit(1, 6_000), Fit::Answer(Ok(()))); // 7,000 fit as they are
    /// assert_eq!(fit(65, 6_000), Fit::Answer(Err(Refused::Packets)));
    /// # Ok::<(), Box<dyn std::error::Error>>(())
    /// ```
    pub fn fit(&self, offer: Offer) -> Fit {
        let Offer { node, packets, bits } = offer;
        let (number, change) = safe::fit(self.plan().cells(), self.cells(), node, packets, bits);
        match Refused::event(number) {
            Err(Refused::Full) => Fit::named(change),
            answer => Fit::Answer(answer),
        }
    }
}

#[cfg(test)]
mod tests {
    use super::*;
    use crate::example::{EVENTS, PLAN};
    use crate::Plan;

    fn offer(node: u64, packets: u64, bits: u64) -> Offer {
        Offer { node, packets, bits }
    }

    /// Reserved in document 01's plan: 6 × 6,000 and 9 × 4,000, which is as much, and 11,000. Of 87,000 there are 4,000 left.
    const RESERVED: [Offer; 3] = [
        Offer { node: 1, packets: 6, bits: 5_000 },
        Offer { node: 2, packets: 9, bits: 3_000 },
        Offer { node: 3, packets: 1, bits: 10_000 },
    ];

    fn reserved() -> Cascade {
        hub_with(&RESERVED)
    }

    fn hub_with(reserved: &[Offer]) -> Cascade {
        let mut hub = Plan::read(PLAN.as_bytes()).unwrap().cascade();
        for Offer { node, packets, bits } in reserved {
            hub.reserve(0, *node, *packets, *bits).unwrap();
        }
        hub
    }

    #[test]
    fn the_largest_lower_n_comes_first() {
        let hub = reserved();
        assert_eq!(hub.fit(offer(4, 3, 1_000)), Fit::Packets(2)); // 4,000
        assert_eq!(hub.fit(offer(4, 64, 3_000)), Fit::Packets(1));
        // In place of its own 36,000, node 1 has 40,000.
        assert_eq!(hub.fit(offer(1, 7, 5_000)), Fit::Packets(6));
        assert_eq!(hub.fit(offer(1, 64, 512)), Fit::Packets(26)); // 26 × 1,512 = 39,312
    }

    #[test]
    fn then_the_largest_lower_b() {
        let hub = reserved();
        assert_eq!(hub.fit(offer(4, 1, 3_001)), Fit::Bits(3_000));
        assert_eq!(hub.fit(offer(4, 1, 12_000)), Fit::Bits(3_000));
        assert_eq!(hub.fit(offer(4, 2, 3_001)), Fit::Bits(1_000)); // 2 × 2,000; one packet takes 4,001
    }

    /// A packet of 512 bits takes 1,512: 8 × 10,686 leave just that, and 8 × 10,687 leave 1,504.
    #[test]
    fn the_least_b_is_512() {
        let hub = hub_with(&[offer(1, 8, 9_686)]);
        assert_eq!(hub.fit(offer(2, 1, 513)), Fit::Bits(512));
        assert_eq!(hub.fit(offer(2, 1, 512)), Fit::Answer(Ok(())));
        let hub = hub_with(&[offer(1, 8, 9_687)]);
        assert_eq!([513, 512].map(|bits| hub.fit(offer(2, 1, bits))), [Fit::Release(1); 2]);
    }

    /// Three packets of 512 bits take 4,536, which is more than the 4,000 that are left.
    #[test]
    fn then_the_cheapest_release_and_of_equal_ones_the_lower_number() {
        let hub = reserved();
        assert_eq!(hub.fit(offer(4, 3, 4_000)), Fit::Release(3)); // 15,000 = 4,000 + 11,000
        assert_eq!(hub.fit(offer(4, 3, 4_001)), Fit::Release(1)); // 15,003; nodes 1 and 2 have 36,000 each
        assert_eq!(hub.fit(offer(4, 8, 4_000)), Fit::Release(1)); // 40,000 = 4,000 + 36,000
        assert_eq!(hub.fit(offer(4, 8, 4_001)), Fit::Nothing);
        // Neither fewer packets nor shorter ones count, where both take as much.
        let turned = hub_with(&[offer(1, 9, 3_000), offer(2, 6, 5_000), offer(3, 1, 10_000)]);
        assert_eq!(turned.fit(offer(4, 8, 4_000)), Fit::Release(1));
    }

    #[test]
    fn an_answer_that_is_not_17_is_given_back() {
        let hub = reserved();
        let answer = |node, packets, bits| match hub.fit(offer(node, packets, bits)) {
            Fit::Answer(answer) => answer.map_or_else(Refused::number, |()| 0),
            other => panic!("{other:?}"),
        };
        assert_eq!([answer(4, 1, 3_000), answer(3, 1, 12_000), answer(1, 0, 0)], [0, 0, 0]);
        assert_eq!([answer(0, 64, 12_000), answer(5, 65, 0)], [13, 13]);
        assert_eq!([answer(4, 65, 12_000), answer(4, 65, 0)], [14, 14]);
        assert_eq!([answer(4, 64, 12_001), answer(4, 1, 511), answer(4, 0, 512)], [15, 15, 15]);
        assert_eq!(
            [answer(u64::MAX, 1, 512), answer(1, u64::MAX, 512), answer(1, 1, u64::MAX)],
            [13, 14, 15]
        );
    }

    /// With framing 5 a packet may have 36,000 bits. 100,000 - 37,000 - 37,000 = 26,000 are left for node 2.
    #[test]
    fn the_longest_packet_is_the_plans() {
        let figures = "(frame 100000)\n(overhead 1000)\n(interrupt 37000)\n(framing 5)\n";
        let plan = Plan::read(format!("{figures}(hub\n(node)\n(node)\n)\n").as_bytes()).unwrap();
        let mut hub = plan.cascade();
        hub.reserve(0, 1, 1, 36_000).unwrap();
        assert_eq!(hub.fit(offer(2, 1, 36_000)), Fit::Bits(25_000));
        assert_eq!(hub.fit(offer(2, 1, 36_001)), Fit::Answer(Err(Refused::Length)));
        assert_eq!(hub.fit(offer(2, 18, 25_001)), Fit::Nothing); // 18 × 1,512 = 27,216; 18 × 26,001 = 468,018
        hub.reserve(0, 1, 1, 25_001).unwrap();
        assert_eq!(hub.fit(offer(2, 1, 36_000)), Fit::Bits(35_999)); // 63,000 - 26,001 = 36,999
    }

    /// What was reserved last counts, not what is in force: node 3's 10,000 are still in force in the frame in which they are
    /// given up.
    #[test]
    fn the_latest_reservations_count() {
        let mut hub = Cascade::behind(format!("{PLAN}{EVENTS}").as_bytes()).unwrap();
        assert_eq!(hub.fit(offer(1, 64, 12_000)), Fit::Packets(5)); // 77,000
        hub.reserve(200_000, 3, 0, 0).unwrap();
        assert_eq!(hub.fit(offer(1, 64, 12_000)), Fit::Packets(6)); // 87,000
    }

    /// Whether an offer would be taken.
    fn fits(hub: &Cascade, offer: Offer) -> bool {
        hub.offers(&[offer]).unwrap()[0].is_ok()
    }

    /// The first change in the request's order with which the offer would be taken, by trying each.
    fn tried(hub: &Cascade, offer: Offer) -> Fit {
        let packets = (1..offer.packets).rev().map(Fit::Packets);
        let bits = (512..offer.bits).rev().map(Fit::Bits);
        let own = |fit: &Fit| fit.changed(offer).is_some_and(|changed| fits(hub, changed));
        packets.chain(bits).find(own).or_else(|| released(hub, offer)).unwrap_or(Fit::Nothing)
    }

    /// The other node whose release makes the offer fit, and has the least reserved.
    fn released(hub: &Cascade, offer: Offer) -> Option<Fit> {
        let enough = |share: &&Offer| {
            let mut without = hub.clone();
            without.reserve(0, share.node, 0, 0).unwrap();
            share.node != offer.node && fits(&without, offer)
        };
        let cost = |share: &&Offer| share.packets * (share.bits + hub.plan().overhead());
        // Of equal ones it is the first.
        RESERVED.iter().filter(enough).min_by_key(cost).map(|share| Fit::Release(share.node))
    }

    #[test]
    fn what_is_named_is_the_first_that_fits_when_each_is_tried() {
        let hub = reserved();
        let mut met = [0; 5];
        for (node, packets) in (0..=5).flat_map(|node| [1, 2, 3, 5, 8, 20, 65].map(|packets| (node, packets)))
        {
            for bits in [511, 512, 900, 1_001, 3_000, 3_001, 4_000, 4_001, 12_000] {
                let offer = offer(node, packets, bits);
                let expected = match hub.offers(&[offer]).unwrap()[0] {
                    Err(Refused::Full) => tried(&hub, offer),
                    answer => Fit::Answer(answer),
                };
                assert_eq!(hub.fit(offer), expected, "{offer}");
                met[case(expected)] += 1;
            }
        }
        assert!(met.iter().all(|met| *met > 3), "{met:?}");
        assert_eq!(hub, reserved()); // nothing was reserved
    }

    fn case(fit: Fit) -> usize {
        match fit {
            Fit::Answer(_) => 0,
            Fit::Packets(_) => 1,
            Fit::Bits(_) => 2,
            Fit::Release(_) => 3,
            Fit::Nothing => 4,
        }
    }

    /// A reserve of what is named is taken, behind the release where it is one.
    #[test]
    fn a_reserve_of_what_is_named_is_taken() {
        let mut hub = reserved();
        let asked = offer(4, 3, 4_001);
        assert_eq!((hub.fit(asked), hub.fit(asked).changed(asked)), (Fit::Release(1), None));
        hub.reserve(0, 1, 0, 0).unwrap();
        assert_eq!(hub.fit(asked), Fit::Answer(Ok(())));
        hub.reserve(0, 4, 3, 4_001).unwrap();
        // 87,000 - 36,000 - 11,000 - 15,003 = 24,997 are left for node 1.
        let asked = offer(1, 6, 5_000);
        let changed = hub.fit(asked).changed(asked).unwrap();
        assert_eq!(changed, offer(1, 4, 5_000));
        hub.reserve(0, changed.node, changed.packets, changed.bits).unwrap();
    }

    #[test]
    fn one_packet_is_not_many() {
        assert_eq!(Fit::Packets(1).to_string(), "1 packet a frame would fit");
        assert_eq!(Fit::Packets(2).to_string(), "2 packets a frame would fit");
    }
}
