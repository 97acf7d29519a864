//! Reservations, and document 01's formulas for them: "Admission and delay".

use lembuya::{Call, Plan};

/// What a node has reserved: n packets a frame of at most b bits. No packets are no reservation.
#[derive(Clone, Copy, Debug, Default, PartialEq, Eq)]
pub struct Share {
    /// n.
    pub packets: u64,
    /// b.
    pub bits: u64,
}

impl Share {
    /// c = b + O.
    fn cost(self, plan: &Plan) -> u64 {
        self.bits + plan.overhead()
    }

    /// n × c.
    pub fn load(self, plan: &Plan) -> u64 {
        self.packets * self.cost(plan)
    }
}

/// The reservations by accepted events with times below `before`: node k's stands at k - 1. The latest one counts.
pub fn reserved(plan: &Plan, accepted: &[Call], before: u64) -> Vec<Share> {
    let mut shares = vec![Share::default(); plan.nodes() as usize];
    for event in accepted.iter().filter(|event| event.time() < before) {
        if let Call::Reserve { node, packets, bits, .. } = *event {
            // An accepted one is of a node of the plan.
            shares[node as usize - 1] = Share { packets, bits };
        }
    }
    shares
}

/// D plus the sum of n × c: what admission holds against T.
pub fn load(plan: &Plan, shares: &[Share]) -> u64 {
    plan.interrupt() + shares.iter().map(|share| share.load(plan)).sum::<u64>()
}

/// The delay limit of the node at place k, counted from the frame's start: D, its own n × c, and of every other node j
/// min(n, n of j) × c of j.
pub fn delay_limit(plan: &Plan, shares: &[Share], k: usize) -> u64 {
    let n = shares[k].packets;
    let others = shares.iter().enumerate().filter(|(j, _)| *j != k);
    let others: u64 = others.map(|(_, share)| n.min(share.packets) * share.cost(plan)).sum();
    plan.interrupt() + shares[k].load(plan) + others
}

/// What a high wait of the node at place k can't be longer than, by request 5 of document 02: D, and c of every other node with a
/// reservation.
pub fn wait_limit(plan: &Plan, shares: &[Share], k: usize) -> u64 {
    let others = shares.iter().enumerate().filter(|(j, share)| *j != k && share.packets > 0);
    plan.interrupt() + others.map(|(_, share)| share.cost(plan)).sum::<u64>()
}

#[cfg(test)]
mod tests {
    use super::*;

    /// T, O and D are 100,000, 1,000 and 13,000, as document 01's cases have them.
    fn plan() -> Plan {
        Plan::read(b"(frame 100000)\n(overhead 1000)\n(interrupt 13000)\n(hub\n(node)\n(node)\n)\n").unwrap()
    }

    fn share(packets: u64, bits: u64) -> Share {
        Share { packets, bits }
    }

    #[test]
    fn m5_fills_the_frame() {
        assert_eq!(load(&plan(), &[share(29, 2_000)]), 100_000);
    }

    #[test]
    fn the_limit_counts_others_up_to_ones_own_packets() {
        let shares = [share(2, 4_000), share(0, 0), share(3, 2_000), share(1, 11_000)];
        // 13,000 + 2 × 5,000 + 2 × 3,000 + 1 × 12,000
        assert_eq!(delay_limit(&plan(), &shares, 0), 41_000);
        // 13,000 + 3 × 3,000 + 2 × 5,000 + 1 × 12,000
        assert_eq!(delay_limit(&plan(), &shares, 2), 44_000);
        // 13,000 + 1 × 12,000 + 1 × 5,000 + 1 × 3,000
        assert_eq!(delay_limit(&plan(), &shares, 3), 33_000);
    }

    /// The others' packets count once each, however many they have, and one's own not at all.
    #[test]
    fn a_waits_limit_counts_each_other_reservation_once() {
        let shares = [share(2, 4_000), share(0, 0), share(3, 2_000), share(1, 11_000)];
        // 13,000 + 3,000 + 12,000; 13,000 + 5,000 + 12,000; and of a node with nothing reserved all three.
        assert_eq!([0, 2, 1].map(|k| wait_limit(&plan(), &shares, k)), [28_000, 30_000, 33_000]);
    }

    #[test]
    fn the_latest_reserve_below_a_time_counts() {
        let reserve = |time, packets| Call::Reserve { time, node: 2, packets, bits: 512 };
        let all = [reserve(0, 1), Call::Off { time: 1, node: 2 }, reserve(5, 3), reserve(9, 0)];
        assert_eq!(reserved(&plan(), &all, 5), [share(0, 0), share(1, 512)]);
        assert_eq!(reserved(&plan(), &all, 6), [share(0, 0), share(3, 512)]);
        assert_eq!(reserved(&plan(), &all, 10)[1].packets, 0);
    }
}
