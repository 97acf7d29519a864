//! Which waits request 5 limits.
//!
//! It speaks of a high request that is put up with fewer than n high grants of its node in that frame, and is kept standing while no
//! change of reservations comes into force: its grant comes no later than D and the sum of c = b + O of the other nodes with a
//! reservation. A grant's wait tells when its request was put up, so that the log and the accepted reserves decide whether it was so.

use crate::log::Entry;
use crate::shares::{self, Share};
use crate::text::Text;
use lembuya::{Call, Class, Plan, Step};
use std::collections::HashMap;

/// A wait's limit, or why it has none.
#[derive(Clone, Copy, Debug, PartialEq, Eq)]
pub enum Limit {
    /// No wait with the premises of request 5 is longer.
    Within(u64),
    /// A normal request may wait for as long as high ones count.
    Normal,
    /// Its node had had all its high packets of the frame as it was put up.
    Spent,
    /// Reservations in force changed while it stood.
    Changed,
}

/// A grant, by what its wait and limit are about.
#[derive(Clone, Copy, Debug, PartialEq, Eq)]
pub struct Grant {
    pub node: u64,
    pub class: Class,
    pub wait: u64,
    pub limit: Limit,
}

/// The grants of a text's log, in its order.
pub fn grants(text: &Text, entries: &[Entry]) -> Vec<Grant> {
    let accepted = text.accepted(entries);
    let mut past = Past { plan: &text.plan, accepted: &accepted, high_grants: HashMap::new() };
    let turns = entries.iter().filter_map(|entry| match entry {
        Entry::Step(turn) => Some(*turn),
        _ => None,
    });
    turns.filter_map(|turn| past.grant(turn)).collect()
}

/// What came before a grant.
struct Past<'t> {
    plan: &'t Plan,
    accepted: &'t [Call],
    /// How many high grants a node has had in a frame.
    high_grants: HashMap<(u64, u64), u64>,
}

impl Past<'_> {
    /// The next turn of the log, if it is a grant.
    fn grant(&mut self, turn: Step) -> Option<Grant> {
        let Step::Grant { time, node, class, wait, .. } = turn else { return None };
        let limit = match class {
            Class::Normal => Limit::Normal,
            Class::High => self.limit(turn.put_up()?, time, node),
        };
        if class == Class::High {
            *self.high_grants.entry((node, time / self.plan.frame())).or_default() += 1;
        }
        Some(Grant { node, class, wait, limit })
    }

    /// The limit of a high request that was put up at a time and is granted at another. Every earlier grant of its node came before
    /// the put-up, since a grant removes the request.
    fn limit(&self, put_up: u64, granted: u64, node: u64) -> Limit {
        let (first, last) = (put_up / self.plan.frame(), granted / self.plan.frame());
        let shares = self.in_force(first);
        let had = self.high_grants.get(&(node, first)).copied().unwrap_or(0);
        let k = node as usize - 1;
        if had >= shares[k].packets {
            Limit::Spent
        } else if (first + 1..=last).any(|frame| self.in_force(frame) != shares) {
            Limit::Changed
        } else {
            Limit::Within(shares::wait_limit(self.plan, &shares, k))
        }
    }

    /// What each node has reserved in a frame.
    fn in_force(&self, frame: u64) -> Vec<Share> {
        shares::reserved(self.plan, self.accepted, frame * self.plan.frame())
    }
}

#[cfg(test)]
mod tests {
    use super::*;

    /// T, O and D are 100,000, 1,000 and 13,000; three nodes in one hub.
    fn limits(events: &str) -> Vec<(u64, u64, Limit)> {
        let plan = "(frame 100000)\n(overhead 1000)\n(interrupt 13000)\n(hub\n(node)\n(node)\n(node)\n)\n";
        let text = format!("{plan}{events}");
        let entries = crate::log::read(&lembuya::log(text.as_bytes())).unwrap();
        let grants = grants(&Text::read(text.as_bytes()).unwrap(), &entries);
        grants.iter().map(|grant| (grant.node, grant.wait, grant.limit)).collect()
    }

    /// Nodes 1, 2 and 3 with c of 5,000, 12,000 and 3,000, all high at 100,001, behind node 1's longest packet from 100,000 on.
    #[test]
    fn the_others_with_a_reservation_count_and_ones_own_packet_doesnt() {
        let reserves = "(reserve 0 1 1 4000)\n(reserve 0 2 1 11000)\n(reserve 0 3 2 2000)\n";
        let events = "(normal 100000 1 12000)\n(high 100001 1 4000)\n(high 100001 2 11000)\n(high 100001 3 2000)\n(until 200000)\n";
        let found = limits(&format!("{reserves}{events}"));
        let expected = [
            (1, 0, Limit::Normal),
            (1, 12_999, Limit::Within(13_000 + 12_000 + 3_000)),
            (2, 17_999, Limit::Within(13_000 + 5_000 + 3_000)),
            (3, 29_999, Limit::Within(13_000 + 5_000 + 12_000)),
        ];
        assert_eq!(found, expected);
        // Given up in frame 0 already, node 2's is no reservation; its request is a normal one, and comes last.
        let found = limits(&format!("{reserves}(reserve 1 2 0 0)\n{events}"));
        let expected = [
            (1, 0, Limit::Normal),
            (1, 12_999, Limit::Within(16_000)),
            (3, 17_999, Limit::Within(18_000)),
            (2, 20_999, Limit::Normal),
        ];
        assert_eq!(found, expected);
    }

    /// One packet a frame. The second request of frame 1 is held until frame 2 starts. Its grant there is that frame's packet, so that
    /// the third, put up just behind it, is held until frame 3 starts.
    #[test]
    fn a_request_with_its_share_spent_has_no_limit() {
        let events = "(reserve 0 1 1 4000)\n(high 100000 1 4000)\n(high 101000 1 4000)\n(until 200001)\n(high 200001 1 4000)\n\
            (until 400000)\n";
        let expected = [(1, 0, Limit::Within(13_000)), (1, 99_000, Limit::Spent), (1, 99_999, Limit::Spent)];
        assert_eq!(limits(events), expected);
        // With two packets the second is granted at once.
        let found = limits(&events.replace("(reserve 0 1 1", "(reserve 0 1 2"));
        let waits: Vec<_> = found.iter().map(|(_, wait, limit)| (*wait, *limit)).collect();
        let within = Limit::Within(13_000);
        assert_eq!(waits, [(0, within), (4_000, within), (0, within)]);
    }

    /// Node 2's longest packet runs over the start of frame 2, where what node 3 has reserved changes or doesn't.
    #[test]
    fn a_change_in_force_counts_where_the_request_stands_over_it() {
        let events = |reserve: &str| {
            format!(
                "(reserve 0 1 1 4000)\n(reserve 0 3 1 4000)\n{reserve}(normal 195000 2 12000)\n(until 196000)\n\
                 (high 196000 1 4000)\n(until 300000)\n"
            )
        };
        let wait = |reserve: &str| limits(&events(reserve))[1];
        assert_eq!(wait(""), (1, 12_000, Limit::Within(18_000)));
        assert_eq!(wait("(reserve 150000 3 1 3000)\n"), (1, 12_000, Limit::Changed));
        assert_eq!(wait("(reserve 150000 3 2 4000)\n"), (1, 12_000, Limit::Changed));
        assert_eq!(wait("(reserve 150000 3 0 0)\n"), (1, 12_000, Limit::Changed));
        // Its own counts too.
        assert_eq!(wait("(reserve 150000 1 2 4000)\n"), (1, 12_000, Limit::Changed));
        // A reserve that says what is in force already, or that another replaces in the same frame, changes nothing.
        assert_eq!(wait("(reserve 150000 3 1 4000)\n"), (1, 12_000, Limit::Within(18_000)));
        let twice = "(reserve 150000 3 1 3000)\n(reserve 150001 3 1 4000)\n";
        assert_eq!(wait(twice), (1, 12_000, Limit::Within(18_000)));
        // In force before the request is put up, or only behind its grant's frame: no change.
        assert_eq!(wait("(reserve 50000 3 1 3000)\n"), (1, 12_000, Limit::Within(17_000)));
        let late = limits(&(events("") + "(reserve 350000 3 1 3000)\n"));
        assert_eq!(late[1], (1, 12_000, Limit::Within(18_000)));
    }

    /// Its reservation is given up: at the start of frame 2 it becomes a normal request, and waits as one from there on.
    #[test]
    fn a_request_that_a_frames_start_turns_normal_is_a_normal_one() {
        let events =
            "(reserve 0 1 1 4000)\n(reserve 150000 1 0 0)\n(normal 195000 2 12000)\n(until 196000)\n\
            (high 196000 1 4000)\n(until 300000)\n";
        assert_eq!(limits(events), [(2, 0, Limit::Normal), (1, 8_000, Limit::Normal)]);
    }

    /// Without `(strict)`: taken as normal, in frame 0.
    #[test]
    fn a_high_request_taken_as_normal_has_no_limit() {
        let events = "(normal 0 2 12000)\n(high 0 3 12000)\n(until 100000)\n";
        assert_eq!(limits(events), [(2, 0, Limit::Normal), (3, 13_000, Limit::Normal)]);
    }
}
