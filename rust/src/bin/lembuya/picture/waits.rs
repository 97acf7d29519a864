//! How long each request that was granted had stood: a line on its node's row, from its put-up to its grant.

use super::chart::{Chart, Wait};
use super::places::Places;
use crate::log::Entry;
use lembuya::Step;

impl Chart {
    /// Every grant that came later than its request, if its wait reaches into the range. One that came at once has no line.
    pub fn add_waits(&mut self, places: &Places, entries: &[Entry]) {
        for entry in entries {
            let Entry::Step(turn @ Step::Grant { time: to, node, wait, .. }) = *entry else { continue };
            let from = turn.put_up().expect("a grant has one");
            if wait > 0 && self.shows(from, to) {
                let title = format!("node {node} waited {wait} bit times, from {from} on: {turn}");
                self.waits.push(Wait { row: places.node[node as usize - 1], from, to, title });
            }
        }
    }
}

#[cfg(test)]
mod tests {
    use super::*;

    /// Node 1 asks at 0 and 4,000, node 2 at 0 and 20,000. All are granted in turn.
    const LOG: &[u8] = b"(nodes 2 hubs 1)\n(grant 0 1 1 13000 0 0)\n(grant 13000 2 1 26000 0 13000)\n\
        (grant 26000 1 1 39000 0 22000)\n(grant 39000 2 1 52000 0 19000)\n(rest 52000 0)\n";

    fn chart(from: Option<u64>, to: Option<u64>) -> Chart {
        Chart::new("", None, &crate::log::read(LOG).unwrap(), from, to).unwrap()
    }

    fn places(chart: &Chart) -> Vec<(usize, u64, u64)> {
        chart.waits.iter().map(|wait| (wait.row, wait.from, wait.to)).collect()
    }

    #[test]
    fn a_wait_goes_from_the_put_up_to_the_grant_on_its_nodes_row() {
        let chart = chart(None, None);
        assert_eq!(places(&chart), [(2, 0, 13_000), (1, 4_000, 26_000), (2, 20_000, 39_000)]);
        assert_eq!(
            chart.waits[1].title,
            "node 1 waited 22000 bit times, from 4000 on: (grant 26000 1 1 39000 0 22000)"
        );
    }

    #[test]
    fn a_grant_at_once_has_none() {
        assert!(chart(None, None).waits.iter().all(|wait| wait.to != 0));
    }

    /// A wait is shown where it reaches into the range, and the one whose grant lies behind it too.
    #[test]
    fn a_range_leaves_out_what_lies_outside() {
        assert_eq!(places(&chart(Some(13_000), Some(20_000))), [(1, 4_000, 26_000)]);
        assert_eq!(places(&chart(Some(13_000), Some(20_001))), [(1, 4_000, 26_000), (2, 20_000, 39_000)]);
        assert_eq!(places(&chart(Some(39_000), None)), []);
    }
}
