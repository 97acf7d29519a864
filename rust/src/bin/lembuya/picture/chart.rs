//! What a picture shows, in rows and times; nothing of where it stands on the page.

use super::places::{Places, Row};
use crate::log::Entry;
use crate::shares::{self, Share};
use crate::text::Text;
use lembuya::{Call, Class, Plan, Step};

/// A stretch of time on a row, with what a browser shows of it.
#[derive(Clone, Debug, PartialEq, Eq)]
pub struct Bar {
    pub row: usize,
    pub from: u64,
    pub to: u64,
    pub class: Class,
    pub title: String,
}

/// Control with a hub, from an instant to the next.
#[derive(Clone, Debug, PartialEq, Eq)]
pub struct Control {
    pub row: usize,
    /// The row that had control before.
    pub before: usize,
    pub from: u64,
    pub to: u64,
    pub moves: u64,
    pub title: String,
}

/// The line at rest.
#[derive(Clone, Debug, PartialEq, Eq)]
pub struct Rest {
    pub from: u64,
    pub to: u64,
    pub title: String,
}

/// A request that stood, from when it was first put up to its grant.
#[derive(Clone, Debug, PartialEq, Eq)]
pub struct Wait {
    pub row: usize,
    pub from: u64,
    pub to: u64,
    pub title: String,
}

/// A mark at a time on a row: a delay limit, or a refused event.
#[derive(Clone, Debug, PartialEq, Eq)]
pub struct Mark {
    pub row: usize,
    pub at: u64,
    pub title: String,
}

/// All that is drawn.
#[derive(Debug)]
pub struct Chart {
    pub title: String,
    /// The figures in words, or none.
    pub figures: String,
    pub from: u64,
    pub to: u64,
    pub rows: Vec<Row>,
    /// Each frame's number and start that lies within the range.
    pub frames: Vec<(u64, u64)>,
    pub bars: Vec<Bar>,
    pub waits: Vec<Wait>,
    pub controls: Vec<Control>,
    pub rests: Vec<Rest>,
    pub limits: Vec<Mark>,
    pub refusals: Vec<Mark>,
}

/// The longest stretch that can be drawn, in frames: a picture with more has no line for each.
const MOST_FRAMES: u64 = 1_000;

impl Chart {
    /// The chart of a log between two times; those not given are the start and the end of what happened.
    pub fn new(
        title: &str,
        text: Option<&Text>,
        entries: &[Entry],
        from: Option<u64>,
        to: Option<u64>,
    ) -> Result<Chart, String> {
        let accepted = text.map(|text| text.accepted(entries)).unwrap_or_default();
        let ends = entries.iter().filter_map(end).chain(accepted.iter().map(|event| event.time()));
        let last = ends.max().unwrap_or(0);
        let from = from.unwrap_or(0);
        let to = to.unwrap_or(last.max(from + 1));
        if from >= to {
            return Err(format!("nothing lies from {from} up to {to}"));
        }
        let places = Places::new(text, entries);
        let mut chart = Chart::empty(title, places.figures(text), from, to, places.rows.clone());
        chart.add_turns(&places, entries, last);
        chart.add_waits(&places, entries);
        if let Some(text) = text {
            let frames = (to - from) / text.plan.frame();
            if frames > MOST_FRAMES {
                let most = format!("--from and --to take at most {MOST_FRAMES} of them");
                return Err(format!("{frames} frames are too many for a picture; {most}"));
            }
            chart.add_frames(&places, &text.plan, &accepted);
            chart.add_refusals(&places, text, entries);
        }
        Ok(chart)
    }

    /// Rows and a range, with nothing in them yet.
    pub fn empty(title: &str, figures: String, from: u64, to: u64, rows: Vec<Row>) -> Chart {
        Chart {
            title: title.into(),
            figures,
            from,
            to,
            rows,
            frames: Vec::new(),
            bars: Vec::new(),
            waits: Vec::new(),
            controls: Vec::new(),
            rests: Vec::new(),
            limits: Vec::new(),
            refusals: Vec::new(),
        }
    }

    /// Whether a stretch of time is in the picture. One of no length is where it lies in the range, its ends included: a rest
    /// may be over at once, and the log's last one has nothing behind it.
    pub fn shows(&self, from: u64, to: u64) -> bool {
        if from == to {
            return (self.from..=self.to).contains(&from);
        }
        from < self.to && to > self.from
    }

    fn add_turns(&mut self, places: &Places, entries: &[Entry], last: u64) {
        let turns: Vec<Step> = entries.iter().filter_map(turn).collect();
        let starts: Vec<u64> = turns.iter().map(|turn| time(*turn)).chain([last]).collect();
        let mut before = places.root;
        if starts[0] > 0 && self.shows(0, starts[0]) {
            let title = "at first the root has control".into();
            self.controls.push(Control { row: before, before, from: 0, to: starts[0], moves: 0, title });
        }
        for (at, turn) in turns.iter().enumerate() {
            let (from, to) = (starts[at], starts[at + 1].max(starts[at]));
            let title = turn.to_string();
            let (row, moves) = match *turn {
                Step::Grant { node, class, end, moves, .. } => {
                    let row = places.node[node as usize - 1];
                    if self.shows(from, end) {
                        self.bars.push(Bar { row, from, to: end, class, title: title.clone() });
                    }
                    (places.holder[node as usize - 1], moves)
                }
                Step::Rest { moves, .. } => {
                    if self.shows(from, to) {
                        self.rests.push(Rest { from, to, title: title.clone() });
                    }
                    (places.root, moves)
                }
                Step::Quiet => unreachable!("the log has no line for quiet"),
            };
            if self.shows(from, to) {
                self.controls.push(Control { row, before, from, to, moves, title });
            }
            before = row;
        }
    }

    /// Frames, and in each the delay limit of every node with a reservation in force.
    fn add_frames(&mut self, places: &Places, plan: &Plan, accepted: &[Call]) {
        let frame = plan.frame();
        for number in self.from / frame..=(self.to - 1) / frame {
            let start = number * frame;
            if start >= self.from {
                self.frames.push((number, start));
            }
            let shares = shares::reserved(plan, accepted, start);
            for (k, share) in shares.iter().enumerate().filter(|(_, share)| share.packets > 0) {
                let limit = shares::delay_limit(plan, &shares, k);
                let at = start + limit;
                if (self.from..=self.to).contains(&at) {
                    let title = limit_words(k + 1, number, *share, limit, at);
                    self.limits.push(Mark { row: places.node[k], at, title });
                }
            }
        }
    }

    fn add_refusals(&mut self, places: &Places, text: &Text, entries: &[Entry]) {
        for entry in entries {
            let Entry::Refused { line, number } = entry else { continue };
            let Some(event) = text.events.iter().find(|event| event.line == *line) else { continue };
            let node = event.call.node().filter(|node| (1..=text.plan.nodes()).contains(node));
            let (row, at) = (node.map(|node| places.node[node as usize - 1]), event.call.time());
            if let (Some(row), true) = (row, (self.from..self.to).contains(&at)) {
                let words = crate::log::words(*line, *number, Some(&text.plan));
                let title = format!("(refused {line} {number}): {words}");
                self.refusals.push(Mark { row, at, title });
            }
        }
    }
}

fn limit_words(node: usize, frame: u64, share: Share, limit: u64, at: u64) -> String {
    let Share { packets, bits } = share;
    format!(
        "node {node}, frame {frame}: delay limit {limit} bit times, to {at} ({packets} packets of at most {bits} bits)"
    )
}

/// When an entry of the log is over.
fn end(entry: &Entry) -> Option<u64> {
    match entry {
        Entry::Step(Step::Grant { end, .. }) => Some(*end),
        Entry::Step(Step::Rest { time, .. }) => Some(*time),
        _ => None,
    }
}

fn turn(entry: &Entry) -> Option<Step> {
    match entry {
        Entry::Step(turn) => Some(*turn),
        _ => None,
    }
}

fn time(turn: Step) -> u64 {
    match turn {
        Step::Grant { time, .. } | Step::Rest { time, .. } => time,
        Step::Quiet => unreachable!("the log has no line for quiet"),
    }
}

#[cfg(test)]
mod tests {
    use super::*;

    const EXAMPLE: &[u8] = include_bytes!("../../../../../examples/example.text");

    fn example(from: Option<u64>, to: Option<u64>) -> Chart {
        let entries = crate::log::read(&lembuya::log(EXAMPLE)).unwrap();
        Chart::new("example", Some(&Text::read(EXAMPLE).unwrap()), &entries, from, to).unwrap()
    }

    #[test]
    fn every_grant_is_a_bar_on_its_nodes_row() {
        let bars = example(None, None).bars;
        let places: Vec<_> = bars.iter().map(|bar| (bar.row, bar.from, bar.to, bar.class.number())).collect();
        let (low, high) = (1, 2);
        assert_eq!(
            places,
            [
                (1, 0, 13_000, low),
                (5, 13_000, 20_000, low),
                (3, 99_000, 112_000, low),
                (4, 112_000, 117_000, high),
                (1, 117_000, 119_000, low)
            ]
        );
        assert_eq!(bars[3].title, "(grant 112000 3 2 117000 2 12000)");
    }

    /// Of document 01's log: 13,000 of node 4, then node 3's, which was put up at 100,000 while node 2 had the line, and node 1's.
    #[test]
    fn every_wait_stands_before_its_bar() {
        let chart = example(None, None);
        let waits: Vec<_> = chart.waits.iter().map(|wait| (wait.row, wait.from, wait.to)).collect();
        assert_eq!(waits, [(5, 0, 13_000), (4, 100_000, 112_000), (1, 100_000, 117_000)]);
        let starts: Vec<_> = chart.bars.iter().map(|bar| (bar.row, bar.from)).collect();
        assert!(chart.waits.iter().all(|wait| starts.contains(&(wait.row, wait.to))));
    }

    #[test]
    fn control_stands_with_the_granted_nodes_hub_and_at_rest_with_the_root() {
        let controls = example(None, None).controls;
        let places: Vec<_> = controls.iter().map(|c| (c.before, c.row, c.from, c.to, c.moves)).collect();
        assert_eq!(
            places,
            [
                (0, 0, 0, 13_000, 0),
                (0, 0, 13_000, 20_000, 0),
                (0, 0, 20_000, 99_000, 0),
                (0, 2, 99_000, 112_000, 1),
                (2, 2, 112_000, 117_000, 2),
                (2, 0, 117_000, 119_000, 1),
                (0, 0, 119_000, 200_000, 0)
            ]
        );
    }

    #[test]
    fn rests_frames_limits_and_refusals_stand_at_their_times() {
        let chart = example(None, None);
        let rests: Vec<_> = chart.rests.iter().map(|rest| (rest.from, rest.to)).collect();
        assert_eq!(rests, [(20_000, 99_000), (119_000, 200_000)]);
        assert_eq!(chart.frames, [(0, 0), (1, 100_000)]);
        // In frame 1: D + 2 × (4,000 + 1,000), of node 3 alone.
        assert_eq!(chart.limits.iter().map(|mark| (mark.row, mark.at)).collect::<Vec<_>>(), [(4, 123_000)]);
        assert_eq!(chart.refusals.iter().map(|mark| (mark.row, mark.at)).collect::<Vec<_>>(), [(4, 0)]);
        assert!(chart.refusals[0].title.starts_with("(refused 16 16): "));
    }

    #[test]
    fn packets_of_framing_5_have_their_length() {
        let text =
            b"(frame 200000)\n(overhead 1000)\n(interrupt 37000)\n(framing 5)\n(hub\n(node)\n(node)\n)\n\
            (reserve 0 2 1 36000)\n(normal 0 1 36000)\n(high 200000 2 36000)\n(until 400000)\n";
        let entries = crate::log::read(&lembuya::log(text)).unwrap();
        let chart = Chart::new("", Text::read(text).ok().as_ref(), &entries, None, None).unwrap();
        // Each packet has 36,000 + 1,000 bit times; the limit is 200,000 + D + 1 × 37,000.
        let bars: Vec<_> = chart.bars.iter().map(|bar| (bar.row, bar.from, bar.to)).collect();
        assert_eq!(bars, [(1, 0, 37_000), (2, 200_000, 237_000)]);
        assert_eq!(chart.limits.iter().map(|mark| (mark.row, mark.at)).collect::<Vec<_>>(), [(2, 274_000)]);
    }

    #[test]
    fn a_range_leaves_out_what_lies_outside() {
        let chart = example(Some(112_000), Some(119_000));
        let starts: Vec<_> = chart.bars.iter().map(|bar| bar.from).collect();
        assert_eq!(starts, [112_000, 117_000]);
        assert!(chart.rests.is_empty() && chart.limits.is_empty() && chart.frames.is_empty());
        let entries = crate::log::read(&lembuya::log(EXAMPLE)).unwrap();
        assert!(Chart::new("", None, &entries, Some(5), Some(5)).is_err());
    }

    #[test]
    fn a_rest_of_no_length_is_shown() {
        let entries = crate::log::read(
            b"(nodes 1 hubs 1)\n(grant 0 1 1 600 0 0)\n(rest 600 1)\n(grant 600 1 1 1200 2 0)\n(rest 1200 3)\n",
        );
        let entries = entries.unwrap();
        let chart = Chart::new("", None, &entries, None, None).unwrap();
        let rests: Vec<_> = chart.rests.iter().map(|rest| (rest.from, rest.to)).collect();
        assert_eq!((chart.to, rests), (1_200, vec![(600, 600), (1_200, 1_200)]));
        let moves: Vec<_> = chart.controls.iter().map(|control| control.moves).collect();
        assert_eq!(moves, [0, 1, 2, 3]);
        assert!(Chart::new("", None, &entries, None, Some(599)).unwrap().rests.is_empty());
    }

    #[test]
    fn a_log_alone_has_rows_for_its_nodes() {
        let entries = crate::log::read(&lembuya::log(EXAMPLE)).unwrap();
        let chart = Chart::new("", None, &entries, None, None).unwrap();
        assert_eq!(chart.rows.len(), 5);
        assert_eq!(chart.bars.len(), 5);
        assert!(chart.frames.is_empty() && chart.limits.is_empty());
    }
}
