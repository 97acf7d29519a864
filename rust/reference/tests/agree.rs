//! Flat, control, fast and peer answer alike on random lists of calls; and in every
//! state that one of them reaches, control by slip 4 takes no more moves than by
//! document 01's own rule 2, and gives the same turn.

mod common;

use common::{control, flat};
use reference::control::{Control, Turning};
use reference::fast::Fast;
use reference::hub::{Answer, Call, Hub};
use reference::peer::Peer;
use reference::random::calls::{Caller, Style};
use reference::random::{plans, Random};

/// What the lists met.
#[derive(Default, Debug)]
struct Met {
    refused: [u64; 18],
    taken: u64,
    grants: [u64; 2],
    rests: u64,
    quiet: u64,
    most_moves: u64,
    most_levels: u64,
    /// Grants of packets that only framing 5 has, by class.
    long: [u64; 2],
    /// Steps that take fewer moves than by the root, and how many fewer.
    savings: u64,
    saved: u64,
}

impl Met {
    fn count(&mut self, answer: Answer) {
        match answer {
            Answer::Refused(row) => self.refused[row as usize] += 1,
            Answer::Taken => self.taken += 1,
            Answer::Grant { class, .. } => self.grants[class as usize] += 1,
            Answer::Rest { .. } => self.rests += 1,
            Answer::Quiet => self.quiet += 1,
        }
        self.most_moves = self.most_moves.max(answer.moves());
    }
}

/// The same call in the same state, by a way of turning.
fn by(hub: &Hub<Control>, turning: Turning, call: Call) -> Answer {
    let mut hub = hub.clone();
    hub.turns().turn(turning);
    hub.call(call)
}

fn agree(seed: u64, calls: u64, met: &mut Met) {
    let mut random = Random::new(seed);
    let plan = plans::plan(&mut random);
    let style = if random.chance(60) { Style::Mixed } else { Style::Loaded };
    let mut caller = Caller::new(&plan, random.number(), style);
    let (mut flat, mut control, mut fast) = (flat(&plan), control(&plan), Fast::new(&plan));
    let mut peer = Peer::new(&plan);
    let mut root = Hub::new(&plan, Control::turning(&plan, Turning::Root));
    let levels = plan.levels() as u64;
    met.most_levels = met.most_levels.max(levels);
    for place in 0..calls {
        let call: Call = caller.next_call();
        let at = || format!("seed {seed}, call {place}: {call:?}");
        for hub in [&control, &root] {
            let (near, far) = (by(hub, Turning::Nearest, call), by(hub, Turning::Root, call));
            assert_eq!(near.without_moves(), far.without_moves(), "{}", at());
            assert!(near.moves() <= far.moves(), "{near:?}, by the root {far:?}, {}", at());
            met.savings += u64::from(near.moves() < far.moves());
            met.saved += far.moves() - near.moves();
        }
        let answer = control.call(call);
        assert_eq!(root.call(call).without_moves(), answer.without_moves(), "by the root, {}", at());
        assert_eq!(peer.call(call), answer, "peer, {}", at());
        assert_eq!(flat.call(call), answer.without_moves(), "flat, {}", at());
        assert_eq!(fast.call(call), answer.without_moves(), "fast, {}", at());
        assert!(answer.moves() <= 4 * (levels - 1), "moves {}, {}", answer.moves(), at());
        met.count(answer);
        if let Answer::Grant { time, class, end, .. } = answer {
            met.long[class as usize] += u64::from(end - time > plan.overhead + 12_000);
        }
        caller.hear(call, answer);
    }
}

fn lists(seeds: std::ops::Range<u64>, calls: u64) -> Met {
    let mut met = Met::default();
    for seed in seeds {
        agree(seed, calls, &mut met);
    }
    println!("{met:?}");
    met
}

#[test]
fn the_hubs_agree() {
    let met = lists(0..600, 500);
    for row in 11..=17 {
        assert!(met.refused[row] > 500, "row {row} was hardly met: {met:?}");
    }
    assert!(met.grants.iter().all(|&grants| grants > 5_000), "{met:?}");
    assert!(met.rests > 5_000 && met.quiet > 5_000 && met.taken > 50_000, "{met:?}");
    assert!(met.most_levels == 5 && met.most_moves >= 12, "{met:?}");
    assert!(met.long.iter().all(|&long| long > 1_000), "{met:?}");
    assert!(met.savings > 1_000, "{met:?}");
}

/// `cargo test --release -- --ignored`, with LISTS to say how many.
#[test]
#[ignore = "long"]
fn the_hubs_agree_for_long() {
    let many = std::env::var("LISTS").ok().and_then(|lists| lists.parse().ok()).unwrap_or(20_000);
    lists(1_000_000..1_000_000 + many, 1_000);
}
