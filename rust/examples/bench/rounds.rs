//! How long a load and a text take each hub, in rounds: the hubs one after the other in each, so that what
//! else the machine does hits all alike.

use crate::archive;
use crate::hubs::{Hubs, Tables};
use crate::loads::Load;
use reference::hub::Call;
use reference::peer;
use std::hint::black_box;
use std::time::Instant;

fn median(mut figures: Vec<f64>) -> f64 {
    figures.sort_unstable_by(f64::total_cmp);
    figures[figures.len() / 2]
}

/// What several rounds of three measurements gave.
#[derive(Clone, Default)]
pub struct Rounds(Vec<[f64; 3]>);

impl Rounds {
    pub fn push(&mut self, round: [f64; 3]) {
        self.0.push(round);
    }

    /// The median of one of the three.
    pub fn figure(&self, place: usize) -> f64 {
        median(self.0.iter().map(|round| round[place]).collect())
    }

    /// The median over the rounds of one's time in parts of another's in the same round.
    pub fn ratio(&self, place: usize, other: usize) -> f64 {
        median(self.0.iter().map(|round| round[place] / round[other]).collect())
    }
}

/// The three places, another one first in each round.
fn in_turn(round: usize) -> [usize; 3] {
    std::array::from_fn(|place| (place + round) % 3)
}

/// Nanoseconds a call of each hub, for a load. The calls are looked at before, so that no hub has to fetch them.
pub fn time_load(ready: &Hubs, load: &Load, round: usize) -> [f64; 3] {
    black_box(load.timed.iter().fold(0, |sum, call| call.time() ^ sum));
    let mut figures = [0.0; 3];
    for place in in_turn(round) {
        figures[place] = match place {
            0 => time_hub(&ready.tables, load, Tables::timed_call),
            1 => time_hub(&ready.peer, load, |hub, call| {
                black_box(hub.call(call));
            }),
            _ => time_hub(&ready.fast, load, |hub, call| {
                black_box(hub.call(call));
            }),
        };
    }
    figures
}

#[inline(always)]
fn time_hub<H: Clone>(ready: &H, load: &Load, call_hub: impl Fn(&mut H, Call)) -> f64 {
    let mut hub = ready.clone();
    let start = Instant::now();
    for &call in &load.timed {
        call_hub(&mut hub, call);
    }
    start.elapsed().as_nanos() as f64 / load.timed.len() as f64
}

/// Where logs are written: nothing is allocated within a timing.
pub struct Buffers {
    archive: Vec<u8>,
    peer: Vec<u8>,
}

impl Buffers {
    pub fn new() -> Buffers {
        Buffers { archive: vec![0; lembuya::LONGEST_LOG], peer: Vec::with_capacity(lembuya::LONGEST_LOG) }
    }
}

/// Microseconds of a text's log: the archive's run into a buffer that holds every log, the peer, and the
/// archive's run into a buffer just as long as the log.
pub fn time_log(text: &[u8], tables: &mut Tables, buffers: &mut Buffers, round: usize) -> [f64; 3] {
    let mut figures = [0.0; 3];
    buffers.peer.clear();
    peer::log::log_onto(text, &mut buffers.peer);
    let length = buffers.peer.len();
    for place in in_turn(round) {
        let start = Instant::now();
        match place {
            1 => {
                buffers.peer.clear();
                peer::log::log_onto(black_box(text), &mut buffers.peer);
            }
            _ => {
                let end = if place == 0 { lembuya::LONGEST_LOG } else { length };
                let log = &mut buffers.archive[..end];
                let (plan, cascade) = (&mut tables.plan, &mut tables.cascade);
                assert_eq!(archive::run(black_box(text), plan, cascade, log), (0, length as u64));
            }
        }
        figures[place] = start.elapsed().as_nanos() as f64 / 1_000.0;
    }
    assert!(buffers.archive[..length] == buffers.peer[..], "the logs are equal");
    figures
}
