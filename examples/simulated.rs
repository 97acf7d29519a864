//! Source document 004's simulated network: three hubs of fifteen ports, six nodes with a block of eight packets of 1,500 bytes
//! every 10 ms, and normal packets from every node. Prints access delays; docs/EXAMPLES.md says how they differ from 004's.
//!
//!     cargo run --release --example simulated             # the table
//!     cargo run --release --example simulated -- --text   # a plan and events: five frames at 35 Mbit/s, blocks together

mod queues;

use lembuya::{Class, Plan};
use queues::{Hall, Wait};

const FRAME: u64 = 1_000_000;
const BITS: u64 = 12_000;
/// Hub A is the root, with hubs B and C on two of its ports: nodes 1 to 13 are A's, 14 to 28 B's and 29 to 43 C's.
const NODES: u64 = 43;
const HIGH: [u64; 6] = [14, 19, 24, 29, 34, 39];
/// As many packets as 004's runs had, in ten parts, each a run of its own.
const PACKETS: u64 = 100_000;
const PARTS: u64 = 10;

/// When the six blocks come.
#[derive(Clone, Copy)]
enum Blocks {
    /// All at the frame's start.
    Together,
    /// Each at a time of its own in every frame, drawn anew for each part.
    Apart,
}

fn main() -> Result<(), Box<dyn std::error::Error>> {
    let words: Vec<String> = std::env::args().skip(1).collect();
    match words.iter().map(String::as_str).collect::<Vec<_>>()[..] {
        [] => table(),
        ["--text"] => {
            let (plan, hall) = hall(35, 1_011, Blocks::Together, 5, 0)?;
            print!("{plan}{}", hall.lines);
            Ok(())
        }
        _ => Err("simulated takes --text, or nothing".into()),
    }
}

/// The tree, with its figures.
fn plan(overhead: u64) -> String {
    let fifteen = format!("(hub\n{})\n", "(node)\n".repeat(15));
    let figures = format!(
        "(frame {FRAME})\n(overhead {overhead})\n(interrupt {})\n",
        BITS + overhead
    );
    format!(
        "{figures}(hub\n{}{fifteen}{fifteen})\n",
        "(node)\n".repeat(13)
    )
}

/// The network at work: normal load in Mbit/s, overhead, how many frames, and which part of a run.
fn hall(
    load: u64,
    overhead: u64,
    blocks: Blocks,
    frames: u64,
    part: u64,
) -> Result<(String, Hall), Box<dyn std::error::Error>> {
    let plan = plan(overhead);
    let mut hall = Hall::new(&Plan::read(plan.as_bytes())?);
    let mut draw = Draw(part);
    for node in HIGH {
        hall.reserve(node, 8, BITS)?;
        let at = match blocks {
            Blocks::Together => 0,
            Blocks::Apart => draw.below(FRAME),
        };
        for frame in 1..frames {
            hall.arrive(frame * FRAME + at, node, Class::High, 8, BITS);
        }
    }
    // A node's mean time between normal packets; each is drawn from 0 up to twice that.
    if let Some(mean) = (NODES * BITS * 100).checked_div(load) {
        for node in 1..=NODES {
            let mut time = draw.below(2 * mean);
            while time < frames * FRAME {
                hall.arrive(time, node, Class::Normal, 1, BITS);
                time += draw.below(2 * mean + 1);
            }
        }
    }
    hall.run(frames * FRAME)?;
    Ok((plan, hall))
}

fn table() -> Result<(), Box<dyn std::error::Error>> {
    println!("                                      high, ms          normal, ms");
    println!("blocks    overhead  normal Mbit/s  mean   greatest    mean   greatest");
    for (name, blocks) in [("apart", Blocks::Apart), ("together", Blocks::Together)] {
        for overhead in [144, 1_011] {
            for load in [0, 10, 20, 30, 35] {
                // 48 high packets a frame, and as many normal ones as make the load.
                let frames = PACKETS / PARTS / (48 + load * FRAME / 100 / BITS) + 1;
                let mut waits = Vec::new();
                for part in 0..PARTS {
                    let (_, hall) = hall(load, overhead, blocks, frames, part)?;
                    waits.extend(middle(&hall, frames * FRAME));
                }
                let [high, normal] =
                    [Class::High, Class::Normal].map(|class| delays(&waits, class));
                println!("{name:<9} {overhead:>8} {load:>14}  {high}    {normal}");
            }
        }
    }
    println!("document 004          35           <0.5       <0.8");
    Ok(())
}

/// The packets of the middle eight tenths of a run: 004 leaves out its start and its end too.
fn middle(hall: &Hall, end: u64) -> impl Iterator<Item = Wait> + '_ {
    hall.waits
        .iter()
        .copied()
        .filter(move |wait| (end / 10..end - end / 10).contains(&wait.head))
}

/// Mean and greatest access delay of a class, in ms.
fn delays(waits: &[Wait], class: Class) -> String {
    let of_class = waits.iter().filter(|wait| wait.class == class);
    let delays: Vec<u64> = of_class.map(|wait| wait.granted - wait.head).collect();
    match delays.iter().max() {
        None => format!("{:>5} {:>9}", "-", "-"),
        Some(greatest) => {
            let mean = delays.iter().sum::<u64>() as f64 / delays.len() as f64;
            format!("{:>5.2} {:>9.2}", mean / 1e5, *greatest as f64 / 1e5)
        }
    }
}

/// Numbers that look random, the same in every run: Steele, Lea and Flood's SplitMix64.
struct Draw(u64);

impl Draw {
    fn below(&mut self, bound: u64) -> u64 {
        self.0 = self.0.wrapping_add(0x9e37_79b9_7f4a_7c15);
        let mut z = self.0;
        z = (z ^ (z >> 30)).wrapping_mul(0xbf58_476d_1ce4_e5b9);
        z = (z ^ (z >> 27)).wrapping_mul(0x94d0_49bb_1331_11eb);
        (z ^ (z >> 31)) % bound
    }
}
