//! A six-colour press: prints its plan and events, and on standard error how late its corrections were and how far its image
//! came. docs/EXAMPLES.md explains the figures.
//!
//!     cargo run --example press > press.text
//!     cargo run --example press -- --ring > ring.text     # the same press with token ring frames: packets of up to 4,500 bytes

mod queues;

use lembuya::{Class, Plan};
use queues::Hall;

const FRAME: u64 = 200_000;
const FRAMES: u64 = 5;
const OVERHEAD: u64 = 1_011;
/// The proof image's bits.
const IMAGE: u64 = 720_000;

/// Nodes 1 and 2 at the root; in each colour unit's hub a register camera and an ink drive.
const PROOF: u64 = 1;
const CONSOLE: u64 = 2;
const CAMERAS: [u64; 6] = [3, 5, 7, 9, 11, 13];
const INK_DRIVES: [u64; 6] = [4, 6, 8, 10, 12, 14];

fn main() -> Result<(), Box<dyn std::error::Error>> {
    let words: Vec<String> = std::env::args().skip(1).collect();
    let text = match words.iter().map(String::as_str).collect::<Vec<_>>()[..] {
        [] => press(12_000, ""),
        ["--ring"] => press(36_000, "(framing 5)\n"),
        _ => return Err("press takes --ring, or nothing".into()),
    };
    let plan = Plan::read(text.as_bytes())?;
    let mut hall = Hall::new(&plan);
    for camera in CAMERAS {
        hall.reserve(camera, 2, 4_000)?;
    }
    // The proof image starts in frame 0 and fills every gap that the others leave, in packets of the greatest length.
    let longest = plan.longest_packet();
    hall.arrive(50_000, PROOF, Class::Normal, IMAGE / longest, longest);
    (1..FRAMES).for_each(|frame| arrivals(&mut hall, frame * FRAME));
    hall.run(FRAMES * FRAME)?;
    print!("{text}{}", hall.lines);
    let granted = hall.waits.iter().filter(|wait| wait.node == PROOF).count();
    eprintln!(
        "{}; {granted} of the image's {} packets were granted",
        lateness(&hall),
        IMAGE / longest
    );
    Ok(())
}

/// The press's plan, with its framing's line or none: D is its longest packet and the overhead.
fn press(longest: u64, framing: &str) -> String {
    let interrupt = longest + OVERHEAD;
    let unit = "(hub\n(node)\n(node)\n)\n".repeat(6);
    format!(
        "(frame {FRAME})\n(overhead {OVERHEAD})\n(interrupt {interrupt})\n{framing}(hub\n(node)\n(node)\n{unit})\n"
    )
}

/// What comes in a frame that starts at `start`.
fn arrivals(hall: &mut Hall, start: u64) {
    for camera in CAMERAS {
        hall.arrive(start, camera, Class::High, 2, 4_000);
    }
    // What the cameras found goes to the console and to the ink drives, which answer in their own time.
    hall.arrive(start + 90_000, CONSOLE, Class::Normal, 1, 8_000);
    for (unit, drive) in INK_DRIVES.into_iter().enumerate() {
        hall.arrive(
            start + 100_000 + 9_000 * unit as u64,
            drive,
            Class::Normal,
            1,
            1_024,
        );
    }
}

/// How late the corrections were.
fn lateness(hall: &Hall) -> String {
    let corrections: Vec<_> = hall
        .waits
        .iter()
        .filter(|wait| wait.class == Class::High)
        .collect();
    let waited = corrections
        .iter()
        .map(|wait| wait.granted - wait.head)
        .max()
        .unwrap_or(0);
    let ended = corrections
        .iter()
        .map(|wait| wait.granted % FRAME + 4_000 + OVERHEAD)
        .max()
        .unwrap_or(0);
    format!(
        "{} corrections; one waited {waited} bit times at most, the latest in a frame ended {ended} behind its start",
        corrections.len()
    )
}
