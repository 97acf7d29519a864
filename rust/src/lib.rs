//! The cascade hub: a controller that gives turns on one shared line (IEEE 802.12, demand priority).
//!
//! Hubs in up to five levels hand control to one another and give turns exactly as one large flat
//! hub would. A node may reserve high packets in every time frame; each of these ends within a
//! known delay, whatever the others do. Times are in bit times (10 ns at 100 Mbit/s), lengths in
//! bits, and nodes, hubs and lines are numbered from 1.
//!
//! The work is done by `liblembuya.a`, which `rt lib` makes from proved code: each
//! function meets its contract, never faults and always ends. This crate gives it Rust's types and
//! adds no rule of its own. "Document 01" is the paper that the proofs follow, "document 02" the one with
//! requests for changes to it.
//!
//! - [`Plan`]: a tree of hubs and its figures, read from a text. [`Hub`], [`Port`] and [`Place`] tell its tree,
//!   [`Framing`] which packets its line carries, and [`Plan::is_strict`] what becomes of high requests without a reservation.
//! - [`Cascade`]: a plan's hub at work. It takes five events and the step.
//! - [`Step`], [`Refused`]: what it answers. Their `Display` is the log's form and the documents' words.
//! - [`Call`], [`Answer`]: the same as values, for a list of calls. A `Call` is read from an event line, and shown as one.
//! - [`Offer`], [`Answers`]: many reservations asked for in one pass, by [`Cascade::offers`]; none is made.
//! - [`Fit`]: what would make a refused offer fit, by [`Cascade::fit`]. Its `Display` is in a planner's words.
//! - [`log()`], [`log_into`]: the whole log of a text, and [`Cascade::behind`] the hub as it is then.
//! - [`ffi`]: the archive's functions as they are.
//!
//! The command `lembuya` over this crate (`src/bin/lembuya`) makes logs, limits, waits and pictures of texts, answers
//! offers, and tells what would make them fit.
//!
//! # Document 01's example
//!
//! A root hub with a node, a hub of two nodes, and a node:
//!
//! ```
//! use lembuya::{Plan, Refused};
//!
//! let plan = Plan::read(
//!     b"(frame 100000)\n(overhead 1000)\n(interrupt 13000)\n(strict)\n\
//!       (hub\n(node)\n(hub\n(node)\n(node)\n)\n(node)\n)\n",
//! )?;
//! assert_eq!(plan.to_string(), "(nodes 4 hubs 2)");
//!
//! let mut hub = plan.cascade();
//! hub.reserve(0, 3, 2, 4_000)?; // two packets of 4,000 bits a frame, from the next frame on
//! hub.normal(0, 1, 12_000)?;
//! hub.normal(0, 4, 6_000)?;
//! assert_eq!(hub.high(0, 3, 4_000), Err(Refused::Unreserved)); // nothing is reserved in frame 0, and the plan is strict
//!
//! // Time passes: the turns that come before 99,000.
//! let turns: Result<Vec<_>, _> = hub.steps_before(99_000).collect();
//! let turns: Vec<_> = turns?.iter().map(|turn| turn.to_string()).collect();
//! assert_eq!(turns, ["(grant 0 1 1 13000 0 0)", "(grant 13000 4 1 20000 0 13000)", "(rest 20000 0)"]);
//!
//! hub.normal(99_000, 2, 12_000)?;
//! for turn in hub.steps_before(100_000) {
//!     assert_eq!(turn?.to_string(), "(grant 99000 2 1 112000 1 0)");
//! }
//! hub.high(100_000, 3, 4_000)?;
//! hub.normal(100_000, 1, 1_000)?;
//! let turns: Result<Vec<_>, _> = hub.steps_before(200_000).collect();
//! let turns: Vec<_> = turns?.iter().map(|turn| turn.to_string()).collect();
//! assert_eq!(
//!     turns,
//!     ["(grant 112000 3 2 117000 2 12000)", "(grant 117000 1 1 119000 1 17000)", "(rest 119000 0)"],
//! );
//! hub.until(200_000)?;
//! # Ok::<(), Box<dyn std::error::Error>>(())
//! ```
//!
//! The same as one text, with its log:
//!
//! ```
//! let text = b"(frame 100000)\n(overhead 1000)\n(interrupt 13000)\n(strict)\n\
//!     (hub\n(node)\n(hub\n(node)\n(node)\n)\n(node)\n)\n\
//!     (reserve 0 3 2 4000)\n(normal 0 1 12000)\n(normal 0 4 6000)\n(high 0 3 4000)\n\
//!     (normal 99000 2 12000)\n(high 100000 3 4000)\n(normal 100000 1 1000)\n(until 200000)\n";
//! let log = "(nodes 4 hubs 2)\n(refused 16 16)\n(grant 0 1 1 13000 0 0)\n\
//!     (grant 13000 4 1 20000 0 13000)\n(rest 20000 0)\n(grant 99000 2 1 112000 1 0)\n\
//!     (grant 112000 3 2 117000 2 12000)\n(grant 117000 1 1 119000 1 17000)\n(rest 119000 0)\n";
//! assert_eq!(lembuya::log(text), log.as_bytes());
//! ```

#![deny(missing_docs, unsafe_op_in_unsafe_fn)]
#![deny(unsafe_code)]

mod calls;
mod cascade;
mod cells;
pub mod ffi;
mod fit;
mod forms;
mod framing;
mod log;
mod offers;
mod plan;
mod refused;
mod safe;
mod tree;

pub use calls::{Answer, Call, Class, Step};
pub use cascade::{Cascade, StepsBefore};
pub use fit::Fit;
pub use forms::ParseCallError;
pub use framing::Framing;
pub use log::{log, log_into, LONGEST_LOG, LONGEST_TEXT};
pub use offers::{Answers, Offer, ParseOfferError, MOST_OFFERS};
pub use plan::{Events, Plan};
pub use refused::{PlanRefused, PlanRow, Refused, RefusedLine, Short};
pub use tree::{Hub, Place, Port};

/// Document 01's plan, with the line that request 8 asks of it, and its events, for tests.
#[cfg(test)]
mod example {
    pub const PLAN: &str = "(frame 100000)\n(overhead 1000)\n(interrupt 13000)\n(strict)\n\
        (hub\n(node)\n(hub\n(node)\n(node)\n)\n(node)\n)\n";
    pub const EVENTS: &str = "(reserve 0 3 2 4000)\n(normal 0 1 12000)\n(normal 0 4 6000)\n\
        (high 0 3 4000)\n(normal 99000 2 12000)\n(high 100000 3 4000)\n\
        (normal 100000 1 1000)\n(until 200000)\n";
    pub const LOG: &str = "(nodes 4 hubs 2)\n(refused 16 16)\n(grant 0 1 1 13000 0 0)\n\
        (grant 13000 4 1 20000 0 13000)\n(rest 20000 0)\n(grant 99000 2 1 112000 1 0)\n\
        (grant 112000 3 2 117000 2 12000)\n(grant 117000 1 1 119000 1 17000)\n(rest 119000 0)\n";
}
