//! The cascade hub as document 01 tells it, with the slips of document 02 that
//! have landed, to compare other hubs with.
//!
//! Written from these documents alone; their sentences stand in quotation marks
//! at what they decide. Nodes, hubs, ports and lines are numbered from 1, times
//! are in bit times.
//!
//! - [`text`], [`plan`]: lines and forms; a plan read and drawn.
//! - [`core`]: everything that doesn't depend on how a turn is chosen.
//! - [`flat`], [`control`]: the two ways of choosing it.
//! - [`hub`], [`log`]: the six calls and their answers; the whole program.
//! - [`offers`]: many reservations offered in one pass, and none made.
//! - [`fit`]: what would make an offer fit, after a 17.
//! - [`fast`]: the flat hub again, written for speed.
//! - [`peer`]: control again, written for speed.
//! - [`random`], [`shrink`], [`demand3`], [`waits`]: tools to try a hub with.

#![deny(unsafe_code)]
#![warn(missing_docs)]

pub mod control;
pub mod core;
pub mod demand3;
pub mod fast;
pub mod fit;
pub mod flat;
pub mod hub;
pub mod log;
pub mod offers;
pub mod peer;
pub mod plan;
pub mod random;
pub mod shrink;
pub mod text;
pub mod waits;
