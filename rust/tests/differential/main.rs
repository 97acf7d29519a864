//! The archive against the independent reference: the same plans, lists of calls and whole texts, valid and
//! damaged.
//!
//! Every case comes from a seed alone. A difference is printed as a text that was cut down as far as it
//! still shows it. LEMBUYA_TEXTS and LEMBUYA_CALLS say how many texts and calls are compared (without them
//! 10,000 and 1,000,000).
//!
//! - `whole_texts`: a text's log, and the tables that the run leaves.
//! - `plans`: plans that are taken and refused, and what their tables tell.
//! - `lists`: calls one by one and in lists.
//! - `lines`: event lines, as the crate reads and writes them.
//! - `short`: buffers and lists that are too short, or no lists.
//! - `junk`: tables of any content.
//! - `acts`: calls with questions among them.
//! - `offers`: reservations offered, among calls, to tables of any content, and in numbers that are no offers.
//! - `fit`: what would make an offer fit, among calls, of tables of any content, and through the command.

mod acts;
#[path = "../archive/mod.rs"]
mod archive;
#[path = "../../reference/tests/common/mod.rs"]
mod common;
mod fit;
mod junk;
mod lines;
mod lists;
mod offers;
mod plans;
mod short;
mod whole_texts;

use reference::hub::{Answer, Call, Calls};
use reference::shrink::shrink;
use std::time::{Duration, Instant};

/// A byte and a cell that nothing writes by chance.
const FILL: u8 = 0xa5;
const FILL_CELL: u32 = 0xa5a5_a5a5;

/// A hub that is lent for some calls.
struct Lent<'a, H>(&'a mut H);

impl<H: Calls> Calls for Lent<'_, H> {
    fn call(&mut self, call: Call) -> Answer {
        self.0.call(call)
    }
}

/// A text that fails, cut down as far as some seconds allow.
fn cut_down(text: &[u8], fails: impl Fn(&[u8]) -> bool) -> Vec<u8> {
    let end = Instant::now() + Duration::from_secs(20);
    shrink(text, |text| Instant::now() < end && fails(text))
}
