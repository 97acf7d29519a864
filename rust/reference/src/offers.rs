//! Many offers in one pass (slip 9 of document 02): what a hub would say to
//! reservations, none of which is made.
//!
//! Each answer is found by itself. A copy of the hub is asked for that one
//! reservation and thrown away, so no offer can know of another.

use crate::core::{Row, Turns};
use crate::hub::{Answer, Call, Hub};

/// "A buyer planning a line offers up to 64 reservations."
pub const MOST_OFFERS: usize = 64;

/// A reservation offered: node k would have n high packets a frame, each at most
/// b bits. Every number may be any u64.
#[derive(Clone, Copy, Debug, PartialEq, Eq)]
#[allow(missing_docs)]
pub struct Offer {
    pub k: u64,
    pub n: u64,
    pub b: u64,
}

impl<M: Turns + Clone> Hub<M> {
    /// "The answers go into a lent buffer in the order of the offers, a byte each,
    /// 0 or the number that the single call would give at the clock." 0, or 18.
    pub fn offers(&self, offers: &[Offer], buffer: &mut [u8]) -> Row {
        self.offers_at(self.clock(), offers, buffer)
    }

    /// The same at a time, which may be any: where it isn't the clock, rows 11 and
    /// 12 can be answers too, and stand before the others as in every event.
    pub fn offers_at(&self, t: u64, offers: &[Offer], buffer: &mut [u8]) -> Row {
        // "More than 64 offers, or a buffer shorter than the answers, is 18, and
        // nothing is written."
        if offers.len() > MOST_OFFERS || buffer.len() < offers.len() {
            return 18;
        }
        // "Bytes behind the answers stay."
        for (place, &offer) in offers.iter().enumerate() {
            buffer[place] = self.answer_alone(t, offer);
        }
        0
    }

    /// The answer to one offer "as if alone against the present table", so that "the
    /// order of the offers changes no answer". "Nothing is reserved": only the copy
    /// takes the call.
    pub(crate) fn answer_alone(&self, t: u64, Offer { k, n, b }: Offer) -> u8 {
        match self.clone().call(Call::Reserve { t, k, n, b }) {
            Answer::Taken => 0,
            Answer::Refused(row) => u8::try_from(row).expect("a row's number is a byte"),
            other => unreachable!("{other:?} is no event's answer"),
        }
    }
}
