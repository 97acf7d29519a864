//! Offers: many reservations asked for in one pass, none of which is made.

use crate::forms::number;
use crate::{ffi, safe, Cascade, Refused, Short};
use std::error::Error;
use std::fmt;
use std::iter::Take;
use std::ops::Deref;
use std::str::FromStr;

/// How many reservations may be [offered](Cascade::offers) in one call.
pub const MOST_OFFERS: usize = ffi::MOST_OFFERS;

/// A reservation that is [offered](Cascade::offers): what [`Cascade::reserve`] takes, without a time.
///
/// `Display` is its line, without an LF, and it is read from such a line as a [`Call`](crate::Call) is from an event's: single
/// spaces, no leading zeros, at most 16 digits a number.
///
/// ```
/// use lembuya::{Offer, ParseOfferError};
///
/// let offer = Offer { node: 3, packets: 2, bits: 4_000 };
/// assert_eq!(offer.to_string(), "(offer 3 2 4000)");
/// assert_eq!("(offer 3 2 4000)".parse(), Ok(offer));
/// assert_eq!("(offer 3 2 04000)".parse::<Offer>(), Err(ParseOfferError));
/// ```
#[derive(Clone, Copy, Debug, PartialEq, Eq, Hash)]
pub struct Offer {
    /// k, the node.
    pub node: u64,
    /// n, how many high packets a frame.
    pub packets: u64,
    /// b, the longest of these packets.
    pub bits: u64,
}

impl fmt::Display for Offer {
    fn fmt(&self, f: &mut fmt::Formatter<'_>) -> fmt::Result {
        write!(f, "(offer {} {} {})", self.node, self.packets, self.bits)
    }
}

impl FromStr for Offer {
    type Err = ParseOfferError;

    fn from_str(line: &str) -> Result<Offer, ParseOfferError> {
        let numbers = line.strip_prefix("(offer ").and_then(|rest| rest.strip_suffix(')'));
        let numbers: Vec<Option<u64>> = numbers.ok_or(ParseOfferError)?.split(' ').map(number).collect();
        match numbers[..] {
            [Some(node), Some(packets), Some(bits)] => Ok(Offer { node, packets, bits }),
            _ => Err(ParseOfferError),
        }
    }
}

/// A line that is no offer's.
///
/// ```
/// use lembuya::{Offer, ParseOfferError};
///
/// assert_eq!("(reserve 0 3 2 4000)".parse::<Offer>(), Err(ParseOfferError));
/// assert_eq!(ParseOfferError.to_string(), "no form of an offer");
/// ```
#[derive(Clone, Copy, Debug, PartialEq, Eq, Hash)]
pub struct ParseOfferError;

impl fmt::Display for ParseOfferError {
    fn fmt(&self, f: &mut fmt::Formatter<'_>) -> fmt::Result {
        f.pad("no form of an offer")
    }
}

impl Error for ParseOfferError {}

/// The answers to [offers](Cascade::offers), in their order: a slice of what [`Cascade::reserve`] would answer each of them.
///
/// ```
/// use lembuya::{Offer, Plan, Refused};
///
/// let plan = Plan::read(b"(frame 100000)\n(overhead 1000)\n(interrupt 13000)\n(hub\n(node)\n)\n")?;
/// let offers = [1, 2].map(|node| Offer { node, packets: 2, bits: 4_000 });
/// let answers = plan.cascade().offers(&offers)?;
/// assert_eq!((answers.len(), answers[0], answers.get(2)), (2, Ok(()), None));
/// for (offer, answer) in offers.iter().zip(answers) {
///     assert_eq!(answer.is_ok(), offer.node == 1, "{offer}");
/// }
/// assert_eq!(answers[1], Err(Refused::Node)); // the plan has one node
/// # Ok::<(), Box<dyn std::error::Error>>(())
/// ```
#[derive(Clone, Copy)]
pub struct Answers {
    /// Those behind the length aren't told.
    answers: [Result<(), Refused>; MOST_OFFERS],
    length: usize,
}

impl Deref for Answers {
    type Target = [Result<(), Refused>];

    fn deref(&self) -> &Self::Target {
        &self.answers[..self.length]
    }
}

impl PartialEq for Answers {
    fn eq(&self, other: &Answers) -> bool {
        **self == **other
    }
}

impl Eq for Answers {}

impl fmt::Debug for Answers {
    fn fmt(&self, f: &mut fmt::Formatter<'_>) -> fmt::Result {
        f.debug_list().entries(self.iter()).finish()
    }
}

impl IntoIterator for Answers {
    type Item = Result<(), Refused>;
    type IntoIter = Take<std::array::IntoIter<Result<(), Refused>, MOST_OFFERS>>;

    fn into_iter(self) -> Self::IntoIter {
        self.answers.into_iter().take(self.length)
    }
}

impl<'a> IntoIterator for &'a Answers {
    type Item = &'a Result<(), Refused>;
    type IntoIter = std::slice::Iter<'a, Result<(), Refused>>;

    fn into_iter(self) -> Self::IntoIter {
        self.iter()
    }
}

impl Cascade {
    /// What [`Cascade::reserve`] would answer each of up to [`MOST_OFFERS`] reservations at the clock, each as if alone
    /// against what is reserved now. Nothing is reserved, and the order of the offers changes no answer.
    ///
    /// Two that fit alone may not fit together. An offer stands in place of its node's own latest reservation, as a reserve
    /// does, and no packets of no bits are an offer to give that up.
    ///
    /// # Errors
    ///
    /// Row 18, where there are more than 64 offers.
    ///
    /// # Examples
    ///
    /// A planner asks what a line of three cameras could have. A packet of 4,000 bits takes 5,000 of the frame, of which
    /// 100,000 - 13,000 = 87,000 can be reserved:
    ///
    /// ```
    /// use lembuya::{Offer, Plan, Refused};
    ///
    /// let plan = Plan::read(b"(frame 100000)\n(overhead 1000)\n(interrupt 13000)\n(hub\n(node)\n(node)\n(node)\n)\n")?;
    /// let mut hub = plan.cascade();
    /// let line = [(1, 8), (2, 10), (3, 18)].map(|(node, packets)| Offer { node, packets, bits: 4_000 });
    /// // 40,000 and 50,000 fit, each alone; 90,000 don't.
    /// assert_eq!(hub.offers(&line)?[..], [Ok(()), Ok(()), Err(Refused::Full)]);
    /// // With the first one reserved, 47,000 are left for the second. For the first's own node nothing has changed.
    /// hub.reserve(0, 1, 8, 4_000)?;
    /// assert_eq!(hub.offers(&line)?[..], [Ok(()), Err(Refused::Full), Err(Refused::Full)]);
    /// # Ok::<(), Box<dyn std::error::Error>>(())
    /// ```
    pub fn offers(&self, offers: &[Offer]) -> Result<Answers, Short> {
        let mut numbers = [0; MOST_OFFERS];
        self.offers_into(offers, &mut numbers)?;
        let answers = numbers.map(|number| Refused::event(number.into()));
        Ok(Answers { answers, length: offers.len() })
    }

    /// Writes the answers to [offers](Cascade::offers) into a lent buffer, a byte each: 0, or the row's
    /// [number](Refused::number). Bytes behind them are unchanged.
    ///
    /// # Errors
    ///
    /// Row 18, where there are more than 64 offers, or the buffer is shorter than the answers. No byte of it is changed then.
    ///
    /// ```
    /// use lembuya::{Offer, Plan, Short};
    ///
    /// let plan = Plan::read(b"(frame 100000)\n(overhead 1000)\n(interrupt 13000)\n(hub\n(node)\n)\n")?;
    /// let offers = [1, 64].map(|packets| Offer { node: 1, packets, bits: 4_000 });
    /// let mut buffer = [99; 3];
    /// plan.cascade().offers_into(&offers, &mut buffer)?;
    /// assert_eq!(buffer, [0, 17, 99]);
    /// assert_eq!(plan.cascade().offers_into(&offers, &mut buffer[..1]), Err(Short));
    /// # Ok::<(), Box<dyn std::error::Error>>(())
    /// ```
    pub fn offers_into(&self, offers: &[Offer], answers: &mut [u8]) -> Result<(), Short> {
        // One more than may be offered: a longer list is asked as its first 65, so that the archive itself says the 18.
        let mut numbers = [[0; 3]; MOST_OFFERS + 1];
        for (numbers, offer) in numbers.iter_mut().zip(offers) {
            *numbers = [offer.node, offer.packets, offer.bits];
        }
        let asked = &numbers[..offers.len().min(MOST_OFFERS + 1)];
        match safe::offers(self.plan().cells(), self.cells(), asked, answers) {
            0 => Ok(()),
            18 => Err(Short),
            number => unreachable!("no offers are refused by {number}"),
        }
    }
}

#[cfg(test)]
mod tests {
    use super::*;
    use crate::example::{EVENTS, PLAN};
    use crate::Plan;

    fn offer(node: u64, packets: u64, bits: u64) -> Offer {
        Offer { node, packets, bits }
    }

    #[test]
    fn an_offers_line_is_read_and_shown_again() {
        for line in ["(offer 3 2 4000)", "(offer 0 0 0)", "(offer 9999999999999999 65 36001)"] {
            assert_eq!(line.parse::<Offer>().map(|offer| offer.to_string()), Ok(line.into()));
        }
    }

    #[test]
    fn a_line_of_another_form_is_no_offer() {
        let lines = [
            "",
            "()",
            "(offer)",
            "(offer )",
            "(offer 1 2)",
            "(offer 1 2 )",
            "(offer 1 2 512 0)",
            "(offer  1 2 512)",
            "(offer 1 2 512",
            "offer 1 2 512",
            "(Offer 1 2 512)",
            "(offers 1 2 512)",
            " (offer 1 2 512)",
            "(offer 1 2 512) ",
            "(offer 1 2 512)\n",
            "(offer 1 2 512)\r",
            "(offer 01 2 512)",
            "(offer +1 2 512)",
            "(offer 1 2 10000000000000000)",
            "(reserve 0 1 2 512)",
        ];
        for line in lines {
            assert_eq!(line.parse::<Offer>(), Err(ParseOfferError), "{line}");
        }
    }

    /// Each answer is the single reserve's at the clock, and none of it is made. Document 01's plan has 4 nodes, and node 3 has
    /// 10,000 of the 87,000 that can be reserved.
    #[test]
    fn each_is_answered_as_a_reserve_alone() {
        let hub = Cascade::behind(format!("{PLAN}{EVENTS}").as_bytes()).unwrap();
        let offers = [
            offer(1, 0, 0),
            offer(1, 0, 512),
            offer(0, 65, 0),
            offer(5, 1, 512),
            offer(1, 65, 512),
            offer(1, 1, 12_001),
            offer(1, 7, 10_000), // 77,000, all that is left
            offer(1, 7, 10_001),
            offer(3, 7, 11_000), // 84,000, in place of its own 10,000
            offer(1, 7, 10_000),
        ];
        let answers = hub.offers(&offers).unwrap();
        let alone = |offer: &Offer| hub.clone().reserve(200_000, offer.node, offer.packets, offer.bits);
        assert_eq!(answers[..], offers.each_ref().map(alone));
        let numbers = answers.iter().map(|answer| answer.map_or_else(Refused::number, |()| 0));
        assert_eq!(numbers.collect::<Vec<_>>(), [0, 15, 13, 13, 14, 15, 0, 17, 0, 0]);
        assert_eq!(hub, Cascade::behind(format!("{PLAN}{EVENTS}").as_bytes()).unwrap());
    }

    #[test]
    fn up_to_64_are_answered() {
        let hub = Plan::read(PLAN.as_bytes()).unwrap().cascade();
        let offers: Vec<Offer> = (0..1_000).map(|node| offer(node, 1, 512)).collect();
        let answers = hub.offers(&offers[..MOST_OFFERS]).unwrap();
        let fits: Vec<bool> = answers.into_iter().map(|answer| answer.is_ok()).collect();
        assert_eq!(fits, (0..64).map(|node| (1..=4).contains(&node)).collect::<Vec<_>>());
        for count in [65, 66, 128, 1_000] {
            assert_eq!(hub.offers(&offers[..count]), Err(Short), "{count} offers");
            let mut buffer = vec![99; count];
            assert_eq!(hub.offers_into(&offers[..count], &mut buffer), Err(Short), "{count} offers");
            assert_eq!(buffer, vec![99; count]);
        }
        assert!(hub.offers(&[]).unwrap().is_empty());
    }

    /// Each count gets as many answers, and of an answered list the first ones are those of a shorter list.
    #[test]
    fn every_count_up_to_64_is_answered_as_a_part_of_64() {
        let hub = Plan::read(PLAN.as_bytes()).unwrap().cascade();
        let offers: Vec<Offer> =
            (0..64).map(|place| offer(place % 6, 1 + place, 512 + 100 * place)).collect();
        let whole = hub.offers(&offers).unwrap();
        for count in 0..=64 {
            assert_eq!(hub.offers(&offers[..count]).unwrap()[..], whole[..count], "{count} offers");
        }
    }

    #[test]
    fn a_lent_buffer_is_written_as_far_as_the_answers_go() {
        let hub = Plan::read(PLAN.as_bytes()).unwrap().cascade();
        let offers = [offer(1, 1, 512), offer(5, 1, 512), offer(1, 0, 0)];
        for length in 0..5 {
            let mut buffer = vec![99; length];
            let written = hub.offers_into(&offers, &mut buffer);
            let expected = if length < 3 { Err(Short) } else { Ok(()) };
            assert_eq!(written, expected, "{length} bytes");
            assert_eq!(buffer, if length < 3 { &[99; 2][..length] } else { &[0, 13, 0, 99][..length] });
        }
        assert_eq!(hub.offers_into(&[], &mut []), Ok(()));
        let mut buffer = [99; 65];
        assert_eq!(hub.offers_into(&[offers[0]; 65], &mut buffer), Err(Short));
        assert_eq!(buffer, [99; 65]);
    }

    #[test]
    fn answers_are_shown_and_compared_as_far_as_they_go() {
        let hub = Plan::read(PLAN.as_bytes()).unwrap().cascade();
        let answers = |offers: &[Offer]| hub.offers(offers).unwrap();
        let two = answers(&[offer(1, 1, 512), offer(5, 1, 512)]);
        assert_eq!(format!("{two:?}"), "[Ok(()), Err(Node)]");
        assert_eq!(two, answers(&[offer(2, 1, 512), offer(6, 1, 512)]));
        assert_ne!(two, answers(&[offer(1, 1, 512)]));
        assert_eq!((&two).into_iter().filter(|answer| answer.is_err()).count(), 1);
    }
}
