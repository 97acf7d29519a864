//! The whole program: a text in, its log out.

use crate::{ffi, safe, Cascade, Plan, PlanRefused, Short};

/// How many bytes of a text are looked at; bytes behind these count as not there.
pub const LONGEST_TEXT: usize = 65_536;

/// No log is longer, in bytes (proved).
///
/// The most that a byte of a text can give is a blank line's refusal, `(refused 65536 1)` and its
/// LF: 18 bytes.
pub const LONGEST_LOG: usize = 18 * LONGEST_TEXT;

/// The log of a text, which holds a plan and events.
///
/// Before each event it makes all steps strictly before the event's time. Every line of the log
/// ends with an LF; a plan that is refused gives only the refused line.
///
/// ```
/// let text = b"(frame 100000)\n(overhead 1000)\n(interrupt 13000)\n(hub\n(node)\n)\n\
///     (normal 0 1 12000)\n(normal 0 2 12000)\n(until 20000)\n";
/// let log = b"(nodes 1 hubs 1)\n(refused 8 13)\n(grant 0 1 1 13000 0 0)\n(rest 13000 0)\n";
/// assert_eq!(lembuya::log(text), log);
/// ```
pub fn log(text: &[u8]) -> Vec<u8> {
    let mut log = vec![0; LONGEST_LOG];
    let end = log_into(text, &mut log).expect("no log is longer than LONGEST_LOG");
    log.truncate(end);
    log.shrink_to_fit();
    log
}

/// Writes the [log](log()) of a text into a lent buffer and gives its length. Bytes behind it are
/// unchanged.
///
/// Into a buffer shorter than 18 bytes for each byte of the text, or than 33, the text is run twice:
/// whether the log fits has to be known first.
///
/// # Errors
///
/// Row 18, where the log doesn't fit. No byte of the buffer is changed then.
///
/// ```
/// use lembuya::log_into;
///
/// let mut buffer = [b'-'; 16];
/// assert_eq!(log_into(b"(frame 99999)\n", &mut buffer), Ok(14));
/// assert_eq!(&buffer, b"(refused 1 2)\n--");
/// ```
pub fn log_into(text: &[u8], log: &mut [u8]) -> Result<usize, Short> {
    let (mut plan, mut cascade) = ([0; ffi::PLAN_CELLS], [0; ffi::CASCADE_CELLS]);
    match safe::run(text, &mut plan, &mut cascade, log) {
        // The log ends within its buffer, so its length is a usize.
        (0, end) => Ok(end as usize),
        (18, _) => Err(Short),
        (number, _) => unreachable!("no log is refused by {number}"),
    }
}

impl Cascade {
    /// The hub of a text, a plan and events, behind its last event: as the run that [`log()`] tells of leaves it. A refused event
    /// changes nothing, but the steps before its time are made.
    ///
    /// # Errors
    ///
    /// The plan's, as [`Plan::read`] has them.
    ///
    /// ```
    /// use lembuya::{Cascade, Refused};
    ///
    /// let text = b"(frame 100000)\n(overhead 1000)\n(interrupt 13000)\n(hub\n(node)\n)\n\
    ///     (normal 0 1 12000)\n(until 5000)\n";
    /// let mut hub = Cascade::behind(text)?;
    /// assert_eq!(hub.until(4_999), Err(Refused::Time)); // the clock is at 5,000
    /// assert_eq!(hub.step(20_000)?.to_string(), "(rest 13000 0)"); // and node 1 has been granted
    /// # Ok::<(), Box<dyn std::error::Error>>(())
    /// ```
    pub fn behind(text: &[u8]) -> Result<Cascade, PlanRefused> {
        let text = &text[..text.len().min(LONGEST_TEXT)];
        let plan = Plan::read(text)?;
        let (mut again, mut cells) = ([0; ffi::PLAN_CELLS], Box::new([0; ffi::CASCADE_CELLS]));
        let (number, _) = safe::run(text, &mut again, &mut cells, &mut vec![0; LONGEST_LOG]);
        assert_eq!(number, 0, "no log is longer than LONGEST_LOG");
        Ok(Cascade::left(plan, cells))
    }
}

#[cfg(test)]
mod tests {
    use super::*;
    use crate::example::{EVENTS, LOG, PLAN};
    use crate::{Call, Refused};

    /// A hub to which each line's event is told behind the steps before its time, whether it is refused or not.
    fn told(text: &str) -> Cascade {
        let plan = Plan::read(text.as_bytes()).unwrap();
        let mut hub = plan.cascade();
        for line in text[plan.events().at..].lines() {
            let event: Call = line.parse().unwrap();
            hub.steps_before(event.time()).for_each(drop);
            hub.call(event);
        }
        hub
    }

    #[test]
    fn the_hub_behind_a_text_is_that_of_its_calls() {
        let text = format!("{PLAN}{EVENTS}");
        assert_eq!(Cascade::behind(text.as_bytes()).unwrap(), told(&text));
        assert_eq!(Cascade::behind(PLAN.as_bytes()).unwrap(), Plan::read(PLAN.as_bytes()).unwrap().cascade());
        // The last event is refused by 13, and the grant before its time is made all the same.
        let text = format!("{PLAN}(normal 0 1 12000)\n(off 90000 9)\n");
        let mut hub = Cascade::behind(text.as_bytes()).unwrap();
        assert_eq!(hub, told(&text));
        assert_eq!([hub.until(12_999), hub.until(13_000)], [Err(Refused::Time), Ok(())]);
    }

    #[test]
    fn behind_a_bad_plan_is_no_hub() {
        for text in [&b""[..], b"(frame 1)\n"] {
            assert_eq!(Cascade::behind(text).unwrap_err(), Plan::read(text).unwrap_err());
        }
    }

    #[test]
    fn the_example_gives_its_log() {
        assert_eq!(log(format!("{PLAN}{EVENTS}").as_bytes()), LOG.as_bytes());
    }

    #[test]
    fn a_bad_plan_gives_only_the_refused_line() {
        assert_eq!(log(b""), b"(refused 1 1)\n");
        assert_eq!(log(format!("{PLAN}{EVENTS}").replace("(hub", "(hug").as_bytes()), b"(refused 5 1)\n");
    }

    #[test]
    fn a_short_buffer_is_left_as_it_was() {
        let text = format!("{PLAN}{EVENTS}");
        let mut buffer = vec![b'-'; LOG.len() + 1];
        assert_eq!(log_into(text.as_bytes(), &mut buffer), Ok(LOG.len()));
        assert_eq!(buffer, format!("{LOG}-").as_bytes());
        let mut buffer = vec![b'-'; LOG.len() - 1];
        assert_eq!(log_into(text.as_bytes(), &mut buffer), Err(Short));
        assert!(buffer.iter().all(|byte| *byte == b'-'));
    }

    #[test]
    fn the_longest_log_fits() {
        let mut text = PLAN.to_string();
        text += &"\n".repeat(2 * LONGEST_TEXT);
        let log = log(text.as_bytes());
        let lines = LONGEST_TEXT - PLAN.len();
        assert_eq!(log.iter().filter(|byte| **byte == b'\n').count(), 1 + lines);
        assert!(log.ends_with(format!("(refused {} 1)\n", 12 + lines).as_bytes()));
    }
}
