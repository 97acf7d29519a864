//! Calls as text: document 01's event lines.

use crate::Call;
use std::error::Error;
use std::fmt;
use std::str::FromStr;

/// An event's line, without its LF. A step has no line in a text; it shows as `(step t)`, for people to read.
///
/// ```
/// use lembuya::Call;
///
/// assert_eq!(Call::Reserve { time: 0, node: 3, packets: 2, bits: 4_000 }.to_string(), "(reserve 0 3 2 4000)");
/// assert_eq!(Call::Step { bound: 7 }.to_string(), "(step 7)");
/// ```
impl fmt::Display for Call {
    fn fmt(&self, f: &mut fmt::Formatter<'_>) -> fmt::Result {
        match self {
            Call::Normal { time, node, bits } => write!(f, "(normal {time} {node} {bits})"),
            Call::High { time, node, bits } => write!(f, "(high {time} {node} {bits})"),
            Call::Off { time, node } => write!(f, "(off {time} {node})"),
            Call::Reserve { time, node, packets, bits } => {
                write!(f, "(reserve {time} {node} {packets} {bits})")
            }
            Call::Until { time } => write!(f, "(until {time})"),
            Call::Step { bound } => write!(f, "(step {bound})"),
        }
    }
}

/// Reads an event's line, without its LF, just where the archive reads one: single spaces, no leading zeros, at most 16
/// digits a number. A step is no event, so `(step t)` is an error here too.
///
/// ```
/// use lembuya::{Call, ParseCallError};
///
/// assert_eq!("(high 0 3 4000)".parse(), Ok(Call::High { time: 0, node: 3, bits: 4_000 }));
/// assert_eq!("(high 0 03 4000)".parse::<Call>(), Err(ParseCallError));
/// assert_eq!("(step 7)".parse::<Call>(), Err(ParseCallError));
/// ```
impl FromStr for Call {
    type Err = ParseCallError;

    fn from_str(line: &str) -> Result<Call, ParseCallError> {
        event(line).ok_or(ParseCallError)
    }
}

fn event(line: &str) -> Option<Call> {
    let mut words = line.strip_prefix('(')?.strip_suffix(')')?.split(' ');
    let word = words.next()?;
    let numbers: Vec<u64> = words.map(number).collect::<Option<_>>()?;
    match (word, &numbers[..]) {
        ("normal", &[time, node, bits]) => Some(Call::Normal { time, node, bits }),
        ("high", &[time, node, bits]) => Some(Call::High { time, node, bits }),
        ("off", &[time, node]) => Some(Call::Off { time, node }),
        ("reserve", &[time, node, packets, bits]) => Some(Call::Reserve { time, node, packets, bits }),
        ("until", &[time]) => Some(Call::Until { time }),
        _ => None,
    }
}

/// A number has at most so many digits.
const MOST_DIGITS: usize = 16;

/// A number as all lines have it.
pub(crate) fn number(word: &str) -> Option<u64> {
    let digits = word.len() <= MOST_DIGITS && word.bytes().all(|byte| byte.is_ascii_digit());
    let leading_zero = word.len() > 1 && word.starts_with('0');
    // An empty word is no number either, which `parse` says.
    (digits && !leading_zero).then(|| word.parse().ok())?
}

/// A line that is no event's: row 1 of an event line in document 01's table.
///
/// ```
/// use lembuya::{Call, ParseCallError};
///
/// assert_eq!("(normal 0 1)".parse::<Call>(), Err(ParseCallError));
/// assert_eq!(ParseCallError.to_string(), "no form of an event");
/// ```
#[derive(Clone, Copy, Debug, PartialEq, Eq, Hash)]
pub struct ParseCallError;

impl fmt::Display for ParseCallError {
    fn fmt(&self, f: &mut fmt::Formatter<'_>) -> fmt::Result {
        f.pad("no form of an event")
    }
}

impl Error for ParseCallError {}

#[cfg(test)]
mod tests {
    use super::*;
    use crate::example::EVENTS;

    #[test]
    fn each_event_of_the_example_is_read_and_shown_again() {
        let read: Vec<Call> = EVENTS.lines().map(|line| line.parse().unwrap()).collect();
        assert_eq!(read[0], Call::Reserve { time: 0, node: 3, packets: 2, bits: 4_000 });
        assert_eq!(read[7], Call::Until { time: 200_000 });
        let shown: String = read.iter().map(|call| format!("{call}\n")).collect();
        assert_eq!(shown, EVENTS);
        assert_eq!("(off 1 2)".parse(), Ok(Call::Off { time: 1, node: 2 }));
    }

    #[test]
    fn a_number_has_at_most_16_digits_and_no_leading_zero() {
        let until = |number: &str| format!("(until {number})").parse::<Call>();
        assert_eq!(until("9999999999999999"), Ok(Call::Until { time: 9_999_999_999_999_999 }));
        assert_eq!(until("0"), Ok(Call::Until { time: 0 }));
        for number in ["10000000000000000", "00", "01", "", "+1", "-1", " 1", "1 ", "1\n", "x", "1_0", "٣"] {
            assert_eq!(until(number), Err(ParseCallError), "{number}");
        }
    }

    #[test]
    fn a_line_of_no_form_is_no_event() {
        let lines = [
            "(normal 0 1)",
            "normal 0 1 512",
            "(until 1 2)",
            "",
            "()",
            "(rest 1 2)",
            "(Until 1)",
            "(until  1)",
        ];
        for line in lines {
            assert_eq!(line.parse::<Call>(), Err(ParseCallError), "{line}");
        }
    }
}
