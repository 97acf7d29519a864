//! Lines and forms: "one form a line, each line ended by byte 10 (LF)".

/// "A line has at most 80 bytes without its LF."
pub const LONGEST_LINE: usize = 80;
/// "A number has at most 16 digits."
pub const MOST_DIGITS: usize = 16;

/// One line of a text, with its number.
#[derive(Clone, Copy, Debug)]
pub struct Line<'a> {
    /// The line's number, from 1.
    pub number: u64,
    /// The line without its LF.
    pub bytes: &'a [u8],
    /// "Bytes behind the last LF are a line too, one whose LF is missing."
    pub ended: bool,
}

/// "The text is handed out one line at a time, with its line number from 1."
#[derive(Clone, Debug)]
pub struct Lines<'a> {
    text: &'a [u8],
    /// Where the next line begins.
    pub at: usize,
    /// The next line's number.
    pub number: u64,
}

impl<'a> Lines<'a> {
    /// The lines of a text.
    pub fn new(text: &'a [u8]) -> Self {
        Lines::from(text, 0, 1)
    }

    /// The lines of a text from a place on, the first having this number.
    pub fn from(text: &'a [u8], at: usize, number: u64) -> Self {
        Lines { text, at, number }
    }
}

impl<'a> Iterator for Lines<'a> {
    type Item = Line<'a>;

    fn next(&mut self) -> Option<Line<'a>> {
        let rest = &self.text[self.at..];
        if rest.is_empty() {
            return None;
        }
        let lf = rest.iter().position(|&byte| byte == b'\n');
        let bytes = &rest[..lf.unwrap_or(rest.len())];
        let line = Line { number: self.number, bytes, ended: lf.is_some() };
        self.at += bytes.len() + usize::from(line.ended);
        self.number += 1;
        Some(line)
    }
}

impl Line<'_> {
    /// Whether the line is just these bytes and its LF.
    pub fn is(&self, form: &[u8]) -> bool {
        self.ended && self.bytes.len() <= LONGEST_LINE && self.bytes == form
    }

    /// The numbers of the form `(word a b ..)`, if the line is that form.
    /// "Single spaces only."
    pub fn form<const N: usize>(&self, word: &str) -> Option<[u64; N]> {
        if !self.ended || self.bytes.len() > LONGEST_LINE {
            return None;
        }
        let mut rest = self.bytes.strip_prefix(b"(")?.strip_prefix(word.as_bytes())?;
        let mut numbers = [0; N];
        for place in &mut numbers {
            rest = rest.strip_prefix(b" ")?;
            let digits = rest.iter().take_while(|byte| byte.is_ascii_digit()).count();
            *place = number(&rest[..digits])?;
            rest = &rest[digits..];
        }
        (rest == b")").then_some(numbers)
    }
}

/// "No leading zeros except 0 itself; a number has at most 16 digits."
fn number(digits: &[u8]) -> Option<u64> {
    let leading_zero = digits.len() > 1 && digits[0] == b'0';
    if digits.is_empty() || digits.len() > MOST_DIGITS || leading_zero {
        return None;
    }
    Some(digits.iter().fold(0, |sum, digit| sum * 10 + u64::from(digit - b'0')))
}
