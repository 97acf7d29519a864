//! Event lines, read in one pass from left to right.

use crate::hub::Call;
use crate::text::MOST_DIGITS;

/// No form is longer, and reading one looks at no byte behind this many.
pub const WINDOW: usize = 96;

/// The bytes from a line's first on.
pub type Window = [u8; WINDOW];

/// An event and where the line behind it begins, from the line's first byte on;
/// none where the line is no form or its LF is missing.
#[inline]
pub fn event(line: &Window) -> Option<(Call, usize)> {
    let (call, end) = match line[1] {
        b'n' => {
            let (rest, t, k, b) = three(line, b"(normal ")?;
            (Call::Normal { t, k, b }, rest)
        }
        b'h' => {
            let (rest, t, k, b) = three(line, b"(high ")?;
            (Call::High { t, k, b }, rest)
        }
        b'r' => {
            let at = word(line, b"(reserve ")?;
            let (t, at) = number(line, at, b' ')?;
            let (k, at) = number(line, at, b' ')?;
            let (n, at) = number(line, at, b' ')?;
            let (b, at) = number(line, at, b')')?;
            (Call::Reserve { t, k, n, b }, at)
        }
        b'o' => {
            let at = word(line, b"(off ")?;
            let (t, at) = number(line, at, b' ')?;
            let (k, at) = number(line, at, b')')?;
            (Call::Off { t, k }, at)
        }
        b'u' => {
            let at = word(line, b"(until ")?;
            let (t, at) = number(line, at, b')')?;
            (Call::Until { t }, at)
        }
        _ => return None,
    };
    (byte(line, end) == b'\n').then_some((call, end + 1))
}

#[inline]
fn three<const N: usize>(line: &Window, form: &[u8; N]) -> Option<(usize, u64, u64, u64)> {
    let at = word(line, form)?;
    let (t, at) = number(line, at, b' ')?;
    let (k, at) = number(line, at, b' ')?;
    let (b, at) = number(line, at, b')')?;
    Some((at, t, k, b))
}

/// The line begins with this word: the place behind it.
#[inline]
fn word<const N: usize>(line: &Window, form: &[u8; N]) -> Option<usize> {
    line.starts_with(form).then_some(N)
}

/// A number and the byte behind it, which must be this one: the number, and the
/// place behind that byte. A longer run of digits ends at the 17th, which isn't
/// that byte, so no place passes the window.
#[inline]
fn number(line: &Window, first: usize, behind: u8) -> Option<(u64, usize)> {
    let mut at = first;
    let mut number = 0;
    while at < first + MOST_DIGITS {
        let digit = byte(line, at).wrapping_sub(b'0');
        if digit > 9 {
            break;
        }
        number = number * 10 + u64::from(digit);
        at += 1;
    }
    let zero_first = byte(line, first) == b'0' && at > first + 1;
    if at == first || zero_first || byte(line, at) != behind {
        return None;
    }
    Some((number, at + 1))
}

/// A byte of the line: nine of `(reserve `, four numbers with a byte behind
/// each, and the LF are 78 at most.
#[inline(always)]
#[allow(unsafe_code)]
fn byte(line: &Window, at: usize) -> u8 {
    debug_assert!(at < WINDOW);
    unsafe { *line.get_unchecked(at) }
}
