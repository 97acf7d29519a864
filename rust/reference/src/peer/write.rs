//! Log lines, written into room that is made once a line.

/// The room for a form: no word has more than 8 bytes, no form more than 6
/// numbers, and no number more than 20 digits with a space before them.
const ROOM: usize = 8 + 6 * 21 + 2;

/// The two digits of 0 to 99.
static PAIRS: [[u8; 2]; 100] = pairs();

const fn pairs() -> [[u8; 2]; 100] {
    let mut pairs = [[0; 2]; 100];
    let mut number = 0;
    while number < 100 {
        pairs[number] = [b'0' + (number / 10) as u8, b'0' + (number % 10) as u8];
        number += 1;
    }
    pairs
}

/// A log line, ended by its LF: the word, then each number behind a space.
#[inline]
pub fn line<const W: usize, const N: usize>(log: &mut Vec<u8>, word: &[u8; W], numbers: [u64; N]) {
    form(log, word, numbers);
    let at = bytes(log, log.len(), b")\n");
    end(log, at);
}

/// The same without the bracket and the LF, for which there is room.
#[inline]
pub fn form<const W: usize, const N: usize>(log: &mut Vec<u8>, word: &[u8; W], numbers: [u64; N]) {
    const { assert!(W <= 8 && N <= 6) };
    log.reserve(ROOM);
    let mut at = bytes(log, log.len(), word);
    for number in numbers {
        at = bytes(log, at, b" ");
        at = digits(log, at, number);
    }
    end(log, at);
}

/// How many digits a number has.
#[inline]
fn length(number: u64) -> usize {
    let mut length = 1;
    let mut left = number;
    while left >= 10_000 {
        left /= 10_000;
        length += 4;
    }
    length + usize::from(left >= 10) + usize::from(left >= 100) + usize::from(left >= 1_000)
}

/// The digits of a number, from the last two at a time.
#[inline]
fn digits(log: &mut Vec<u8>, at: usize, number: u64) -> usize {
    let end = at + length(number);
    let (mut to, mut left) = (end, number);
    while left >= 100 {
        to -= 2;
        bytes(log, to, &PAIRS[(left % 100) as usize]);
        left /= 100;
    }
    if left >= 10 {
        bytes(log, at, &PAIRS[left as usize]);
    } else {
        bytes(log, at, &[b'0' + left as u8]);
    }
    end
}

/// Bytes into the room behind the log: the place behind them.
#[inline(always)]
#[allow(unsafe_code)]
fn bytes<const N: usize>(log: &mut Vec<u8>, at: usize, bytes: &[u8; N]) -> usize {
    debug_assert!(at + N <= log.capacity());
    unsafe { log.as_mut_ptr().add(at).cast::<[u8; N]>().write_unaligned(*bytes) };
    at + N
}

/// The log now ends here; all bytes up to this were written.
#[inline(always)]
#[allow(unsafe_code)]
fn end(log: &mut Vec<u8>, at: usize) {
    debug_assert!(at <= log.capacity());
    unsafe { log.set_len(at) };
}
