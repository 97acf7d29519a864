//! The archive's functions with Rust's references and slices: all of this crate's unsafe code.
//!
//! A reference to a table names all of its cells, a slice as many elements as its length says, and
//! a mutable borrow overlaps no other. That is all that `include/lembuya.h` asks of a caller: each
//! function takes any content of its tables.

#![allow(unsafe_code)]

use crate::ffi::{self, Answer, Cascade, Plan};

/// The number, and nodes, hubs, place and line; of a refused plan only the line is told.
pub fn read(text: &[u8], plan: &mut Plan) -> (u32, [u64; 4]) {
    let mut told = [0; 4];
    // SAFETY: `text` is read for its length; `plan` and `told` are whole and borrowed mutably.
    let number = unsafe { ffi::lembuya_read(text.as_ptr(), text.len(), plan, &mut told) };
    (number, told)
}

pub fn longest(plan: &Plan) -> u64 {
    // SAFETY: `plan` is whole.
    unsafe { ffi::lembuya_longest(plan) }
}

/// 1 or 0.
pub fn strict(plan: &Plan) -> u32 {
    // SAFETY: `plan` is whole.
    unsafe { ffi::lembuya_strict(plan) }
}

pub fn fresh(cascade: &mut Cascade) {
    // SAFETY: `cascade` is whole and borrowed mutably.
    unsafe { ffi::lembuya_fresh(cascade) }
}

pub fn normal(plan: &Plan, cascade: &mut Cascade, t: u64, k: u64, b: u64) -> u32 {
    // SAFETY: both tables are whole; `cascade` is borrowed mutably.
    unsafe { ffi::lembuya_normal(plan, cascade, t, k, b) }
}

pub fn high(plan: &Plan, cascade: &mut Cascade, t: u64, k: u64, b: u64) -> u32 {
    // SAFETY: both tables are whole; `cascade` is borrowed mutably.
    unsafe { ffi::lembuya_high(plan, cascade, t, k, b) }
}

pub fn off(plan: &Plan, cascade: &mut Cascade, t: u64, k: u64) -> u32 {
    // SAFETY: both tables are whole; `cascade` is borrowed mutably.
    unsafe { ffi::lembuya_off(plan, cascade, t, k) }
}

pub fn reserve(plan: &Plan, cascade: &mut Cascade, t: u64, k: u64, n: u64, b: u64) -> u32 {
    // SAFETY: both tables are whole; `cascade` is borrowed mutably.
    unsafe { ffi::lembuya_reserve(plan, cascade, t, k, n, b) }
}

pub fn until(plan: &Plan, cascade: &mut Cascade, t: u64) -> u32 {
    // SAFETY: both tables are whole; `cascade` is borrowed mutably.
    unsafe { ffi::lembuya_until(plan, cascade, t) }
}

/// The answer's seven numbers; their first is the case, or the number of a refusal, which the archive
/// only returns.
pub fn step(plan: &Plan, cascade: &mut Cascade, t: u64) -> Answer {
    let mut answer = Answer::default();
    // SAFETY: both tables are whole; `cascade` and `answer` are borrowed mutably.
    let number = unsafe { ffi::lembuya_step(plan, cascade, t, &mut answer) };
    answer[0] = number.into();
    answer
}

/// The number; the answers' numbers stand in `answers`.
pub fn list(plan: &Plan, cascade: &mut Cascade, calls: &[[u64; 5]], answers: &mut [Answer]) -> u32 {
    let calls = calls.as_flattened();
    let answers = answers.as_flattened_mut();
    // SAFETY: both tables are whole; `calls` is read and `answers` written for its length; `cascade`
    // and `answers` are borrowed mutably.
    unsafe {
        ffi::lembuya_list(plan, cascade, calls.as_ptr(), calls.len(), answers.as_mut_ptr(), answers.len())
    }
}

/// The number; the answers' bytes stand in `answers`.
pub fn offers(plan: &Plan, cascade: &Cascade, offers: &[[u64; 3]], answers: &mut [u8]) -> u32 {
    let offers = offers.as_flattened();
    // SAFETY: both tables are whole; `offers` is read and `answers` written for its length; `answers`
    // is borrowed mutably.
    unsafe {
        ffi::lembuya_offers(plan, cascade, offers.as_ptr(), offers.len(), answers.as_mut_ptr(), answers.len())
    }
}

/// The number, and the change's case and its own number; both 0 where the number isn't 17, since the archive leaves `change` as it
/// was then.
pub fn fit(plan: &Plan, cascade: &Cascade, k: u64, n: u64, b: u64) -> (u32, [u64; 2]) {
    let mut change = [0; 2];
    // SAFETY: both tables are whole; `change` is whole and borrowed mutably.
    let number = unsafe { ffi::lembuya_fit(plan, cascade, k, n, b, &mut change) };
    (number, change)
}

/// The number, and the log's length; 0 where it doesn't fit, since the archive leaves `end` as it was then.
pub fn run(text: &[u8], plan: &mut Plan, cascade: &mut Cascade, log: &mut [u8]) -> (u32, u64) {
    let mut end = [0];
    // SAFETY: both tables are whole; `text` is read and `log` written for its length; all but `text`
    // are borrowed mutably.
    let number = unsafe {
        ffi::lembuya_run(text.as_ptr(), text.len(), plan, cascade, log.as_mut_ptr(), log.len(), &mut end)
    };
    (number, end[0])
}
