//! The archive's functions as they are. `include/lembuya.h` says the same in C.
//!
//! A caller owes two things: each pointer names as many elements as its type or its length says, and
//! what a call writes overlaps no other argument of it. The content of the tables is free: every
//! function answers and comes back. A number is 0, or that of a row in document 01, "Where each no
//! is said", or in a request of document 02 that has landed.

/// How many 32-bit cells a plan's table has.
pub const PLAN_CELLS: usize = 1672;
/// How many 32-bit cells a cascade's table has. One that was stored with 1,160, before request 1 of document 02, is copied into
/// the first of these, with zeros behind it: the waits of requests that stood at that moment are then counted from time 0.
pub const CASCADE_CELLS: usize = 1672;

/// How many reservations may be offered in one call.
pub const MOST_OFFERS: usize = 64;

/// A plan's table. It may be copied, stored and moved.
pub type Plan = [u32; PLAN_CELLS];
/// A cascade's table. It may be copied, stored and moved.
pub type Cascade = [u32; CASCADE_CELLS];
/// An answer, a step's and in a list: case, time, node, class, end, moves and wait.
pub type Answer = [u64; 7];

extern "C" {
    /// Reads the plan at the start of a text. Taken: 0, the plan's table is filled, and `told` is
    /// nodes, hubs, the byte where the events start and its line number. Refused: the number, the
    /// last of `told` is the line, and its other numbers and `plan` are as they were.
    pub fn lembuya_read(text: *const u8, length: usize, plan: *mut Plan, told: *mut [u64; 4]) -> u32;
    /// The longest packet of a plan, in bits: 36,000 where its text says `(framing 5)`, else 12,000.
    pub fn lembuya_longest(plan: *const Plan) -> u64;
    /// 1 where a plan's text says `(strict)`, else 0. In a table of any content every number but 0 in the line's cell is strict.
    pub fn lembuya_strict(plan: *const Plan) -> u32;
    /// Makes the cascade's table as it is before any event. It serves any plan.
    pub fn lembuya_fresh(cascade: *mut Cascade);
    /// `(normal t k b)`. Refused: the number, and no cell changes.
    pub fn lembuya_normal(plan: *const Plan, cascade: *mut Cascade, t: u64, k: u64, b: u64) -> u32;
    /// `(high t k b)`. Refused: the number, and no cell changes. Where nothing is reserved in force at t it is 16 in a strict
    /// plan; in any other it is taken as `lembuya_normal`.
    pub fn lembuya_high(plan: *const Plan, cascade: *mut Cascade, t: u64, k: u64, b: u64) -> u32;
    /// `(off t k)`. Refused: the number, and no cell changes.
    pub fn lembuya_off(plan: *const Plan, cascade: *mut Cascade, t: u64, k: u64) -> u32;
    /// `(reserve t k n b)`. Refused: the number, and no cell changes.
    pub fn lembuya_reserve(plan: *const Plan, cascade: *mut Cascade, t: u64, k: u64, n: u64, b: u64) -> u32;
    /// `(until t)`. Refused: the number, and no cell changes.
    pub fn lembuya_until(plan: *const Plan, cascade: *mut Cascade, t: u64) -> u32;
    /// A step with bound `t`. `answer` is its case, time, node, class (1 normal, 2 high), end, moves
    /// and wait, 0 where its case has none. The case, also returned, is 1 for a grant, 2 for a rest and 3
    /// for quiet. The wait is a grant's time less the time at which its request was first put up, and 0
    /// in a table of any content where that is the later one. Refused: the number, and `answer` is as it
    /// was; quiet and refused change no cell.
    pub fn lembuya_step(plan: *const Plan, cascade: *mut Cascade, t: u64, answer: *mut Answer) -> u32;
    /// Many calls in one. `calls` has five numbers a call: its kind (1 normal, 2 high, 3 off, 4
    /// reserve, 5 until, 6 step), t, k, n and b, of which those that the kind lacks are not looked
    /// at. `answers` gets seven an answer, as a step's; an event's case is 0 or its number. The lengths
    /// count numbers. 0; or 1 (`calls` ends within a call or has a call of no kind) or 18 (`answers`
    /// is shorter than seven a call), and then nothing is done.
    pub fn lembuya_list(
        plan: *const Plan,
        cascade: *mut Cascade,
        calls: *const u64,
        calls_length: usize,
        answers: *mut u64,
        answers_length: usize,
    ) -> u32;
    /// Many reservations offered in one pass; none is made. `offers` has three numbers an offer: k, n and b.
    /// `answers` gets a byte an offer, in their order: 0, or the number that `lembuya_reserve` would give for
    /// it, as if alone, at the cascade's clock. The lengths count numbers and bytes. 0, and bytes behind the
    /// answers are as they were; or 1 (`offers` ends within an offer) or else 18 (more than [`MOST_OFFERS`], or
    /// `answers` is shorter than a byte an offer), and then nothing is written.
    pub fn lembuya_offers(
        plan: *const Plan,
        cascade: *const Cascade,
        offers: *const u64,
        offers_length: usize,
        answers: *mut u8,
        answers_length: usize,
    ) -> u32;
    /// What would make an offer fit; nothing is reserved. The number is what `lembuya_offers` answers the offer. Where that
    /// is 17, `change` is the smallest single change: its case (1 packets, 2 bits, 3 release, 4 nothing), and the largest
    /// lower n, the largest lower b, the node to be released, or 0. Else `change` is as it was.
    pub fn lembuya_fit(
        plan: *const Plan,
        cascade: *const Cascade,
        k: u64,
        n: u64,
        b: u64,
        change: *mut [u64; 2],
    ) -> u32;
    /// The whole log of a text into a buffer, with both tables lent for the run. 0, and `end` is the
    /// log's length; or 18 where not all of it fits, and the buffer, both tables and `end` are what
    /// they were. A refused plan leaves both tables as they were too.
    pub fn lembuya_run(
        text: *const u8,
        length: usize,
        plan: *mut Plan,
        cascade: *mut Cascade,
        log: *mut u8,
        log_length: usize,
        end: *mut [u64; 1],
    ) -> u32;
}
