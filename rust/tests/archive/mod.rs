//! The archive's functions for tests and the benchmark: with the reference's calls and answers, in memory
//! that lies against pages that nobody may touch.
#![allow(dead_code)]

#[path = "../../src/cells.rs"]
pub mod cells;

use lembuya::ffi::{self, CASCADE_CELLS, PLAN_CELLS};
use reference::core::Class;
use reference::hub::{Answer, Call, Calls};
use reference::offers::Offer;
use reference::plan::{self, Plan};

/// Memory between two pages that fault when touched.
pub struct Fenced<T: Copy> {
    map: *mut u8,
    bytes: usize,
    elements: std::marker::PhantomData<T>,
}

const PAGE: usize = 4096;

extern "C" {
    fn mmap(at: *mut u8, length: usize, protection: i32, flags: i32, file: i32, offset: i64) -> *mut u8;
    fn mprotect(at: *mut u8, length: usize, protection: i32) -> i32;
    fn munmap(at: *mut u8, length: usize) -> i32;
}

impl<T: Copy> Fenced<T> {
    /// Room for so many elements, all bytes 0. T is a type of numbers.
    pub fn new(elements: usize) -> Fenced<T> {
        let bytes = (elements * size_of::<T>()).next_multiple_of(PAGE);
        // Private and anonymous memory that may not be touched, of which all but the first and last page
        // may.
        let map = unsafe { mmap(std::ptr::null_mut(), bytes + 2 * PAGE, 0, 0x22, -1, 0) };
        assert!(map as isize != -1, "mmap");
        if bytes > 0 {
            assert_eq!(unsafe { mprotect(map.add(PAGE), bytes, 3) }, 0, "mprotect");
        }
        Fenced { map, bytes, elements: std::marker::PhantomData }
    }

    /// The last elements, up to the page behind.
    pub fn last(&mut self, length: usize) -> &mut [T] {
        let bytes = length * size_of::<T>();
        assert!(bytes <= self.bytes);
        unsafe { std::slice::from_raw_parts_mut(self.map.add(PAGE + self.bytes - bytes).cast(), length) }
    }

    /// The first elements, from the page before.
    pub fn first(&mut self, length: usize) -> &mut [T] {
        assert!(length * size_of::<T>() <= self.bytes);
        unsafe { std::slice::from_raw_parts_mut(self.map.add(PAGE).cast(), length) }
    }

    /// Until the next call of this with false, what writes an element faults.
    pub fn seal(&mut self, sealed: bool) {
        let protection = if sealed { 1 } else { 3 };
        assert_eq!(unsafe { mprotect(self.map.add(PAGE), self.bytes, protection) }, 0, "mprotect");
    }

    /// The last or the first elements.
    pub fn part(&mut self, last: bool, length: usize) -> &mut [T] {
        if last {
            self.last(length)
        } else {
            self.first(length)
        }
    }
}

impl<T: Copy> Drop for Fenced<T> {
    fn drop(&mut self) {
        unsafe { munmap(self.map, self.bytes + 2 * PAGE) };
    }
}

/// The crate's call that a call of the reference is.
pub fn of_crate(call: Call) -> lembuya::Call {
    match call {
        Call::Normal { t, k, b } => lembuya::Call::Normal { time: t, node: k, bits: b },
        Call::High { t, k, b } => lembuya::Call::High { time: t, node: k, bits: b },
        Call::Off { t, k } => lembuya::Call::Off { time: t, node: k },
        Call::Reserve { t, k, n, b } => lembuya::Call::Reserve { time: t, node: k, packets: n, bits: b },
        Call::Until { t } => lembuya::Call::Until { time: t },
        Call::Step { t } => lembuya::Call::Step { bound: t },
    }
}

/// The kind, t, k, n and b of a call, coded by the crate; `junk` where its kind doesn't have a number.
pub fn five(call: Call, mut junk: impl FnMut() -> u64) -> [u64; 5] {
    of_crate(call).fields().map(|number| number.unwrap_or_else(&mut junk))
}

/// The answer that seven numbers are, in a list an event's too; none where they are no answer to this call.
pub fn answer(call: Call, seven: [u64; 7]) -> Option<Answer> {
    let step = matches!(call, Call::Step { .. });
    match seven {
        [0, 0, 0, 0, 0, 0, 0] if !step => Some(Answer::Taken),
        [row @ 11..=17, 0, 0, 0, 0, 0, 0] => Some(Answer::Refused(row as u32)),
        [1, time, node, class @ 1..=2, end, moves, wait] if step => {
            let class = if class == 1 { Class::Normal } else { Class::High };
            Some(Answer::Grant { time, node, class, end, moves, wait })
        }
        [2, time, 0, 0, 0, moves, 0] if step => Some(Answer::Rest { time, moves }),
        [3, 0, 0, 0, 0, 0, 0] if step => Some(Answer::Quiet),
        _ => None,
    }
}

/// What `lembuya_read` answers: its number and what it told, which stays u64::MAX where it isn't told.
pub fn read(text: &[u8], plan: &mut ffi::Plan) -> (u32, [u64; 4]) {
    let mut told = [u64::MAX; 4];
    let number = unsafe { ffi::lembuya_read(text.as_ptr(), text.len(), plan, &mut told) };
    (number, told)
}

/// What `lembuya_run` answers: its number and its end, which stays u64::MAX where it isn't told.
pub fn run(text: &[u8], plan: &mut ffi::Plan, cascade: &mut ffi::Cascade, log: &mut [u8]) -> (u32, u64) {
    let mut end = [u64::MAX];
    let number = unsafe {
        ffi::lembuya_run(text.as_ptr(), text.len(), plan, cascade, log.as_mut_ptr(), log.len(), &mut end)
    };
    (number, end[0])
}

/// One call by the archive's function for it: its number, and a step's seven numbers in `seven`.
#[inline(always)]
pub fn number_of(plan: &ffi::Plan, cascade: &mut ffi::Cascade, call: Call, seven: &mut [u64; 7]) -> u32 {
    unsafe {
        match call {
            Call::Normal { t, k, b } => ffi::lembuya_normal(plan, cascade, t, k, b),
            Call::High { t, k, b } => ffi::lembuya_high(plan, cascade, t, k, b),
            Call::Off { t, k } => ffi::lembuya_off(plan, cascade, t, k),
            Call::Reserve { t, k, n, b } => ffi::lembuya_reserve(plan, cascade, t, k, n, b),
            Call::Until { t } => ffi::lembuya_until(plan, cascade, t),
            Call::Step { t } => ffi::lembuya_step(plan, cascade, t, seven),
        }
    }
}

/// One call, as its seven numbers.
#[inline]
pub fn single(plan: &ffi::Plan, cascade: &mut ffi::Cascade, call: Call) -> [u64; 7] {
    const UNTOLD: [u64; 7] = [u64::MAX; 7];
    let mut seven = UNTOLD;
    let number = u64::from(number_of(plan, cascade, call, &mut seven));
    // A grant, a rest or quiet.
    if matches!((call, number), (Call::Step { .. }, 1..=3)) {
        assert_eq!(number, seven[0], "a step returns its case");
        return seven;
    }
    assert_eq!(seven, UNTOLD, "a refused step leaves what it was lent");
    [number, 0, 0, 0, 0, 0, 0]
}

/// What `lembuya_list` answers.
pub fn list(plan: &ffi::Plan, cascade: &mut ffi::Cascade, calls: &[u64], answers: &mut [u64]) -> u32 {
    unsafe {
        ffi::lembuya_list(plan, cascade, calls.as_ptr(), calls.len(), answers.as_mut_ptr(), answers.len())
    }
}

/// What `lembuya_offers` answers.
pub fn offers(plan: &ffi::Plan, cascade: &ffi::Cascade, offers: &[u64], answers: &mut [u8]) -> u32 {
    unsafe {
        ffi::lembuya_offers(plan, cascade, offers.as_ptr(), offers.len(), answers.as_mut_ptr(), answers.len())
    }
}

/// What `lembuya_fit` answers.
pub fn fit(plan: &ffi::Plan, cascade: &ffi::Cascade, offer: Offer, change: &mut [u64; 2]) -> u32 {
    let Offer { k, n, b } = offer;
    unsafe { ffi::lembuya_fit(plan, cascade, k, n, b, change) }
}

/// A plan's hub in the archive, its tables in fenced memory.
pub struct Archive {
    plan: Fenced<u32>,
    cascade: Fenced<u32>,
    last: bool,
}

impl Archive {
    /// Tables that hold this cell everywhere, against the page behind them or before them.
    pub fn blank(cell: u32, last: bool) -> Archive {
        let (plan, cascade) = (Fenced::new(PLAN_CELLS), Fenced::new(CASCADE_CELLS));
        let mut archive = Archive { plan, cascade, last };
        archive.plan().fill(cell);
        archive.cascade().fill(cell);
        archive
    }

    /// A plan's hub before any event.
    pub fn new(plan: &Plan) -> Archive {
        let mut archive = Archive::blank(0, true);
        archive.begin(plan);
        archive
    }

    /// Becomes a plan's hub before any event.
    pub fn begin(&mut self, plan: &Plan) {
        let text = plan::draw(plan);
        let (number, told) = read(text.as_bytes(), self.plan());
        let lines = text.bytes().filter(|&byte| byte == b'\n').count();
        let expected = [plan.nodes, plan.hubs.len(), text.len(), lines + 1];
        assert_eq!((number, told), (0, expected.map(|number| number as u64)), "a good plan:\n{text}");
        unsafe { ffi::lembuya_fresh(self.cascade()) };
    }

    pub fn plan(&mut self) -> &mut ffi::Plan {
        self.plan.part(self.last, PLAN_CELLS).try_into().unwrap()
    }

    pub fn cascade(&mut self) -> &mut ffi::Cascade {
        self.cascade.part(self.last, CASCADE_CELLS).try_into().unwrap()
    }

    /// Both tables.
    pub fn tables(&mut self) -> (&mut ffi::Plan, &mut ffi::Cascade) {
        let plan = self.plan.part(self.last, PLAN_CELLS).try_into().unwrap();
        let cascade = self.cascade.part(self.last, CASCADE_CELLS).try_into().unwrap();
        (plan, cascade)
    }

    /// What is asked of both tables while they may only be read.
    pub fn sealed<T>(&mut self, ask: impl FnOnce(&ffi::Plan, &ffi::Cascade) -> T) -> T {
        let seal = |archive: &mut Archive, sealed| {
            archive.plan.seal(sealed);
            archive.cascade.seal(sealed);
        };
        seal(self, true);
        let (plan, cascade) = self.tables();
        let told = ask(plan, cascade);
        seal(self, false);
        told
    }

    /// A call's seven numbers.
    pub fn seven(&mut self, call: Call) -> [u64; 7] {
        let (plan, cascade) = self.tables();
        single(plan, cascade, call)
    }
}

impl Calls for Archive {
    fn call(&mut self, call: Call) -> Answer {
        let seven = self.seven(call);
        answer(call, seven).unwrap_or_else(|| panic!("no answer to {call:?}: {seven:?}"))
    }
}

/// A number of the environment, or this one.
pub fn setting(name: &str, otherwise: u64) -> u64 {
    match std::env::var(name) {
        Ok(number) => number.parse().unwrap_or_else(|_| panic!("{name} is a number")),
        Err(_) => otherwise,
    }
}

/// Ends the seeds where its thread panics.
struct Last<'a>(&'a std::sync::atomic::AtomicU64);

impl Drop for Last<'_> {
    fn drop(&mut self) {
        if std::thread::panicking() {
            self.0.store(u64::MAX / 2, std::sync::atomic::Ordering::Relaxed);
        }
    }
}

/// The work of each seed, on all processors. Each processor has its own tally, and they are put together at
/// the end.
pub fn on_all<T: Default + Send>(
    seeds: std::ops::Range<u64>,
    work: impl Fn(u64, &mut T) + Sync,
    join: impl Fn(&mut T, T),
) -> T {
    let next = std::sync::atomic::AtomicU64::new(seeds.start);
    let workers = std::thread::available_parallelism().map_or(1, |workers| workers.get());
    let mut all = T::default();
    std::thread::scope(|scope| {
        let threads: Vec<_> = (0..workers)
            .map(|_| {
                scope.spawn(|| {
                    let mut tally = T::default();
                    let _last = Last(&next);
                    loop {
                        let seed = next.fetch_add(1, std::sync::atomic::Ordering::Relaxed);
                        if seed >= seeds.end {
                            return tally;
                        }
                        work(seed, &mut tally);
                    }
                })
            })
            .collect();
        for thread in threads {
            match thread.join() {
                Ok(tally) => join(&mut all, tally),
                Err(panic) => std::panic::resume_unwind(panic),
            }
        }
    });
    all
}
