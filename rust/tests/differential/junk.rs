//! Tables of any content: every call answers, comes back, and keeps to what all calls promise.

use crate::archive::cells::{cascade, plan};
use crate::archive::{self, five, on_all, Archive};
use crate::common::Found;
use crate::FILL;
use lembuya::ffi;
use reference::hub::Call;
use reference::log::log;
use reference::random::calls::{list, Style};
use reference::random::{plans, texts, Random};

/// How a table's cells come about.
#[derive(Clone, Copy, Debug)]
pub enum Junk {
    Uniform,
    Small,
    /// Any number where the code takes one as it is, and numbers about the limits where it tests them.
    Shaped,
    /// A real table with some cells changed.
    Mutated,
    Ones,
    Zeros,
    Real,
}

/// A cascade's figures, hubs and first requests: many of the cells that calls look at lie among these.
const FRONT: usize = cascade::NODES + 4;

pub const JUNKS: [Junk; 7] =
    [Junk::Uniform, Junk::Small, Junk::Shaped, Junk::Mutated, Junk::Ones, Junk::Zeros, Junk::Real];

fn small(random: &mut Random) -> u32 {
    let limit = random.one_of(&[2, 3, 8, 34, 70, 260, 300, 70_000, 200_000]);
    random.below(limit) as u32
}

fn any_cell(random: &mut Random) -> u32 {
    match random.below(6) {
        0 => random.number() as u32,
        1 => u32::MAX - random.below(3) as u32,
        2 => 1 << random.below(32),
        3 => random.below(4_000_001) as u32,
        _ => small(random),
    }
}

fn spoil(random: &mut Random, junk: Junk, table: &mut [u32], shaped: fn(&mut Random, usize) -> u32) {
    match junk {
        Junk::Uniform => table.fill_with(|| random.number() as u32),
        Junk::Small => {
            let limit = random.one_of(&[2, 4, 40, 300, 140_000]);
            table.fill_with(|| random.below(limit) as u32);
        }
        Junk::Shaped => (0..).zip(table).for_each(|(at, cell)| *cell = shaped(random, at)),
        Junk::Mutated => {
            for _ in 0..random.within(1..=20) {
                let at = if random.chance(30) { random.place(FRONT) } else { random.place(table.len()) };
                table[at] = match random.below(3) {
                    0 => table[at] ^ 1 << random.below(32),
                    1 => table[at].wrapping_add(random.one_of(&[1, u32::MAX])),
                    _ => any_cell(random),
                };
            }
        }
        Junk::Ones => table.fill(u32::MAX),
        Junk::Zeros => table.fill(0),
        Junk::Real => {}
    }
}

fn plan_cell(random: &mut Random, at: usize) -> u32 {
    match at {
        _ if at < plan::HUBS => any_cell(random),
        _ if at < plan::NODES => match (at - plan::HUBS) % plan::HUB_CELLS {
            plan::PORTS | plan::PARENT | plan::PLACE => random.below(35) as u32,
            plan::LEVEL => any_cell(random),
            _ => random.below(300) as u32,
        },
        _ => random.below(36) as u32,
    }
}

fn cascade_cell(random: &mut Random, at: usize) -> u32 {
    let any = any_cell(random);
    const HIGH_HALVES: [usize; 2] = [cascade::CLOCK + cascade::HIGH_HALF, cascade::END + cascade::HIGH_HALF];
    match at {
        cascade::CLOCK | cascade::END => random.number() as u32,
        // A time is mostly below 10^15.
        _ if HIGH_HALVES.contains(&at) => random.below(250_000) as u32,
        cascade::BUSY | cascade::HOLDER | cascade::CLASS => random.one_of(&[0, 1, 1, 2, 32, 33, u32::MAX]),
        cascade::STANDING => random.one_of(&[0, 1, 255, 256, 257, u32::MAX]),
        _ if at < cascade::NODES => match (at - cascade::HUBS) % cascade::HUB_CELLS {
            mask if mask < cascade::MASKS => random.one_of(&[0, 1, 1 << 31, u32::MAX, any]),
            _ => random.below(70) as u32,
        },
        // A time at which a request was put up is mostly below 10^15 too, and often in a busy hub's first frames.
        _ if at >= cascade::node(1, cascade::PUT_UP_HIGH) => random.one_of(&[0, 0, any % 250_000]),
        _ if at >= cascade::node(1, cascade::PUT_UP) => random.number() as u32,
        _ => random.one_of(&[0, 1, 64, 65_536, 66_048, 131_072, 131_584, any]),
    }
}

/// Real tables: a random plan's, after some calls.
fn real(random: &mut Random, hub: &mut Archive) {
    let plan = plans::plan(random);
    hub.begin(&plan);
    let length = random.place(60);
    list(&plan, random.number(), Style::Loaded, length, hub);
}

/// A node, n and b about the limits.
pub fn any_three(random: &mut Random) -> [u64; 3] {
    let k = match random.below(8) {
        0 => random.number(),
        1 => random.one_of(&[0, 1, 256, 257, u64::MAX, 1 << 32]),
        _ => random.below(258),
    };
    let b = random.one_of(&[0, 511, 512, 1_000, 12_000, 12_001, 36_000, 36_001, u64::MAX]);
    let n = random.one_of(&[0, 1, 2, 64, 65, u64::MAX]);
    [k, n, b]
}

/// A call about the limits and about the table's own times.
fn any_call(random: &mut Random, table: &ffi::Cascade) -> Call {
    let (clock, end) = (cascade::time(table, cascade::CLOCK), cascade::time(table, cascade::END));
    let t = match random.below(8) {
        0 => clock,
        1 => end.wrapping_add(1),
        2 => 1_000_000_000_000_000 + random.below(2),
        3 => random.number(),
        _ => clock.wrapping_add(random.below(10_000_000)),
    };
    let t =
        if random.chance(50) { t.clamp(clock.min(1_000_000_000_000_000), 1_000_000_000_000_000) } else { t };
    let [k, n, b] = any_three(random);
    match random.below(8) {
        0 => Call::Normal { t, k, b },
        1 => Call::High { t, k, b },
        2 => Call::Off { t, k },
        3 => Call::Reserve { t, k, n, b },
        4 => Call::Until { t },
        _ => Call::Step { t },
    }
}

/// An answer that some table could get: a refused or quiet call leaves the table.
fn plausible(call: Call, seven: [u64; 7], changed: bool) -> bool {
    match (call, seven[0]) {
        (Call::Step { t }, 1) => seven[1] < t && (1..=2).contains(&seven[3]) && seven[2] <= 256,
        (Call::Step { t }, 2) => seven[1] < t && seven[2..5] == [0, 0, 0] && seven[6] == 0,
        (Call::Step { .. }, 3 | 11) | (_, 11..=17) => seven[1..] == [0; 6] && !changed,
        (Call::Step { .. }, _) => false,
        (_, row) => row == 0,
    }
}

/// From when on a grant's wait counts, and what that time is. It is the recorded one, but for a high request of a node of the plan
/// that the start of the frame behind the clock's makes normal: then it is that start. Node 0 has no record.
fn counted_from(
    table: &ffi::Plan,
    before: &ffi::Cascade,
    time: u64,
    node: u64,
) -> (Option<u64>, &'static str) {
    let frame_of = |t: u64| t.checked_div(table[plan::FRAME].into()).unwrap_or(0);
    let clock = cascade::time(before, cascade::CLOCK);
    let k = node as usize;
    if k == 0 {
        return (None, "no node");
    }
    let [request, latest] = [cascade::REQUESTS, cascade::LATEST].map(|at| before[cascade::node(k, at)]);
    let turns = request >= 131_072 && (latest < 65_536 || request % 65_536 > latest % 65_536);
    if frame_of(clock) < frame_of(time) && turns && k as u32 <= table[plan::NODE_COUNT] {
        return (Some((frame_of(clock) + 1) * u64::from(table[plan::FRAME])), "a frame's start");
    }
    let recorded = cascade::put_up(before, k);
    (Some(recorded), if recorded > time { "a later record" } else { "a record" })
}

/// A grant's wait on any table: 0 where it counts from a time behind the grant.
fn check_wait(table: &ffi::Plan, before: &ffi::Cascade, seven: [u64; 7], found: &mut Found) -> bool {
    let [_, time, node, _, _, _, wait] = seven;
    let (from, what) = counted_from(table, before, time, node);
    found.count(format!("wait from {what}"));
    wait == from.map_or(0, |from| time.saturating_sub(from))
}

/// A plan's and a cascade's table of random content.
pub fn spoiled(random: &mut Random, junks: [Junk; 2]) -> Archive {
    let mut one = Archive::blank(0, random.chance(70));
    real(random, &mut one);
    spoil(random, junks[0], one.plan(), plan_cell);
    spoil(random, junks[1], one.cascade(), cascade_cell);
    if random.chance(50) {
        one.plan()[plan::STRICT] = 0;
    }
    if random.chance(50) {
        // A clock that row 11 lets pass.
        one.cascade()[cascade::CLOCK + cascade::HIGH_HALF] %= 200_000;
    }
    one
}

/// Two pairs of tables of random content that every call must treat alike, and whether their plans are strict. They are equal but
/// for the strict line's cell: any number but 0 is strict, and one as good as another.
fn pairs(random: &mut Random, junks: [Junk; 2]) -> (Archive, Archive, bool) {
    let mut one = spoiled(random, junks);
    let mut other = Archive::blank(0, random.chance(70));
    *other.plan() = *one.plan();
    *other.cascade() = *one.cascade();
    let strict = one.plan()[plan::STRICT] != 0;
    if strict {
        other.plan()[plan::STRICT] = any_cell(random).max(1);
    }
    (one, other, strict)
}

/// Two such pairs take the same calls, some single and some in a list.
fn try_junk(seed: u64, found: &mut Found) {
    let mut random = Random::new(seed);
    let (for_plan, for_cascade) = (random.one_of(&JUNKS), random.one_of(&JUNKS));
    let (mut one, mut other, strict) = pairs(&mut random, [for_plan, for_cascade]);
    let plans_before = [*one.plan(), *other.plan()];
    let told = plans_before.map(|table| unsafe { ffi::lembuya_strict(&table) });
    assert_eq!(told, [u32::from(strict); 2], "seed {seed}");
    for _ in 0..20 {
        let before = *one.cascade();
        let call = any_call(&mut random, &before);
        let seven = one.seven(call);
        let what = || format!("seed {seed}: {for_plan:?}, {for_cascade:?}, {call:?}: {seven:?}");
        assert!(plausible(call, seven, before != *one.cascade()), "{}", what());
        let grant = matches!((call, seven[0]), (Call::Step { .. }, 1));
        assert!(!grant || check_wait(one.plan(), &before, seven, found), "the wait, {}", what());
        let mut again = [9; 7];
        if random.chance(70) {
            again = other.seven(call);
        } else {
            let (plan_table, cascade) = other.tables();
            assert_eq!(archive::list(plan_table, cascade, &five(call, || 0), &mut again), 0, "{}", what());
        }
        assert_eq!(again, seven, "{}", what());
        assert!(one.cascade() == other.cascade(), "{}", what());
        let name = if matches!(call, Call::Step { .. }) { "step" } else { "event" };
        found.count(format!("{name} {}", seven[0]));
        if let (Call::High { .. }, 0 | 16) = (call, seven[0]) {
            found.count(format!("high {}, {}", seven[0], if strict { "strict" } else { "default" }));
        }
        found.add("calls", 2);
    }
    assert!([*one.plan(), *other.plan()] == plans_before, "seed {seed}: a plan was changed");
    over_junk(seed, &mut random, one, other);
    found.add("calls", 6);
}

/// What takes the tables only to fill them: a plan read, a table made fresh, a run.
fn over_junk(seed: u64, random: &mut Random, mut one: Archive, mut other: Archive) {
    let text = texts::text(random);
    let text = &text[..text.len().min(4_000)];
    unsafe { ffi::lembuya_fresh(other.cascade()) };
    let fresh = *other.cascade();
    other.cascade().fill(0);
    unsafe { ffi::lembuya_fresh(other.cascade()) };
    assert!(fresh == *other.cascade(), "seed {seed}: what was there before doesn't matter");
    let told = archive::read(text, other.plan());
    let taken = told.0 == 0;
    let before = (*one.plan(), *one.cascade());
    let whole = log(text);
    let mut buffer = vec![FILL; whole.len()];
    let short = random.place(whole.len());
    let (plan_table, cascade) = one.tables();
    assert_eq!(archive::run(text, plan_table, cascade, &mut buffer[..short]), (18, u64::MAX), "seed {seed}");
    assert!(buffer.iter().all(|&byte| byte == FILL), "seed {seed}: a log that doesn't fit");
    assert!(before == (*one.plan(), *one.cascade()), "seed {seed}: a log that doesn't fit leaves the tables");
    let (plan_table, cascade) = one.tables();
    let number = archive::run(text, plan_table, cascade, &mut buffer);
    assert!(number == (0, whole.len() as u64) && buffer == whole, "seed {seed}");
    if taken {
        assert!(one.plan() == other.plan(), "seed {seed}: a run reads the plan");
    } else {
        assert!(before == (*one.plan(), *one.cascade()), "seed {seed}: a refused plan leaves the tables");
    }
}

#[test]
fn junk_tables() {
    let found = on_all(0..10_000, try_junk, Found::join);
    println!("{found:?}");
    found.assert_met(400_000, &["calls"]);
    let cases =
        ["event 0", "event 11", "event 12", "event 13", "event 14", "event 15", "event 16", "event 17"];
    found.assert_met(200, &cases);
    found.assert_met(200, &["step 1", "step 2", "step 3", "step 11"]);
    found.assert_met(200, &["wait from a record", "wait from a later record", "wait from no node"]);
    found.assert_met(20, &["wait from a frame's start"]);
    found.assert_met(50, &["high 0, strict", "high 16, strict", "high 0, default", "high 16, default"]);
}
