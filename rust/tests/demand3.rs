//! Demand 3 measured on the archive's answers: how often its premises hold, and how near the nth packet's
//! end comes to the limit.

mod archive;

use archive::{on_all, setting, Archive};
use reference::core::Class::{self, High, Normal};
use reference::demand3::{measure, Held, Watch};
use reference::hub::{Answer, Call, Calls};
use reference::plan::{self, Framing, Plan};
use reference::random::calls::{Caller, Style};
use reference::random::{plans, Random};

/// What was measured: nodes and frames, and the slack of each for which the premises hold, with its limit
/// from the frame's start.
#[derive(Default)]
struct Measured {
    calls: u64,
    reserved: u64,
    unbroken: u64,
    held: u64,
    slacks: Vec<(u64, u64)>,
    laptops: Laptops,
}

/// High requests of nodes that never reserve, by what became of them.
#[derive(Clone, Copy, Default)]
struct Laptops {
    as_normal: u64,
    refused: u64,
}

impl Measured {
    fn add(&mut self, plan: &Plan, held: Held) {
        let slack = held.slack().expect("the nth grant came") as u64;
        self.slacks.push((slack, held.limit - held.frame * plan.frame));
    }

    fn join(&mut self, other: Measured) {
        self.calls += other.calls;
        self.reserved += other.reserved;
        self.unbroken += other.unbroken;
        self.held += other.held;
        self.slacks.extend(other.slacks);
        self.laptops.as_normal += other.laptops.as_normal;
        self.laptops.refused += other.laptops.refused;
    }

    /// The figures, in bit times and in parts of the limit.
    fn print(&mut self, name: &str) {
        println!(
            "{name}: {} calls; n at least 1 for {} nodes and frames, unbroken from the start {}, all premises {}",
            self.calls, self.reserved, self.unbroken, self.held
        );
        self.slacks.sort_unstable();
        let mut parts: Vec<f64> =
            self.slacks.iter().map(|&(slack, limit)| slack as f64 / limit as f64).collect();
        parts.sort_unstable_by(f64::total_cmp);
        let last = self.slacks.len() - 1;
        for (part, what) in [
            (0, "least"),
            (1, "1 in 100"),
            (10, "1 in 10"),
            (50, "median"),
            (90, "9 in 10"),
            (100, "largest"),
        ] {
            let at = last * part / 100;
            println!(
                "  slack, {what}: {} bit times, {:.1} % of the limit",
                self.slacks[at].0,
                parts[at] * 100.0
            );
        }
        for most in [0, 1, 100] {
            println!("  slack at most {most}: {}", self.slacks.partition_point(|&(slack, _)| slack <= most));
        }
    }
}

/// A hub with the watch over its answers.
struct Watched {
    hub: Archive,
    watch: Watch,
    calls: u64,
    laptops: Laptops,
}

impl Watched {
    fn new(plan: &Plan) -> Watched {
        Watched { hub: Archive::new(plan), watch: Watch::new(plan), calls: 0, laptops: Laptops::default() }
    }

    fn call(&mut self, call: Call) -> Answer {
        let answer = self.hub.call(call);
        self.watch.hear(call, answer);
        self.calls += 1;
        answer
    }

    /// A node that never reserves calls a packet high, and what row 16 says of that is counted.
    fn laptop(&mut self, t: u64, k: u64, b: u64) {
        match self.call(Call::High { t, k, b }) {
            Answer::Taken => self.laptops.as_normal += 1,
            Answer::Refused(16) => self.laptops.refused += 1,
            _ => {}
        }
    }

    /// The list ends: none is broken.
    fn end(self, plan: &Plan, seed: u64, measured: &mut Measured) {
        let tally = self.watch.tally;
        measured.calls += self.calls;
        measured.reserved += tally.reserved;
        measured.unbroken += tally.unbroken;
        measured.held += tally.held;
        measured.laptops.as_normal += self.laptops.as_normal;
        measured.laptops.refused += self.laptops.refused;
        for held in self.watch.end() {
            assert!(
                held.kept() && held.grants == held.n,
                "seed {seed}: demand 3 is broken: {held:?}\n{}",
                plan::draw(plan)
            );
            measured.add(plan, held);
        }
    }
}

/// Request 8 of document 02: "Under either default a reserved unit keeps the share and limit it had."
#[test]
fn random_lists_keep_it() {
    [true, false].into_iter().for_each(random_lists);
}

/// In plans that are strict, or not.
fn random_lists(strict: bool) {
    const LENGTH: u64 = 2_000;
    let lists = setting("LEMBUYA_CALLS", 1_000_000).div_ceil(2 * LENGTH);
    let mut measured = on_all(
        0..lists,
        |seed, measured| {
            let mut random = Random::new(seed);
            let plan = Plan { strict, ..plans::plan(&mut random) };
            let mut caller = Caller::new(&plan, random.number(), Style::Loaded);
            let mut hub = Watched::new(&plan);
            for _ in 0..LENGTH {
                let call = caller.next_call();
                let answer = hub.call(call);
                caller.hear(call, answer);
            }
            hub.end(&plan, seed, measured);
        },
        Measured::join,
    );
    measured.print(&format!("random lists, strict {strict}"));
    assert!(measured.held > lists * 10, "the premises hardly ever hold");
}

/// A list that presses against the limit: before a frame starts, or just at its start, a long normal packet
/// takes the line; nodes that reserved all that the frame can hold ask while it runs, and again at each
/// grant. Some of them miss a turn, ask for less or leave. Laptops, which never reserve, call all of their
/// long packets high meanwhile; often that packet too.
fn press(plan: &Plan, random: &mut Random, hub: &mut Watched) {
    let (nodes, longest) = (plan.nodes as u64, plan.longest_packet());
    let few = random.within(1..=nodes.min(10));
    let set: Vec<u64> = (0..few).map(|_| random.within(1..=nodes)).collect();
    let laptops: Vec<u64> = (1..=nodes).filter(|k| !set.contains(k)).take(3).collect();
    let mut shares = vec![(0, 0); plan.nodes];
    for &k in &set {
        let (n, b) = (random.within(1..=6), random.within_or_end(512..=longest));
        if hub.call(Call::Reserve { t: 0, k, n, b }) == Answer::Taken {
            shares[k as usize - 1] = (n, b);
        }
    }
    for f in 2..8 {
        let early = random.one_of(&[0, 0, 1, 1, 500, longest]);
        let t = f * plan.frame - early;
        while matches!(hub.call(Call::Step { t }), Answer::Grant { .. } | Answer::Rest { .. }) {}
        match laptops.first() {
            Some(&k) if random.chance(50) => hub.laptop(t, k, longest),
            _ => drop(hub.call(Call::Normal { t, k: random.within(1..=nodes), b: longest })),
        }
        hub.call(Call::Step { t: t + 1 });
        let mut order = set.clone();
        for from in (1..order.len()).rev() {
            order.swap(from, random.place(from + 1));
        }
        for k in order {
            hub.call(Call::High { t, k, b: shares[k as usize - 1].1 });
        }
        laptops.iter().for_each(|&k| hub.laptop(t, k, longest));
        press_on(random, hub, &shares, &laptops, (f + 1) * plan.frame - longest - 1);
    }
}

/// The rest of the frame, up to a late time in it: each asks again at its grants.
fn press_on(random: &mut Random, hub: &mut Watched, shares: &[(u64, u64)], laptops: &[u64], late: u64) {
    let faulty = random.chance(20);
    let mut grants = vec![0; shares.len()];
    while let Answer::Grant { time, node, class, .. } = hub.call(Call::Step { t: late }) {
        let (n, b) = shares[node as usize - 1];
        grants[node as usize - 1] += u64::from(class == High);
        if laptops.contains(&node) {
            hub.laptop(time, node, random.within(512..=12_000));
        } else if grants[node as usize - 1] < n {
            let b = if random.chance(95) { b } else { random.within(512..=b) };
            if !(faulty && random.chance(10)) {
                hub.call(Call::High { t: time, k: node, b });
            }
        }
    }
}

#[test]
fn pressing_lists_keep_it() {
    for framing in Framing::BOTH {
        [true, false].into_iter().for_each(|strict| pressing_lists(framing, strict));
    }
}

/// By one framing, with D at its least, in plans that are strict, or not.
fn pressing_lists(framing: Framing, strict: bool) {
    let lists = setting("LEMBUYA_CALLS", 1_000_000).div_ceil(400);
    let mut measured = on_all(
        0..lists,
        |seed, measured| {
            let mut random = Random::new(seed);
            let mut plan = plans::small_plan(&mut random, 40);
            (plan.framing_line, plan.strict) = (Some(framing), strict);
            plan.interrupt = plan.longest_packet() + plan.overhead;
            let mut hub = Watched::new(&plan);
            press(&plan, &mut random, &mut hub);
            hub.end(&plan, seed, measured);
        },
        Measured::join,
    );
    measured.print(&format!("pressing lists, framing {}, strict {strict}", framing.number()));
    assert!(measured.held > lists, "the premises hardly ever hold");
    assert_eq!(measured.slacks[0].0, 0, "the limit is met exactly");
    let Laptops { as_normal, refused } = measured.laptops;
    println!("  laptops' high requests: {as_normal} taken as normal, {refused} refused by 16");
    let (met, never) = if strict { (refused, as_normal) } else { (as_normal, refused) };
    assert!(met > 10 * lists && never == 0, "{as_normal} taken as normal, {refused} refused");
}

// The tightest lists, written out.

fn grant(time: u64, node: u64, class: Class, end: u64, moves: u64, wait: u64) -> Answer {
    Answer::Grant { time, node, class, end, moves, wait }
}

fn high(t: u64, k: u64, b: u64) -> (Call, Answer) {
    (Call::High { t, k, b }, Answer::Taken)
}

fn reserve(t: u64, k: u64, n: u64, b: u64) -> (Call, Answer) {
    (Call::Reserve { t, k, n, b }, Answer::Taken)
}

fn step(t: u64, answer: Answer) -> (Call, Answer) {
    (Call::Step { t }, answer)
}

/// The archive answers so, and these are the nodes and frames for which the premises hold: node, frame, n,
/// end and limit.
fn tight(plan_text: &str, list: &[(Call, Answer)], found: &[(usize, u64, u64, u64, u64)]) {
    let plan = plan::read(plan_text.as_bytes()).unwrap().plan;
    let mut hub = Archive::new(&plan);
    for &(call, answer) in list {
        assert_eq!(hub.call(call), answer, "{call:?}");
    }
    let held: Vec<_> = measure(&plan, list)
        .iter()
        .map(|held| (held.node, held.frame, held.n, held.end.unwrap(), held.limit))
        .collect();
    assert_eq!(held, found);
}

/// Document 01's plan. At the frame's start, before any of them asks, a normal packet of the greatest
/// length takes the line; then each asks again at each of its grants. Nodes 3 and 4 have no bit time left.
#[test]
fn no_bit_time_left_in_two_hubs() {
    let plan = "(frame 100000)\n(overhead 1000)\n(interrupt 13000)\n(strict)\n(hub\n(node)\n(hub\n(node)\n(node)\n)\n(node)\n)\n";
    let list = [
        reserve(0, 1, 1, 3_000),
        reserve(0, 2, 2, 3_000),
        reserve(0, 3, 3, 3_000),
        reserve(0, 4, 2, 3_000),
        (Call::Normal { t: 100_000, k: 1, b: 12_000 }, Answer::Taken),
        step(100_001, grant(100_000, 1, Normal, 113_000, 0, 0)),
        high(100_000, 1, 3_000),
        high(100_000, 2, 3_000),
        high(100_000, 3, 3_000),
        high(100_000, 4, 3_000),
        step(200_000, grant(113_000, 1, High, 117_000, 0, 13_000)),
        step(200_000, grant(117_000, 2, High, 121_000, 1, 17_000)),
        high(117_000, 2, 3_000),
        step(200_000, grant(121_000, 3, High, 125_000, 0, 21_000)),
        high(121_000, 3, 3_000),
        step(200_000, grant(125_000, 4, High, 129_000, 1, 25_000)),
        high(125_000, 4, 3_000),
        step(200_000, grant(129_000, 2, High, 133_000, 1, 12_000)),
        step(200_000, grant(133_000, 3, High, 137_000, 0, 12_000)),
        high(133_000, 3, 3_000),
        step(200_000, grant(137_000, 4, High, 141_000, 1, 12_000)),
        step(200_000, grant(141_000, 3, High, 145_000, 1, 8_000)),
        step(200_000, Answer::Rest { time: 145_000, moves: 1 }),
        step(200_000, Answer::Quiet),
    ];
    let found = [
        (1, 1, 1, 117_000, 129_000),
        (2, 1, 2, 133_000, 141_000),
        (3, 1, 3, 145_000, 145_000),
        (4, 1, 2, 141_000, 141_000),
    ];
    tight(plan, &list, &found);
}

/// A camera, node 1, with two packets of 4,000 bits, and a laptop, node 2, that calls a packet of the greatest length high just as
/// the frame starts. By default that is the packet in progress, and the camera has no bit time left; in a strict plan the laptop is
/// refused and the camera is through 13,000 earlier. Its limit is 100,000 + 13,000 + 2 × 5,000 under either.
#[test]
fn no_bit_time_left_behind_a_laptop() {
    let plan = |line: &str| {
        format!("(frame 100000)\n(overhead 1000)\n(interrupt 13000)\n{line}(hub\n(node)\n(node)\n)\n")
    };
    let laptop = Call::High { t: 100_000, k: 2, b: 12_000 };
    let by_default = [
        reserve(0, 1, 2, 4_000),
        (laptop, Answer::Taken),
        step(100_001, grant(100_000, 2, Normal, 113_000, 0, 0)),
        high(100_000, 1, 4_000),
        (laptop, Answer::Taken),
        step(200_000, grant(113_000, 1, High, 118_000, 0, 13_000)),
        high(113_000, 1, 4_000),
        step(200_000, grant(118_000, 1, High, 123_000, 0, 5_000)),
        step(200_000, grant(123_000, 2, Normal, 136_000, 0, 23_000)),
        step(200_000, Answer::Rest { time: 136_000, moves: 0 }),
        step(200_000, Answer::Quiet),
    ];
    tight(&plan(""), &by_default, &[(1, 1, 2, 123_000, 123_000)]);
    let with_line = [
        reserve(0, 1, 2, 4_000),
        (laptop, Answer::Refused(16)),
        high(100_000, 1, 4_000),
        step(100_001, grant(100_000, 1, High, 105_000, 0, 0)),
        high(100_000, 1, 4_000),
        (laptop, Answer::Refused(16)),
        step(200_000, grant(105_000, 1, High, 110_000, 0, 5_000)),
        step(200_000, Answer::Rest { time: 110_000, moves: 0 }),
        step(200_000, Answer::Quiet),
    ];
    tight(&plan("(strict)\n"), &with_line, &[(1, 1, 2, 110_000, 123_000)]);
}

/// Found by random lists and cut down: node 9's own held request, too long for what it has since reserved,
/// becomes normal as the frame starts and is the packet in progress; node 8 comes in later.
#[test]
fn no_bit_time_left_behind_its_own_packet() {
    let plan =
        format!("(frame 198640)\n(overhead 5169)\n(interrupt 17169)\n(hub\n{})\n", "(node)\n".repeat(9));
    let list = [
        reserve(0, 9, 1, 12_000),
        reserve(0, 8, 1, 1_785),
        high(1_986_400, 9, 512),
        step(1_986_401, grant(1_986_400, 9, High, 1_992_081, 0, 0)),
        high(1_986_400, 9, 12_000),
        step(1_992_082, Answer::Rest { time: 1_992_081, moves: 0 }),
        reserve(1_992_081, 9, 3, 11_574),
        step(2_185_041, grant(2_185_040, 9, Normal, 2_202_209, 0, 0)),
        high(2_185_040, 9, 11_574),
        step(2_202_210, grant(2_202_209, 9, High, 2_218_952, 0, 17_169)),
        high(2_202_209, 9, 11_574),
        step(2_218_953, grant(2_218_952, 9, High, 2_235_695, 0, 16_743)),
        high(2_218_952, 8, 1_785),
        high(2_218_952, 9, 11_574),
        step(2_235_696, grant(2_235_695, 8, High, 2_242_649, 0, 16_743)),
        step(2_242_650, grant(2_242_649, 9, High, 2_259_392, 0, 23_697)),
        step(2_259_393, Answer::Rest { time: 2_259_392, moves: 0 }),
        step(2_383_680, Answer::Quiet),
    ];
    tight(&plan, &list, &[(9, 10, 1, 1_992_081, 2_027_692), (9, 11, 3, 2_259_392, 2_259_392)]);
}
