//! The random offers do get every answer of slip 10, and each answer is the one that
//! the request's last sentence asks for.

mod common;

use common::{control, Found};
use reference::control::Control;
use reference::fit::Fit;
use reference::hub::{Answer, Call, Hub};
use reference::offers::Offer;
use reference::plan::Plan;
use reference::random::calls::{list, Style};
use reference::random::{fit, plans, Random};

/// What the calls say of a hub.
struct Table<'a> {
    plan: &'a Plan,
    /// The latest accepted reservations, n and b; node k at k - 1.
    latest: Vec<(u64, u64)>,
}

impl Table<'_> {
    fn hear(&mut self, call: Call, answer: Answer) {
        if let (Call::Reserve { k, n, b, .. }, Answer::Taken) = (call, answer) {
            self.latest[k as usize - 1] = (n, b);
        }
    }

    fn load(&self, (n, b): (u64, u64)) -> u64 {
        n * (b + self.plan.overhead)
    }

    /// What D and all nodes but these leave of the frame.
    fn left_by_all_but(&self, k: u64, j: u64) -> u64 {
        let others = (1..).zip(&self.latest).filter(|&(i, _)| i != k && i != j);
        self.plan.frame - self.plan.interrupt - others.map(|(_, &latest)| self.load(latest)).sum::<u64>()
    }

    /// Whether the offer fits with this change.
    fn fits(&self, Offer { k, n, b }: Offer, change: Fit) -> bool {
        match change {
            Fit::Packets(n) => self.load((n, b)) <= self.left_by_all_but(k, k),
            Fit::Bits(b) => self.load((n, b)) <= self.left_by_all_but(k, k),
            Fit::Release(j) => self.load((n, b)) <= self.left_by_all_but(k, j),
            _ => panic!("{change} is no change"),
        }
    }

    /// The others with something reserved, by their n × c and then by their numbers.
    fn releases(&self, k: u64) -> Vec<(u64, u64)> {
        let reserved = (1..).zip(&self.latest).filter(|&(j, latest)| j != k && latest.0 > 0);
        let mut releases: Vec<_> = reserved.map(|(j, &latest)| (self.load(latest), j)).collect();
        releases.sort();
        releases
    }

    /// Every change "in this order".
    fn changes(&self, offer: Offer) -> Vec<Fit> {
        let packets = (1..offer.n).rev().map(Fit::Packets);
        let bits = (512..offer.b).rev().map(Fit::Bits);
        let releases = self.releases(offer.k).into_iter().map(|(_, j)| Fit::Release(j));
        packets.chain(bits).chain(releases).collect()
    }

    /// Rows 13, 14, 15 and 17, the first that refuses; or 0.
    fn row(&self, Offer { k, n, b }: Offer) -> u32 {
        let lengths = if n == 0 { 0..=0 } else { 512..=self.plan.longest_packet() };
        if k == 0 || k > self.plan.nodes as u64 {
            13
        } else if n > 64 {
            14
        } else if !lengths.contains(&b) {
            15
        } else if self.load((n, b)) > self.left_by_all_but(k, k) {
            17
        } else {
            0
        }
    }
}

/// A hub that took a list of calls, if any, and then reserves that fill its frame.
fn used<'a>(plan: &'a Plan, random: &mut Random) -> (Hub<Control>, Table<'a>) {
    let (mut hub, mut table) = (control(plan), Table { plan, latest: vec![(0, 0); plan.nodes] });
    if random.chance(40) {
        let style = if random.chance(50) { Style::Mixed } else { Style::Loaded };
        let (seed, length) = (random.number(), random.place(80));
        for (call, answer) in list(plan, seed, style, length, &mut hub) {
            table.hear(call, answer);
        }
    }
    if random.chance(90) {
        for call in fit::reserves(random, plan, &hub) {
            assert_eq!(hub.call(call), Answer::Taken, "{call:?}");
            table.hear(call, Answer::Taken);
        }
    }
    (hub, table)
}

/// "Each change named is shown to fit, and every change before it in this order to
/// fail, or every one if none is named."
fn assert_shown(named: Fit, changes: &[Fit], fits: impl Fn(Fit) -> bool) {
    let before = match named {
        Fit::Nothing => changes,
        _ => {
            let place = changes.iter().position(|&change| change == named);
            assert!(fits(named), "{named} doesn't fit");
            &changes[..place.expect("one of the changes")]
        }
    };
    for &change in before {
        assert!(!fits(change), "{named}, but {change} fits");
    }
}

/// Counts an answer, and where a packet or a bit decides.
fn look_at(table: &Table, offer: Offer, named: Fit, found: &mut Found) {
    let Offer { k, n, b } = offer;
    found.count(word(named));
    let left = || table.left_by_all_but(k, k);
    match named {
        Fit::Answer(row) => found.count(format!("answer {row}")),
        Fit::Packets(fewer) => look_at_packets(table, offer, fewer, left(), found),
        Fit::Bits(shorter) => look_at_bits(table, offer, shorter, left(), found),
        Fit::Release(j) => look_at_release(table, offer, j, left(), found),
        Fit::Nothing => {
            let largest = table.releases(k).last().map(|&(load, _)| load);
            found.count(match largest {
                None => "nothing, no other reserved",
                Some(load) if left() + load + 1 == table.load((n, b)) => "nothing, by a bit",
                Some(load) if left() + load + n >= table.load((n, b)) => "nothing, by a bit in each packet",
                Some(_) => "nothing, far",
            });
        }
    }
    if matches!(named, Fit::Release(_) | Fit::Nothing) {
        let kind = word(named);
        for (what, is) in [("n 1", n == 1), ("n 64", n == 64), ("b 512", b == 512)] {
            if is {
                found.count(format!("{kind}, {what}"));
            }
        }
        if table.latest[k as usize - 1].0 > 0 {
            found.count(format!("{kind}, k has some"));
        }
    }
}

fn look_at_packets(table: &Table, Offer { n, b, .. }: Offer, fewer: u64, left: u64, found: &mut Found) {
    if table.load((fewer, b)) == left {
        found.count("packets, to the bit");
    }
    if table.load((fewer + 1, b)) == left + 1 {
        found.count("packets, one more by a bit not");
    }
    if fewer + 1 == n {
        found.count("packets, one less");
    }
    if [1, 63].contains(&fewer) {
        found.count(format!("packets {fewer}"));
    }
}

fn look_at_bits(table: &Table, Offer { n, b, .. }: Offer, shorter: u64, left: u64, found: &mut Found) {
    found.count(if n == 1 { "bits, n 1" } else { "bits, n above 1" });
    if table.load((n, shorter)) == left {
        found.count("bits, to the bit");
    }
    if table.load((1, b)) == left + 1 {
        found.count("bits, one packet by a bit not");
    }
    if shorter + 1 == b {
        found.count("bits, one less");
    }
    if [512, 11_999, 35_999].contains(&shorter) {
        found.count(format!("bits {shorter}"));
    }
    if shorter > 12_000 {
        found.count("bits above 12,000");
    }
}

fn look_at_release(table: &Table, Offer { k, n, b }: Offer, j: u64, left: u64, found: &mut Found) {
    let releases = table.releases(k);
    let load = releases.iter().find(|release| release.1 == j).expect("one of them").0;
    let short = table.load((n, b)) - left;
    if load == short {
        found.count("release, to the bit");
    }
    if releases.iter().any(|&(other, _)| other + 1 == short) {
        found.count("release, a cheaper one by a bit not");
    }
    if releases.iter().any(|&(other, i)| other == load && i != j) {
        found.count("release, a tie");
    }
    let latest = |i: u64| table.latest[i as usize - 1];
    if releases.iter().any(|&(other, i)| other == load && latest(i) != latest(j)) {
        found.count("release, a tie of other n and b");
    }
    let suffice = || releases.iter().filter(|&&(other, _)| other >= short).map(|&(_, i)| latest(i));
    if suffice().any(|(n, b)| n * b < latest(j).0 * latest(j).1) {
        found.count("release, another by n × b");
    }
    if suffice().any(|(n, _)| n < latest(j).0) {
        found.count("release, another by n");
    }
    if releases.iter().any(|&(other, i)| other > load && i < j) {
        found.count("release, a lower number has more");
    }
    if releases.iter().any(|&(other, i)| other < load && i < j) {
        found.count("release, a lower number has too little");
    }
    if releases[0].1 != j {
        found.count("release, not the cheapest of all");
    }
}

/// The word of an answer.
fn word(named: Fit) -> String {
    named.to_string().split(' ').next().unwrap().to_owned()
}

#[test]
fn every_change_is_named() {
    let mut found = Found::default();
    for seed in 0..300 {
        let mut random = Random::new(seed);
        let plan = fit::plan(&mut random);
        let (hub, table) = used(&plan, &mut random);
        let before = format!("{hub:?}");
        for _ in 0..20 {
            let offer = fit::offer_to(&mut random, &plan, &hub);
            look_at(&table, offer, hub.fit(offer), &mut found);
        }
        assert_eq!(format!("{hub:?}"), before, "the hub is only read: seed {seed}");
    }
    println!("{found:#?}");
    found.assert_met(400, &["answer 0", "packets", "bits", "release", "nothing"]);
    found.assert_met(50, &["answer 13", "answer 14", "answer 15"]);
    for row in [11, 12, 16, 17, 18] {
        found.assert_unmet(&format!("answer {row}"));
    }
    found.assert_met(50, &["packets, to the bit", "packets, one more by a bit not", "packets, one less"]);
    found.assert_met(50, &["bits, to the bit", "bits, one packet by a bit not", "bits, one less"]);
    found.assert_met(50, &["bits, n 1", "bits, n above 1", "bits above 12,000"]);
    found.assert_met(50, &["release, to the bit", "release, a cheaper one by a bit not"]);
    found.assert_met(30, &["release, a tie", "release, a tie of other n and b"]);
    found.assert_met(30, &["release, another by n × b", "release, another by n"]);
    found.assert_met(100, &["release, a lower number has more", "release, a lower number has too little"]);
    found.assert_met(100, &["release, not the cheapest of all", "release, n 1", "release, b 512"]);
    found.assert_met(50, &["nothing, n 1", "nothing, b 512", "nothing, far", "nothing, no other reserved"]);
    found.assert_met(20, &["release, k has some", "nothing, k has some", "release, n 64", "nothing, n 64"]);
    found.assert_met(20, &["nothing, by a bit", "packets 1", "bits 512"]);
    found.assert_met(5, &["packets 63", "bits 11999", "bits 35999"]);
}

/// By the sum of Theorem 1, from the calls and answers alone.
#[test]
fn what_is_named_fits_and_all_before_it_fail() {
    let mut found = Found::default();
    for seed in 1_000..1_200 {
        let mut random = Random::new(seed);
        let plan = if random.chance(80) { fit::plan(&mut random) } else { plans::plan(&mut random) };
        let (hub, table) = used(&plan, &mut random);
        for _ in 0..10 {
            let offer = fit::offer_to(&mut random, &plan, &hub);
            let named = hub.fit(offer);
            match table.row(offer) {
                17 => assert_shown(named, &table.changes(offer), |change| table.fits(offer, change)),
                row => assert_eq!(named, Fit::Answer(row), "seed {seed}: {offer:?}"),
            }
            found.count(word(named));
        }
    }
    println!("{found:?}");
    found.assert_met(100, &["answer", "packets", "bits", "release", "nothing"]);
}

/// Whether a copy of the hub takes the offer with this change.
fn taken(hub: &Hub<Control>, t: u64, Offer { k, n, b }: Offer, change: Fit) -> bool {
    let mut copy = hub.clone();
    let (n, b) = match change {
        Fit::Packets(fewer) => (fewer, b),
        Fit::Bits(shorter) => (n, shorter),
        _ => (n, b),
    };
    if let Fit::Release(j) = change {
        assert_eq!(copy.call(Call::Reserve { t, k: j, n: 0, b: 0 }), Answer::Taken);
    }
    copy.call(Call::Reserve { t, k, n, b }) == Answer::Taken
}

/// By copies of the hub, at the clock and at other times: 11 or 12, or as at any other.
#[test]
fn copies_take_what_is_named_and_nothing_before_it() {
    let mut found = Found::default();
    for seed in 2_000..2_150 {
        let mut random = Random::new(seed);
        let plan = fit::plan(&mut random);
        let (hub, table) = used(&plan, &mut random);
        let ahead = random.one_of(&[0, 0, 1, 20_000, plan.frame, 1 << 60]);
        let t = if random.chance(15) { random.below(hub.clock() + 1) } else { hub.clock() + ahead };
        for _ in 0..5 {
            let offer = fit::offer_to(&mut random, &plan, &hub);
            let Offer { k, n, b } = offer;
            let named = hub.fit_at(t, offer);
            found.count(word(named));
            match hub.clone().call(Call::Reserve { t, k, n, b }) {
                Answer::Refused(17) => {
                    let changes = table.changes(offer);
                    assert_shown(named, &changes, |change| taken(&hub, t, offer, change));
                }
                Answer::Refused(row) => {
                    assert_eq!(named, Fit::Answer(row), "seed {seed}: {offer:?}");
                    found.count(format!("answer {row}"));
                }
                answer => assert_eq!((named, answer), (Fit::Answer(0), Answer::Taken)),
            }
        }
    }
    println!("{found:?}");
    found.assert_met(20, &["packets", "bits", "release", "nothing", "answer 11", "answer 12"]);
}
