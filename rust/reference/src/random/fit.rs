//! Random plans, tables and offers (slip 10 of document 02), from a seed's numbers:
//! every change is named, and often a packet or a bit decides.

use super::offers::Buyer;
use super::{plans, Random};
use crate::core::{Turns, MOST_PACKETS, SHORTEST_PACKET};
use crate::hub::{Call, Hub};
use crate::offers::Offer;
use crate::plan::Plan;

/// A random plan; mostly D leaves what a few reservations fill, and not less.
pub fn plan(random: &mut Random) -> Plan {
    loop {
        let plan = tightened(random);
        let least = SHORTEST_PACKET + plan.overhead;
        let few = plan.nodes < 3 || plan.frame - plan.interrupt < 3 * least;
        if !few || random.chance(5) {
            return plan;
        }
    }
}

/// A random plan, perhaps with a larger D.
fn tightened(random: &mut Random) -> Plan {
    let mut plan = plans::plan(random);
    let packet = plan.longest_packet() + plan.overhead;
    let room = match random.below(10) {
        0 => plan.frame,
        1..=3 => random.within(0..=4) * packet + random.below(packet),
        4 => packet - 2 + random.below(3),
        _ => random.within(1..=100) * packet + random.below(packet),
    };
    plan.interrupt = plan.interrupt.max(plan.frame.saturating_sub(room));
    plan
}

/// Reserves at this hub's clock, all of which it takes in this order. Mostly they
/// leave little of the frame, and some nodes get equal shares.
pub fn reserves<M: Turns>(random: &mut Random, plan: &Plan, hub: &Hub<M>) -> Vec<Call> {
    let latest = hub.latest();
    let filled: u64 = latest.iter().map(|(n, b)| n * (b + plan.overhead)).sum();
    let left = plan.frame - plan.interrupt - filled;
    Filler { random, plan, t: hub.clock(), latest, left, made: Vec::new() }.reserves()
}

/// An offer to this hub of a plan, often one that it refuses by 17.
pub fn offer_to<M: Turns>(random: &mut Random, plan: &Plan, hub: &Hub<M>) -> Offer {
    Planner { buyer: Buyer { random, plan, latest: hub.latest() } }.offer()
}

/// Who fills the frame.
struct Filler<'a> {
    random: &'a mut Random,
    plan: &'a Plan,
    t: u64,
    /// The latest accepted reservations, n and b; node k at k - 1.
    latest: Vec<(u64, u64)>,
    /// What they leave of the frame.
    left: u64,
    made: Vec<Call>,
}

impl Filler<'_> {
    fn reserves(mut self) -> Vec<Call> {
        if self.random.chance(70) {
            self.give_all_up();
        }
        let spare = self.spare();
        let mut nodes = self.free_nodes();
        let few = nodes.len().div_ceil(2).min(3);
        let last = nodes.split_off(nodes.len() - few);
        nodes.truncate(self.random.below(10) as usize);
        self.spread(&nodes, spare);
        if self.random.chance(85) {
            for k in last {
                self.top_up(k, spare);
            }
        }
        self.made
    }

    /// Reserves for these nodes, as far as they leave this much.
    fn spread(&mut self, nodes: &[u64], spare: u64) {
        let mut earlier = None;
        for &k in nodes {
            let room = self.left.saturating_sub(spare);
            let (n, b) = self.next(room, earlier);
            if self.load(n, b) <= room {
                self.reserve(k, n, b);
                earlier = Some((n, b));
            }
        }
    }

    fn load(&self, n: u64, b: u64) -> u64 {
        n * (b + self.plan.overhead)
    }

    fn reserve(&mut self, k: u64, n: u64, b: u64) {
        let (old_n, old_b) = self.latest[k as usize - 1];
        self.left = self.left + self.load(old_n, old_b) - self.load(n, b);
        self.latest[k as usize - 1] = (n, b);
        self.made.push(Call::Reserve { t: self.t, k, n, b });
    }

    fn give_all_up(&mut self) {
        for k in 1..=self.latest.len() as u64 {
            if self.latest[k as usize - 1].0 > 0 {
                self.reserve(k, 0, 0);
            }
        }
    }

    /// The nodes with nothing reserved, in any order.
    fn free_nodes(&mut self) -> Vec<u64> {
        let free = (1..).zip(&self.latest).filter(|(_, latest)| latest.0 == 0);
        let mut nodes: Vec<u64> = free.map(|(k, _)| k).collect();
        for from in (1..nodes.len()).rev() {
            nodes.swap(from, self.random.place(from + 1));
        }
        nodes
    }

    /// What to leave: about the shortest or the longest packet, or several.
    fn spare(&mut self) -> u64 {
        let least = SHORTEST_PACKET + self.plan.overhead;
        let most = self.plan.longest_packet() + self.plan.overhead;
        match self.random.below(20) {
            0..=2 => 0,
            3..=5 => self.random.below(least),
            6..=7 => least - 1 + self.random.below(3),
            8..=10 => most - 1,
            11 => most - self.random.below(3),
            12..=14 => self.random.within(least..=most),
            15..=17 => self.random.within(1..=20) * least - 1 + self.random.below(3),
            _ => self.random.below(self.left + 1),
        }
    }

    /// n and b of the next: some like those before it, or with as much in all.
    fn next(&mut self, room: u64, earlier: Option<(u64, u64)>) -> (u64, u64) {
        match (self.random.below(100), earlier) {
            (0..=19, Some(same)) => same,
            (20..=44, Some((n, b))) => self.as_much(self.load(n, b)).unwrap_or((n, b)),
            (45..=59, Some((n, b))) => {
                let more = self.random.below(3);
                (n, self.length(b + more - 1))
            }
            _ => self.any_within(room),
        }
    }

    /// Some n and b with this n × c.
    fn as_much(&mut self, load: u64) -> Option<(u64, u64)> {
        let all = of_load(self.plan, load);
        let exact: Vec<_> = all.into_iter().filter(|&(n, b)| self.load(n, b) == load).collect();
        (!exact.is_empty()).then(|| self.random.one_of(&exact))
    }

    fn any_within(&mut self, room: u64) -> (u64, u64) {
        let share = room / self.random.within(2..=8);
        let most = (share / (SHORTEST_PACKET + self.plan.overhead)).clamp(1, MOST_PACKETS);
        let n = self.random.within_or_end(1..=most);
        let most = self.length((share / n).saturating_sub(self.plan.overhead));
        (n, self.random.within_or_end(SHORTEST_PACKET..=most))
    }

    fn length(&self, b: u64) -> u64 {
        b.clamp(SHORTEST_PACKET, self.plan.longest_packet())
    }

    /// It takes all but this: to the bit if some n divides it so, else what leaves a
    /// packet to the next.
    fn top_up(&mut self, k: u64, spare: u64) {
        let room = self.left.saturating_sub(spare);
        let (least, most) = (SHORTEST_PACKET, self.plan.longest_packet());
        let packet = self.random.within(least..=most) + self.plan.overhead;
        let but_one = of_load(self.plan, room.saturating_sub(packet));
        if let Some((n, b)) = self.as_much(room) {
            self.reserve(k, n, b);
        } else if !but_one.is_empty() {
            let (n, b) = self.random.one_of(&but_one);
            self.reserve(k, n, b);
        } else if self.load(MOST_PACKETS, most) <= room {
            self.reserve(k, MOST_PACKETS, most);
        }
    }
}

/// Each n with the longest b whose n × c is at most this, if a reserve may have it.
fn of_load(plan: &Plan, load: u64) -> Vec<(u64, u64)> {
    let lengths = SHORTEST_PACKET..=plan.longest_packet();
    let all = (1..=MOST_PACKETS).map(|n| (n, (load / n).saturating_sub(plan.overhead)));
    all.filter(|(_, b)| lengths.contains(b)).collect()
}

/// Who makes the offers.
struct Planner<'a> {
    buyer: Buyer<'a>,
}

impl Planner<'_> {
    fn offer(mut self) -> Offer {
        let k = self.node();
        match self.random().below(100) {
            0..=6 => self.buyer.offer(&[]),
            7..=16 => self.buyer.any_numbers(),
            17..=29 => self.too_many(k),
            30..=49 => self.too_long(k),
            50..=79 => self.about_a_release(k),
            80..=89 => self.above_all_releases(k),
            90..=94 => Offer { k, n: 1, b: self.length() },
            _ => Offer { k, n: self.random().within_or_end(1..=MOST_PACKETS), b: SHORTEST_PACKET },
        }
    }

    fn random(&mut self) -> &mut Random {
        self.buyer.random
    }

    fn overhead(&self) -> u64 {
        self.buyer.plan.overhead
    }

    /// A node: mostly one with nothing reserved, or with the least of all.
    fn node(&mut self) -> u64 {
        let latest = (1..).zip(&self.buyer.latest);
        let free: Vec<u64> = latest.filter(|(_, latest)| latest.0 == 0).map(|(k, _)| k).collect();
        let least = self.loads(0).into_iter().min_by_key(|&(_, load)| load);
        match (self.random().below(10), least) {
            (0..=5, _) if !free.is_empty() => self.random().one_of(&free),
            (6..=7, Some((k, _))) => k,
            _ => {
                let nodes = self.buyer.plan.nodes as u64;
                self.random().within(1..=nodes)
            }
        }
    }

    fn length(&mut self) -> u64 {
        let longest = self.buyer.plan.longest_packet();
        self.random().within_or_end(SHORTEST_PACKET..=longest)
    }

    /// The others with something reserved, each with its n × c.
    fn loads(&self, k: u64) -> Vec<(u64, u64)> {
        let reserved = (1..).zip(&self.buyer.latest).filter(|&(j, latest)| j != k && latest.0 > 0);
        reserved.map(|(j, (n, b))| (j, n * (b + self.overhead()))).collect()
    }

    /// Some packets more than what just fits, or doesn't by a bit.
    fn too_many(&mut self, k: u64) -> Offer {
        let Offer { n, b, .. } = self.buyer.about_the_room(k);
        let more = match self.random().below(4) {
            0 => 0,
            1 => 1,
            2 => 2,
            _ => self.random().within_or_end(1..=MOST_PACKETS),
        };
        Offer { k, n: (n + more).min(MOST_PACKETS), b }
    }

    /// So long that not even one fits, or just one does; n as many as fit by a lower
    /// b, or one more.
    fn too_long(&mut self, k: u64) -> Offer {
        let (left, overhead) = (self.buyer.left(k), self.overhead());
        let longest = self.buyer.plan.longest_packet();
        let most = (left / (SHORTEST_PACKET + overhead)).clamp(1, MOST_PACKETS);
        let even: Vec<u64> = (1..=most).filter(|&n| left.is_multiple_of(n)).collect();
        let n = match self.random().below(10) {
            0..=1 => 1,
            2..=3 => most,
            4 => (most + 1).min(MOST_PACKETS),
            5..=7 => self.random().one_of(&even),
            _ => self.random().within(1..=most),
        };
        let one_too_long = (left + 1).saturating_sub(overhead).clamp(SHORTEST_PACKET, longest);
        let b = match self.random().below(10) {
            0..=3 => one_too_long,
            4 => (one_too_long - 1).max(SHORTEST_PACKET),
            5..=6 => longest,
            _ => self.random().within(one_too_long..=longest),
        };
        Offer { k, n, b }
    }

    /// What some other's release just makes room for, or is a bit less or more.
    fn about_a_release(&mut self, k: u64) -> Offer {
        let loads = self.loads(k);
        if loads.is_empty() {
            return self.too_long(k);
        }
        let (_, load) = self.random().one_of(&loads);
        self.of_about(k, load)
    }

    /// What the largest release of another just makes no room for, or nothing does.
    fn above_all_releases(&mut self, k: u64) -> Offer {
        let largest = self.loads(k).into_iter().map(|(_, load)| load).max().unwrap_or(0);
        let more = match self.random().below(3) {
            0 => 1,
            _ => self.random().within(1..=100_000),
        };
        self.of_about(k, largest + more)
    }

    /// An n × c about what is left and this much more; mostly no lower n or b fits.
    fn of_about(&mut self, k: u64, more: u64) -> Offer {
        let (left, overhead) = (self.buyer.left(k), self.overhead());
        let aim = left + more + self.random().below(3) - 1;
        let mut all = of_load(self.buyer.plan, aim);
        if self.random().chance(95) {
            let fewer_fit = |n, b| n > 1 && b + overhead <= left;
            let shorter_fit = |n| n * (SHORTEST_PACKET + overhead) <= left;
            all = preferred(all, |n, b| !fewer_fit(n, b) && !shorter_fit(n));
        }
        if self.random().chance(80) {
            all = preferred(all, |n, b| n * (b + overhead) == aim);
        }
        if all.is_empty() {
            return Offer { k, n: self.random().within_or_end(1..=MOST_PACKETS), b: self.length() };
        }
        let place = self.random().within_or_end(0..=all.len() as u64 - 1);
        let (n, b) = all[place as usize];
        Offer { k, n, b }
    }
}

/// Those of which it is true, or all if there is none.
fn preferred(all: Vec<(u64, u64)>, which: impl Fn(u64, u64) -> bool) -> Vec<(u64, u64)> {
    let some: Vec<_> = all.iter().copied().filter(|&(n, b)| which(n, b)).collect();
    if some.is_empty() {
        all
    } else {
        some
    }
}
