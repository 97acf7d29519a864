//! Another reading of what would make an offer fit, from the tables' cells alone and by search: no number is divided but a cell into
//! its halves, and none wraps.

use crate::archive::cells::{cascade, plan};
use crate::archive::Archive;
use reference::fit::Fit;
use reference::offers::Offer;

/// The cells that decide.
pub struct Reading {
    frame: u128,
    overhead: u128,
    interrupt: u128,
    /// n and b of the latest reservations; node k at k - 1.
    latest: Vec<(u128, u128)>,
}

impl Reading {
    pub fn of(hub: &mut Archive) -> Reading {
        let (table, shares) = hub.tables();
        let [frame, overhead, interrupt] =
            [plan::FRAME, plan::OVERHEAD, plan::INTERRUPT].map(|at| table[at].into());
        let nodes = table[plan::NODE_COUNT].min(256) as usize;
        let share = |k| u128::from(shares[cascade::node(k, cascade::LATEST)]);
        let latest = (1..=nodes).map(|k| (share(k) / 65_536, share(k) % 65_536)).collect();
        Reading { frame, overhead, interrupt, latest }
    }

    pub fn nodes(&self) -> u64 {
        self.latest.len() as u64
    }

    /// What so many packets of this length take.
    pub fn load(&self, n: u128, b: u128) -> u128 {
        n * (b + self.overhead)
    }

    /// The number, n and load of each node but this one.
    pub fn others(&self, k: u64) -> impl Iterator<Item = (u64, u128, u128)> + '_ {
        let others = (1..).zip(&self.latest).filter(move |&(j, _)| j != k);
        others.map(|(j, &(n, b))| (j, n, self.load(n, b)))
    }

    /// What D and all others take.
    pub fn taken(&self, k: u64) -> u128 {
        self.interrupt + self.others(k).map(|(_, _, load)| load).sum::<u128>()
    }

    /// What they leave of the frame, or 0 where they are more.
    pub fn room(&self, k: u64) -> u128 {
        self.frame.saturating_sub(self.taken(k))
    }

    /// Whether they are more than the frame has.
    pub fn overfull(&self, k: u64) -> bool {
        self.taken(k) > self.frame
    }

    /// Whether the frame has room for an offer.
    pub fn fits(&self, offer: Offer) -> bool {
        self.fits_without(offer, 0)
    }

    /// Whether it has where so much is given up.
    pub fn fits_without(&self, Offer { k, n, b }: Offer, given_up: u128) -> bool {
        self.taken(k) + self.load(n.into(), b.into()) <= self.frame + given_up
    }

    /// What would make an offer fit that is refused by 17.
    pub fn change(&self, Offer { k, n, b }: Offer) -> Fit {
        let room = self.room(k);
        let has_room = |n: u64, b: u64| self.load(n.into(), b.into()) <= room;
        if let Some(m) = (1..n).rev().find(|&m| has_room(m, b)) {
            return Fit::Packets(m);
        }
        if let Some(c) = (512..b).rev().find(|&c| has_room(n, c)) {
            return Fit::Bits(c);
        }
        let asked = self.load(n.into(), b.into());
        let suffice = self.others(k).filter(|&(_, n, load)| n >= 1 && asked <= room + load);
        // Of equal ones the first, which is the lower number.
        suffice.min_by_key(|&(_, _, load)| load).map_or(Fit::Nothing, |(j, _, _)| Fit::Release(j))
    }
}
