//! The hubs that are measured, with the same state.

use crate::archive;
use lembuya::ffi::{self, CASCADE_CELLS, PLAN_CELLS};
use reference::fast::Fast;
use reference::hub::{Answer, Call};
use reference::peer::Peer;
use reference::plan::{self, Plan};
use std::hint::black_box;

/// Who is measured, as places in a measurement.
pub const ARCHIVE: usize = 0;
pub const PEER: usize = 1;
pub const BIT_SETS: usize = 2;

/// The archive's tables as a caller has them, and where its answers are written.
pub struct Tables {
    pub plan: Box<ffi::Plan>,
    pub cascade: Box<ffi::Cascade>,
    seven: [u64; 7],
}

impl Tables {
    pub fn new(plan: &Plan) -> Tables {
        let (plan_table, cascade) = (Box::new([0; PLAN_CELLS]), Box::new([0; CASCADE_CELLS]));
        let mut tables = Tables { plan: plan_table, cascade, seven: [0; 7] };
        assert_eq!(archive::read(plan::draw(plan).as_bytes(), &mut tables.plan).0, 0);
        unsafe { ffi::lembuya_fresh(&mut *tables.cascade) };
        tables
    }

    /// One call as a line card makes it: what it answers stays where it was written.
    #[inline(always)]
    pub fn timed_call(&mut self, call: Call) {
        black_box(archive::number_of(&self.plan, &mut self.cascade, call, &mut self.seven));
        black_box(&self.seven);
    }

    fn call(&mut self, call: Call) -> Answer {
        let mut seven = [0; 7];
        seven[0] = u64::from(archive::number_of(&self.plan, &mut self.cascade, call, &mut seven));
        archive::answer(call, seven).expect("an answer")
    }
}

impl Clone for Tables {
    fn clone(&self) -> Tables {
        Tables { plan: self.plan.clone(), cascade: self.cascade.clone(), seven: self.seven }
    }

    /// The plan's table is the same in all clones, and no call writes to it.
    fn clone_from(&mut self, other: &Tables) {
        self.cascade.copy_from_slice(&other.cascade[..]);
    }
}

/// The three hubs behind the same calls.
#[derive(Clone)]
pub struct Hubs {
    pub tables: Tables,
    pub peer: Box<Peer>,
    pub fast: Box<Fast>,
}

impl Hubs {
    pub fn new(plan: &Plan, before: &[Call]) -> Hubs {
        let tables = Tables::new(plan);
        let mut hubs = Hubs { tables, peer: Box::new(Peer::new(plan)), fast: Box::new(Fast::new(plan)) };
        for &call in before {
            hubs.call(call);
        }
        hubs
    }

    /// All three answer alike.
    pub fn call(&mut self, call: Call) -> Answer {
        let answer = self.tables.call(call);
        assert_eq!(self.peer.call(call), answer, "{call:?}");
        assert_eq!(self.fast.call(call), answer.without_moves(), "{call:?}");
        answer
    }
}
