//! A side that is taken over to the new width at a tick, for adversaries that go on
//! hammering across the change-over.

use crate::call::{Answer, Call, Kind};
use crate::side::{Saved, Side};
use second::State;

pub struct Crossed<S> {
    old: S,
    /// The new width, once there was a change-over.
    new: Option<S>,
    /// The first call from this tick on comes after the change-over.
    pub at: u64,
    /// Cells of the new counters.
    cells: usize,
}

impl<S: Saved> Crossed<S> {
    /// Starts with a side of the old width that has this many banks.
    pub fn new(old: S, banks: u64) -> Self {
        Crossed {
            old,
            new: None,
            at: 0,
            cells: banks as usize * 2_048,
        }
    }
}

impl<S: Saved> Side for Crossed<S> {
    /// A set-up is one of the old width and begins anew.
    fn call(&mut self, call: &Call) -> Answer {
        if call.kind == Kind::Setup {
            self.new = None;
            return self.old.call(call);
        }
        if self.new.is_none() && call.tick >= self.at {
            let new = self.old.change_over(&vec![0; self.cells]);
            let number = new.as_ref().err();
            assert_eq!(number, None, "the change-over before {call:?}");
            self.new = new.ok();
        }
        self.new.as_mut().unwrap_or(&mut self.old).call(call)
    }

    fn state(&self) -> State {
        self.new.as_ref().unwrap_or(&self.old).state()
    }
}
