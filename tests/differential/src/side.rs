//! The two implementations behind one face: the compiled library on guarded
//! memory, and the second implementation on memory of its own.

use crate::call::{Answer, Call, Kind};
use crate::lent::Lent;
use crate::library::{self, Given};
use crate::memory::{Counters, Guarded, Memory};
use second::{change_over, done, index, request, setup, Fault, State, NEW};

/// What out holds before a call.
const OUT: [u64; 3] = [0x1111_2222, 0x3333_4444, 0x5555_6666];

/// Something that answers the calls of a width.
pub trait Side {
    fn call(&mut self, call: &Call) -> Answer;

    /// A copy of its memory.
    fn state(&self) -> State;
}

/// A side of the old width, which can be taken over.
pub trait Saved: Side + Sized {
    /// The same memory in the new width, with these new counters as the change-over
    /// leaves them, or the number of the refusal.
    fn change_over(&mut self, counters: &[u32]) -> Result<Self, u32>;
}

/// The compiled library.
pub struct Library {
    pub memory: Memory,
}

impl Library {
    pub fn new(lent: &Lent) -> Self {
        Library {
            memory: Memory::new(&lent.limits, &lent.setting, &lent.seeds, &lent.state),
        }
    }
}

impl Side for Library {
    fn call(&mut self, call: &Call) -> Answer {
        self.memory.out.cells_mut().copy_from_slice(&OUT);
        let number = library::call(&mut self.memory, call);
        let mut out = OUT;
        out.copy_from_slice(self.memory.out.cells());
        Answer { number, out }
    }

    fn state(&self) -> State {
        let mut head = [0; 22];
        head.copy_from_slice(self.memory.head.cells());
        State {
            head,
            counters: self.memory.counters.numbers(),
            ticks: self.memory.ticks.cells().to_vec(),
            rows: self.memory.rows.cells().to_vec(),
            threads: self.memory.threads.cells().to_vec(),
        }
    }
}

impl Saved for Library {
    fn change_over(&mut self, counters: &[u32]) -> Result<Self, u32> {
        let mut counters = Guarded::new(counters);
        match library::change_over(&Given::of(&self.memory), counters.cells_mut()) {
            0 => Ok(Library {
                memory: Memory {
                    counters: Counters::New(counters),
                    ..self.memory.clone()
                },
            }),
            number => Err(number),
        }
    }
}

/// The second implementation, with a fault or without.
#[derive(Clone)]
pub struct Second {
    pub lent: Lent,
    pub fault: Fault,
}

impl Side for Second {
    fn call(&mut self, call: &Call) -> Answer {
        let (config, state) = self.lent.parts(self.fault);
        let (tick, bank, thread) = (call.tick, call.bank, call.thread);
        let mut out = OUT;
        let number = match call.kind {
            Kind::Setup => setup(&config, state),
            Kind::Request => request(&config, state, tick, bank, thread, call.row, &mut out),
            Kind::Done => done(&config, state, tick, bank, thread),
            Kind::Index => index(&config, state, tick, bank, thread, &mut out),
        };
        Answer { number, out }
    }

    fn state(&self) -> State {
        self.lent.state.clone()
    }
}

impl Saved for Second {
    fn change_over(&mut self, counters: &[u32]) -> Result<Self, u32> {
        let mut counters = counters.to_vec();
        let (config, state) = self.lent.parts(self.fault);
        let number = change_over(&config, state, &mut counters);
        if number != 0 {
            return Err(number);
        }
        let mut wide = self.clone();
        wide.lent.limits = NEW;
        wide.lent.state.counters = counters;
        Ok(wide)
    }
}
