//! The library and the second implementation side by side: every call is made
//! to both, and everything either can change is compared after it.

use crate::call::{Answer, Call};
use crate::late::Late;
use crate::lent::Lent;
use crate::library::{self, Given};
use crate::memory::{Cell, Counters, Guarded, Memory};
use crate::settings::MARK;
use crate::side::{Library, Second, Side};
use second::{change_over, Fault, Limits, Setting, NEW};
use std::fmt::{self, Debug};

/// The first thing in which the two differ.
#[derive(Debug)]
pub struct Difference {
    pub setting: Setting,
    /// The call with its arguments.
    pub call: String,
    /// Head before the call.
    pub head: Vec<u64>,
    /// What differs, with both values, the library's first.
    pub what: String,
}

impl fmt::Display for Difference {
    fn fmt(&self, f: &mut fmt::Formatter) -> fmt::Result {
        let Difference {
            what,
            call,
            setting,
            ..
        } = self;
        write!(f, "{what}: {call} on {setting:?}")
    }
}

/// Both implementations, on memory that was alike at the start.
pub struct Pair {
    library: Library,
    second: Second,
}

impl Pair {
    /// Both start with this memory; the fault is that of the second
    /// implementation.
    pub fn new(lent: Lent, fault: Fault) -> Self {
        Pair {
            library: Library::new(&lent),
            second: Second { lent, fault },
        }
    }

    pub fn setting(&self) -> &Setting {
        &self.second.lent.setting
    }

    pub fn limits(&self) -> &Limits {
        &self.second.lent.limits
    }

    /// A copy of what both work on.
    pub fn lent(&self) -> Lent {
        self.second.lent.clone()
    }

    /// The number that a call would get with mark 0, by the second
    /// implementation without a fault. Nothing is changed.
    pub fn with_mark_0(&self, call: &Call) -> u32 {
        let mut large = Second {
            lent: self.lent(),
            fault: Fault::None,
        };
        large.lent.setting[MARK] = 0;
        large.call(call).number
    }

    /// Gives both as many other seeds, in the same memory.
    pub fn take_seeds(&mut self, seeds: &[u16]) {
        self.library.memory.seeds.cells_mut().copy_from_slice(seeds);
        self.second.lent.seeds.copy_from_slice(seeds);
    }

    /// The library's memory.
    pub fn memory(&self) -> &Memory {
        &self.library.memory
    }

    /// Makes a call to both and compares.
    pub fn call(&mut self, call: &Call) -> Result<Answer, Box<Difference>> {
        let head = self.second.lent.state.head;
        let answer = self.library.call(call);
        let expected = self.second.call(call);
        let what = cells("number", &[answer.number], &[expected.number])
            .or_else(|| cells("out", &answer.out, &expected.out))
            .or_else(|| self.difference());
        self.compared(what, head, || format!("{call:?}"))?;
        Ok(answer)
    }

    /// Makes the change-over of both from the old width to these new counters and
    /// compares all memory. Returns the number, and the new counters as they are
    /// then.
    pub fn change_over(&mut self, counters: &[u32]) -> Result<(u32, Vec<u32>), Box<Difference>> {
        let head = self.second.lent.state.head;
        let mut new = Guarded::new(counters);
        let number = library::change_over(&Given::of(&self.library.memory), new.cells_mut());
        let mut wanted = counters.to_vec();
        let (config, state) = self.second.lent.parts(self.second.fault);
        let expected = change_over(&config, state, &mut wanted);
        let what = cells("number", &[number], &[expected])
            .or_else(|| cells("new counters", new.cells(), &wanted))
            .or_else(|| self.difference())
            .or_else(|| (!new.intact()).then(|| "guard cells changed".to_string()));
        let lengths = || format!("change-over to {} counters", counters.len());
        self.compared(what, head, lengths)?;
        Ok((number, wanted))
    }

    /// Makes a change-over that is to be refused into the counters of this pair,
    /// which is of the new width, and compares all memory: with the second
    /// implementation, and with what it was before.
    pub fn change_over_late(&mut self, late: &Late) -> Result<u32, Box<Difference>> {
        let before = self.lent();
        let old = late.given(&before.state);
        let other = Library::new(&old).memory;
        let number = late.of_library(&mut self.library.memory, &other);
        let mut after = old.clone();
        let expected = late.of_second(&mut after, &mut self.second);
        let what = cells("number", &[number], &[expected])
            .or_else(|| self.difference())
            .or_else(|| difference(&other, &after))
            .or_else(|| difference(&self.library.memory, &before))
            .or_else(|| difference(&other, &old));
        self.compared(what, before.state.head, || late.arguments())?;
        Ok(number)
    }

    /// Goes on in the new width with these counters and the other memory.
    pub fn widened(&self, counters: Vec<u32>) -> Pair {
        let mut lent = self.lent();
        lent.limits = NEW;
        lent.state.counters = counters;
        Pair::new(lent, self.second.fault)
    }

    /// What differs, as an error.
    fn compared(
        &self,
        what: Option<String>,
        head: [u64; 22],
        call: impl Fn() -> String,
    ) -> Result<(), Box<Difference>> {
        match what {
            None => Ok(()),
            Some(what) => Err(Box::new(Difference {
                setting: *self.setting(),
                call: call(),
                head: head.to_vec(),
                what,
            })),
        }
    }

    /// The first difference of the memory of the two.
    fn difference(&self) -> Option<String> {
        difference(&self.library.memory, &self.second.lent)
    }
}

/// The first difference of memory from what it is expected to be.
fn difference(memory: &Memory, lent: &Lent) -> Option<String> {
    let state = &lent.state;
    cells("head", memory.head.cells(), &state.head)
        .or_else(|| counters(&memory.counters, &state.counters))
        .or_else(|| cells("ticks", memory.ticks.cells(), &state.ticks))
        .or_else(|| cells("rows", memory.rows.cells(), &state.rows))
        .or_else(|| cells("threads", memory.threads.cells(), &state.threads))
        .or_else(|| cells("setting", memory.setting.cells(), &lent.setting))
        .or_else(|| cells("seeds", memory.seeds.cells(), &lent.seeds))
        .or_else(|| (!memory.intact()).then(|| "guard cells changed".to_string()))
}

/// The first filter counter that differs.
fn counters(left: &Counters, right: &[u32]) -> Option<String> {
    if left.are(right) {
        return None;
    }
    cells("counters", &left.numbers(), right)
}

/// The first cell in which two buffers of one length differ.
fn cells<T: Cell + Debug>(name: &str, left: &[T], right: &[T]) -> Option<String> {
    if left == right {
        return None;
    }
    let place = left
        .iter()
        .zip(right)
        .position(|(left, right)| left != right);
    Some(match place {
        Some(place) => format!(
            "{name}[{place}] is {:?}, expected {:?}",
            left[place], right[place]
        ),
        None => format!("{name} of different lengths"),
    })
}
