//! Memory lent to the library, with guard cells before and after every
//! buffer, the setting and the seeds included. The filter counters have cells of
//! 16 or of 32 bits, as the width has them.

use second::{Limits, Setting, State, NEW};

/// Guard cells on each side of a buffer.
const GUARDS: usize = 8;

/// A cell with the value its guards hold.
pub trait Cell: Copy + PartialEq {
    const GUARD: Self;
}

impl Cell for u8 {
    const GUARD: Self = 0xA5;
}

impl Cell for u16 {
    const GUARD: Self = 0xA5C3;
}

impl Cell for u32 {
    const GUARD: Self = 0xA5C3_96E1;
}

impl Cell for u64 {
    const GUARD: Self = 0xA5C3_96E1_7B2D_4F18;
}

/// Cells between guard cells.
#[derive(Clone)]
pub struct Guarded<T>(Vec<T>);

impl<T: Cell> Guarded<T> {
    pub fn new(contents: &[T]) -> Self {
        let mut cells = vec![T::GUARD; contents.len() + 2 * GUARDS];
        cells[GUARDS..GUARDS + contents.len()].copy_from_slice(contents);
        Guarded(cells)
    }

    pub fn cells(&self) -> &[T] {
        &self.0[GUARDS..self.0.len() - GUARDS]
    }

    pub fn cells_mut(&mut self) -> &mut [T] {
        let end = self.0.len() - GUARDS;
        &mut self.0[GUARDS..end]
    }

    /// Do all guard cells hold their value?
    pub fn intact(&self) -> bool {
        let end = self.0.len() - GUARDS;
        self.0[..GUARDS].iter().all(|&cell| cell == T::GUARD)
            && self.0[end..].iter().all(|&cell| cell == T::GUARD)
    }
}

/// The filter counters of a width.
#[derive(Clone)]
pub enum Counters {
    Old(Guarded<u16>),
    New(Guarded<u32>),
}

impl Counters {
    /// Counters of the width that has these limits; in the old one each is below
    /// 65,536.
    pub fn new(limits: &Limits, counters: &[u32]) -> Self {
        if *limits == NEW {
            return Counters::New(Guarded::new(counters));
        }
        let narrow = |&counter: &u32| u16::try_from(counter).expect("16 bits");
        let cells: Vec<u16> = counters.iter().map(narrow).collect();
        Counters::Old(Guarded::new(&cells))
    }

    pub fn len(&self) -> usize {
        match self {
            Counters::Old(cells) => cells.cells().len(),
            Counters::New(cells) => cells.cells().len(),
        }
    }

    /// The counter at a place, if there is one.
    pub fn get(&self, place: usize) -> Option<u32> {
        match self {
            Counters::Old(cells) => cells.cells().get(place).map(|&counter| u32::from(counter)),
            Counters::New(cells) => cells.cells().get(place).copied(),
        }
    }

    /// All counters as numbers.
    pub fn numbers(&self) -> Vec<u32> {
        match self {
            Counters::Old(cells) => cells.cells().iter().map(|&cell| u32::from(cell)).collect(),
            Counters::New(cells) => cells.cells().to_vec(),
        }
    }

    /// Are they these numbers?
    pub fn are(&self, numbers: &[u32]) -> bool {
        match self {
            Counters::Old(cells) => same(cells.cells(), numbers),
            Counters::New(cells) => cells.cells() == numbers,
        }
    }

    fn intact(&self) -> bool {
        match self {
            Counters::Old(cells) => cells.intact(),
            Counters::New(cells) => cells.intact(),
        }
    }
}

/// Are the cells these numbers? Many are looked at in one step, which is faster than
/// to stop at the first that is another.
fn same(cells: &[u16], numbers: &[u32]) -> bool {
    const STEP: usize = 256;
    let other = |(&cell, &number): (&u16, &u32)| u32::from(cell) ^ number;
    let alike = |(cells, numbers): (&[u16], &[u32])| {
        let pairs = cells.iter().zip(numbers);
        pairs.map(other).fold(0, |all, one| all | one) == 0
    };
    cells.len() == numbers.len() && cells.chunks(STEP).zip(numbers.chunks(STEP)).all(alike)
}

/// Everything one call of the library can reach.
#[derive(Clone)]
pub struct Memory {
    pub setting: Guarded<u64>,
    pub seeds: Guarded<u16>,
    pub head: Guarded<u64>,
    pub counters: Counters,
    pub ticks: Guarded<u64>,
    pub rows: Guarded<u32>,
    pub threads: Guarded<u32>,
    /// Three cells: answer, wait tick and openings left of a request, or the
    /// index.
    pub out: Guarded<u64>,
}

impl Memory {
    /// A copy of this setting and state, for the calls of a width.
    pub fn new(limits: &Limits, setting: &Setting, seeds: &[u16], state: &State) -> Self {
        Memory {
            setting: Guarded::new(setting),
            seeds: Guarded::new(seeds),
            head: Guarded::new(&state.head),
            counters: Counters::new(limits, &state.counters),
            ticks: Guarded::new(&state.ticks),
            rows: Guarded::new(&state.rows),
            threads: Guarded::new(&state.threads),
            out: Guarded::new(&[0; 3]),
        }
    }

    /// Do all guard cells hold their value?
    pub fn intact(&self) -> bool {
        self.setting.intact()
            && self.seeds.intact()
            && self.head.intact()
            && self.counters.intact()
            && self.ticks.intact()
            && self.rows.intact()
            && self.threads.intact()
            && self.out.intact()
    }
}
