//! Hash by bytes: the library against the second implementation under the house
//! seeds, for which a table gives the hashes; under the house seeds with one bit
//! of one word changed, for each bit; under other seeds; and under seeds that
//! change from call to call. All memory is compared after every call, so that a
//! row hashed wrongly shows by its counters. It is the same in both widths.

use crate::call::{Call, Kind};
use crate::lent::Lent;
use crate::near_house::{changed, others};
use crate::numbers::Numbers;
use crate::pair::{Difference, Pair};
use crate::settings::{seeds, BANKS, THREADS, W};
use second::setting::house_seeds;
use second::{Fault, Limits, Setting};

/// N at its greatest, so that counters grow and openings left tell the estimate;
/// and N 2, so that rows are held by what others added to their counters.
const SETTINGS: [Setting; 2] = [
    [1 << 22, 1, 1, 32_768, 4, 1 << 24, 255, 2, 2, 0],
    [4_000, 1, 1, 2, 16, 400, 12, 1, 2, 1],
];
/// Bits of a seed up to 1,023; those from here on make it exceed that.
pub const BITS: u32 = 10;
/// Requests in flight that are left before a done.
const FLYING: usize = 4;

/// The width, and the fault of the second implementation or none.
#[derive(Clone, Copy)]
pub struct Sides {
    pub limits: Limits,
    pub fault: Fault,
}

/// Requests that were opened under the house seeds, under them with one bit
/// changed, under others and under seeds that change; requests that were held;
/// and calls refused for a seed above 1,023.
#[derive(Debug, Default)]
pub struct Told {
    pub house: u64,
    pub changed: u64,
    pub other: u64,
    pub in_turn: u64,
    pub held: u64,
    pub refused: u64,
}

/// Makes lists of calls on both sides, the second implementation with a fault or
/// without, and stops at the first difference.
pub fn compare(seed: u64, sides: Sides) -> Result<Told, String> {
    let numbers = &mut Numbers::new(seed);
    let mut told = Told::default();
    for word in 0..64 {
        for bit in 0..BITS {
            told.changed += one_changed(numbers, word, bit, sides, &mut told.held)?;
        }
        for bit in BITS..16 {
            told.refused += refused(numbers, word, bit, sides)?;
        }
    }
    for (name, seeds) in others(numbers) {
        let rows = [rows_of_bits(), some_rows(numbers, 60)].concat();
        let lists = Lists::new(&name, &seeds, sides);
        told.other += lists.run(numbers, &rows, &mut told.held)?;
    }
    let house = house_seeds();
    let lists = Lists::new("the house seeds", &house, sides);
    let (bytes, all) = (rows_of_bytes(numbers), every_row(numbers));
    told.house += lists.run(numbers, &bytes, &mut told.held)?;
    told.house += lists.run_on(numbers, &SETTINGS[0], &all, &mut told.held)?;
    told.in_turn += in_turn(numbers, &bytes, sides)?;
    Ok(told)
}

/// Lists of calls under the house seeds with one bit of one word changed, below
/// bit 10; how many requests were opened.
pub fn one_changed(
    numbers: &mut Numbers,
    word: usize,
    bit: u32,
    sides: Sides,
    held: &mut u64,
) -> Result<u64, String> {
    let (name, seeds) = changed(word, bit);
    let own = 1 << (word % 16);
    let mut rows = vec![own, 0, !own, 0x00FF, 0xFF00];
    rows.extend(some_rows(numbers, 8).iter().map(|row| row | own));
    rows.extend(some_rows(numbers, 4));
    Lists::new(&name, &seeds, sides).run(numbers, &rows, held)
}

/// Each of the four calls under seeds of which one exceeds 1,023: refused with 1.
/// How many calls were made.
fn refused(numbers: &mut Numbers, word: usize, bit: u32, sides: Sides) -> Result<u64, String> {
    let (name, seeds) = changed(word, bit);
    let lists = Lists::new(&name, &seeds, sides);
    let mut pair = lists.pair(numbers, &SETTINGS[0]);
    for kind in Kind::ALL {
        let row = 1 << (word % 16);
        let call = Call {
            kind,
            row,
            ..Call::SETUP
        };
        match lists.named(pair.call(&call))?.number {
            1 => {}
            number => return Err(format!("{number} and not 1: {call:?} under {name}")),
        }
    }
    Ok(Kind::ALL.len() as u64)
}

/// A list in whose calls the house seeds stand, the same with a bit changed, and
/// random ones, in the same memory; how many requests were opened.
fn in_turn(numbers: &mut Numbers, rows: &[u16], sides: Sides) -> Result<u64, String> {
    let house = house_seeds();
    let lists = Lists::new("seeds that change from call to call", &house, sides);
    let mut list = lists.begun(numbers, &SETTINGS[0])?;
    let mut opened = 0;
    for &row in rows {
        let seeds = match numbers.within(0, 3) {
            0 => seeds(numbers),
            1 => changed(numbers.within(0, 63) as usize, numbers.within(0, 9) as u32).1,
            _ => house_seeds(),
        };
        list.pair.take_seeds(&seeds);
        opened += u64::from(lists.named(list.step(numbers, row))? == 0);
    }
    Ok(opened)
}

/// Every row of one bit.
fn rows_of_bits() -> Vec<u16> {
    (0..16).map(|bit| 1 << bit).collect()
}

/// Random rows, some of one byte only.
fn some_rows(numbers: &mut Numbers, many: usize) -> Vec<u16> {
    let mut row = || numbers.word() as u16 & numbers.pick(&[0xFFFF, 0xFFFF, 0xFF00, 0x00FF]);
    (0..many).map(|_| row()).collect()
}

/// Every row of one bit and of one byte, so that each word of the table is taken,
/// and random ones.
fn rows_of_bytes(numbers: &mut Numbers) -> Vec<u16> {
    let bytes = (0..256).flat_map(|byte| [byte, byte << 8]).collect();
    [rows_of_bits(), bytes, some_rows(numbers, 500)].concat()
}

/// All rows, each once, in a random order.
fn every_row(numbers: &mut Numbers) -> Vec<u16> {
    let mut rows: Vec<u16> = (0..=u16::MAX).collect();
    for end in (1..rows.len()).rev() {
        let other = numbers.within(0, end as u64) as usize;
        rows.swap(end, other);
    }
    rows
}

/// Lists of calls under some seeds.
struct Lists<'a> {
    name: &'a str,
    seeds: &'a [u16],
    sides: Sides,
}

impl<'a> Lists<'a> {
    fn new(name: &'a str, seeds: &'a [u16], sides: Sides) -> Self {
        Lists { name, seeds, sides }
    }

    /// Both sides on memory that set-up clears, or, with seeds that are refused,
    /// leaves as it is.
    fn pair(&self, numbers: &mut Numbers, setting: &Setting) -> Pair {
        let mut lent = Lent::exact(self.sides.limits, *setting, self.seeds.to_vec());
        let greatest = lent.greatest();
        let counters = &mut lent.state.counters;
        counters.fill_with(|| numbers.word() as u32 & greatest);
        Pair::new(lent, self.sides.fault)
    }

    /// A list that has made its set-up.
    fn begun(&self, numbers: &mut Numbers, setting: &Setting) -> Result<List, String> {
        let mut list = List {
            pair: self.pair(numbers, setting),
            tick: start(numbers, setting),
            flying: Vec::new(),
        };
        self.named(list.pair.call(&Call::SETUP))?;
        Ok(list)
    }

    /// What a call gave, with the seeds named where it differs.
    fn named<T>(&self, called: Result<T, Box<Difference>>) -> Result<T, String> {
        called.map_err(|found| {
            let Difference { what, call, .. } = *found;
            format!("{what}: {call} under {}", self.name)
        })
    }

    /// Asks for rows under both settings; how many requests were opened.
    fn run(&self, numbers: &mut Numbers, rows: &[u16], held: &mut u64) -> Result<u64, String> {
        let [wide, narrow] = &SETTINGS;
        let opened = self.run_on(numbers, wide, rows, held)?;
        // Each row is asked for again, which shows what its counters give.
        let again: Vec<u16> = rows.iter().flat_map(|&row| [row; 3]).collect();
        Ok(opened + self.run_on(numbers, narrow, &again, held)?)
    }

    /// Asks for rows one after the other; how many requests were opened.
    fn run_on(
        &self,
        numbers: &mut Numbers,
        setting: &Setting,
        rows: &[u16],
        held: &mut u64,
    ) -> Result<u64, String> {
        let mut list = self.begun(numbers, setting)?;
        let mut opened = 0;
        for &row in rows {
            match self.named(list.step(numbers, row))? {
                0 => opened += 1,
                _ => *held += 1,
            }
        }
        Ok(opened)
    }
}

/// The tick at which a list begins, in any of four epochs.
fn start(numbers: &mut Numbers, setting: &Setting) -> u64 {
    setting[W] / 2 * numbers.within(0, 3) + numbers.within(0, 20)
}

/// A list of calls that goes on.
struct List {
    pair: Pair,
    tick: u64,
    /// Bank and thread of requests that were opened and are not done.
    flying: Vec<(u64, u64)>,
}

impl List {
    /// Requests a row; its answer. Dones follow, and at times an index reading or
    /// a set-up.
    fn step(&mut self, numbers: &mut Numbers, row: u16) -> Result<u64, Box<Difference>> {
        let setting = *self.pair.setting();
        self.tick += numbers.pick(&[1, 1, 1, 2]);
        let bank = numbers.within(0, setting[BANKS] - 1);
        let thread = numbers.within(0, setting[THREADS] - 1);
        let answer = self.call(Kind::Request, (bank, thread), row)?;
        if answer == 0 {
            self.flying.push((bank, thread));
        }
        while self.flying.len() > FLYING {
            let at = numbers.within(0, FLYING as u64) as usize;
            let who = self.flying.swap_remove(at);
            self.call(Kind::Done, who, row)?;
        }
        if numbers.one_in(8) {
            self.call(Kind::Index, (bank, thread), row)?;
        }
        if numbers.one_in(300) {
            self.flying.clear();
            self.call(Kind::Setup, (bank, thread), row)?;
        }
        Ok(answer)
    }

    /// Makes a call to both sides; the first word of out.
    fn call(
        &mut self,
        kind: Kind,
        (bank, thread): (u64, u64),
        row: u16,
    ) -> Result<u64, Box<Difference>> {
        let call = Call {
            kind,
            tick: self.tick,
            bank,
            thread,
            row,
        };
        let answer = self.pair.call(&call)?;
        assert_eq!(answer.number, 0, "{call:?} on {:?}", self.pair.setting());
        Ok(answer.out[0])
    }
}
