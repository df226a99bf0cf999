//! The campaign of a width: numbered runs, each with a setting, seeds, memory and
//! calls of its own, all settled by the campaign's seed and the run's number.

use crate::call::{Call, Kind};
use crate::contents::{fill_any, fill_near, in_flight_cells};
use crate::lent::Lent;
use crate::numbers::Numbers;
use crate::pair::{Difference, Pair};
use crate::profiles::near;
use crate::settings::{at_bounds, large, medium, mixed, odd_seeds, seeds, small, THREADS, W};
use crate::tally::{Counters, Standing, Tally};
use crate::walk::Walk;
use crate::wide::{around, great, long};
use second::filter::hash;
use second::{Fault, Limits, Setting, NEW};

pub struct Campaign {
    seed: u64,
    limits: Limits,
    bounds: Vec<Setting>,
}

impl Campaign {
    /// The settings at the bounds of the old width have runs of their own; those of
    /// the new one are compared by `edges`.
    pub fn new(seed: u64, limits: Limits) -> Self {
        let bounds = match limits {
            NEW => Vec::new(),
            _ => at_bounds(&limits),
        };
        Campaign {
            seed,
            limits,
            bounds,
        }
    }

    /// Settings at the bounds, each of which has a run of its own.
    pub fn bounds(&self) -> usize {
        self.bounds.len()
    }

    /// Makes a run, the second implementation with a fault or without, and
    /// stops at the first difference.
    pub fn run(&self, run: u64, fault: Fault, tally: &mut Tally) -> Result<(), Box<Difference>> {
        let mut numbers = Numbers::new(self.seed ^ run.wrapping_mul(0xD134_2543_DE82_EF95));
        let (setting, seeds) = self.setting(run, &mut numbers);
        let words = Numbers::new(numbers.word());
        let mut lent = Lent::cleared(&mut numbers, self.limits, setting, seeds);
        let calls = match run % 16 {
            _ if lent.places() > 4_096 => 8,
            0..=8 => 60,
            10 | 11 => 6,
            _ => 25,
        };
        let setups = if run % 8 == 7 { 8 } else { 100 };
        let mut walk = Walk::new(words, calls, setups);
        let fresh = fill(run, &mut numbers, &walk.rows, &mut lent);
        let mut pair = Pair::new(lent, fault);
        tally.scenarios += 1;
        if fresh {
            step(&mut pair, &Call::SETUP, &mut walk, tally)?;
        }
        while walk.calls > 0 {
            walk.calls -= 1;
            let call = walk.next_call(&pair);
            step(&mut pair, &call, &mut walk, tally)?;
        }
        Ok(())
    }

    /// The setting and seeds of a run.
    fn setting(&self, run: u64, numbers: &mut Numbers) -> (Setting, Vec<u16>) {
        let setting = match self.limits {
            NEW => self.of_new(run, numbers),
            _ => self.of_old(run, numbers),
        };
        let seeds = if run % 16 == 12 {
            odd_seeds(numbers)
        } else {
            seeds(numbers)
        };
        (setting, seeds)
    }

    /// The setting of a run in the old width: mostly small; every eighth run stands
    /// at a bound, first each of the list, then any; every sixteenth is near the
    /// limits of the small profile.
    fn of_old(&self, run: u64, numbers: &mut Numbers) -> Setting {
        match run % 16 {
            0..=6 | 8 | 10..=12 => small(numbers),
            9 => near(numbers),
            13 => medium(numbers),
            14 => large(numbers),
            _ => match self.bounds.get((run / 8) as usize) {
                Some(&setting) => setting,
                None => mixed(numbers, &self.limits),
            },
        }
    }

    /// The setting of a run in the new width: some that the old one accepts too,
    /// some that only the new one does, and some around the bounds.
    fn of_new(&self, run: u64, numbers: &mut Numbers) -> Setting {
        match run % 16 {
            0..=3 | 8 | 12 => small(numbers),
            4..=6 | 10 => great(numbers),
            9 => near(numbers),
            11 => around(numbers),
            13 => medium(numbers),
            14 if numbers.one_in(8) => long(numbers),
            14 => large(numbers),
            _ => mixed(numbers, &self.limits),
        }
    }
}

/// Fills the memory of a run; is it to be set up first?
fn fill(run: u64, numbers: &mut Numbers, rows: &[u16], lent: &mut Lent) -> bool {
    match run % 16 {
        0..=4 => {
            fill_any(numbers, lent);
            true
        }
        10 | 11 => {
            fill_any(numbers, lent);
            false
        }
        _ => {
            fill_near(numbers, rows, lent);
            numbers.one_in(4)
        }
    }
}

/// Makes one call to both, compares and counts it.
fn step(
    pair: &mut Pair,
    call: &Call,
    walk: &mut Walk,
    tally: &mut Tally,
) -> Result<(), Box<Difference>> {
    let head = |pair: &Pair| [pair.memory().head.cells()[0], pair.memory().head.cells()[1]];
    let (before, thread) = (head(pair), standing(pair, call));
    let answer = pair.call(call)?;
    walk.note(call, &answer);
    tally.note(pair.setting(), call, &answer, before, head(pair), &thread);
    let with_mark_0 = || pair.with_mark_0(call);
    let (limits, setting) = (pair.limits(), pair.setting());
    tally
        .marks
        .note(limits, setting, answer.number, with_mark_0);
    if call.kind == Kind::Request && answer.number == 0 {
        let counters = counters(pair, call);
        tally.note_left(pair.setting(), &answer, before[0], &counters);
        tally
            .widths
            .note_request(pair, call, &answer, before[1], &counters);
    }
    tally.widths.note(pair, answer.number);
    Ok(())
}

/// The counters of the row of a request that was answered.
fn counters(pair: &Pair, call: &Call) -> Counters {
    let memory = pair.memory();
    let places = hash(memory.seeds.cells(), call.row);
    let first = call.bank as usize * 2_048;
    let counter = |place| u64::from(memory.counters.get(place).unwrap_or(0));
    let of_filter = |start: usize| places.map(|place| counter(start + place));
    let epoch = call.tick / (pair.setting()[W] / 2);
    Counters {
        filters: [first, first + 1_024].map(of_filter),
        tested: (epoch % 2) as usize,
        one_place: places == [places[0]; 4],
    }
}

/// What a call's thread has, zeros where there is no such thread or bank.
fn standing(pair: &Pair, call: &Call) -> Standing {
    let setting = pair.setting();
    let threads = pair.memory().threads.cells();
    let cell = |at: usize| threads.get(at).map_or(0, |&cell| u64::from(cell));
    let before = call
        .bank
        .saturating_mul(setting[THREADS])
        .saturating_add(call.thread)
        .saturating_mul(3);
    let flying = in_flight_cells(setting, call.thread, threads.len());
    Standing {
        cells: [0, 1, 2].map(|k| cell(before.saturating_add(k) as usize)),
        total: flying.into_iter().map(cell).sum(),
    }
}
