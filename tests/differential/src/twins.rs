//! One setting under both profiles: where the small one takes it, every call gives
//! the same number, the same out and the same memory with mark 1 and with mark 0.

use crate::call::{Call, Kind};
use crate::contents::{fill_any, fill_near};
use crate::lent::Lent;
use crate::numbers::Numbers;
use crate::profiles::near;
use crate::settings::{accepted, seeds, small, BANKS, MARK, TD, THREADS, W};
use crate::side::Side;
use second::state::LAST;
use second::{Limits, Setting};

/// Settings that are tried; not all of them are taken by the small profile.
const RUNS: u64 = 3_000;
/// Calls on each.
const CALLS: u64 = 20;
/// Rows that are asked for.
pub const ROWS: [u16; 4] = [0, 5, 6, 65_535];

/// Settings taken by the small profile, and calls that were answered.
#[derive(Debug, Default)]
pub struct Told {
    pub settings: u64,
    pub answered: u64,
}

/// Tries settings of a width on sides that are made from what they work on, and
/// stops at the first difference.
pub fn compare<S: Side>(
    seed: u64,
    limits: Limits,
    make: impl Fn(&Lent) -> S,
) -> Result<Told, String> {
    let numbers = &mut Numbers::new(seed);
    let mut told = Told::default();
    for run in 0..RUNS {
        let mut setting = if run % 3 == 0 {
            near(numbers)
        } else {
            small(numbers)
        };
        setting[MARK] = 1;
        if !accepted(&limits, &setting) {
            continue;
        }
        told.settings += 1;
        let seeds = seeds(numbers);
        let mut lent = Lent::cleared(numbers, limits, setting, seeds);
        fill(numbers, &mut lent);
        let mut one = make(&lent);
        lent.setting[MARK] = 0;
        let mut two = make(&lent);
        told.answered += same(numbers, &setting, &mut one, &mut two)?;
    }
    Ok(told)
}

/// Fills memory with any contents, or with odd ones that are mostly sound.
fn fill(numbers: &mut Numbers, lent: &mut Lent) {
    if numbers.one_in(8) {
        fill_any(numbers, lent);
    } else {
        fill_near(numbers, &ROWS, lent);
    }
}

/// Makes the same calls to both sides; how many were answered.
fn same<S: Side>(
    numbers: &mut Numbers,
    setting: &Setting,
    one: &mut S,
    two: &mut S,
) -> Result<u64, String> {
    let mut answered = 0;
    for _ in 0..CALLS {
        let call = any_call(numbers, setting, one.state().head[LAST]);
        let (small, large) = (one.call(&call), two.call(&call));
        if small != large {
            return Err(format!("{small:?} and {large:?}: {call:?} {setting:?}"));
        }
        if one.state() != two.state() {
            return Err(format!("the memory differs: {call:?} {setting:?}"));
        }
        answered += u64::from(small.number == 0);
    }
    Ok(answered)
}

/// A call at or after the last tick, rarely before it or outside the setting.
pub fn any_call(numbers: &mut Numbers, setting: &Setting, last: u64) -> Call {
    let step = match numbers.within(0, 9) {
        0..=6 => numbers.within(0, 1),
        7 => setting[TD],
        8 => numbers.within(1, setting[W]),
        _ => numbers.within(0, setting[TD]),
    };
    let early = u64::from(numbers.one_in(30));
    let outside = u64::from(numbers.one_in(30));
    let kind = match numbers.within(0, 19) {
        0 => Kind::Setup,
        1..=3 => Kind::Done,
        4..=6 => Kind::Index,
        _ => Kind::Request,
    };
    Call {
        kind,
        tick: last.saturating_add(step).saturating_sub(early),
        bank: numbers.within(0, setting[BANKS] - 1) + outside * setting[BANKS],
        thread: numbers.within(0, setting[THREADS] - 1),
        row: numbers.pick(&ROWS),
    }
}
