//! A state that was taken over beside one that was not: after the change-over every
//! call of the new width gives the number and the answer that the same call of the
//! old width gives on a copy of the saved state, and leaves the same head, history
//! and thread counters, and the same filter counters as numbers.

use crate::call::Call;
use crate::contents::{fill_any, fill_near};
use crate::lent::{used, Lent};
use crate::numbers::Numbers;
use crate::profiles::near;
use crate::settings::{accepted, medium, seeds, small};
use crate::side::{Saved, Side};
use crate::twins::{any_call, ROWS};
use second::state::LAST;
use second::{Setting, State, OLD};

/// Settings that are tried; not all of them are accepted.
const RUNS: u64 = 3_000;
/// Calls after the change-over, and most calls before it.
const CALLS: u64 = 16;

/// States that were taken over, and calls that were answered after it.
#[derive(Debug, Default)]
pub struct Told {
    pub changed: u64,
    pub answered: u64,
}

/// Tries settings on sides that are made from what they work on, and stops at the
/// first difference.
pub fn compare<S: Saved>(seed: u64, make: impl Fn(&Lent) -> S) -> Result<Told, String> {
    let numbers = &mut Numbers::new(seed);
    let mut told = Told::default();
    for run in 0..RUNS {
        let setting = match run % 16 {
            0 => medium(numbers),
            1 | 2 => near(numbers),
            _ => small(numbers),
        };
        if !accepted(&OLD, &setting) {
            continue;
        }
        let seeds = seeds(numbers);
        let mut lent = Lent::cleared(numbers, OLD, setting, seeds);
        match run % 8 {
            0 => fill_any(numbers, &mut lent),
            _ => fill_near(numbers, &ROWS, &mut lent),
        }
        let mut old = make(&lent);
        if numbers.one_in(2) {
            old.call(&Call::SETUP);
        }
        for _ in 0..numbers.within(0, CALLS) {
            old.call(&any_call(numbers, &setting, old.state().head[LAST]));
        }
        let [cells, ..] = used(&OLD, &setting);
        let before: Vec<u32> = (0..cells + 3).map(|_| numbers.word() as u32).collect();
        if let Ok(mut new) = old.change_over(&before) {
            told.changed += 1;
            told.answered += same(numbers, &setting, &mut old, &mut new, &before[cells..])?;
        }
    }
    Ok(told)
}

/// Makes the same calls in both widths; how many were answered.
fn same<S: Side>(
    numbers: &mut Numbers,
    setting: &Setting,
    old: &mut S,
    new: &mut S,
    rest: &[u32],
) -> Result<u64, String> {
    let mut answered = 0;
    for _ in 0..CALLS {
        let call = any_call(numbers, setting, old.state().head[LAST]);
        let (narrow, wide) = (old.call(&call), new.call(&call));
        if narrow != wide {
            return Err(format!("{narrow:?} and {wide:?}: {call:?} {setting:?}"));
        }
        if let Some(what) = apart(old.state(), new.state(), rest) {
            return Err(format!("{what} differ: {call:?} {setting:?}"));
        }
        answered += u64::from(narrow.number == 0);
    }
    Ok(answered)
}

/// What is apart in the memory of the two widths. `rest` is what the new counters
/// that are not used hold.
fn apart(old: State, new: State, rest: &[u32]) -> Option<&'static str> {
    let used = new.counters.len() - rest.len();
    let parts = [
        ("the heads", old.head == new.head),
        ("the history ticks", old.ticks == new.ticks),
        ("the history rows", old.rows == new.rows),
        ("the thread counters", old.threads == new.threads),
        ("the counters", old.counters[..used] == new.counters[..used]),
        ("the unused counters", new.counters[used..] == *rest),
    ];
    let found = parts.into_iter().find(|(_, same)| !same);
    found.map(|(name, _)| name)
}
