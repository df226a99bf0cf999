//! Settings at the bounds of both widths, with words that only 64 bits hold: each
//! of the four calls in both widths, the change-over and the planner of each width.
//! Every buffer has one cell, so that a call whose setting is not refused gets 6.

use crate::call::{Call, Kind};
use crate::lent::Lent;
use crate::pair::Pair;
use crate::planner;
use crate::settings::{at_bounds, bases, with, MARK, N, TD, TFAW};
use second::setting::house_seeds;
use second::{Fault, Limits, Setting, State, NEW, OLD};

/// Numbers that a call returns here. The planner returns 0 and not 6.
const NUMBERS: [u32; 7] = [1, 2, 3, 4, 5, 16, 6];

/// How many settings got each of the numbers, in their order: from the four calls
/// of the old and of the new width, from the change-over, and from the planners.
#[derive(Debug, Default)]
pub struct Told {
    pub settings: u64,
    pub calls: [[u64; 7]; 2],
    pub changes: [u64; 7],
    pub plans: [[u64; 7]; 2],
}

/// Asks all of all settings, the second implementation with a fault or without, and
/// stops at the first difference.
pub fn compare(fault: Fault) -> Result<Told, String> {
    let mut told = Told::default();
    for setting in settings() {
        told.settings += 1;
        for (k, limits) in [OLD, NEW].into_iter().enumerate() {
            let mut pair = one_cell(limits, &setting, fault);
            note(&mut told.calls[k], of_calls(&mut pair)?);
            note(&mut told.plans[k], planner::one(limits, &setting, fault)?.0);
            if limits == OLD {
                let changed = pair.change_over(&[7]);
                note(
                    &mut told.changes,
                    changed.map_err(|found| found.to_string())?.0,
                );
            }
        }
    }
    Ok(told)
}

/// Counts a number, 0 as 6.
fn note(counts: &mut [u64; 7], number: u32) {
    let found = NUMBERS.iter().position(|&known| known == number);
    counts[found.unwrap_or(6)] += 1;
}

/// Settings at the bounds of each width, those of the old one first with its limits
/// of N and H moved to both sides of each width's.
pub fn settings() -> Vec<Setting> {
    let mut settings = Vec::new();
    for base in bases(&NEW) {
        for limits in [OLD, NEW] {
            for near in [0, 1, 2] {
                settings.push(with(&base, N, limits.threshold + near - 1));
                let long = (limits.history / 4 + near - 1) * base[TFAW];
                settings.push(with(&base, TD, long));
                settings.push(with(&with(&base, TD, long), MARK, 1));
            }
        }
    }
    settings.extend(at_bounds(&OLD));
    settings.extend(at_bounds(&NEW));
    settings
}

/// The number that the four calls return, which is the same for all.
fn of_calls(pair: &mut Pair) -> Result<u32, String> {
    let mut numbers = [0; 4];
    for kind in Kind::ALL {
        let called = pair.call(&Call {
            kind,
            ..Call::SETUP
        });
        let answer = called.map_err(|found| found.to_string())?;
        numbers[kind as usize] = answer.number;
    }
    match numbers == [numbers[0]; 4] {
        true => Ok(numbers[0]),
        false => Err(format!(
            "the calls return {numbers:?}: {:?}",
            pair.setting()
        )),
    }
}

/// Both sides on memory of one cell in each buffer.
fn one_cell(limits: Limits, setting: &Setting, fault: Fault) -> Pair {
    let state = State {
        head: [0; 22],
        counters: vec![7],
        ticks: vec![0],
        rows: vec![7],
        threads: vec![1],
    };
    let lent = Lent {
        limits,
        setting: *setting,
        seeds: house_seeds(),
        state,
    };
    Pair::new(lent, fault)
}
