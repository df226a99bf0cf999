//! Runs of the new width above what the old one takes: great thresholds with
//! counters around 65,536 and N, and long histories.

use super::runs::{fresh, Call, Run, SETUP};
use super::{Numbers, BANKS, MARK, N, TD, W};
use second::setting::house_seeds;
use second::{Setting, State};

/// The greatest threshold, 2^20.
pub const THRESHOLD: Setting = [1 << 22, 1, 4, 1 << 20, 6, 1 << 24, 4, 2, 1, 0];
/// The longest history, 32,768 places.
pub const HISTORY: Setting = [40_000, 1, 1, 2, 8_192, 12, 4, 1, 1, 0];
/// A chip with the limit 1,024, by the timing of the BlockHammer paper.
pub const CHIP: Setting = [256_000_000, 185, 140, 400, 1_142_197, 1_024, 255, 16, 8, 0];

/// A run with a great threshold, or with a long history in one case of four.
pub fn wide_run(seed: u64) -> Run {
    let numbers = &mut Numbers::new(seed);
    let long = numbers.one_in(4);
    let setting = if long {
        long_history(numbers)
    } else {
        great_threshold(numbers)
    };
    let mut state = fresh(&setting);
    state.head[0] = numbers.within(20_000, 90_000);
    if long {
        fill_history(numbers, &mut state);
    }
    let n = setting[N] as u32;
    let near = [n - 1, n, n + 1, 65_535, 65_536, 65_537];
    let odd = [0, 32_767, 32_768, 65_534, 131_071, u32::MAX];
    state.counters.fill_with(|| match numbers.within(0, 5) {
        0 => pick(numbers, &odd),
        _ => pick(numbers, &near),
    });
    let calls = calls(numbers, &setting, state.head[0]);
    Run {
        setting,
        seeds: house_seeds(),
        state,
        calls,
    }
}

fn pick<T: Copy>(numbers: &mut Numbers, from: &[T]) -> T {
    from[numbers.within(0, from.len() as u64 - 1) as usize]
}

/// N at the limits of both widths and around 65,536.
fn great_threshold(numbers: &mut Numbers) -> Setting {
    let mut setting = THRESHOLD;
    let top = 1 << 20;
    setting[N] = pick(
        numbers,
        &[
            32_768,
            32_769,
            65_535,
            65_536,
            65_537,
            70_000,
            top,
            top,
            top + 1,
        ],
    );
    setting[MARK] = numbers.within(0, 1);
    setting
}

/// H at the limits of both widths and of the small profile.
fn long_history(numbers: &mut Numbers) -> Setting {
    let mut setting = HISTORY;
    setting[TD] = pick(numbers, &[257, 1_024, 1_025, 2_048, 8_192, 8_192, 8_193]);
    setting[MARK] = u64::from(numbers.one_in(4));
    setting[5] += 40_000 / setting[TD];
    setting
}

/// Ticks that rise to the last one but for one place, and a few rows.
fn fill_history(numbers: &mut Numbers, state: &mut State) {
    let h = state.ticks.len() as u64;
    let any = numbers.within(0, h - 1);
    let place = pick(numbers, &[0, 4_095 % h, 4_096 % h, h - 1, any]);
    let last = state.head[0];
    let mut stored: Vec<u64> = (0..h).map(|age| last + 1 - (h - 1 - age) / 4).collect();
    stored.rotate_right(place as usize);
    if numbers.one_in(4) {
        stored[any as usize] = last + 2 * numbers.within(0, 1);
    }
    state.ticks = stored;
    state.head[1] = if numbers.one_in(9) { h } else { place };
    state.rows.fill_with(|| numbers.within(3, 900) as u32);
    state.rows[any as usize] = 0;
}

/// Calls at and soon after the last tick, at times after an epoch turn.
fn calls(numbers: &mut Numbers, setting: &Setting, mut tick: u64) -> Vec<Call> {
    let mut call = || {
        tick += match numbers.within(0, 9) {
            0..=5 => numbers.within(0, 4),
            6 => setting[W] / 2,
            _ => 1,
        };
        Call {
            kind: if numbers.one_in(9) {
                SETUP
            } else {
                numbers.within(0, 5)
            },
            tick,
            bank: numbers.within(0, setting[BANKS] - 1),
            thread: 0,
            row: numbers.within(0, 2) as u16,
        }
    };
    (0..12).map(|_| call()).collect()
}
