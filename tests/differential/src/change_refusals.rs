//! The refusals of the change-over one by one and in their order: settings with each
//! refusal and with none, each of the five buffers too short, and memory that 7
//! refuses for each of its reasons, all with each other.

use crate::lent::{used, Lent};
use crate::pair::{Difference, Pair};
use crate::settings::{BANKS, L, MARK, N, Q, TD, TRC, W};
use second::setting::house_seeds;
use second::state::{BANK, LAST, PLACE, RANK};
use second::{Fault, Setting, State, OLD};

/// A setting with three banks, 16 history places and two threads.
const BASE: Setting = [400, 2, 8, 3, 32, 60, 4, 3, 2, 0];
/// What the new counters hold before.
const BEFORE: u32 = 0x5A5A_F0F0;
/// Cells that the buffers are longer than used: old and new counters, history ticks
/// and rows, thread counters.
const SPARE: [usize; 5] = [3, 5, 2, 4, 1];

/// How many change-overs got each number.
#[derive(Debug, Default)]
pub struct Told {
    pub numbers: [u64; 17],
}

/// Tries all, the second implementation with a fault or without, and stops at the
/// first difference.
pub fn compare(fault: Fault) -> Result<Told, Box<Difference>> {
    let mut told = Told::default();
    for setting in settings() {
        for short in 0..8 {
            for spoilt in 0..9 {
                let (mut lent, new) = memory(&setting, short);
                spoil(&mut lent.state, spoilt);
                let mut pair = Pair::new(lent, fault);
                let (number, _) = pair.change_over(&vec![BEFORE; new])?;
                told.numbers[number as usize] += 1;
            }
        }
    }
    for seeds in odd_seeds() {
        let (mut lent, new) = memory(&BASE, 0);
        lent.seeds = seeds;
        let (number, _) = Pair::new(lent, fault).change_over(&vec![BEFORE; new])?;
        told.numbers[number as usize] += 1;
    }
    Ok(told)
}

/// The base setting with fields changed: accepted ones, one for each refusal, and
/// ones that meet two.
fn settings() -> Vec<Setting> {
    let changes: [&[(usize, u64)]; 22] = [
        &[],
        &[(MARK, 1)],
        &[(BANKS, 1)],
        &[(BANKS, 16)],
        &[(Q, 0)],
        &[(MARK, 2)],
        &[(N, 32_768), (W, 1 << 20), (L, 1 << 24)],
        &[(N, 32_769), (W, 1 << 20), (L, 1 << 24)],
        &[(N, 1 << 20), (W, 1 << 24), (L, 1 << 24)],
        &[(TRC, 67)],
        &[(TRC, 33)],
        &[(TD, 201)],
        &[(TD, 8_192), (W, 1 << 20), (L, 1 << 24)],
        &[(TD, 8_193), (W, 1 << 20), (L, 1 << 24)],
        &[(TD, 65_536), (W, 1 << 20), (L, 1 << 24)],
        &[(TD, 65_537), (W, 1 << 20), (L, 1 << 24)],
        &[(L, 18)],
        &[(L, 19)],
        &[(BANKS, 5), (MARK, 1)],
        &[(TD, 2_049), (W, 1 << 20), (L, 1 << 24), (MARK, 1)],
        &[(TD, 8_193), (W, 1 << 20), (L, 1 << 24), (MARK, 1)],
        &[(L, 18), (BANKS, 5), (MARK, 1)],
    ];
    let changed = |changes: &[(usize, u64)]| {
        let mut setting = BASE;
        for &(field, value) in changes {
            setting[field] = value;
        }
        setting
    };
    changes.map(changed).to_vec()
}

/// Sound memory, and the number of new counters: longer than used, of just that
/// length, with one of the five buffers one cell short, or with all of them.
fn memory(setting: &Setting, short: usize) -> (Lent, usize) {
    let [counters, ticks, rows, threads] = used(&OLD, setting);
    let mut lengths = [counters, counters, ticks, rows, threads];
    for (k, length) in lengths.iter_mut().enumerate() {
        match short {
            0 => *length += SPARE[k],
            7 => *length -= 1,
            _ => *length -= usize::from(k + 2 == short),
        }
    }
    let [old, new, ticks, rows, threads] = lengths;
    let mut head = [0; 22];
    head[LAST] = 50;
    head[PLACE] = 5;
    head[BANK..RANK].fill(u64::MAX);
    let banks = setting[BANKS].min(16) as usize;
    head[BANK..BANK + banks].fill(51);
    head[RANK..].copy_from_slice(&[51, 3, 0, 40]);
    let state = State {
        head,
        counters: (0..old as u32)
            .map(|place| place * 40_503 % 65_536)
            .collect(),
        ticks: vec![30; ticks],
        rows: (0..rows as u32).collect(),
        threads: vec![2; threads],
    };
    let lent = Lent {
        limits: OLD,
        setting: *setting,
        seeds: house_seeds(),
        state,
    };
    (lent, new)
}

/// Makes a change that 7 refuses, but for the first two.
fn spoil(state: &mut State, spoilt: usize) {
    match spoilt {
        0 => {}
        1 => state.head[LAST] = (1 << 62) + 50,
        2 => state.head[PLACE] = state.ticks.len() as u64,
        3 => state.head[PLACE] = u64::MAX,
        4 => state.head[BANK] = 52,
        5 => state.head[RANK + 3] = 52,
        6 => state.ticks[4] = 52,
        7 => state.ticks[2] = 31,
        _ => state.ticks[4] = 29,
    }
}

/// Seeds of other counts, and with a word above 1,023.
fn odd_seeds() -> Vec<Vec<u16>> {
    let mut all: Vec<Vec<u16>> = [0, 1, 63, 65, 128].map(|count| vec![5; count]).to_vec();
    for (place, word) in [(0, 1_024), (29, 65_535), (63, 1_024)] {
        let mut seeds = house_seeds();
        seeds[place] = word;
        all.push(seeds);
    }
    all
}
