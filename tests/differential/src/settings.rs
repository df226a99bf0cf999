//! Settings for the tests: small ones, medium ones, those of real chips, and
//! those that stand at the bounds of a width.

use crate::near_house::changed;
use crate::numbers::Numbers;
use crate::profiles::NO_PROFILE;
use crate::wide::WIDE_BASES;
use second::setting::{accept, history_length, house_seeds, row_bound};
use second::{Config, Limits, Setting, NEW, OLD};

/// A field of the setting by its place.
pub const W: usize = 0;
pub const TRC: usize = 1;
pub const TFAW: usize = 2;
pub const N: usize = 3;
pub const TD: usize = 4;
pub const L: usize = 5;
pub const Q: usize = 6;
pub const BANKS: usize = 7;
pub const THREADS: usize = 8;
pub const MARK: usize = 9;

/// Least and greatest value of each field; of N the greatest is the width's.
const RANGES: [(u64, u64); 10] = [
    (2, 1 << 30),
    (1, 65_535),
    (1, 65_535),
    (1, OLD.threshold),
    (1, 1 << 29),
    (1, 1 << 24),
    (1, 255),
    (1, 16),
    (1, 32),
    (0, 1),
];

/// Settings accepted in both widths, in which each field that can stands at the
/// old width's bounds; those with mark 1 have four banks or 1,024 history places.
pub const BASES: [Setting; 10] = [
    [40, 1, 4, 2, 6, 10, 4, 1, 1, 0],
    [4, 1, 1, 1, 2, 3, 1, 1, 1, 0],
    [256_000_000, 185, 140, 4_096, 31_065, 16_384, 255, 16, 8, 0],
    [
        1 << 30,
        16_383,
        65_535,
        32_768,
        67_107_840,
        65_537,
        255,
        16,
        32,
        0,
    ],
    [1 << 30, 1, 1, 1, 65, 1 << 24, 7, 2, 3, 0],
    [1 << 20, 65_535, 64, 1, 65_536, 17, 9, 3, 5, 0],
    [1 << 30, 3, 65_535, 32_768, 65_535, 1 << 24, 255, 1, 32, 0],
    [6_000, 1, 3, 2, 3_000, 7, 3, 16, 1, 0],
    [4_000, 1, 4, 2, 1_024, 10, 4, 4, 2, 1],
    [40, 1, 4, 2, 6, 10, 4, 4, 1, 1],
];

/// The base settings of a width.
pub fn bases(limits: &Limits) -> Vec<Setting> {
    if *limits == NEW {
        return [BASES.as_slice(), &WIDE_BASES].concat();
    }
    BASES.to_vec()
}

/// Is this setting accepted in a width, with any 64 seeds?
pub fn accepted(limits: &Limits, setting: &Setting) -> bool {
    accept(&Config::new(*setting, &[0; 64]).within(*limits)).is_ok()
}

/// The row bound B, where it is defined.
pub fn bound(setting: &Setting) -> Option<u64> {
    row_bound(&Config::new(*setting, &[])).map(|bound| bound as u64)
}

/// The history length H, for a setting that is not accepted 1 to 4,096.
pub fn history(limits: &Limits, setting: &Setting) -> usize {
    let length = history_length(&Config::new(*setting, &[]));
    match length {
        Some(length) if length > 4_096 && accepted(limits, setting) => length as usize,
        Some(length) => length.clamp(1, 4_096) as usize,
        None => 4_096,
    }
}

/// A small setting, nearly always accepted by both profiles.
pub fn small(numbers: &mut Numbers) -> Setting {
    let trc = numbers.within(1, 4);
    let n = numbers.within(1, 4);
    let w = 2 * (n * trc + numbers.within(1, 40));
    let td = numbers.within(trc, (w / 2).max(trc));
    let tfaw = numbers.within(1, 12);
    let q = if numbers.one_in(4) {
        255
    } else {
        numbers.within(1, 6)
    };
    let (banks, threads) = (numbers.within(1, 4), numbers.within(1, 3));
    let mark = numbers.within(0, 1);
    limited(numbers, [w, trc, tfaw, n, td, 1, q, banks, threads, mark])
}

/// A setting of medium size: wait ticks some thousands away, more banks and
/// threads.
pub fn medium(numbers: &mut Numbers) -> Setting {
    let trc = numbers.within(1, 150);
    let n = numbers.within(1, 60);
    let w = 2 * (n * trc + numbers.within(trc, 12_000));
    let td = numbers.within(trc, (w / 2).min(1_500));
    let tfaw = numbers.within(td.div_ceil(1_024), 300);
    let q = numbers.within(1, 255);
    let (banks, threads) = (numbers.within(1, 16), numbers.within(1, 32));
    let mark = u64::from(numbers.one_in(4));
    limited(numbers, [w, trc, tfaw, n, td, 1, q, banks, threads, mark])
}

/// A large setting accepted in both widths: that of a chip, or any.
pub fn large(numbers: &mut Numbers) -> Setting {
    if numbers.one_in(2) {
        return numbers.pick(&BASES[2..7]);
    }
    let trc = numbers.within(1, 4_000);
    let n = numbers.within(1, 32_768);
    let w = 2 * (n * trc + numbers.within(trc, 1 << 28));
    let td = numbers.within(trc.max(64), (w / 2).max(trc.max(64)));
    let tfaw = numbers.within(td.div_ceil(1_024).min(65_535), 65_535);
    let (banks, threads) = (numbers.within(1, 16), numbers.within(1, 32));
    let setting = limited(numbers, [w, trc, tfaw, n, td, 1, 255, banks, threads, 0]);
    let small = with(&setting, MARK, 1);
    if accepted(&OLD, &small) && numbers.one_in(2) {
        small
    } else if accepted(&OLD, &setting) {
        setting
    } else {
        BASES[2]
    }
}

/// The setting with L at its row bound, somewhat above or just below.
pub fn limited(numbers: &mut Numbers, mut setting: Setting) -> Setting {
    let spare = numbers.within(0, 16);
    let bound = bound(&setting).unwrap_or(1);
    setting[L] = match spare {
        0 => bound - 1,
        1..=5 => bound,
        _ => bound + spare,
    };
    setting
}

/// Every base setting of a width with both marks, and each of them with one field
/// at, next to and far from its bounds, and with the numbers of refusals 2 to 5
/// and 16 at and next to theirs.
pub fn at_bounds(limits: &Limits) -> Vec<Setting> {
    let mut settings = Vec::new();
    let other = |base: &Setting| with(base, MARK, 1 - base[MARK]);
    for base in bases(limits).iter().flat_map(|base| [*base, other(base)]) {
        settings.push(base);
        for field in 0..10 {
            for value in edges(limits, field) {
                settings.push(with(&base, field, value));
            }
        }
        settings.extend(relations(limits, &base));
    }
    settings
}

/// A base setting with one to three fields changed to values near bounds.
pub fn mixed(numbers: &mut Numbers, limits: &Limits) -> Setting {
    let mut setting = numbers.pick(&bases(limits));
    if numbers.one_in(3) {
        setting = numbers.pick(&relations(limits, &setting));
    }
    for _ in 0..numbers.within(1, 3) {
        let field = numbers.within(0, 9) as usize;
        setting[field] = numbers.pick(&edges(limits, field));
    }
    setting
}

/// Values of a field around its bounds, and some that only 64 bits hold.
fn edges(limits: &Limits, field: usize) -> Vec<u64> {
    let (low, high) = match field {
        N => (1, limits.threshold),
        _ => RANGES[field],
    };
    if field == MARK {
        return [&[low, high], NO_PROFILE.as_slice()].concat();
    }
    let mut values = vec![low - 1, low, low + 1, high - 1, high, high + 1, 0, high + 2];
    values.extend([
        1 << 16,
        1 << 32,
        (1 << 32) + low,
        (1 << 32) + high,
        1 << 63,
        u64::MAX,
    ]);
    values
}

/// The setting with one field changed.
pub fn with(setting: &Setting, field: usize, value: u64) -> Setting {
    let mut changed = *setting;
    changed[field] = value;
    changed
}

/// The setting with W, tD, tFAW, L or the banks at and next to the bounds of
/// refusals 2 to 5 and 16.
fn relations(limits: &Limits, base: &Setting) -> Vec<Setting> {
    let free = 2 * base[N] * base[TRC];
    let gaps = limits.history / 4;
    let mut settings = Vec::new();
    for near in [0, 1, 2, 3, 4] {
        settings.push(with(base, W, (free + near).saturating_sub(2)));
        for td in [base[TRC], base[W] / 2, gaps * base[TFAW], 256 * base[TFAW]] {
            settings.push(with(base, TD, (td + near).saturating_sub(2)));
            let wide = with(base, TD, (td + near).saturating_sub(2));
            settings.push(with(&wide, L, 1 << 24));
        }
        for short in [base[TD].div_ceil(gaps), base[TD].div_ceil(256)] {
            settings.push(with(base, TFAW, (short + near).saturating_sub(2)));
        }
        settings.push(with(base, BANKS, 2 + near));
        if let Some(bound) = bound(base) {
            settings.push(with(base, L, (bound + near).saturating_sub(2)));
        }
    }
    settings
}

/// 64 seeds of 0 to 1,023, in many cases such that rows share counters, or nearly
/// the house seeds.
pub fn seeds(numbers: &mut Numbers) -> Vec<u16> {
    let mut seeds = house_seeds();
    match numbers.within(0, 7) {
        0 | 1 => {}
        6 => {
            let (word, bit) = (numbers.within(0, 63), numbers.within(0, 9));
            seeds = changed(word as usize, bit as u32).1;
        }
        2 => seeds.fill(0),
        3 => seeds.iter_mut().for_each(|seed| *seed %= 4),
        4 => seeds.copy_within(0..16, 32),
        5 => seeds.fill(1_023),
        _ => {
            for seed in &mut seeds {
                *seed = numbers.within(0, 1_023) as u16;
            }
        }
    }
    seeds
}

/// Seeds of another count, or with a word around 1,023.
pub fn odd_seeds(numbers: &mut Numbers) -> Vec<u16> {
    let mut seeds = seeds(numbers);
    let place = numbers.within(0, 63) as usize;
    match numbers.within(0, 2) {
        0 => seeds.resize(numbers.pick(&[0, 1, 63, 64, 65, 128, 65_600]), 1_023),
        1 => seeds[place] = 1_023,
        _ => seeds[place] = numbers.pick(&[1_024, 1_025, 32_768, 65_535]),
    }
    seeds
}
