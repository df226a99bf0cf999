//! Settings that only the new width accepts: thresholds above 32,768, and histories
//! of more than 4,096 places.

use crate::numbers::Numbers;
use crate::settings::{limited, L, N, TD};
use second::Setting;

/// A chip with the limit 1,024, by the timing of the BlockHammer paper: N 400 and
/// its least delay, with 32,636 history places.
pub const CHIP: Setting = [256_000_000, 185, 140, 400, 1_142_197, 1_024, 255, 16, 8, 0];

/// The chip; the greatest threshold with the longest history, and each by itself;
/// and thresholds and histories just above those of the old width and of 16 bits.
pub const WIDE_BASES: [Setting; 7] = [
    CHIP,
    [
        1 << 30,
        511,
        65_535,
        1 << 20,
        536_862_720,
        2_097_153,
        255,
        16,
        32,
        0,
    ],
    [1 << 22, 1, 4, 1 << 20, 6, 1 << 24, 7, 2, 3, 0],
    [40_000, 1, 1, 2, 8_192, 10, 3, 2, 2, 0],
    [1 << 22, 1, 4, 32_769, 6, 1 << 24, 255, 4, 2, 1],
    [8_000, 1, 1, 2, 1_025, 20, 4, 1, 1, 0],
    [1 << 22, 1, 64, 65_537, 64, 1 << 24, 255, 1, 1, 0],
];

/// A setting that only the new width accepts: mostly one with a short history and a
/// great threshold, in one case of twelve one with a long history.
pub fn great(numbers: &mut Numbers) -> Setting {
    if numbers.one_in(12) {
        return long(numbers);
    }
    let n = match numbers.within(0, 7) {
        0 => 32_769,
        1 => 1 << 20,
        2 => 65_535 + numbers.within(0, 3),
        _ => numbers.within(32_769, 1 << 20),
    };
    let trc = numbers.within(1, 3);
    let w = 2 * (n * trc + numbers.within(trc, 1 << 16));
    let td = numbers.within(trc, 400);
    let tfaw = numbers.within(td.div_ceil(40), 40);
    let q = numbers.within(1, 255);
    let (banks, threads) = (numbers.within(1, 4), numbers.within(1, 4));
    let mark = numbers.within(0, 1);
    limited(numbers, [w, trc, tfaw, n, td, 1, q, banks, threads, mark])
}

/// A setting with 4,100 to 32,768 history places, few of them with the most.
pub fn long(numbers: &mut Numbers) -> Setting {
    if numbers.one_in(4) {
        return numbers.pick(&[CHIP, WIDE_BASES[1], WIDE_BASES[3]]);
    }
    let tfaw = numbers.within(1, 4);
    let quarter = numbers.pick(&[1_025, 1_026, 1_100, 1_200, 2_048, 4_096, 8_191, 8_192]);
    let td = quarter * tfaw - numbers.within(0, tfaw - 1);
    let (trc, n) = (numbers.within(1, 3), numbers.within(1, 4));
    let w = 2 * (td.max(n * trc) + numbers.within(1, 60));
    let (banks, threads) = (numbers.within(1, 3), numbers.within(1, 3));
    limited(numbers, [w, trc, tfaw, n, td, 1, 4, banks, threads, 0])
}

/// The same around the limits of the new width: it accepts some of these.
pub fn around(numbers: &mut Numbers) -> Setting {
    let mut setting = great(numbers);
    match numbers.within(0, 3) {
        0 => setting[N] = numbers.pick(&[(1 << 20) - 1, 1 << 20, (1 << 20) + 1, 1 << 32]),
        1 => setting[TD] = (8_192 + numbers.within(0, 2)) * setting[2] - 1,
        2 => setting[L] = setting[L].saturating_sub(numbers.within(0, 2)),
        _ => {}
    }
    setting
}
