//! Settings near what the small profile has at most, with marks of both profiles
//! and of none.

use crate::numbers::Numbers;
use crate::settings::{limited, L, N, Q, TD, TFAW, W};
use second::Setting;

/// Marks that name no profile.
pub const NO_PROFILE: [u64; 14] = [
    2,
    3,
    127,
    128,
    255,
    256,
    257,
    1 << 16,
    1 << 31,
    1 << 32,
    (1 << 32) + 1,
    1 << 63,
    (1 << 63) + 1,
    u64::MAX,
];

/// A mark of a profile, in one case of twelve of none.
pub fn mark(numbers: &mut Numbers) -> u64 {
    if numbers.one_in(12) {
        return numbers.pick(&NO_PROFILE);
    }
    numbers.pick(&[0, 1, 1])
}

/// A setting with about four banks and about 1,024 history places, at times with
/// few or about 4,096, and with any mark. In one case of four it also meets, or
/// comes near, one of refusals 1 to 5.
pub fn near(numbers: &mut Numbers) -> Setting {
    let tfaw = numbers.within(1, 4);
    let quarter = numbers.pick(&[2, 255, 256, 256, 257, 257, 1_024, 1_025]);
    let td = quarter * tfaw - numbers.within(0, tfaw - 1);
    let trc = numbers.within(1, 3).min(td);
    let n = numbers.within(1, 4);
    let w = 2 * (td.max(n * trc) + numbers.within(1, 60));
    let banks = numbers.pick(&[1, 2, 4, 4, 4, 5, 5, 16]);
    let (q, threads) = (numbers.within(1, 6), numbers.within(1, 3));
    let mark = mark(numbers);
    let mut setting = limited(numbers, [w, trc, tfaw, n, td, 1, q, banks, threads, mark]);
    if numbers.one_in(4) {
        spoil(numbers, &mut setting);
    }
    setting
}

/// Changes one field so that one of refusals 1 to 5 is met or near.
fn spoil(numbers: &mut Numbers, setting: &mut Setting) {
    match numbers.within(0, 5) {
        0 => setting[Q] = numbers.pick(&[0, 256]),
        1 => setting[W] += 1,
        2 => setting[N] = setting[W] / 2,
        3 => setting[TD] = setting[W] / 2 + 1,
        4 => setting[TFAW] = 1,
        _ => setting[L] = setting[L].div_ceil(2),
    }
}
