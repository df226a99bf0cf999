//! The planner of a width compared with the second implementation: settings of both
//! profiles and of none, of every size.

use crate::library;
use crate::memory::Guarded;
use crate::numbers::Numbers;
use crate::profiles::{mark, near};
use crate::settings::{large, medium, mixed, small, L, MARK, N};
use crate::wide::{around, great, long};
use second::plan::delays;
use second::{Config, Fault, Limits, Setting, NEW};

/// Settings that are tried.
const SETTINGS: u64 = 40_000;
/// What `out` holds before a call.
const OUT: [u64; 2] = [0x1111_2222, 0x3333_4444];
/// What the planner can return.
pub const NUMBERS: [usize; 7] = [0, 1, 2, 3, 4, 5, 16];

/// How many settings got each number, with mark 0 and with mark 1; and how many
/// with mark 1 have fewer delays than with mark 0, but some.
#[derive(Debug, Default)]
pub struct Told {
    pub numbers: [[u64; 17]; 2],
    pub fewer: u64,
}

/// Plans on both sides, the second implementation with a fault or without, and
/// stops at the first difference.
pub fn compare(seed: u64, limits: Limits, fault: Fault) -> Result<Told, String> {
    let numbers = &mut Numbers::new(seed);
    let mut told = Told::default();
    for _ in 0..SETTINGS {
        let setting = any(numbers, &limits);
        let (number, out) = one(limits, &setting, fault)?;
        if setting[MARK] < 2 {
            told.numbers[setting[MARK] as usize][number as usize] += 1;
        }
        let mut other = setting;
        other[MARK] = 0;
        if number == 0 && one(limits, &other, Fault::None)?.1 != out {
            told.fewer += 1;
        }
    }
    Ok(told)
}

/// A setting whose delay is of no meaning; L is at times next to 2N + 1.
pub fn any(numbers: &mut Numbers, limits: &Limits) -> Setting {
    let most = if *limits == NEW { 8 } else { 6 };
    let mut setting = match numbers.within(0, most) {
        0 => small(numbers),
        1 => near(numbers),
        2 => medium(numbers),
        3 => large(numbers),
        4 => mixed(numbers, limits),
        5 => chip(numbers, limits),
        6 => around(numbers),
        7 => great(numbers),
        _ => long(numbers),
    };
    if numbers.one_in(2) {
        setting[MARK] = mark(numbers);
    }
    if numbers.one_in(4) {
        setting[L] = setting[N]
            .saturating_mul(2)
            .saturating_add(numbers.within(0, 6));
    }
    setting
}

/// A chip with a limit of about 1,000 to 30,000 and a threshold of its half to
/// its eighth; in the new width mostly with a limit around 1,000.
fn chip(numbers: &mut Numbers, limits: &Limits) -> Setting {
    let most = match *limits {
        NEW if !numbers.one_in(4) => 500,
        _ => 8_192,
    };
    let n = numbers.within(100, most);
    let l = n * numbers.within(2, 8) + numbers.within(0, 9);
    let banks = numbers.pick(&[1, 4, 5, 16]);
    [256_000_000, 185, 140, n, 1, l, 255, banks, 8, 0]
}

/// Plans for one setting on both sides and compares; the number and the delays.
pub fn one(limits: Limits, setting: &Setting, fault: Fault) -> Result<(u32, [u64; 2]), String> {
    let (words, mut lent) = (Guarded::new(setting), Guarded::new(&OUT));
    let number = library::delays(&limits, &words, &mut lent);
    let mut expected = OUT;
    let config = Config::new(*setting, &[]).within(limits).with(fault);
    let wanted = delays(&config, &mut expected);
    let found = [lent.cells()[0], lent.cells()[1]];
    if (number, found) != (wanted, expected) {
        return Err(format!(
            "{number} {found:?}, expected {wanted} {expected:?}: {setting:?}"
        ));
    }
    if words.cells() != setting || !words.intact() || !lent.intact() {
        return Err(format!("setting or guard cells changed: {setting:?}"));
    }
    Ok((number, found))
}
