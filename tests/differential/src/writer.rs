//! Block 0 as the log writer writes it, compared with the second implementation:
//! settings accepted or not, numbers around 32 bits, marks of both profiles and
//! of none, and counts of seeds other than 64.

use crate::library;
use crate::memory::Guarded;
use crate::numbers::Numbers;
use crate::profiles::{mark, near};
use crate::settings::{mixed, odd_seeds, seeds, small, MARK};
use second::log::BLOCK;
use second::write::start;
use second::{Config, Fault, Setting, NEW};

/// Blocks that are tried.
const BLOCKS: u64 = 20_000;
/// What words are changed to: numbers around 32 bits, and some of 64.
const WIDE: [u64; 7] = [
    0,
    (1 << 32) - 1,
    1 << 32,
    (1 << 32) + 1,
    (1 << 32) + 40,
    1 << 63,
    u64::MAX,
];

/// How many blocks were written with each mark, and how many were not.
#[derive(Debug, Default)]
pub struct Told {
    pub written: [u64; 2],
    pub refused: u64,
    /// Refused for the mark alone.
    pub for_the_mark: u64,
}

/// Writes blocks on both sides, the second implementation with a fault or
/// without, and stops at the first difference.
pub fn compare(seed: u64, fault: Fault) -> Result<Told, String> {
    let numbers = &mut Numbers::new(seed);
    let mut told = Told::default();
    for _ in 0..BLOCKS {
        let setting = any(numbers);
        let seeds = match numbers.within(0, 5) {
            0 => odd_seeds(numbers),
            _ => seeds(numbers),
        };
        let before: [u8; BLOCK] = std::array::from_fn(|_| numbers.word() as u8);
        let number = one(&setting, &seeds, &before, fault)?;
        let mut large = setting;
        large[MARK] = 0;
        let alone = || start(&Config::new(large, &seeds), &mut before.clone()) == 0;
        match number {
            0 => told.written[setting[MARK] as usize % 2] += 1,
            _ if alone() => told.for_the_mark += 1,
            _ => told.refused += 1,
        }
    }
    Ok(told)
}

/// A setting, at times with a word around 32 bits.
fn any(numbers: &mut Numbers) -> Setting {
    let mut setting = match numbers.within(0, 2) {
        0 => small(numbers),
        1 => near(numbers),
        _ => mixed(numbers, &NEW),
    };
    if numbers.one_in(2) {
        setting[MARK] = mark(numbers);
    }
    if numbers.one_in(6) {
        let place = numbers.within(0, 9) as usize;
        setting[place] = numbers.pick(&WIDE);
    }
    setting
}

/// Writes one block on both sides and compares; the number returned.
fn one(
    setting: &Setting,
    seeds: &[u16],
    before: &[u8; BLOCK],
    fault: Fault,
) -> Result<u32, String> {
    let (words, lent) = (Guarded::new(setting), Guarded::new(seeds));
    let mut block = Guarded::new(before);
    let number = library::log_start(&words, &lent, &mut block);
    let mut expected = *before;
    let wanted = start(&Config::new(*setting, seeds).with(fault), &mut expected);
    let place = (0..BLOCK).find(|&place| block.cells()[place] != expected[place]);
    let read = words.cells() == setting && lent.cells() == seeds;
    let intact = words.intact() && lent.intact() && block.intact();
    if number != wanted {
        return Err(format!(
            "number is {number}, expected {wanted}: {setting:?}"
        ));
    }
    if let Some(place) = place {
        let (found, wanted) = (block.cells()[place], expected[place]);
        return Err(format!(
            "byte {place} is {found}, expected {wanted}: {setting:?}"
        ));
    }
    if !read || !intact {
        return Err(format!(
            "setting, seeds or guard cells changed: {setting:?}"
        ));
    }
    Ok(number)
}
