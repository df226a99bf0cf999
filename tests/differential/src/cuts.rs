//! The cut-down log compared with the second implementation: logs whose selection is
//! known, logs that are refused, and logs at random, short and long ones and ones of large
//! settings.

use crate::cut_runs;
use crate::cut_tally::Told;
use crate::library;
use crate::memory::Guarded;
use crate::numbers::Numbers;
use second::cut_damage::{self, Refused};
use second::{cut_down, cut_logs, Fault};
use std::sync::OnceLock;

/// Short logs at random that are tried, long ones, and ones of large settings.
const SHORT: u64 = 6_000;
const LONG: u64 = 120;
const GREAT: u64 = 60;
/// What `out` holds before a call.
const OUT: u64 = 0x1111_2222_3333_4444;

/// Cuts down the logs whose selection is known on both sides, the second implementation
/// with a fault or without, and stops at the first difference.
pub fn known(fault: Fault) -> Result<Told, String> {
    let mut told = Told::default();
    for known in cut_logs::all() {
        let log = known.log();
        let (number, out) = one(&log, fault, 0, &mut told)?;
        let left = known.left.iter().fold(0, |word, place| word | 1 << place);
        if (number, out) != (0, left) {
            return Err(format!("{number} {out:x}, expected {left:x}: {known:?}"));
        }
    }
    Ok(told)
}

/// The same with logs that are refused, or nearly.
pub fn refused(fault: Fault) -> Result<Told, String> {
    static LOGS: OnceLock<Vec<Refused>> = OnceLock::new();
    let mut told = Told::default();
    for refused in LOGS.get_or_init(cut_damage::all) {
        let Refused {
            log,
            number,
            behind,
        } = refused;
        let found = one(log, fault, *behind, &mut told)?.0;
        if found != *number {
            return Err(format!("{found}, expected {number} before {behind}"));
        }
    }
    Ok(told)
}

/// The same with short logs at random.
pub fn short(seed: u64, fault: Fault) -> Result<Told, String> {
    let mut numbers = Numbers::new(seed);
    let logs = (0..SHORT).map(move |_| {
        let many = match numbers.within(0, 9) {
            0..=6 => numbers.within(1, 9),
            _ => numbers.within(10, 24),
        };
        cut_runs::short(&mut numbers, many)
    });
    compare(logs, fault)
}

/// The same with logs of up to 66 records.
pub fn long(seed: u64, fault: Fault) -> Result<Told, String> {
    let mut numbers = Numbers::new(seed);
    let logs = (0..LONG).map(move |_| {
        let many = match numbers.within(0, 2) {
            0 => numbers.within(60, 66),
            _ => numbers.within(25, 64),
        };
        cut_runs::short(&mut numbers, many)
    });
    compare(logs, fault)
}

/// The same with logs of large settings.
pub fn great(seed: u64, fault: Fault) -> Result<Told, String> {
    let mut numbers = Numbers::new(seed);
    let logs = (0..GREAT).map(move |_| {
        let many = numbers.within(1, 12);
        cut_runs::great(&mut numbers, many)
    });
    compare(logs, fault)
}

fn compare(logs: impl Iterator<Item = Vec<u8>>, fault: Fault) -> Result<Told, String> {
    let mut told = Told::default();
    for log in logs {
        one(&log, fault, 0, &mut told)?;
    }
    Ok(told)
}

/// Cuts a log down on both sides and compares; the number and what out then holds. What
/// the log reached is counted where there is no fault, with a refusal that it is known to
/// have behind the first.
fn one(log: &[u8], fault: Fault, behind: u32, told: &mut Told) -> Result<(u32, u64), String> {
    let (lent, mut out) = (Guarded::new(log), Guarded::new(&[OUT]));
    let number = library::cut_down(&lent, &mut out);
    let mut expected = [OUT];
    let wanted = cut_down(log, fault, &mut expected);
    let (found, [expected]) = (out.cells()[0], expected);
    if (number, found) != (wanted, expected) {
        let bytes = log.len();
        return Err(format!(
            "{number} {found:x}, expected {wanted} {expected:x}, in {bytes} bytes"
        ));
    }
    if lent.cells() != log || !lent.intact() || !out.intact() {
        return Err("log or guard cells changed".to_string());
    }
    if fault == Fault::None {
        told.note(log, number, found, behind);
    }
    Ok((number, found))
}
