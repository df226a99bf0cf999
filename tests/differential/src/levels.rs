//! Counters around N, for the openings left: each of a row's four counters in
//! the tested filter next to 0, to N or to the greatest that a cell of the width
//! holds, the other filter at another level. Each is tried with one request, which
//! is opened.

use crate::call::{Call, Kind};
use crate::lent::Lent;
use crate::pair::{Difference, Pair};
use second::filter::hash;
use second::setting::house_seeds;
use second::state::LAST;
use second::{Fault, Limits, NEW};

/// Thresholds N, the least, the greatest and some that pass a byte.
const THRESHOLDS: [u64; 8] = [1, 2, 3, 4, 256, 4_096, 32_767, 32_768];
/// Thresholds of the new width, some of which pass 16 bits.
const NEW_THRESHOLDS: [u64; 7] = [2, 32_769, 65_535, 65_536, 65_537, 131_072, 1 << 20];
/// Window of the setting, and its epoch.
const WINDOW: u64 = 1 << 22;
const EPOCH: u64 = WINDOW / 2;
/// Last tick and tick of the request: within epoch 0, within epoch 1, and from
/// the one to the other.
const TICKS: [(u64, u64); 3] = [(0, 3), (EPOCH, EPOCH + 3), (EPOCH - 1, EPOCH)];
/// A row with four places, and one whose four places are one.
const FOUR_PLACES: u16 = 5;
const ONE_PLACE: u16 = 0;

/// How many requests were opened with none left, and how many with some.
#[derive(Debug, Default)]
pub struct Told {
    pub none: u64,
    pub some: u64,
}

impl Told {
    fn note(&mut self, left: u64) {
        self.none += u64::from(left == 0);
        self.some += u64::from(left > 0);
    }
}

/// Tries all counters of a width, the second implementation with a fault or
/// without, and stops at the first difference.
pub fn compare(limits: Limits, fault: Fault) -> Result<Told, Box<Difference>> {
    let mut told = Told::default();
    let thresholds = match limits {
        NEW => NEW_THRESHOLDS.as_slice(),
        _ => &THRESHOLDS,
    };
    for &n in thresholds {
        let ask = |row, four, other, ticks| ask(limits, n, row, four, other, ticks, fault);
        for four in fours(&levels(limits, n)) {
            for ticks in TICKS {
                told.note(ask(FOUR_PLACES, four, 0, ticks)?);
                told.note(ask(FOUR_PLACES, four, n as u32, ticks)?);
                if four == [four[0]; 4] {
                    told.note(ask(ONE_PLACE, four, 0, ticks)?);
                }
            }
        }
    }
    Ok(told)
}

/// Counters next to 0, to N and to the greatest, and in the new width around
/// 65,536.
fn levels(limits: Limits, n: u64) -> Vec<u32> {
    let mut levels = match limits {
        NEW => vec![0, 65_535, 65_536, n - 1, n, u64::from(u32::MAX)],
        _ => vec![0, 1, n.saturating_sub(2), n - 1, n, n + 1, 65_535],
    };
    levels.sort_unstable();
    levels.dedup();
    levels.into_iter().map(|level| level as u32).collect()
}

/// Every four of these levels.
fn fours(levels: &[u32]) -> Vec<[u32; 4]> {
    let many = levels.len();
    let level = |k: usize| levels[k % many];
    (0..many.pow(4))
        .map(|k| [k, k / many, k / many.pow(2), k / many.pow(3)].map(level))
        .collect()
}

/// Requests a row on both sides, with these four counters in the filter that is
/// tested at the request's tick and another level in the other filter, and
/// compares. Returns the openings left.
fn ask(
    limits: Limits,
    n: u64,
    row: u16,
    four: [u32; 4],
    other: u32,
    (last, tick): (u64, u64),
    fault: Fault,
) -> Result<u64, Box<Difference>> {
    let setting = [WINDOW, 1, 64, n, 64, 1 << 24, 255, 1, 1, 0];
    let mut lent = Lent::exact(limits, setting, house_seeds());
    lent.state.head[LAST] = last;
    lent.state.counters.fill(other);
    let tested = (tick / EPOCH % 2) as usize * 1_024;
    for (place, counter) in hash(&lent.seeds, row).into_iter().zip(four) {
        lent.state.counters[tested + place] = counter;
    }
    let call = Call {
        kind: Kind::Request,
        tick,
        row,
        ..Call::SETUP
    };
    let answer = Pair::new(lent, fault).call(&call)?;
    assert_eq!((answer.number, answer.out[0]), (0, 0), "{call:?} is opened");
    Ok(answer.out[2])
}
