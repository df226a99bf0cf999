//! Lists of two probes with buffers of their own, the call on them, offsets worked out
//! by hand, and differences at random.

use super::Numbers;
use second::probes::List;
use second::{fit_probes, Fault};

/// What `out` holds before a call.
pub const BEFORE: [u64; 2] = [777, 778];
/// The first tick that is refused.
pub const LATE: u64 = 1 << 62;
/// Banks and rows of the records, in turn, each as bank * 65,536 + row.
const WORDS: [u32; 4] = [5, 0x0003_0007, u32::MAX, 0x8000_0000];

/// What a probe recorded.
#[derive(Clone)]
pub struct Probe {
    pub ticks: Vec<u64>,
    pub rows: Vec<u32>,
    pub count: u64,
}

impl Probe {
    /// The records of these ticks.
    pub fn new(ticks: &[u64]) -> Self {
        Probe {
            ticks: ticks.to_vec(),
            rows: (0..ticks.len()).map(|place| WORDS[place % 4]).collect(),
            count: ticks.len() as u64,
        }
    }

    fn lent(&self) -> List<'_> {
        List {
            ticks: &self.ticks,
            rows: &self.rows,
            count: self.count,
        }
    }
}

/// The first list, the second one and the jitter.
#[derive(Clone)]
pub struct Case(pub Probe, pub Probe, pub u64);

impl Case {
    /// Pairs with the same banks and rows and these differences.
    pub fn new(differences: &[i64], jitter: u64) -> Self {
        let places = 0..differences.len() as u64;
        let first: Vec<u64> = places.map(|place| 10_000 + 7 * place).collect();
        let pairs = first.iter().zip(differences);
        let later = pairs.map(|(tick, &difference)| tick.checked_add_signed(difference));
        let second: Vec<u64> = later.map(Option::unwrap).collect();
        Case(Probe::new(&first), Probe::new(&second), jitter)
    }

    /// The same with the lists exchanged.
    pub fn exchanged(&self) -> Self {
        Case(self.1.clone(), self.0.clone(), self.2)
    }

    /// The same with records behind the counts that must not be looked at.
    pub fn with_rest(&self) -> Self {
        let mut case = self.clone();
        case.0.ticks.extend([LATE, 3]);
        case.0.rows.extend([1, 2]);
        case.1.ticks.extend([9_000, u64::MAX, 5]);
        case.1.rows.extend([3, 4, 5, 6]);
        case
    }
}

/// The number that the call returns, and `out` after it.
pub fn found(case: &Case, fault: Fault) -> (u32, [u64; 2]) {
    let mut out = BEFORE;
    let Case(first, second, jitter) = case;
    let number = fit_probes(&first.lent(), &second.lent(), *jitter, fault, &mut out);
    (number, out)
}

/// Differences, a jitter and the offset: the greatest difference less the jitter, but
/// not below -1,000, where that is at most the least one plus the jitter, and 1,000.
pub const BY_HAND: &[(&[i64], u64, Option<i64>)] = &[
    (&[5], 0, Some(5)),
    (&[5], 3, Some(2)),
    (&[-5], 0, Some(-5)),
    (&[-5], 3, Some(-8)),
    (&[0], 0, Some(0)),
    (&[4, 9, 7], 3, Some(6)),  // 6 and 7 fit
    (&[4, 10, 7], 3, Some(7)), // 7 alone: 4 + 3 and 10 - 3
    (&[4, 11, 7], 3, None),    // 11 - 3 is above 4 + 3
    (&[7, 11, 4], 3, None),
    (&[7, 4, 11], 3, None),
    (&[1, -1], 0, None),
    (&[1, -1], 1, Some(0)),
    (&[0, 0, 0], 1_000, Some(-1_000)),
    (&[1], 1_000, Some(-999)),
    (&[1_000], 0, Some(1_000)),
    (&[1_001], 0, None),
    (&[1_001], 1, Some(1_000)),
    (&[1_002], 1, None),
    (&[2_000], 1_000, Some(1_000)),
    (&[2_001], 1_000, None),
    (&[-1_000], 0, Some(-1_000)),
    (&[-1_001], 0, None),
    (&[-1_001], 1, Some(-1_000)),
    (&[-1_002], 1, None),
    (&[-2_000], 1_000, Some(-1_000)),
    (&[-2_001], 1_000, None),
    (&[-1_999, 1], 1_000, Some(-999)), // -999 alone
    (&[-2_000, 0], 1_000, Some(-1_000)),
    (&[-2_000, 1], 1_000, None),
    (&[2_000, 0], 1_000, Some(1_000)),
    (&[2_000, -1], 1_000, None),
    (&[-1_500, -1_000], 600, Some(-1_000)), // -1,600 fits too, and is no offset
];

/// Differences about one offset, within a jitter or a little more.
pub fn any(numbers: &mut Numbers) -> (Vec<i64>, u64) {
    let jitter = [0, 1, 2, 3, 40, 999, 1_000][numbers.within(0, 6) as usize];
    let middle = match numbers.within(0, 3) {
        0 => numbers.within(0, 5) as i64 - 1_002,
        1 => numbers.within(0, 5) as i64 + 998,
        _ => numbers.within(0, 2_000) as i64 - 1_000,
    };
    let wide = jitter + u64::from(numbers.one_in(3));
    let many = [1, 2, 3, 6][numbers.within(0, 3) as usize];
    let mut near = || match numbers.within(0, 3) {
        0 => middle - wide as i64,
        1 => middle + wide as i64,
        _ => middle - wide as i64 + numbers.within(0, 2 * wide) as i64,
    };
    ((0..many).map(|_| near()).collect(), jitter)
}
