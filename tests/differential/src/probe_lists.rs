//! Lists of two probes at every edge: differences around both ends of the offsets and
//! around a jitter's width, far ones, words that differ in one bit, lengths that differ,
//! ticks and jitters at their limits, and counts around the lengths of the buffers.

use second::probes::List;
use std::fmt;

/// The first tick that is refused.
pub const LATE: u64 = 1 << 62;
/// The greatest jitter.
pub const MOST_JITTER: u64 = 1_000;
/// Jitters above it.
pub const GREAT_JITTERS: [u64; 9] = [
    1_001,
    1_002,
    2_000,
    1 << 16,
    1 << 32,
    (1 << 32) + 5,
    1 << 63,
    (1 << 63) + 5,
    u64::MAX,
];
/// Ticks around the limit and above it.
const TICKS: [u64; 7] = [
    LATE - 1,
    LATE,
    LATE + 1,
    (1 << 63) - 1,
    1 << 63,
    (1 << 63) + 5,
    u64::MAX,
];
/// Banks and rows of listed records, in turn, each as bank * 65,536 + row.
const WORDS: [u32; 5] = [5, 0x0003_0007, u32::MAX, 0x8000_0000, 0];
/// The jitters with which differences are listed.
const JITTERS: [u64; 6] = [0, 1, 2, 499, 999, 1_000];

/// What a probe recorded, with buffers of its own.
#[derive(Clone)]
pub struct Probe {
    pub ticks: Vec<u64>,
    pub rows: Vec<u32>,
    pub count: u64,
}

impl Probe {
    /// Records with these ticks and words.
    pub fn new(ticks: Vec<u64>, rows: Vec<u32>) -> Self {
        let count = ticks.len() as u64;
        Probe { ticks, rows, count }
    }

    pub fn lent(&self) -> List<'_> {
        List {
            ticks: &self.ticks,
            rows: &self.rows,
            count: self.count,
        }
    }

    /// The ticks below the count, as far as there are any.
    pub fn recorded(&self) -> &[u64] {
        &self.ticks[..self.ticks.len().min(self.count as usize)]
    }

    /// The ticks behind the count.
    pub fn rest(&self) -> &[u64] {
        &self.ticks[self.recorded().len()..]
    }

    /// The words below the count, as far as there are any.
    pub fn words(&self) -> &[u32] {
        &self.rows[..self.rows.len().min(self.count as usize)]
    }

    /// Adds records behind the count.
    pub fn add_rest(&mut self, ticks: &[u64]) {
        self.ticks.extend(ticks);
        self.rows.extend((0x7777_0000..).take(ticks.len()));
    }
}

/// Two lists and a jitter.
#[derive(Clone)]
pub struct Case {
    pub lists: [Probe; 2],
    pub jitter: u64,
}

impl Case {
    /// Records of the first list, and the same in the second with these differences.
    pub fn new(ticks: Vec<u64>, rows: Vec<u32>, differences: &[i64], jitter: u64) -> Self {
        let pairs = ticks.iter().zip(differences);
        let later = pairs.map(|(tick, &difference)| tick.checked_add_signed(difference));
        let second = later.map(|tick| tick.expect("a tick of 64 bits")).collect();
        let lists = [Probe::new(ticks, rows.clone()), Probe::new(second, rows)];
        Case { lists, jitter }
    }

    /// Pairs with listed banks and rows and these differences, from this tick on.
    fn at(tick: u64, differences: &[i64], jitter: u64) -> Self {
        let first: Vec<u64> = (tick..).step_by(3).take(differences.len()).collect();
        let rows: Vec<u32> = (0..first.len()).map(|place| WORDS[place % 5]).collect();
        Case::new(first, rows, differences, jitter)
    }

    /// The same from a tick in the middle of all.
    fn of(differences: &[i64], jitter: u64) -> Self {
        Case::at(1 << 61, differences, jitter)
    }

    /// So many pairs that fit, of which each list has a part only.
    fn parts(first: usize, second: usize, jitter: u64) -> Self {
        let mut case = Case::of(&vec![3; first.max(second)], jitter);
        for (list, count) in case.lists.iter_mut().zip([first, second]) {
            list.ticks.truncate(count);
            list.rows.truncate(count);
            list.count = count as u64;
        }
        case
    }

    fn exchanged(&self) -> Self {
        let [first, second] = self.lists.clone();
        Case {
            lists: [second, first],
            jitter: self.jitter,
        }
    }

    /// The same with records behind the counts, in the second list more of them.
    fn with_rest(&self) -> Self {
        let mut case = self.clone();
        case.lists[0].add_rest(&[9, u64::MAX]);
        case.lists[1].add_rest(&[9, LATE, 0]);
        case.lists[1].rows.push(5);
        case
    }
}

/// The jitter, and of each list its count, lengths and first records.
impl fmt::Display for Case {
    fn fmt(&self, text: &mut fmt::Formatter) -> fmt::Result {
        write!(text, "jitter {}", self.jitter)?;
        for list in &self.lists {
            let (ticks, rows) = (&list.ticks, &list.rows);
            let lengths = (list.count, ticks.len(), rows.len());
            let [first, words] = [ticks.len().min(4), rows.len().min(4)];
            let (first, words) = (&ticks[..first], &rows[..words]);
            write!(text, "; {lengths:?} {first:?} {words:x?}")?;
        }
        Ok(())
    }
}

/// All listed cases, made as they are asked for; those that are answered, and those at the
/// limits of ticks and jitter, once more with records behind the counts.
pub fn listed() -> impl Iterator<Item = Case> {
    let lists: [fn() -> Vec<Case>; 5] = [
        around_ends,
        far_apart,
        other_words,
        other_lengths,
        at_limits,
    ];
    let others: [fn() -> Vec<Case>; 2] = [short_buffers, many_pairs];
    let plain = lists.into_iter().chain(others).flat_map(|list| list());
    let longer = lists.into_iter().flat_map(|list| list());
    plain.chain(longer.map(|case| case.with_rest()))
}

/// Differences around both ends of the offsets, with the jitter on either side, alone
/// and beside one that is about twice the jitter away.
fn around_ends() -> Vec<Case> {
    let mut cases = vec![Case::of(&[], 0), Case::of(&[], MOST_JITTER)];
    for jitter in JITTERS {
        let j = jitter as i64;
        for edge in [-1_000 - j, -1_000 + j, -j, j, 1_000 - j, 1_000 + j] {
            for one in edge - 2..=edge + 2 {
                cases.push(Case::of(&[one], jitter));
                for wide in [0, 1, 2 * j - 1, 2 * j, 2 * j + 1] {
                    cases.push(Case::of(&[one, one + wide], jitter));
                    cases.push(Case::of(&[one, one, one - wide, one], jitter));
                }
            }
        }
    }
    cases
}

/// Differences that 32 bits do not hold, and ticks with other lowest bits.
fn far_apart() -> Vec<Case> {
    let mut cases = Vec::new();
    for far in [
        1 << 31,
        (1 << 32) - 5,
        1 << 32,
        (1 << 32) + 5,
        (1 << 61) - 9,
    ] {
        for jitter in [0, 5, MOST_JITTER] {
            cases.push(Case::of(&[far], jitter));
            cases.push(Case::of(&[-far], jitter));
            cases.push(Case::of(&[0, 0, far], jitter));
            cases.push(Case::of(&[0, -far, 0], jitter));
        }
    }
    let most = LATE as i64 - 1;
    cases.push(Case::at(0, &[most], MOST_JITTER));
    cases.push(Case::at(LATE - 1, &[-most], MOST_JITTER));
    for tick in [0, (1 << 32) - 4, (1 << 61) - 4, LATE - 12] {
        for jitter in [0, 1, 5] {
            cases.push(Case::at(tick, &[0, 1, 2, 3], jitter));
            cases.push(Case::at(tick, &[3, 2, 1, 0], jitter));
            cases.push(Case::at(tick + 3, &[-3, -2, 2], jitter));
        }
    }
    cases
}

/// Pairs that fit but for one bit of a word, and words in another order.
fn other_words() -> Vec<Case> {
    let mut cases = Vec::new();
    for bit in 0..32 {
        for (place, side) in [(0, 0), (2, 1), (4, 0), (4, 1)] {
            let mut case = Case::of(&[3, 4, 3, 5, 4], 5);
            case.lists[side].rows[place] ^= 1 << bit;
            cases.push(case);
        }
    }
    // The second list in another order: its words, its ticks, and both.
    let case = Case::of(&[40, 40, 40], 10);
    let [mut words, mut ticks, mut both] = [(); 3].map(|()| case.clone());
    words.lists[1].rows.swap(0, 2);
    ticks.lists[1].ticks.swap(0, 2);
    both.lists[1].rows.swap(0, 2);
    both.lists[1].ticks.swap(0, 2);
    cases.extend([words, ticks, both]);
    cases
}

/// Lists of which one has records without a partner.
fn other_lengths() -> Vec<Case> {
    let mut cases = Vec::new();
    for first in 0..6 {
        for second in 0..6 {
            cases.push(Case::parts(first, second, 5));
            // The same lengths by the counts alone.
            let mut case = Case::parts(6, 6, 5);
            case.lists[0].count = first as u64;
            case.lists[1].count = second as u64;
            cases.push(case);
        }
    }
    cases
}

/// Ticks at their limit at every place, and jitters at theirs, in lists of equal length
/// and others, and where a word differs.
fn at_limits() -> Vec<Case> {
    let mut cases = Vec::new();
    for (first, second) in [(0, 0), (1, 1), (3, 3), (4, 3), (5, 3), (2, 0)] {
        let good = Case::parts(first, second, 5);
        for tick in TICKS {
            for place in 0..first {
                let mut case = good.clone();
                case.lists[0].ticks[place] = tick;
                if let Some(partner) = case.lists[1].ticks.get_mut(place) {
                    *partner = LATE - 1;
                }
                cases.push(case.clone());
                case.lists[0].rows[0] ^= 1;
                cases.push(case);
            }
        }
        for jitter in [&JITTERS[..], &GREAT_JITTERS].concat() {
            let mut case = Case::parts(first, second, jitter);
            cases.push(case.clone());
            case.lists[0].rows.iter_mut().for_each(|word| *word ^= 1);
            cases.push(case);
        }
    }
    let exchanged: Vec<Case> = cases.iter().map(Case::exchanged).collect();
    cases.extend(exchanged);
    cases
}

/// Counts below, at and above the lengths of each buffer, with a reason for 18 and
/// without.
fn short_buffers() -> Vec<Case> {
    let mut cases = Vec::new();
    for (first, second) in [(0, 0), (3, 3), (4, 3), (3, 4), (1, 0), (0, 2)] {
        for (jitter, late) in [(5, false), (1_001, false), (5, true), (1_001, true)] {
            let mut good = Case::parts(first, second, jitter);
            if late {
                good.lists.iter_mut().for_each(|list| list.ticks.fill(LATE));
            }
            for side in 0..2 {
                cases.extend(short_list(&good, side));
            }
        }
    }
    cases
}

/// The case with a count, of one list, around the lengths of its buffers: of both, of its
/// ticks alone and of its rows alone.
fn short_list(good: &Case, side: usize) -> Vec<Case> {
    let own = good.lists[side].count;
    let mut cases = Vec::new();
    for more in [1, 2, 1 << 32, (1 << 63) - own, u64::MAX - own] {
        let mut both = good.clone();
        both.lists[side].count = own + more;
        let (mut ticks, mut rows) = (both.clone(), both.clone());
        rows.lists[side].ticks.extend([9, 9]);
        ticks.lists[side].rows.extend([9, 9]);
        cases.extend([both, ticks, rows]);
    }
    for fewer in 1..=own {
        let mut case = good.clone();
        case.lists[side].count = own - fewer;
        cases.push(case.clone());
        case.lists[side].ticks.truncate((own - fewer) as usize);
        cases.push(case);
    }
    cases
}

/// So many pairs that 8 or 16 bits do not hold their count, the last one as the others,
/// with another tick or with another word.
fn many_pairs() -> Vec<Case> {
    let mut cases = Vec::new();
    for many in [255, 256, 257, 65_535, 65_536, 65_538] {
        let mut case = Case::of(&vec![-7; many], 0);
        cases.push(case.clone());
        case.lists[0].rows[many - 1] ^= 1 << 31;
        cases.push(case.clone());
        case.lists[1].rows[many - 1] ^= 1 << 31;
        case.lists[1].ticks[many - 1] += 1;
        cases.push(case);
    }
    cases
}
