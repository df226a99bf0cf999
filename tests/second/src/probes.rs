//! Two probes on one channel: whether the lists that they recorded fit, and by how
//! many ticks their clocks differ. Every offset is tried, from the least on, and
//! numbers have a sign. The refusals of the call are in `probe_refusals`.

use crate::fault::Fault;
use crate::probe_refusals::refusal;
use std::ops::RangeInclusive;

/// The least and the greatest offset d.
const LEAST: i128 = -1_000;
const GREATEST: i128 = 1_000;
/// A number above every difference of ticks and every offset, for faults.
const FAR: i128 = 1 << 100;

/// What a probe recorded, as it is lent: record i is ticks[i] and rows[i], for i below
/// the count, and rows[i] is bank * 65,536 + row.
#[derive(Clone, Copy)]
pub struct List<'a> {
    pub ticks: &'a [u64],
    pub rows: &'a [u32],
    pub count: u64,
}

/// Writes 1 and the least d that fits, as 64 bits, or 0 and 0 where none does, and
/// returns 0; or returns the number of a refusal.
pub fn fit_probes(
    first: &List,
    second: &List,
    jitter: u64,
    fault: Fault,
    out: &mut [u64; 2],
) -> u32 {
    let lists = [first, second];
    let number = refusal(lists, jitter, fault);
    match (fault, number) {
        (Fault::ProbesSixUnfit, 6) | (Fault::ProbesEighteenUnfit, 18) => {
            *out = [0, 0];
            return 0;
        }
        (Fault::ProbesSixWrites, 6) | (Fault::ProbesEighteenWrites, 18) => *out = [0, 0],
        (Fault::ProbesEighteenAndVerdict, 18) => write(offset(lists, jitter, fault), fault, out),
        (_, 0) => return answer(lists, jitter, fault, out),
        _ => {}
    }
    number
}

/// Writes the verdict on lists that are not refused, and returns 0.
fn answer(lists: [&List; 2], jitter: u64, fault: Fault, out: &mut [u64; 2]) -> u32 {
    let found = offset(lists, jitter, fault);
    let differ = lists[0].count != lists[1].count;
    match fault {
        Fault::ProbesUnfitRefused if found.is_none() => return 18,
        Fault::ProbesLengthsRefused if differ => return 6,
        Fault::ProbesUnfitWritesOffset if found.is_none() => {
            let least = offset(lists, jitter, Fault::ProbesAboveOnly);
            *out = [0, least.unwrap_or(GREATEST) as u64];
        }
        _ => write(found, fault, out),
    }
    0
}

/// Writes the verdict.
fn write(found: Option<i128>, fault: Fault, out: &mut [u64; 2]) {
    let Some(d) = found else {
        match fault {
            Fault::ProbesUnfitNotWritten => {}
            Fault::ProbesUnfitOffsetKept => out[0] = 0,
            Fault::ProbesUnfitWritesLeast => *out = [0, LEAST as u64],
            Fault::ProbesFitInverted => *out = [1, 0],
            _ => *out = [0, 0],
        }
        return;
    };
    *out = match fault {
        Fault::ProbesWordsExchanged => [d as u64, 1],
        Fault::ProbesFitNotWritten => [out[0], d as u64],
        Fault::ProbesOffsetNotWritten => [1, out[1]],
        Fault::ProbesFitInverted => [0, d as u64],
        Fault::ProbesOffsetBiased => [1, (d - LEAST) as u64],
        Fault::ProbesOffsetCut32 => [1, u64::from(d as u32)],
        Fault::ProbesOffsetAbsolute => [1, d.unsigned_abs() as u64],
        Fault::ProbesOffsetNegated => [1, -d as u64],
        _ => [1, d as u64],
    };
}

/// The least d that fits: none where the lists differ in length, in a bank or a row,
/// or no d is left.
fn offset(lists: [&List; 2], jitter: u64, fault: Fault) -> Option<i128> {
    let [first, second] = lists.map(|list| records(list, fault));
    if first.is_empty() && second.is_empty() {
        match fault {
            Fault::ProbesEmptyMinus999 => return Some(-999),
            Fault::ProbesEmptyZero => return Some(0),
            Fault::ProbesEmptyGreatest => return Some(GREATEST),
            Fault::ProbesEmptyUnfit => return None,
            _ => {}
        }
    }
    if !are_of_one_length(lists, [first.len(), second.len()], fault) {
        return None;
    }
    chosen(&Pairs::new(&first, &second, fault), jitter, fault)
}

/// May lists of these lengths fit?
fn are_of_one_length(lists: [&List; 2], [first, second]: [usize; 2], fault: Fault) -> bool {
    match fault {
        Fault::ProbesLengthsIgnored => true,
        Fault::ProbesFirstMayBeLonger => first >= second,
        Fault::ProbesSecondMayBeLonger => first <= second,
        Fault::ProbesOneMoreMayBe => first.abs_diff(second) <= 1,
        Fault::ProbesEmptyFitsAll => first == second || first == 0 || second == 0,
        Fault::ProbesLengthsOfBuffers => lists[0].ticks.len() == lists[1].ticks.len(),
        _ => first == second,
    }
}

/// The records of a list in recorded order, each a tick and a row's word. There are as
/// many as its count; fewer only by a fault that does not refuse a count.
fn records(list: &List, fault: Fault) -> Vec<(u64, u32)> {
    let all = list.ticks.iter().copied().zip(list.rows.iter().copied());
    let count = match fault {
        Fault::ProbesRestOfBuffers => u64::MAX,
        Fault::ProbesCountCut8 => list.count % (1 << 8),
        Fault::ProbesCountCut16 => list.count % (1 << 16),
        Fault::ProbesCountCut32 => list.count % (1 << 32),
        _ => list.count,
    };
    let mut records: Vec<(u64, u32)> = all.take(count as usize).collect();
    match fault {
        Fault::ProbesSortedByTick => records.sort_by_key(|&(tick, _)| tick),
        Fault::ProbesRowsInAnyOrder => {
            let mut words: Vec<u32> = records.iter().map(|&(_, word)| word).collect();
            words.sort_unstable();
            let sorted = records.iter_mut().zip(words);
            sorted.for_each(|(record, word)| record.1 = word);
        }
        _ => {}
    }
    records
}

/// The pairs of two lists: whether all have the same bank and row, and the second tick
/// minus the first of each.
struct Pairs {
    same: bool,
    differences: Vec<i128>,
}

impl Pairs {
    fn new(first: &[(u64, u32)], second: &[(u64, u32)], fault: Fault) -> Self {
        let many = first.len().min(second.len());
        let mut pairs = Pairs {
            same: true,
            differences: Vec::new(),
        };
        for (place, (one, two)) in first.iter().zip(second).enumerate() {
            let (row, tick) = looked_at(place, many, fault);
            if row {
                pairs.same &= is_same(one.1, two.1, fault);
            }
            if tick {
                pairs.differences.push(difference(one.0, two.0, fault));
            }
        }
        if fault == Fault::ProbesZeroPair {
            pairs.differences.push(0);
        }
        pairs
    }
}

/// Are the rows of the pair at this place of so many looked at, and are its ticks? All
/// are.
fn looked_at(place: usize, many: usize, fault: Fault) -> (bool, bool) {
    let (first, last) = (place == 0, place + 1 == many);
    match fault {
        Fault::ProbesFirstPairOnly => (first, first),
        Fault::ProbesLastPairOnly => (last, last),
        Fault::ProbesFirstPairLeftOut => (!first, !first),
        Fault::ProbesLastPairLeftOut => (!last, !last),
        Fault::ProbesRowsOfFirstOnly => (first, true),
        Fault::ProbesRowsOfLastLeftOut => (!last, true),
        Fault::ProbesTicksOfFirstOnly => (true, first),
        Fault::ProbesTicksOfLastLeftOut => (true, !last),
        Fault::ProbesTicksOfEndsOnly => (true, first || last),
        _ => (true, true),
    }
}

/// Do these words have the same bank and the same row?
fn is_same(first: u32, second: u32, fault: Fault) -> bool {
    let bank = |word: u32| word / 65_536;
    let row = |word: u32| word % 65_536;
    match fault {
        Fault::ProbesBankIgnored => row(first) == row(second),
        Fault::ProbesRowIgnored => bank(first) == bank(second),
        Fault::ProbesWordsIgnored => true,
        Fault::ProbesBankCut => first % (1 << 20) == second % (1 << 20),
        Fault::ProbesHighestBitIgnored => first << 1 == second << 1,
        Fault::ProbesLowestBitIgnored => first >> 1 == second >> 1,
        _ => bank(first) == bank(second) && row(first) == row(second),
    }
}

/// The second tick minus the first.
fn difference(first: u64, second: u64, fault: Fault) -> i128 {
    let difference = i128::from(second) - i128::from(first);
    match fault {
        Fault::ProbesFirstMinusSecond => -difference,
        Fault::ProbesAbsoluteDifference => difference.abs(),
        Fault::ProbesDifferenceNotNegative => difference.max(0),
        Fault::ProbesSecondEarlierUnfit if difference < 0 => FAR,
        Fault::ProbesDifferenceInRange if difference.abs() > GREATEST => FAR,
        Fault::ProbesDifferenceCut32 => i128::from(difference as i32),
        Fault::ProbesTicksCut32 => i128::from(second as u32) - i128::from(first as u32),
        Fault::ProbesTicksRounded => (second as f64 - first as f64) as i128,
        _ => difference,
    }
}

/// How far a difference may be below d and above d: j on each side.
fn sides(jitter: u64, fault: Fault) -> (i128, i128) {
    let j = i128::from(jitter);
    match fault {
        Fault::ProbesStrictAbove => (j, j - 1),
        Fault::ProbesStrictBelow => (j - 1, j),
        Fault::ProbesJitterIgnored => (0, 0),
        Fault::ProbesJitterOneMore => (j + 1, j + 1),
        Fault::ProbesJitterDoubled => (2 * j, 2 * j),
        Fault::ProbesJitterHalved => (j / 2, j / 2),
        Fault::ProbesJitterClipped => (j.min(1_000), j.min(1_000)),
        Fault::ProbesAboveOnly => (FAR, j),
        Fault::ProbesBelowOnly => (j, FAR),
        _ => (j, j),
    }
}

/// The offsets that are tried.
fn tried(fault: Fault) -> RangeInclusive<i128> {
    match fault {
        Fault::ProbesFromMinus999 => -999..=GREATEST,
        Fault::ProbesFromMinus1001 => -1_001..=GREATEST,
        Fault::ProbesTo999 => LEAST..=999,
        Fault::ProbesTo1001 => LEAST..=1_001,
        Fault::ProbesBelowRange => -10_000..=GREATEST,
        Fault::ProbesAboveRange => LEAST..=10_000,
        Fault::ProbesFromZero => 0..=GREATEST,
        Fault::ProbesToZero => LEAST..=0,
        _ => LEAST..=GREATEST,
    }
}

/// The d that is given: of those tried the least for which each pair has the same bank
/// and row, and a difference within j of d.
fn chosen(pairs: &Pairs, jitter: u64, fault: Fault) -> Option<i128> {
    let (below, above) = sides(jitter, fault);
    let is_within = |d: i128, difference: i128| d - below <= difference && difference <= d + above;
    let differences = &pairs.differences;
    let fits = |d: &i128| pairs.same && differences.iter().all(|&found| is_within(*d, found));
    let mut offsets = tried(fault);
    match fault {
        Fault::ProbesGreatest => offsets.rev().find(fits),
        Fault::ProbesNearestZero => offsets.filter(fits).min_by_key(|d| d.abs()),
        Fault::ProbesMiddle => {
            let all: Vec<i128> = offsets.filter(fits).collect();
            all.get(all.len().saturating_sub(1) / 2).copied()
        }
        Fault::ProbesOffsetOfFirst => match differences.first() {
            Some(&first) => Some(first).filter(|d| offsets.contains(d) && fits(d)),
            None => offsets.find(fits),
        },
        Fault::ProbesClippedBelow => match offsets.find(fits) {
            None => (-10_000..LEAST).any(|d| fits(&d)).then_some(LEAST),
            found => found,
        },
        Fault::ProbesClippedAbove => match offsets.find(fits) {
            None => (GREATEST..10_000).any(|d| fits(&d)).then_some(GREATEST),
            found => found,
        },
        _ => offsets.find(fits),
    }
}
