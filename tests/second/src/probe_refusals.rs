//! The refusals of the fit of two probes: 6 for a count above the length of one of its
//! buffers, then 18 for a jitter above 1,000 or a tick of 2^62 or more.

use crate::fault::Fault;
use crate::probes::List;

/// Faults about one of the four buffers: the first list's ticks and rows, then the
/// second's. Its length is not tested, is taken as one less, or as one more.
const UNTESTED: [Fault; 4] = [
    Fault::ProbesSixFirstTicksFree,
    Fault::ProbesSixFirstRowsFree,
    Fault::ProbesSixSecondTicksFree,
    Fault::ProbesSixSecondRowsFree,
];
const ONE_LESS: [Fault; 4] = [
    Fault::ProbesSixFirstTicksAt,
    Fault::ProbesSixFirstRowsAt,
    Fault::ProbesSixSecondTicksAt,
    Fault::ProbesSixSecondRowsAt,
];
const ONE_MORE: [Fault; 4] = [
    Fault::ProbesSixFirstTicksAbove,
    Fault::ProbesSixFirstRowsAbove,
    Fault::ProbesSixSecondTicksAbove,
    Fault::ProbesSixSecondRowsAbove,
];

/// The number of the refusal, 0 for none.
pub fn refusal(lists: [&List; 2], jitter: u64, fault: Fault) -> u32 {
    let short = is_short(lists, fault);
    let refused_jitter = is_jitter_refused(lists, jitter, fault);
    let refused_tick = is_tick_refused(lists, fault);
    match fault {
        Fault::ProbesJitterBeforeSix if refused_jitter => 18,
        Fault::ProbesTicksBeforeSix if refused_tick => 18,
        Fault::ProbesSixIsEighteen if short => 18,
        _ if short => 6,
        Fault::ProbesJitterIsOne if refused_jitter => 1,
        Fault::ProbesTickIsNine if refused_tick => 9,
        _ if refused_jitter || refused_tick => 18,
        _ => 0,
    }
}

/// Is a count above the length of its ticks or of its rows?
fn is_short(lists: [&List; 2], fault: Fault) -> bool {
    let [first, second] = lists;
    let buffers = [
        (first.count, first.ticks.len()),
        (first.count, first.rows.len()),
        (second.count, second.ticks.len()),
        (second.count, second.rows.len()),
    ];
    let counts = [first.count, second.count];
    let is_above = |k: usize| {
        let (own, length) = (buffers[k].0, buffers[k].1 as u64);
        let count = match fault {
            Fault::ProbesSixByGreater => counts[0].max(counts[1]),
            Fault::ProbesSixByLesser => counts[0].min(counts[1]),
            Fault::ProbesCountCut32 => own % (1 << 32),
            Fault::ProbesCountSigned if own >= 1 << 63 => 0,
            _ => own,
        };
        if !is_length_tested(k, fault) {
            false
        } else if fault == ONE_LESS[k] {
            count >= length
        } else if fault == ONE_MORE[k] {
            count > length + 1
        } else {
            count > length
        }
    };
    (0..4).any(is_above)
}

/// Is a count compared with the length of this buffer? With all four.
fn is_length_tested(k: usize, fault: Fault) -> bool {
    match fault {
        Fault::ProbesSixByTicksOnly => k == 0 || k == 2,
        Fault::ProbesSixByRowsOnly => k == 1 || k == 3,
        Fault::ProbesSixFirstOnly => k < 2,
        Fault::ProbesSixSecondOnly => k >= 2,
        Fault::ProbesSixUntested => false,
        _ => fault != UNTESTED[k],
    }
}

/// Is the jitter above 1,000?
fn is_jitter_refused(lists: [&List; 2], jitter: u64, fault: Fault) -> bool {
    let counts = lists.map(|list| list.count);
    match fault {
        Fault::ProbesJitterMostRefused => jitter >= 1_000,
        Fault::ProbesJitterOneAboveTaken => jitter > 1_001,
        Fault::ProbesJitterUntested | Fault::ProbesJitterClipped => false,
        Fault::ProbesJitterZeroRefused => jitter == 0 || jitter > 1_000,
        Fault::ProbesJitterCut32 => jitter % (1 << 32) > 1_000,
        Fault::ProbesJitterSigned => jitter > 1_000 && jitter < 1 << 63,
        Fault::ProbesJitterAfterLengths if counts[0] != counts[1] => false,
        Fault::ProbesJitterAfterRows if first_other_row(lists).is_some() => false,
        Fault::ProbesJitterOfEmptyFree if counts == [0, 0] => false,
        _ => jitter > 1_000,
    }
}

/// Is a tick of either list, below its count, 2^62 or more?
fn is_tick_refused(lists: [&List; 2], fault: Fault) -> bool {
    let counts = lists.map(|list| list.count);
    let other = first_other_row(lists);
    match fault {
        Fault::ProbesTicksAfterLengths if counts[0] != counts[1] => return false,
        Fault::ProbesTicksAfterRows if other.is_some() => return false,
        _ => {}
    }
    let until = match fault {
        Fault::ProbesTicksUntilRow => other.map_or(u64::MAX, |place| place as u64),
        _ => u64::MAX,
    };
    let in_list = |side: usize| {
        let mut ticks = (0..).zip(lists[side].ticks);
        let is_tested = |place: u64| place <= until && is_tick_tested(place, side, counts, fault);
        ticks.any(|(place, &tick)| is_tested(place) && is_late(tick, fault))
    };
    in_list(0) || in_list(1)
}

/// Is the tick at this place of the first list (side 0) or the second tested? Where it
/// is below the count of its list.
fn is_tick_tested(place: u64, side: usize, counts: [u64; 2], fault: Fault) -> bool {
    let own = place < counts[side];
    let paired = place < counts[0].min(counts[1]);
    let last = place + 1 == counts[side];
    match fault {
        Fault::ProbesTicksUntested => false,
        Fault::ProbesFirstTicksUntested => own && side == 1,
        Fault::ProbesSecondTicksUntested => own && side == 0,
        Fault::ProbesPairedTicksOnly => paired,
        Fault::ProbesFirstRestUntested => own && (side == 1 || paired),
        Fault::ProbesSecondRestUntested => own && (side == 0 || paired),
        Fault::ProbesFirstTickOnly => own && place == 0,
        Fault::ProbesLastTickOnly => last,
        Fault::ProbesFirstTickUntested => own && place > 0,
        Fault::ProbesLastTickUntested => own && !last,
        Fault::ProbesTicksBehindTested => true,
        _ => own,
    }
}

/// Is a tick 2^62 or more?
fn is_late(tick: u64, fault: Fault) -> bool {
    match fault {
        Fault::ProbesTickLimitTaken => tick > 1 << 62,
        Fault::ProbesTickLimitEarly => tick >= (1 << 62) - 1,
        Fault::ProbesTickLimit63 => tick >= 1 << 63,
        Fault::ProbesTickSigned => (1 << 62..1 << 63).contains(&tick),
        _ => tick >= 1 << 62,
    }
}

/// The place of the first pair whose bank or row differs, for faults.
fn first_other_row([first, second]: [&List; 2]) -> Option<usize> {
    let paired = first.count.min(second.count) as usize;
    let mut pairs = first.rows.iter().zip(second.rows).take(paired);
    pairs.position(|(one, two)| one != two)
}
