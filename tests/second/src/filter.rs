//! The counting Bloom filters: the four counters that a row's hash names, what
//! an activation adds to them, and the estimate that a filter reports.

use crate::by_order;
use crate::fault::Fault;
use crate::setting::Rules;
use crate::state::{filter_start, State};
use crate::table;

/// The seed rule, which gives a row's four counters under any seeds: function f
/// is the exclusive or of its seeds i for which bit i of the row is set. Needs
/// the 64 seeds of an accepted setting.
pub fn hash(seeds: &[u16], row: u16) -> [usize; 4] {
    hash_by(seeds, row, Fault::None)
}

/// The same with a fault of the seed rule or without.
pub fn hash_by(seeds: &[u16], row: u16, fault: Fault) -> [usize; 4] {
    std::array::from_fn(|function| {
        let mut word = u16::from(fault == Fault::SeedsStartAtOne);
        for bit in 0..16 {
            if row >> bit & 1 == 1 {
                word = joined(word, seeds[function * 16 + bit], fault);
            }
        }
        usize::from(word)
    })
}

/// The exclusive or of what is joined so far and one seed more.
fn joined(word: u16, seed: u16, fault: Fault) -> u16 {
    match fault {
        Fault::SeedsOred => word | seed,
        Fault::SeedsAdded => (word + seed) % 1_024,
        Fault::SeedsHighestOnly => seed,
        Fault::SeedsTurned => (((word << 1) | (word >> 9)) % 1_024) ^ seed,
        _ => word ^ seed,
    }
}

/// The counter places of a row in this setting: from the table of the house
/// seeds if it has them, else by the seed rule.
pub fn places(rules: &Rules, row: u16) -> [usize; 4] {
    if rules.has(Fault::SeedsReversed) {
        return hash(rules.seeds, row.reverse_bits());
    }
    if table::is_house(rules.seeds, rules.fault) {
        return table::hash(row, rules.fault);
    }
    hash_by(rules.seeds, row, rules.fault)
}

/// The places for one use of them. Only a fault, `apart`, takes the table for
/// other seeds in this use and not in the other.
fn places_for(rules: &Rules, row: u16, apart: Fault) -> [usize; 4] {
    if rules.has(apart) {
        return places(&rules.with(Fault::HouseAlways), row);
    }
    places(rules, row)
}

/// An activation adds 1 to each distinct counter once, in both filters, if it
/// is below N.
pub fn count(rules: &Rules, state: &mut State, bank: usize, row: u16) {
    let places = places_for(rules, row, Fault::HouseAlwaysInCount);
    if by_order::counts(rules, state, bank, row, places) {
        return;
    }
    let filters = if rules.has(Fault::FilterZeroTwice) {
        [0, 0]
    } else {
        [0, 1]
    };
    for filter in filters {
        for (k, place) in places.iter().enumerate() {
            let seen = places[..k].contains(place);
            if seen && !rules.has(Fault::AddsTwiceToShared) {
                continue;
            }
            raise(
                rules,
                &mut state.counters[filter_start(rules, bank, filter) + place],
            );
        }
    }
}

/// What the filters hold after a group of activations, each of a bank and a row:
/// one after the other adds to what they held before.
pub fn after(rules: &Rules, before: &State, group: &[(usize, u16)]) -> Vec<u32> {
    let mut state = before.clone();
    for &(bank, row) in group {
        count(rules, &mut state, bank, row);
    }
    state.counters
}

/// A counter gains 1 if it is below N.
pub fn raise(rules: &Rules, counter: &mut u32) {
    let top = match rules.fault {
        Fault::CountsAtThreshold => rules.n + 1,
        Fault::WideStopsAt65535 if rules.wide => rules.n.min(65_535),
        Fault::WideStopsAt32768 if rules.wide => rules.n.min(32_768),
        _ => rules.n,
    };
    if u64::from(*counter) < top {
        *counter += 1;
        if rules.has_wide(Fault::WideWritesLowHalf) {
            *counter %= 65_536;
        }
    }
}

/// The row's four counters in one filter of one bank.
pub fn counters(
    rules: &Rules,
    state: &State,
    (bank, filter): (usize, usize),
    row: u16,
) -> [u32; 4] {
    let start = filter_start(rules, bank, filter);
    let places = places_for(rules, row, Fault::HouseAlwaysInEstimate);
    places.map(|place| {
        let counter = state.counters[start + place];
        if rules.has_wide(Fault::WideReadsLowHalf) {
            return counter % 65_536;
        }
        counter
    })
}

/// The estimate that a filter reports of a row: the least of the row's four
/// counters in it.
pub fn estimate(four: [u32; 4]) -> u64 {
    let [first, second, third, fourth] = four.map(u64::from);
    first.min(second).min(third).min(fourth)
}
