//! Filters whose contents depend on the order of the activations, each a fault. The
//! plain specification has none of this: `filter` counts every activation alike.

use crate::clock::tested;
use crate::fault::Fault;
use crate::filter::{places, raise};
use crate::setting::Rules;
use crate::state::{filter_start, State, LAST, PLACE};

/// Counts an activation by one of these faults; false if none is switched on. The
/// history does not hold the activation yet, and the clock stands at its tick.
pub fn counts(rules: &Rules, state: &mut State, bank: usize, row: u16, places: [usize; 4]) -> bool {
    if !Fault::ORDER.contains(&rules.fault) {
        return false;
    }
    let cells =
        |filter| distinct(places).map(move |place| filter_start(rules, bank, filter) + place);
    let both: [Vec<usize>; 2] = [0, 1].map(|filter| cells(filter).collect());
    let word = bank as u32 * 65_536 + u32::from(row);
    match rules.fault {
        Fault::OrderLeastOnly => both.iter().for_each(|four| least(rules, state, four, 4)),
        Fault::OrderFirstLeastOnly => both.iter().for_each(|four| least(rules, state, four, 1)),
        Fault::OrderGreatestPlusOne => both.iter().for_each(|four| greatest(rules, state, four)),
        Fault::OrderRepeatLeftOut if newest(rules, state) == Some(word) => {}
        Fault::OrderRepeatTwice if newest(rules, state) == Some(word) => {
            both.iter().for_each(|four| all(rules, state, four));
            both.iter().for_each(|four| all(rules, state, four));
        }
        Fault::OrderStopsWithOne => {
            for four in both.iter() {
                if four.iter().all(|&cell| below(rules, state, cell)) {
                    all(rules, state, four);
                }
            }
        }
        Fault::OrderBlacklistedLeftOut => {
            let tested = &both[tested(rules, state.head[LAST])];
            if tested.iter().any(|&cell| below(rules, state, cell)) {
                both.iter().for_each(|four| all(rules, state, four));
            }
        }
        Fault::OrderFiltersInTurn => all(rules, state, &both[(state.head[PLACE] % 2) as usize]),
        Fault::OrderForgetsOldest => {
            both.iter().for_each(|four| all(rules, state, four));
            forget(rules, state);
        }
        _ => return false,
    }
    true
}

/// Each of the places once.
fn distinct(places: [usize; 4]) -> impl Iterator<Item = usize> {
    let first = move |k: &usize| !places[..*k].contains(&places[*k]);
    (0..4).filter(first).map(move |k| places[k])
}

/// Is a counter below N?
fn below(rules: &Rules, state: &State, cell: usize) -> bool {
    u64::from(state.counters[cell]) < rules.n
}

/// Each of these counters gains 1.
fn all(rules: &Rules, state: &mut State, cells: &[usize]) {
    for &cell in cells {
        raise(rules, &mut state.counters[cell]);
    }
}

/// Those of these counters that are the least gain 1, so many of them at most.
fn least(rules: &Rules, state: &mut State, cells: &[usize], most: usize) {
    let least = cells.iter().map(|&cell| state.counters[cell]).min();
    let of_least = |cell: &&usize| Some(state.counters[**cell]) == least;
    let raised: Vec<usize> = cells.iter().filter(of_least).take(most).copied().collect();
    all(rules, state, &raised);
}

/// These counters become 1 more than the greatest of them, unless that is N or more.
fn greatest(rules: &Rules, state: &mut State, cells: &[usize]) {
    let greatest = cells.iter().map(|&cell| state.counters[cell]).max();
    let mut next = greatest.unwrap_or(0);
    raise(rules, &mut next);
    for &cell in cells {
        if below(rules, state, cell) {
            state.counters[cell] = next;
        }
    }
}

/// The counters of the row at the next history place lose 1, if it is one of a bank
/// of the setting.
fn forget(rules: &Rules, state: &mut State) {
    let place = state.head[PLACE] as usize;
    let (bank, row) = (state.rows[place] >> 16, state.rows[place] as u16);
    if state.ticks[place] == 0 || bank as usize >= rules.banks {
        return;
    }
    for filter in 0..2 {
        let start = filter_start(rules, bank as usize, filter);
        for place in distinct(places(rules, row)) {
            let counter = &mut state.counters[start + place];
            *counter = counter.saturating_sub(1);
        }
    }
}

/// Bank and row of the newest activation in the history, if there is one.
fn newest(rules: &Rules, state: &State) -> Option<u32> {
    let place = (state.head[PLACE] as usize + rules.h - 1) % rules.h;
    (state.ticks[place] != 0).then_some(state.rows[place])
}
