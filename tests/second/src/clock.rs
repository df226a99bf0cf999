//! The clock of the throttle: epochs, the filter in test, and the clearing at
//! an epoch turn.

use crate::decision::Call;
use crate::fault::Fault;
use crate::setting::Rules;
use crate::state::{filter_start, thread_cell, State, IN_FLIGHT, LAST};

/// The epoch of a tick: floor(t/E).
fn epoch(rules: &Rules, tick: u64) -> u64 {
    if rules.has(Fault::BoundaryInOldEpoch) {
        return tick.saturating_sub(1) / rules.epoch;
    }
    tick / rules.epoch
}

/// The filter that a tick's epoch e tests: e mod 2.
pub fn tested(rules: &Rules, tick: u64) -> usize {
    let filter = (epoch(rules, tick) % 2) as usize;
    if rules.has(Fault::TestsClearedFilter) {
        return 1 - filter;
    }
    filter
}

/// Which of the two filters is cleared when the clock moves between two ticks.
pub fn turned_filters(rules: &Rules, from: u64, to: u64) -> [bool; 2] {
    let (old, new) = (epoch(rules, from), epoch(rules, to));
    let tested_in_old = old % 2;
    match new - old {
        0 => [false, false],
        2.. if !rules.has(Fault::TwoEpochsClearOne) => [true, true],
        _ => [tested_in_old == 0, tested_in_old == 1],
    }
}

/// Moves the last tick to the call's tick, epoch turns included.
pub fn move_clock(rules: &Rules, state: &mut State, call: &Call) {
    let turned = turned_filters(rules, state.head[LAST], call.tick);
    for bank in 0..rules.banks {
        if rules.has(Fault::ClearsCalledBankOnly) && bank != call.bank {
            continue;
        }
        for (filter, turned) in turned.into_iter().enumerate() {
            if turned {
                clear_filter(rules, state, bank, filter);
            }
        }
    }
    if !rules.has(Fault::ClockStands) {
        state.head[LAST] = call.tick;
    }
}

/// Clears one filter of one bank and every thread's index counter with it.
fn clear_filter(rules: &Rules, state: &mut State, bank: usize, filter: usize) {
    let start = filter_start(rules, bank, filter);
    let many = if rules.has_wide(Fault::WideTurnClearsHalf) {
        512
    } else {
        1024
    };
    state.counters[start..start + many].fill(0);
    for thread in 0..rules.threads {
        let cell = thread_cell(rules, bank, thread);
        if !rules.has(Fault::KeepsIndexAtTurn) {
            state.threads[cell + filter] = 0;
        }
        if rules.has(Fault::DropsInFlightAtTurn) {
            state.threads[cell + IN_FLIGHT] = 0;
        }
    }
}
