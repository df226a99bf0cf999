//! Openings left: how far a row is from being held. An opened answer carries N
//! minus the estimate after the activation, never below 0; with any other
//! answer the number is 0.

use crate::clock::{move_clock, tested};
use crate::decision::{activations, Call, QUOTA};
use crate::fault::Fault;
use crate::filter::{counters, estimate};
use crate::setting::Rules;
use crate::state::{State, LAST};

/// N minus the estimate that the tested filter reports of the row, never below
/// 0. The state is the one after the activation; `last` is the last tick before
/// the call.
pub fn left(rules: &Rules, state: &State, call: &Call, row: u16, last: u64) -> u64 {
    let four = counters(rules, state, filter(rules, call, last), row);
    let estimate = match rules.fault {
        Fault::LeftOfHistory => activations(rules, state, call.bank, row).len() as u64,
        _ => reported(rules, four),
    };
    match rules.fault {
        Fault::LeftIsEstimate => estimate,
        Fault::LeftOfLimit => (rules.n + rules.d).saturating_sub(estimate),
        Fault::LeftAtMostOne => u64::from(estimate < rules.n),
        Fault::LeftWraps => rules.n.wrapping_sub(estimate),
        Fault::LeftOneLess => rules.n.saturating_sub(estimate + 1),
        Fault::LeftCutToByte => rules.n.saturating_sub(estimate) % 256,
        Fault::WideLeftCut if rules.wide => rules.n.saturating_sub(estimate) % 65_536,
        _ if estimate > rules.n => 0,
        _ => rules.n - estimate,
    }
}

/// The bank and the filter that report the estimate: those of the call.
fn filter(rules: &Rules, call: &Call, last: u64) -> (usize, usize) {
    let filter = tested(rules, call.tick);
    match rules.fault {
        Fault::LeftOfOtherFilter => (call.bank, 1 - filter),
        Fault::LeftOfFilterZero => (call.bank, 0),
        Fault::LeftOfFormerEpoch => (call.bank, tested(rules, last)),
        Fault::LeftOfBankZero => (0, filter),
        _ => (call.bank, filter),
    }
}

/// The estimate from the row's four counters.
fn reported(rules: &Rules, four: [u32; 4]) -> u64 {
    let [first, second, third, fourth] = four.map(u64::from);
    match rules.fault {
        Fault::LeftOfFirstPlace => first,
        Fault::LeftOfThreePlaces => first.min(second).min(third),
        Fault::LeftOfGreatest => first.max(second).max(third).max(fourth),
        _ => estimate(four),
    }
}

/// Openings left as seen on the state before the call, by the faults that look
/// too early.
pub fn too_early(rules: &Rules, state: &State, call: &Call, row: u16) -> Option<u64> {
    let last = state.head[LAST];
    match rules.fault {
        Fault::LeftBeforeOpening => {
            let mut turned = state.clone();
            move_clock(rules, &mut turned, call);
            Some(left(rules, &turned, call, row, last))
        }
        Fault::LeftBeforeTurn => {
            let former = Call {
                tick: last,
                ..*call
            };
            let before = left(rules, state, &former, row, last);
            Some(before.saturating_sub(1))
        }
        _ => None,
    }
}

/// What a wait or a quota answer carries: 0. Only a fault looks at the state,
/// or at `kept`, what the word held before the call.
pub fn held_back(
    rules: &Rules,
    state: &State,
    call: &Call,
    row: u16,
    answer: u64,
    kept: u64,
) -> u64 {
    let quota = answer == QUOTA;
    match rules.fault {
        Fault::LeftOnWait if !quota => left(rules, state, call, row, call.tick),
        Fault::LeftOnQuota if quota => left(rules, state, call, row, call.tick),
        Fault::LeftKeptOnWait if !quota => kept,
        Fault::LeftKeptOnQuota if quota => kept,
        _ => 0,
    }
}
