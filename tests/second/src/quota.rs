//! Index, quota and in flight: the rule that holds a thread back, and what
//! activations and dones do to in flight.

use crate::clock::tested;
use crate::decision::Call;
use crate::fault::Fault;
use crate::setting::Rules;
use crate::state::{thread_cell, State, IN_FLIGHT};

/// The index counter in test, of the call's thread in the call's bank.
pub fn index_counter(rules: &Rules, state: &State, call: &Call) -> u64 {
    let cell = thread_cell(rules, call.bank, call.thread) + tested(rules, call.tick);
    u64::from(state.threads[cell])
}

/// Q * (D - min(c, D))/D, rounded to the nearest whole request, an exact half
/// to the even one. All numbers of requests are tried.
pub fn quota(rules: &Rules, c: u64) -> u64 {
    let share = rules.q * (rules.d - c.min(rules.d));
    let miss = |&requests: &u64| miss(rules, share, requests);
    (0..=rules.q).min_by_key(miss).unwrap_or(0)
}

/// How far a number of requests is from share/D, in parts of 1/D, and then
/// whether it is odd: of two that are equally far the even one is less.
fn miss(rules: &Rules, share: u64, requests: u64) -> (u64, u64) {
    let parts = requests * rules.d;
    let distance = parts.abs_diff(share);
    match rules.fault {
        Fault::QuotaRoundsDown if parts > share => (u64::MAX, 0),
        Fault::QuotaRoundsUp if parts < share => (u64::MAX, 0),
        Fault::QuotaKeepsOne if requests == 0 && share > 0 => (u64::MAX, 0),
        Fault::QuotaHalfUp => (distance, rules.q - requests),
        Fault::QuotaHalfDown => (distance, requests),
        Fault::QuotaHalfToOdd => (distance, 1 - requests % 2),
        _ => (distance, requests % 2),
    }
}

/// The quota of the call's thread, which comes from the call's bank.
pub fn quota_in_test(rules: &Rules, state: &State, call: &Call) -> u64 {
    let counter = |bank| index_counter(rules, state, &Call { bank, ..*call });
    let c = match rules.fault {
        Fault::QuotaOfBankZero => counter(0),
        Fault::QuotaOfGreatest => (0..rules.banks).map(counter).max().unwrap_or(0),
        _ => counter(call.bank),
    };
    quota(rules, c)
}

/// Requests of the thread activated and not yet done: its total over the banks
/// of the setting.
pub fn in_flight(rules: &Rules, state: &State, call: &Call) -> u64 {
    let cell = |first| u64::from(state.threads[first + IN_FLIGHT]);
    let of = |bank, thread| cell(thread_cell(rules, bank, thread));
    let own = of(call.bank, call.thread);
    let banks = match rules.fault {
        Fault::InFlightUpToBank => 0..call.bank + 1,
        Fault::InFlightFromBank => call.bank..rules.banks,
        Fault::InFlightWithoutLast => 0..rules.banks - 1,
        Fault::InFlightOfEightBanks => 0..rules.banks.min(8),
        _ => 0..rules.banks,
    };
    let total: u64 = banks.map(|bank| of(bank, call.thread)).sum();
    match rules.fault {
        Fault::InFlightOfBank => own,
        Fault::InFlightOfOtherBanks => total - own,
        Fault::InFlightWraps => total % (1 << 32),
        Fault::InFlightOfAllThreads => (0..rules.threads).map(|thread| of(call.bank, thread)).sum(),
        Fault::InFlightThreadByThread => (0..rules.banks)
            .map(|bank| cell((call.thread * rules.banks + bank) * 3))
            .sum(),
        _ => total,
    }
}

/// Does the quota hold a request back? It does if in flight is not below it.
pub fn held(rules: &Rules, state: &State, call: &Call) -> bool {
    let quota = match rules.fault {
        Fault::RequestRoundsDown => quota_in_test(&rules.with(Fault::QuotaRoundsDown), state, call),
        Fault::RequestOfBankZero => quota_in_test(&rules.with(Fault::QuotaOfBankZero), state, call),
        _ => quota_in_test(rules, state, call),
    };
    let flying = in_flight(rules, state, call);
    if rules.has(Fault::QuotaStrict) {
        flying > quota
    } else {
        flying >= quota
    }
}

/// An activation adds 1 to in flight of its bank. The count is below the quota,
/// so that only a fault lets it wrap.
pub fn add_in_flight(rules: &Rules, state: &mut State, call: &Call) {
    let bank = match rules.fault {
        Fault::FliesInBankZero => 0,
        _ => call.bank,
    };
    let count = &mut state.threads[thread_cell(rules, bank, call.thread) + IN_FLIGHT];
    *count = count.wrapping_add(1);
}

/// Refusal 10: the call's bank has none of the thread's requests.
pub fn none_in_flight(rules: &Rules, state: &State, call: &Call) -> bool {
    if rules.has(Fault::DoneRefusedByTotal) {
        return in_flight(rules, state, call) == 0;
    }
    state.threads[thread_cell(rules, call.bank, call.thread) + IN_FLIGHT] == 0
}

/// A done takes 1 from in flight of its bank, which is 0 only by a fault.
pub fn take_in_flight(rules: &Rules, state: &mut State, call: &Call) {
    let cell = |bank| thread_cell(rules, bank, call.thread) + IN_FLIGHT;
    let bank = match rules.fault {
        Fault::DoneTakesNothing => return,
        Fault::DoneTakesFromBankZero => 0,
        Fault::DoneTakesFromFirst => (0..rules.banks)
            .find(|&bank| state.threads[cell(bank)] > 0)
            .unwrap_or(call.bank),
        _ => call.bank,
    };
    let count = &mut state.threads[cell(bank)];
    *count = count.saturating_sub(1);
}
