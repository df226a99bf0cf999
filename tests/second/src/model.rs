//! The four calls of the throttle: set-up, request, done and index, in the width
//! whose limits they are given. Each returns 0 when answered, else the number of
//! the refusal, and then changes nothing.

use crate::clock::move_clock;
use crate::decision::{decide, open};
use crate::decision::{Call, OPENED, QUOTA, WAIT_BANK, WAIT_ROW};
use crate::fault::Fault;
use crate::filter::count;
use crate::left::{held_back, left, too_early};
use crate::limits::{is_wide, of_call};
use crate::profile::above_small;
use crate::quota::{index_counter, none_in_flight, quota_in_test, take_in_flight};
use crate::setting::{accept, accept_but_16, Config, Rules};
use crate::state::{State, LAST};

/// Which call: one of the four, the change-over or the planner.
#[derive(Clone, Copy, PartialEq, Eq)]
pub enum Kind {
    Setup,
    Request,
    Done,
    Index,
    ChangeOver,
    Plan,
}

/// Set-up: clears the used parts of the lent memory and the head.
pub fn setup(config: &Config, state: &mut State) -> u32 {
    match lent(config, state, Kind::Setup) {
        Ok(rules) => {
            state.clear(&rules);
            0
        }
        Err(number) => {
            if config.fault == Fault::ProfileRefusalClears && number == 16 {
                state.head = [0; 22];
            }
            number
        }
    }
}

/// Request a row; `out` becomes the answer's number, the wait tick and the
/// openings left.
pub fn request(
    config: &Config,
    state: &mut State,
    tick: u64,
    bank: u64,
    thread: u64,
    row: u16,
    out: &mut [u64; 3],
) -> u32 {
    let (rules, call) = match enter(config, state, Kind::Request, tick, bank, thread) {
        Ok(entered) => entered,
        Err(number) => {
            if config.fault == Fault::CountsRefused && number == 9 {
                count_refused(config, state, bank, row);
            }
            if config.fault == Fault::LeftWrittenOnRefusal {
                out[2] = 0;
            }
            return number;
        }
    };
    let before = rules.has(Fault::WaitKeepsClock).then(|| state.clone());
    let early = too_early(&rules, state, &call, row);
    let last = state.head[LAST];
    move_clock(&rules, state, &call);
    let (answer, wait) = decide(&rules, state, &call, row);
    if answer == OPENED {
        open(&rules, state, &call, row, last);
    } else if counts_held(&rules, answer) {
        count(&rules, state, call.bank, row);
    }
    let left = match answer {
        OPENED => early.unwrap_or_else(|| left(&rules, state, &call, row, last)),
        _ => held_back(&rules, state, &call, row, answer, out[2]),
    };
    *out = [answer, wait, left];
    if let (Some(before), WAIT_BANK..=WAIT_ROW) = (before, answer) {
        *state = before;
    }
    0
}

/// Report a request done: takes 1 from in flight of the bank, and so from the
/// thread's total.
pub fn done(config: &Config, state: &mut State, tick: u64, bank: u64, thread: u64) -> u32 {
    let (rules, call) = match enter(config, state, Kind::Done, tick, bank, thread) {
        Ok(entered) => entered,
        Err(number) => return number,
    };
    if none_in_flight(&rules, state, &call) {
        if rules.has(Fault::RefusedDoneMovesClock) {
            move_clock(&rules, state, &call);
        }
        return 10;
    }
    move_clock(&rules, state, &call);
    take_in_flight(&rules, state, &call);
    0
}

/// Read a thread's index; `out` becomes c, D and the quota.
pub fn index(
    config: &Config,
    state: &mut State,
    tick: u64,
    bank: u64,
    thread: u64,
    out: &mut [u64; 3],
) -> u32 {
    let (rules, call) = match enter(config, state, Kind::Index, tick, bank, thread) {
        Ok(entered) => entered,
        Err(number) => return number,
    };
    let before = rules.has(Fault::IndexKeepsClock).then(|| state.clone());
    move_clock(&rules, state, &call);
    let c = index_counter(&rules, state, &call);
    let shown = if rules.has(Fault::IndexClipped) {
        c.min(rules.d)
    } else {
        c
    };
    let quota = match rules.fault {
        Fault::IndexRoundsDown => quota_in_test(&rules.with(Fault::QuotaRoundsDown), state, &call),
        _ => quota_in_test(&rules, state, &call),
    };
    *out = [shown, rules.d, quota];
    if let Some(before) = before {
        *state = before;
    }
    0
}

/// The refusals of the setting, 1 to 5 and 16, and 6, in their order.
fn lent<'a>(config: &Config<'a>, state: &State, kind: Kind) -> Result<Rules<'a>, u32> {
    let config = &config.within(of_call(config, kind));
    let rules = if leaves_16_out(config, kind) {
        accept_but_16(config)?
    } else {
        accept(config)?
    };
    if state.too_short(&rules) {
        return Err(6);
    }
    late_16(config, Fault::ProfileAfterSix)?;
    if kind == Kind::Setup {
        late_16(config, Fault::ProfileAfterSeven)?;
        late_16(config, Fault::ProfileAfterNine)?;
    }
    Ok(rules)
}

/// Does a call test 16 later or never (only as a fault)?
fn leaves_16_out(config: &Config, kind: Kind) -> bool {
    match config.fault {
        Fault::WideSixteenLeftOut => is_wide(config),
        Fault::ProfileAfterSix | Fault::ProfileAfterSeven | Fault::ProfileAfterNine => true,
        Fault::ProfileInSetupOnly => kind != Kind::Setup,
        Fault::ProfileNotInSetup => kind == Kind::Setup,
        Fault::ProfileNotInRequest => kind == Kind::Request,
        Fault::ProfileNotInDone => kind == Kind::Done,
        Fault::ProfileNotInIndex => kind == Kind::Index,
        _ => false,
    }
}

/// Refusal 16 at the place where this fault tests it.
pub fn late_16(config: &Config, fault: Fault) -> Result<(), u32> {
    if config.fault == fault && above_small(config) {
        return Err(16);
    }
    Ok(())
}

/// The refusals of the setting and 6 to 9, in their order.
fn enter<'a>(
    config: &Config<'a>,
    state: &State,
    kind: Kind,
    tick: u64,
    bank: u64,
    thread: u64,
) -> Result<(Rules<'a>, Call), u32> {
    let rules = lent(config, state, kind)?;
    let outside = bank >= rules.banks as u64 || thread >= rules.threads as u64;
    if rules.has(Fault::EightBeforeSeven) && outside {
        return Err(8);
    }
    if state.unsound(&rules) {
        return Err(7);
    }
    late_16(config, Fault::ProfileAfterSeven)?;
    if outside {
        return Err(8);
    }
    if tick_refused(&rules, state, tick) {
        return Err(9);
    }
    late_16(config, Fault::ProfileAfterNine)?;
    Ok((
        rules,
        Call {
            tick,
            bank: bank as usize,
            thread: thread as usize,
        },
    ))
}

/// Refusal 9: tick before the last one, or 2^62 or more.
fn tick_refused(rules: &Rules, state: &State, tick: u64) -> bool {
    let limit = 1 << 62;
    if rules.has(Fault::TickLimitTaken) && tick == limit {
        return tick < state.head[LAST];
    }
    if rules.has(Fault::EqualTickRefused) && tick != 0 && tick == state.head[LAST] {
        return true;
    }
    tick < state.head[LAST] || tick >= limit
}

/// Is a request held back with this answer counted (only as a fault)?
fn counts_held(rules: &Rules, answer: u64) -> bool {
    rules.has(Fault::CountsQuota) && answer == QUOTA
        || rules.has(Fault::CountsWaits) && (WAIT_BANK..=WAIT_ROW).contains(&answer)
}

/// Counts a request although it was refused (only as a fault).
fn count_refused(config: &Config, state: &mut State, bank: u64, row: u16) {
    if let Ok(rules) = accept(config) {
        count(&rules, state, bank as usize, row);
    }
}
