//! The decision about a request: the quota, bank, rank and row rules in their
//! order, the wait tick, and what an activation writes. The wait tick is found
//! by trying one tick after the other.

use crate::clock::{tested, turned_filters};
use crate::fault::Fault;
use crate::filter::{count, counters, estimate};
use crate::quota::{add_in_flight, held};
use crate::setting::Rules;
use crate::state::{thread_cell, State, BANK, FEW, PLACE, RANK};

/// Answers of a request.
pub const OPENED: u64 = 0;
pub const WAIT_BANK: u64 = 1;
pub const WAIT_RANK: u64 = 2;
pub const WAIT_ROW: u64 = 3;
pub const QUOTA: u64 = 4;

/// Tick, bank and thread of a call that was not refused for them.
#[derive(Clone, Copy)]
pub struct Call {
    pub tick: u64,
    pub bank: usize,
    pub thread: usize,
}

/// What the bank, rank and row rules look at, for one row of one bank. Small
/// enough to be copied for every tick that is tried.
#[derive(Clone, Copy)]
struct View<'a> {
    /// The tick the filters stand at.
    tick: u64,
    /// Stored tick of the bank's last activation.
    bank: u64,
    /// Stored tick of the rank's fourth last activation.
    rank: u64,
    /// The row's four counters in filter 0 and 1.
    counters: [[u32; 4]; 2],
    /// Ticks of every activation of the row in the history buffer.
    activations: &'a [u64],
}

impl View<'_> {
    /// This view, turned to a tick not before its own.
    fn turned_to(mut self, rules: &Rules, tick: u64) -> Self {
        let turned = turned_filters(rules, self.tick, tick);
        for (filter, turned) in turned.into_iter().enumerate() {
            if turned {
                self.counters[filter] = [0; 4];
            }
        }
        self.tick = tick;
        self
    }

    /// Is the estimate that the tested filter reports N or more?
    fn blacklisted(&self, rules: &Rules) -> bool {
        let four = self.counters[tested(rules, self.tick)];
        if rules.has(Fault::EstimateGreatest) {
            return four.iter().any(|&counter| u64::from(counter) >= rules.n);
        }
        if rules.has(Fault::BlacklistedAboveN) {
            return estimate(four) > rules.n;
        }
        estimate(four) >= rules.n
    }

    /// Is there an activation of the row in the history that is at most t and
    /// under tD ticks old?
    fn in_history(&self, rules: &Rules, t: u64) -> bool {
        let delay = match rules.fault {
            Fault::RowDelayIsTrc => rules.trc,
            Fault::DelayInclusive => rules.td + 1,
            _ => rules.td,
        };
        self.activations
            .iter()
            .any(|&kept| kept <= t && t - kept < delay)
    }

    /// Does the rule that names this cause pass at tick t?
    fn passes(&self, rules: &Rules, cause: u64, t: u64) -> bool {
        match cause {
            WAIT_BANK => {
                let strict = u64::from(rules.has(Fault::BankGapStrict));
                self.bank == 0 || t >= self.bank - 1 + rules.trc + strict
            }
            WAIT_RANK => {
                let strict = u64::from(rules.has(Fault::RankGapStrict));
                self.rank == 0 || t >= self.rank - 1 + rules.tfaw + strict
            }
            _ => !self.blacklisted(rules) || !self.in_history(rules, t),
        }
    }

    /// The first rule that fails at tick t: bank, then rank, then row.
    fn cause(&self, rules: &Rules, t: u64) -> Option<u64> {
        (WAIT_BANK..=WAIT_ROW).find(|&cause| !self.passes(rules, cause, t))
    }
}

/// Ticks of every activation of the row that the history buffer holds.
pub fn activations(rules: &Rules, state: &State, bank: usize, row: u16) -> Vec<u64> {
    let wanted = row_word(bank, row);
    let mut found = Vec::new();
    let places = if rules.has_wide(Fault::WideSearchStops) {
        rules.h.min(FEW)
    } else {
        rules.h
    };
    for place in 0..places {
        let (stored, word) = (state.ticks[place], state.rows[place]);
        let same = if rules.has(Fault::HistoryForgetsBank) {
            word % 65_536 == wanted % 65_536
        } else {
            word == wanted
        };
        let kept = stored != 0 || rules.has(Fault::EmptyPlaceMatches);
        if kept && same {
            found.push(stored.saturating_sub(1));
        }
    }
    found
}

/// bank * 65,536 + row
fn row_word(bank: usize, row: u16) -> u32 {
    bank as u32 * 65_536 + u32::from(row)
}

/// The view of a row in the state as it stands at the call's tick.
fn view<'a>(
    rules: &Rules,
    state: &State,
    call: &Call,
    row: u16,
    activations: &'a [u64],
) -> View<'a> {
    let four = &state.head[RANK..RANK + 4];
    let rank = match rules.fault {
        Fault::RankThirdLast => four[2],
        Fault::RankLeastOfFour => four.iter().copied().min().unwrap_or(0),
        _ => four[3],
    };
    View {
        tick: call.tick,
        bank: state.head[BANK + call.bank],
        rank,
        counters: [0, 1].map(|filter| counters(rules, state, (call.bank, filter), row)),
        activations,
    }
}

/// The answer to a request and its wait tick, on a state already turned to
/// the call's tick.
pub fn decide(rules: &Rules, state: &State, call: &Call, row: u16) -> (u64, u64) {
    let activations = activations(rules, state, call.bank, row);
    let view = view(rules, state, call, row, &activations);
    let cause = view.cause(rules, call.tick);
    let last = rules.has(Fault::QuotaLast) && cause.is_some();
    if !last && held(rules, state, call) {
        return (QUOTA, 0);
    }
    match cause {
        Some(cause) => (cause, wait_tick(rules, &view, cause)),
        None => (OPENED, 0),
    }
}

/// The least tick u at or after t at which bank, rank and row rules all pass
/// if no call comes between. Every kept tick is at most t, so that the bound
/// is never reached.
fn wait_tick(rules: &Rules, view: &View, cause: u64) -> u64 {
    let bound = rules.trc + rules.tfaw + rules.td;
    let mut u = view.tick;
    while u < view.tick + bound {
        let turned = match rules.fault {
            Fault::DelayAloneAsWait => *view,
            _ => view.turned_to(rules, u),
        };
        let passes = match rules.fault {
            Fault::WaitForNamedCause => turned.passes(rules, cause, u),
            _ => turned.cause(rules, u).is_none(),
        };
        if passes {
            return u;
        }
        u += 1;
    }
    u
}

/// Writes an activation: filters, index counters, in flight, history, bank
/// and rank. `last` is the last tick before the call.
pub fn open(rules: &Rules, state: &mut State, call: &Call, row: u16, last: u64) {
    let before = view(rules, state, call, row, &[]).blacklisted(rules);
    count(rules, state, call.bank, row);
    let blacklisted = match rules.fault {
        Fault::BlacklistedAfterCounting => view(rules, state, call, row, &[]).blacklisted(rules),
        Fault::IndexCountsAll => true,
        _ => before,
    };
    if blacklisted {
        raise_index(rules, state, call);
    }
    add_in_flight(rules, state, call);
    let stored = match rules.fault {
        Fault::StampsLastTick => last + 1,
        Fault::StoresWithoutPlusOne => call.tick,
        _ => call.tick + 1,
    };
    keep(rules, state, stored, row_word(call.bank, row));
    state.head[BANK + call.bank] = stored;
    state.head.copy_within(RANK..RANK + 3, RANK + 1);
    state.head[RANK] = stored;
}

/// Both index counters gain 1, up to D.
fn raise_index(rules: &Rules, state: &mut State, call: &Call) {
    let cell = thread_cell(rules, call.bank, call.thread);
    for filter in 0..2 {
        if rules.has(Fault::IndexOfTestedOnly) && filter != tested(rules, call.tick) {
            continue;
        }
        if u64::from(state.threads[cell + filter]) < rules.d {
            state.threads[cell + filter] += 1;
        }
    }
}

/// Writes at the next history place, which moves on by one, from H - 1 to 0.
fn keep(rules: &Rules, state: &mut State, stored: u64, word: u32) {
    let place = state.head[PLACE] as usize;
    state.ticks[place] = stored;
    state.rows[place] = word;
    let top = match rules.fault {
        Fault::PlaceWrapsAtH => rules.h,
        Fault::WidePlaceWraps if rules.wide => rules.h.min(FEW) - 1,
        _ => rules.h - 1,
    };
    state.head[PLACE] = if place >= top { 0 } else { place as u64 + 1 };
}
