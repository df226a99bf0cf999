//! The setting of the throttle: its ten words and 64 seeds, the numbers derived
//! from it (history length H, row bound B) and its refusals, 1 to 5 and 16, of
//! which 1 and 4 depend on the width.

use crate::fault::Fault;
use crate::limits::{at_width, is_wide, Limits, NEW, OLD};
use crate::profile::{
    above_small, is_small, mark_is_late, small_rules, unnamed, MOST_BANKS, OF_SMALL,
};

/// The words of a setting: W, tRC, tFAW, N, tD, L, Q, banks, threads and the
/// profile mark.
pub type Setting = [u64; 10];

/// Some words by their places.
pub const TFAW: usize = 2;
pub const TD: usize = 4;
pub const BANKS: usize = 7;
pub const MARK: usize = 9;

/// The setting as the calling program hands it over, and the seeds, function by
/// function, bit 0 first.
#[derive(Clone, Copy, Debug)]
pub struct Config<'a> {
    pub setting: Setting,
    pub seeds: &'a [u16],
    /// What the width of the call allows.
    pub limits: Limits,
    pub fault: Fault,
}

impl<'a> Config<'a> {
    /// The plain specification on this setting, in the old width.
    pub fn new(setting: Setting, seeds: &'a [u16]) -> Self {
        Config {
            setting,
            seeds,
            limits: OLD,
            fault: Fault::None,
        }
    }

    /// The plain specification on this setting, in the new width.
    pub fn wide(setting: Setting, seeds: &'a [u16]) -> Self {
        Config::new(setting, seeds).within(NEW)
    }

    /// The same setting with other limits.
    pub fn within(self, limits: Limits) -> Self {
        Config { limits, ..self }
    }

    /// The same setting with a fault switched on.
    pub fn with(self, fault: Fault) -> Self {
        Config { fault, ..self }
    }
}

/// An accepted setting, its fields by name, with the derived numbers.
#[derive(Clone, Copy, Debug)]
pub struct Rules<'a> {
    /// Least gap of activations in one bank.
    pub trc: u64,
    /// Ticks in which the rank takes at most four activations.
    pub tfaw: u64,
    /// Blacklisting threshold.
    pub n: u64,
    /// Delay of a blacklisted row.
    pub td: u64,
    /// Most requests in flight for a thread, over all banks.
    pub q: u64,
    pub banks: usize,
    pub threads: usize,
    /// Epoch E = W/2.
    pub epoch: u64,
    /// History length H.
    pub h: usize,
    /// Top of the index counters, D = L - N.
    pub d: u64,
    pub seeds: &'a [u16],
    /// Is it the new width? Only faults ask.
    pub wide: bool,
    pub fault: Fault,
}

impl Rules<'_> {
    /// Is this wrong behaviour switched on?
    pub fn has(&self, fault: Fault) -> bool {
        self.fault == fault
    }

    /// Is this wrong behaviour switched on in the new width?
    pub fn has_wide(&self, fault: Fault) -> bool {
        self.wide && self.has(fault)
    }

    /// The same setting with another wrong behaviour.
    pub fn with(self, fault: Fault) -> Self {
        Rules { fault, ..self }
    }
}

/// The house seed of function f and bit i: (37(i+1)^2 + 211f + 89if) mod 1,024.
pub const fn house_seed(f: usize, i: usize) -> u16 {
    ((37 * (i + 1) * (i + 1) + 211 * f + 89 * i * f) % 1024) as u16
}

/// The 64 house seeds, function by function, bit 0 first.
pub const HOUSE: [u16; 64] = {
    let mut seeds = [0; 64];
    let mut k = 0;
    while k < 64 {
        seeds[k] = house_seed(k / 16, k % 16);
        k += 1;
    }
    seeds
};

/// The same as a list.
pub fn house_seeds() -> Vec<u16> {
    HOUSE.to_vec()
}

/// H = 4 * ceil(tD/tFAW); none where tFAW is 0.
pub fn history_length(config: &Config) -> Option<u128> {
    let [_, _, tfaw, _, td, ..] = config.setting.map(u128::from);
    if tfaw == 0 {
        return None;
    }
    if config.fault == Fault::HistoryPaperLength {
        return Some((4 * td).div_ceil(tfaw));
    }
    Some(4 * td.div_ceil(tfaw))
}

/// 2 * N * tRC, or none where 128 bits do not hold it.
fn free_ticks(config: &Config) -> Option<u128> {
    let [_, trc, _, n, ..] = config.setting.map(u128::from);
    n.checked_mul(trc)?.checked_mul(2)
}

/// B = 2N + 1 + floor((W - 1 - 2 * N * tRC)/tD); none where the difference is
/// negative or tD is 0.
pub fn row_bound(config: &Config) -> Option<u128> {
    let [w, _, _, n, td, ..] = config.setting.map(u128::from);
    let free = free_ticks(config)?;
    if config.fault == Fault::BoundCountsN {
        let rest = w.checked_sub(1)?.checked_sub(free / 2)?;
        return Some(n + 1 + rest.checked_div(td)?);
    }
    let rest = w.checked_sub(1)?.checked_sub(free)?;
    Some(2 * n + 1 + rest.checked_div(td)?)
}

/// Every field in its range, and 64 seeds of 0 to 1,023.
fn in_range(config: &Config) -> bool {
    let [w, trc, tfaw, n, td, l, q, banks, threads, _] = config.setting;
    let most_banks = match config.fault {
        Fault::ProfileBanksAreOne if is_small(config) => OF_SMALL.banks,
        _ => MOST_BANKS,
    };
    (2..=1 << 30).contains(&w)
        && w % 2 == 0
        && (1..=65_535).contains(&trc)
        && (1..=65_535).contains(&tfaw)
        && (1..=config.limits.threshold).contains(&n)
        && (1..=1 << 29).contains(&td)
        && (1..=1 << 24).contains(&l)
        && (1..=255).contains(&q)
        && (1..=most_banks).contains(&banks)
        && (1..=32).contains(&threads)
        && (!unnamed(config) || mark_is_late(config.fault))
        && config.seeds.len() == 64
        && config.seeds.iter().all(|&seed| seed <= 1023)
}

/// Refusal 4: more history places than the width allows.
fn long_history(config: &Config) -> bool {
    let most = match config.fault {
        Fault::ProfileHistoryIsFour if is_small(config) => OF_SMALL.history,
        _ => config.limits.history,
    };
    history_length(config).is_none_or(|h| h > u128::from(most))
}

/// The refusals of the setting, in the order in which they are tested. A fault that
/// leaves one out has 1 in its place, which was tested before.
fn order(fault: Fault) -> [u32; 6] {
    match fault {
        Fault::SpanTwoLeftOut => [1, 1, 3, 4, 5, 16],
        Fault::SpanThreeLeftOut => [1, 2, 1, 4, 5, 16],
        Fault::SpanFourLeftOut => [1, 2, 3, 1, 5, 16],
        Fault::SpanFiveLeftOut => [1, 2, 3, 4, 1, 16],
        Fault::SpanSixteenLeftOut => [1, 2, 3, 4, 5, 1],
        Fault::SpanThreeBeforeTwo => [1, 3, 2, 4, 5, 16],
        Fault::SpanFiveBeforeFour => [1, 2, 3, 5, 4, 16],
        Fault::ProfileBeforeTwo => [1, 16, 2, 3, 4, 5],
        Fault::ProfileBeforeFour => [1, 2, 3, 16, 4, 5],
        Fault::ProfileBeforeFive => [1, 2, 3, 4, 16, 5],
        _ => [1, 2, 3, 4, 5, 16],
    }
}

/// Does the setting meet this refusal? Needs one that does not meet 1, but for
/// refusal 1 itself.
fn meets(config: &Config, number: u32) -> bool {
    let [w, trc, _, _, td, l, ..] = config.setting;
    match number {
        1 => !in_range(config),
        2 => free_ticks(config).is_none_or(|free| u128::from(w - 1) < free),
        3 => td < trc || td > w / 2,
        4 => long_history(config),
        5 => row_bound(config).is_none_or(|bound| bound > u128::from(l)),
        _ => above_small(config),
    }
}

/// The accepted setting, or the number of its refusal: 1 to 5, then 16.
pub fn accept<'a>(config: &Config<'a>) -> Result<Rules<'a>, u32> {
    let met = |number: &u32| meets(config, *number);
    match order(config.fault).into_iter().find(met) {
        None => Ok(rules(config)),
        Some(16) if config.fault == Fault::ProfileMarkAfterFive && unnamed(config) => Err(1),
        Some(number) => Err(number),
    }
}

/// The same with 16 left out, for the faults that test it later or never.
pub fn accept_but_16<'a>(config: &Config<'a>) -> Result<Rules<'a>, u32> {
    match accept(config) {
        Err(16) => Ok(rules(config)),
        accepted => accepted,
    }
}

/// The rules of a setting that meets none of 1 to 5.
fn rules<'a>(config: &Config<'a>) -> Rules<'a> {
    let [w, trc, tfaw, n, td, l, q, banks, threads, _] = config.setting;
    let wide = is_wide(config);
    let rules = Rules {
        trc,
        tfaw,
        n: match config.fault {
            Fault::WideThresholdCut if wide => n % 65_536,
            _ => n,
        },
        td,
        q,
        banks: banks as usize,
        threads: threads as usize,
        epoch: w / 2,
        h: history_length(config).map_or(0, |h| h as usize),
        d: l - n,
        seeds: config.seeds,
        wide,
        fault: at_width(config.fault, wide),
    };
    if is_small(config) {
        small_rules(rules)
    } else {
        rules
    }
}
