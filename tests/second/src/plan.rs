//! The planner: the delays tD with which a setting is accepted in a width. The
//! setting's own delay plays no part, and neither do the seeds.

use crate::fault::Fault;
use crate::limits::{is_wide, of_call, Limits, OLD};
use crate::model::Kind;
use crate::profile::{of_large, Profile, LARGE, OF_SMALL, SMALL};
use crate::setting::{accept, history_length, row_bound, Config, Setting, BANKS, MARK, TD};

/// The greatest delay in range.
const MOST_DELAY: u64 = 1 << 29;

/// Writes the least and the greatest accepted delay and returns 0. Where no
/// delay is accepted it returns the number of a refusal:
/// - 1 or 2 where that is met whatever the delay;
/// - 16 where only the profile stands against every delay, so that one is
///   accepted with mark 0;
/// - else the refusal of the smallest delay with B <= L, which is 3 or 4, and 5
///   where no delay in range has B <= L.
pub fn delays(config: &Config, out: &mut [u64; 2]) -> u32 {
    let setting = taken(config);
    let limits = of_call(config, Kind::Plan);
    let always = refusal(&with_delay(&setting, 1), &limits);
    if always == 1 || always == 2 {
        return always;
    }
    let own = between(&setting, &of_profile(&setting, &limits, config));
    // The limits that tell why no delay is accepted. Only a fault takes others.
    let telling = match config.fault {
        Fault::PlanWideSixteenByOld if is_wide(config) => OLD,
        _ => limits,
    };
    let large = between(&setting, &of_large(&telling));
    match (own, large, config.fault) {
        (Some(_), Some(large), Fault::PlanDelaysOfLarge) => {
            *out = large;
            0
        }
        (Some(own), ..) => {
            *out = own;
            0
        }
        (None, Some(large), Fault::PlanRefusalWrites) => {
            *out = large;
            16
        }
        _ => none_accepted(&setting, &telling, large.is_some(), config.fault),
    }
}

/// The setting as it is taken. Only a fault takes another mark.
fn taken(config: &Config) -> Setting {
    let mut setting = config.setting;
    let above = setting[MARK] > SMALL;
    match config.fault {
        Fault::PlanMarkAboveIsLarge if above => setting[MARK] = LARGE,
        Fault::PlanMarkAboveIsSmall if above => setting[MARK] = SMALL,
        Fault::PlanAlwaysSmall if !above => setting[MARK] = SMALL,
        _ => {}
    }
    setting
}

/// What the setting's profile has at most.
fn of_profile(setting: &Setting, limits: &Limits, config: &Config) -> Profile {
    let large = of_large(limits);
    if setting[MARK] == LARGE {
        return large;
    }
    match config.fault {
        Fault::PlanBanksIgnored => Profile {
            banks: large.banks,
            ..OF_SMALL
        },
        Fault::PlanHistoryIgnored => Profile {
            history: large.history,
            ..OF_SMALL
        },
        Fault::PlanWideSmallScaled if is_wide(config) => Profile {
            history: 8 * OF_SMALL.history,
            ..OF_SMALL
        },
        Fault::PlanFullHistoryLeftOut => Profile {
            history: OF_SMALL.history - 1,
            ..OF_SMALL
        },
        _ => OF_SMALL,
    }
}

/// The number where no delay is accepted; `large` says whether one is with mark
/// 0.
fn none_accepted(setting: &Setting, limits: &Limits, large: bool, fault: Fault) -> u32 {
    let small = setting[MARK] == SMALL;
    let mut plain = *setting;
    plain[MARK] = LARGE;
    match fault {
        Fault::PlanSixteenAlways if small => 16,
        Fault::PlanOfSmallestDelay if small => of_smallest(setting, limits),
        Fault::PlanFourForSixteen if large => 4,
        _ if large => 16,
        _ => of_smallest(&plain, limits),
    }
}

/// The refusal of the smallest delay with B <= L, 5 if there is none.
fn of_smallest(setting: &Setting, limits: &Limits) -> u32 {
    least(|delay| within_limit(setting, delay))
        .map_or(5, |delay| refusal(&with_delay(setting, delay), limits))
}

/// The least and the greatest delay that meet tRC, W/2, B <= L and the limits of
/// a profile. The delays that are long enough are all from a least one on, and
/// so are those that are too long.
fn between(setting: &Setting, limits: &Profile) -> Option<[u64; 2]> {
    let [w, trc, ..] = *setting;
    let first = least(|delay| delay >= trc && within_limit(setting, delay))?;
    let beyond = least(|delay| delay > w / 2 || long(setting, delay, limits));
    let last = beyond.map_or(MOST_DELAY, |beyond| beyond - 1);
    (setting[BANKS] <= limits.banks && first <= last).then_some([first, last])
}

/// B <= L with this delay.
fn within_limit(setting: &Setting, delay: u64) -> bool {
    let [.., l, _, _, _, _] = *setting;
    row_bound(&Config::new(with_delay(setting, delay), &[]))
        .is_some_and(|bound| bound <= u128::from(l))
}

/// More history places with this delay than a profile has.
fn long(setting: &Setting, delay: u64, limits: &Profile) -> bool {
    history_length(&Config::new(with_delay(setting, delay), &[]))
        .is_none_or(|h| h > u128::from(limits.history))
}

/// The least delay in range for which this holds, if it holds for any; where it
/// holds for a delay, it holds for every longer one.
fn least(holds: impl Fn(u64) -> bool) -> Option<u64> {
    let (mut low, mut high) = (1, MOST_DELAY + 1);
    while low < high {
        let middle = (low + high) / 2;
        if holds(middle) {
            high = middle;
        } else {
            low = middle + 1;
        }
    }
    (low <= MOST_DELAY).then_some(low)
}

fn with_delay(setting: &Setting, delay: u64) -> Setting {
    let mut changed = *setting;
    changed[TD] = delay;
    changed
}

/// The refusal of a setting with seeds in range, 0 if it is accepted.
fn refusal(setting: &Setting, limits: &Limits) -> u32 {
    let config = Config::new(*setting, &[0; 64]).within(*limits);
    accept(&config).err().unwrap_or(0)
}
