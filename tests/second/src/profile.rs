//! The profiles of the cards: the mark in the setting, what a profile has at
//! most, and refusal 16.

use crate::fault::Fault;
use crate::limits::{is_wide, Limits};
use crate::setting::{history_length, Config, Rules, BANKS, MARK, TD, TFAW};

/// What the controller of a card has at most.
#[derive(Clone, Copy, Debug)]
pub struct Profile {
    pub banks: u64,
    /// History places.
    pub history: u64,
}

/// The marks of the large and of the small profile.
pub const LARGE: u64 = 0;
pub const SMALL: u64 = 1;

/// Most banks of any setting.
pub const MOST_BANKS: u64 = 16;

/// What the small profile has at most, in both widths.
pub const OF_SMALL: Profile = Profile {
    banks: 4,
    history: 1_024,
};

/// What the large profile has at most, and so every setting of a width.
pub fn of_large(limits: &Limits) -> Profile {
    Profile {
        banks: MOST_BANKS,
        history: limits.history,
    }
}

/// The mark as it is taken. Only a fault takes another than the setting has.
fn mark(config: &Config) -> u64 {
    let mark = config.setting[MARK];
    match config.fault {
        Fault::ProfileMarkIgnored => LARGE,
        Fault::ProfileMarkAboveIsLarge if mark > SMALL => LARGE,
        Fault::ProfileMarkAboveIsSmall if mark > SMALL => SMALL,
        Fault::ProfileMarkLowestBit => mark % 2,
        Fault::ProfileMarkCutToByte => mark % 256,
        Fault::ProfileMarkCutTo32Bits => mark % (1 << 32),
        Fault::ProfileNeverSmall if mark == SMALL => LARGE,
        Fault::ProfileAlwaysSmall if mark == LARGE => SMALL,
        Fault::ProfilesExchanged if mark <= SMALL => SMALL - mark,
        _ => mark,
    }
}

/// Does the mark name no profile? That is a field out of range, refusal 1.
pub fn unnamed(config: &Config) -> bool {
    mark(config) > SMALL
}

/// Is the setting one of the small profile?
pub fn is_small(config: &Config) -> bool {
    mark(config) == SMALL
}

/// Refusal 16: the mark is that of the small profile, and the setting has more
/// banks or more history places than it.
pub fn above_small(config: &Config) -> bool {
    if !is_small(config) {
        return mark_is_late(config.fault) && unnamed(config);
    }
    let (banks, history) = (many_banks(config), long_history(config));
    match config.fault {
        Fault::ProfileBanksOnly => banks,
        Fault::ProfileHistoryOnly => history,
        Fault::ProfileNeedsBoth => banks && history,
        _ => banks || history,
    }
}

/// Is a mark that names no profile found in the place of 16 (only as a fault)?
pub fn mark_is_late(fault: Fault) -> bool {
    matches!(
        fault,
        Fault::ProfileMarkIsSixteen | Fault::ProfileMarkAfterFive
    )
}

/// More banks than the small profile has.
fn many_banks(config: &Config) -> bool {
    let banks = config.setting[BANKS];
    match config.fault {
        Fault::ProfileFourBanksRefused => banks >= OF_SMALL.banks,
        Fault::ProfileFiveBanksTaken => banks > OF_SMALL.banks + 1,
        _ => banks > OF_SMALL.banks,
    }
}

/// A longer history than the small profile has.
fn long_history(config: &Config) -> bool {
    let most = u128::from(match config.fault {
        Fault::WideSmallScaled if is_wide(config) => 8 * OF_SMALL.history,
        _ => OF_SMALL.history,
    });
    let whole = config.setting[TD].checked_div(config.setting[TFAW]);
    match config.fault {
        Fault::ProfileFullHistoryRefused => history_length(config).is_some_and(|h| h >= most),
        Fault::ProfileHistoryRoundsDown => whole.is_some_and(|whole| 4 * u128::from(whole) > most),
        _ => history_length(config).is_some_and(|h| h > most),
    }
}

/// The rules of an accepted setting of the small profile: those of the large
/// one. Only a fault makes them others.
pub fn small_rules(rules: Rules) -> Rules {
    match rules.fault {
        Fault::SmallOtherThreshold => Rules {
            n: rules.n + 1,
            ..rules
        },
        Fault::SmallOtherQuota => Rules {
            q: rules.q.div_ceil(2),
            ..rules
        },
        Fault::SmallOtherDelay => Rules {
            td: rules.td + 1,
            ..rules
        },
        Fault::SmallFullHistory => Rules {
            h: OF_SMALL.history as usize,
            ..rules
        },
        Fault::SmallFourBanks => Rules {
            banks: OF_SMALL.banks as usize,
            ..rules
        },
        _ => rules,
    }
}
