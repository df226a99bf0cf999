//! Spans of every length: at most how often a row is activated in X successive
//! ticks, for every X of 64 bits, and the refusals of the call that gives it. The
//! seeds play no part, and the limits are those of the new width.

use crate::fault::Fault;
use crate::limits::of_span;
use crate::plan::delays;
use crate::setting::{accept, row_bound, Config, Setting};

/// Writes the bound for X ticks and returns 0, or returns the number of a refusal:
/// 1 where X is 0, and else that of the setting.
pub fn span_bound(setting: &Setting, x: u64, fault: Fault, out: &mut [u64; 1]) -> u32 {
    let number = refusal(setting, x, fault);
    match (fault, number) {
        (Fault::SpanZeroAnswered, 0) if x == 0 => *out = [0],
        (Fault::SpanZeroWrites, _) if x == 0 => *out = [0],
        (Fault::SpanRefusalWrites, 2..) => *out = [bound(setting, x, fault)],
        (_, 0) => *out = [bound(setting, x, fault)],
        _ => {}
    }
    number
}

/// The number of the refusal, 0 for none. X 0 is a field out of range, 1, which
/// stands first.
fn refusal(setting: &Setting, x: u64, fault: Fault) -> u32 {
    let of_setting = || of_setting(setting, fault);
    match fault {
        Fault::SpanZeroAnswered | Fault::SpanZeroIsOne => of_setting(),
        Fault::SpanZeroLast => match of_setting() {
            0 => u32::from(x == 0),
            number => number,
        },
        Fault::SpanZeroIsNine if x == 0 => 9,
        Fault::SpanAboveWindowRefused if x > setting[0] => 1,
        Fault::SpanGreatRefused if x >= 1 << 62 => 1,
        _ if x == 0 => 1,
        _ => of_setting(),
    }
}

/// The refusal of the setting, 0 if it is accepted.
fn of_setting(setting: &Setting, fault: Fault) -> u32 {
    let mut setting = *setting;
    if fault == Fault::SpanUnusedFree {
        let [.., q, _, threads, _] = &mut setting;
        (*q, *threads) = (1, 1);
    }
    let config = Config::new(setting, &[0; 64]).within(of_span(fault));
    if fault == Fault::SpanRefusesAsPlanner {
        return delays(&config, &mut [0; 2]);
    }
    let refused = accept(&config.with(in_setting(fault))).err();
    refused.unwrap_or(0)
}

/// The same wrong behaviour in the refusals of a setting, where they have it.
fn in_setting(fault: Fault) -> Fault {
    match fault {
        Fault::SpanMarkAboveIsLarge => Fault::ProfileMarkAboveIsLarge,
        Fault::SpanMarkAboveIsSmall => Fault::ProfileMarkAboveIsSmall,
        Fault::SpanSmallScaled => Fault::WideSmallScaled,
        Fault::SpanSixteenBeforeTwo => Fault::ProfileBeforeTwo,
        Fault::SpanSixteenBeforeFive => Fault::ProfileBeforeFive,
        _ => fault,
    }
}

/// X as it is taken, for one of 1 or more. Only a fault takes another.
fn taken(x: u64, fault: Fault) -> u128 {
    let x = u128::from(x.max(1));
    let cut_to = |bits: u32| (x - 1) % (1 << bits) + 1;
    match fault {
        Fault::SpanCutTo32Bits => cut_to(32),
        Fault::SpanCutTo63Bits => cut_to(63),
        _ => x,
    }
}

/// F = N * ceil(m/2) with m = ceil((X - 1)/E) + 1 and E = W/2. In 128 bits nothing
/// wraps where each field of the setting is in its range.
fn free(setting: &Setting, x: u128, fault: Fault) -> u128 {
    let [w, _, _, n, ..] = setting.map(u128::from);
    let epoch = match fault {
        Fault::SpanEpochIsWindow => w,
        _ => w / 2,
    };
    let m = match fault {
        Fault::SpanMWithoutOne => (x - 1).div_ceil(epoch),
        Fault::SpanMRoundsDown => (x - 1) / epoch + 1,
        Fault::SpanMOfX => x.div_ceil(epoch) + 1,
        Fault::SpanSumWraps => (x - 1 + epoch - 1) % (1 << 64) / epoch + 1,
        _ => (x - 1).div_ceil(epoch) + 1,
    };
    match fault {
        Fault::SpanFreeIsN => n,
        Fault::SpanFreeIsTwoN => 2 * n,
        Fault::SpanFreeOfAllEpochs => n * m,
        Fault::SpanHalfRoundsDown => n * (m / 2),
        Fault::SpanFreeWraps => n * m.div_ceil(2) % (1 << 32),
        _ => n * m.div_ceil(2),
    }
}

/// The ticks of the free activations, F * tRC.
fn free_ticks(setting: &Setting, x: u128, fault: Fault) -> u128 {
    let [_, trc, _, _, td, ..] = setting.map(u128::from);
    let free = free(setting, x, fault);
    match fault {
        Fault::SpanGapsExchanged => free * td,
        Fault::SpanProductWraps => free * trc % (1 << 32),
        _ => free * trc,
    }
}

/// Is the bound for X ticks in the first form? It is where X - 1 >= F * tRC.
pub fn is_first(setting: &Setting, x: u64, fault: Fault) -> bool {
    let x = taken(x, fault);
    let ticks = match fault {
        Fault::SpanCaseOfX => x,
        _ => x - 1,
    };
    match fault {
        Fault::SpanFirstAlways => true,
        Fault::SpanSecondAlways => false,
        _ => ticks >= free_ticks(setting, x, fault),
    }
}

/// The first form: F + 1 + floor((X - 1 - F * tRC)/tD).
fn first(setting: &Setting, x: u128, fault: Fault) -> u128 {
    let [_, trc, _, _, td, ..] = setting.map(u128::from);
    let free = free(setting, x, fault);
    let taken_off = match fault {
        Fault::SpanNothingTaken => 0,
        Fault::SpanDelaysTaken => free * td,
        _ => free_ticks(setting, x, fault),
    };
    let (ticks, delay) = match fault {
        Fault::SpanFirstOfX => (x, td),
        Fault::SpanGapsExchanged => (x - 1, trc),
        _ => (x - 1, td),
    };
    // The difference is below 0 only by a fault, and so is a delay 0.
    let rest = ticks.saturating_sub(taken_off);
    let delayed = match fault {
        Fault::SpanFirstRoundsUp => rest.div_ceil(delay),
        _ => rest.checked_div(delay).unwrap_or(0),
    };
    match fault {
        Fault::SpanFirstWithoutOne => free + delayed,
        _ => free + 1 + delayed,
    }
}

/// The second form: 1 + floor((X - 1)/tRC).
fn second(setting: &Setting, x: u128, fault: Fault) -> u128 {
    let [_, trc, _, _, td, ..] = setting.map(u128::from);
    match fault {
        Fault::SpanSecondOfX => 1 + x / trc,
        Fault::SpanSecondWithoutOne => (x - 1) / trc,
        Fault::SpanSecondRoundsUp => 1 + (x - 1).div_ceil(trc),
        Fault::SpanSecondByDelay | Fault::SpanGapsExchanged => 1 + (x - 1) / td,
        _ => 1 + (x - 1) / trc,
    }
}

/// The bound for X ticks; it is at most X, as tD is at least tRC and that at least 1.
pub fn bound(setting: &Setting, x: u64, fault: Fault) -> u64 {
    let formula = || match is_first(setting, x, fault) {
        true => first(setting, taken(x, fault), fault),
        false => second(setting, taken(x, fault), fault),
    };
    let window = || row_bound(&Config::new(*setting, &[])).unwrap_or(0);
    let [w, _, _, _, _, l, ..] = setting.map(u128::from);
    let bound = match fault {
        Fault::SpanBoundOfWindow => window(),
        Fault::SpanBoundOfWindows => window() * u128::from(x).div_ceil(w),
        Fault::SpanLimit => l,
        Fault::SpanAtMostLimit => formula().min(l),
        Fault::SpanNoneInOneTick if x == 1 => 0,
        Fault::SpanBoundCut => formula() % (1 << 32),
        _ => formula(),
    };
    bound as u64
}
