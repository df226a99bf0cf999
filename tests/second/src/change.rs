//! The change-over: takes a saved state of the old width to the new one. The used
//! part of the new counters becomes the old counters, as numbers. Head, history and
//! thread counters serve both widths and stay, and so do the old counters. It has no
//! tick, and no clock moves.

use crate::clock::tested;
use crate::fault::Fault;
use crate::limits::of_call;
use crate::model::{late_16, Kind};
use crate::setting::{accept, accept_but_16, Config, Rules, HOUSE};
use crate::state::{counters_used, threads_used, State, BANK, IN_FLIGHT, LAST, PLACE, RANK};

/// Writes the new counters and returns 0, or returns the number of the refusal and
/// changes nothing. Only a fault changes the saved state.
pub fn change_over(config: &Config, saved: &mut State, counters: &mut [u32]) -> u32 {
    if config.fault == Fault::ChangeAnswersInUse && in_use(counters) && hold(counters, saved) {
        return 0;
    }
    match accepted(config, saved, counters.len()) {
        Ok(rules) => {
            carry(&rules, saved, counters);
            beside(&rules, saved, counters);
            0
        }
        Err(number) => {
            at_refusal(config, saved, counters, number);
            number
        }
    }
}

/// The refusals in their order: those of the setting at the limits of the old
/// width, 6 of any of the five buffers, and 7. `length` is that of the new counters.
fn accepted<'a>(config: &Config<'a>, saved: &State, length: usize) -> Result<Rules<'a>, u32> {
    let config = &taken(config);
    let rules = match config.fault {
        Fault::ChangeSixteenLeftOut
        | Fault::ChangeSixteenAfterSix
        | Fault::ChangeSixteenAfterSeven => accept_but_16(config)?,
        _ => accept(config)?,
    };
    if rules.has(Fault::ChangeSevenBeforeSix) && unsound(&rules, saved) {
        return Err(7);
    }
    if too_short(&rules, saved, length) {
        return Err(6);
    }
    late_16(config, Fault::ChangeSixteenAfterSix)?;
    if unsound(&rules, saved) {
        return Err(7);
    }
    late_16(config, Fault::ChangeSixteenAfterSeven)?;
    if rules.has(Fault::ChangeLateTickRefused) && saved.head[LAST] >= 1 << 62 {
        return Err(9);
    }
    Ok(rules)
}

/// The setting at the limits of the change-over. Only a fault takes other seeds.
fn taken<'a>(config: &Config<'a>) -> Config<'a> {
    let mut config = config.within(of_call(config, Kind::ChangeOver));
    if config.fault == Fault::ChangeSeedsLeftOut {
        config.seeds = &HOUSE;
    }
    config
}

/// Refusal 6: one of the five buffers is too short.
fn too_short(rules: &Rules, saved: &State, length: usize) -> bool {
    let (counters, threads) = (counters_used(rules), threads_used(rules));
    let new = match rules.fault {
        Fault::ChangeNewLengthDoubled => 2 * counters,
        _ => counters,
    };
    let tests = [
        (
            saved.counters.len(),
            counters,
            Fault::ChangeOldLengthLeftOut,
        ),
        (length, new, Fault::ChangeNewLengthLeftOut),
        (saved.ticks.len(), rules.h, Fault::ChangeTicksLengthLeftOut),
        (saved.rows.len(), rules.h, Fault::ChangeRowsLengthLeftOut),
        (
            saved.threads.len(),
            threads,
            Fault::ChangeThreadsLengthLeftOut,
        ),
    ];
    let short = |&(lent, used, left_out): &(usize, usize, Fault)| {
        lent < used && !rules.has(left_out) || lent > used && rules.has(Fault::ChangeRestRefused)
    };
    tests.iter().any(short) || length > new && rules.has(Fault::ChangeNewRestRefused)
}

/// Refusal 7. Only a fault asks where the history is too short for it.
fn unsound(rules: &Rules, saved: &State) -> bool {
    if saved.ticks.len() < rules.h {
        return false;
    }
    let kept = match rules.fault {
        Fault::ChangeForeignBanks => saved.kept_after_last(&rules.with(Fault::LooksAtForeignBanks)),
        _ => saved.kept_after_last(rules),
    };
    let outside = saved.place_outside(rules);
    let rises = !outside && saved.rises(rules);
    match rules.fault {
        Fault::ChangeSevenLeftOut => false,
        Fault::ChangePlaceLeftOut => kept || rises,
        Fault::ChangeKeptLeftOut => outside || rises,
        Fault::ChangeRiseLeftOut => outside || kept,
        Fault::ChangeAboveRefused => outside || kept || rises || above(rules, saved),
        _ => outside || kept || rises,
    }
}

/// Is a counter above N?
fn above(rules: &Rules, saved: &State) -> bool {
    let used = saved.counters.iter().take(counters_used(rules));
    used.into_iter()
        .any(|&counter| u64::from(counter) > rules.n)
}

/// Each used new counter becomes the old one at its place.
fn carry(rules: &Rules, saved: &State, counters: &mut [u32]) {
    let used = counters.iter_mut().take(counters_used(rules));
    for (place, counter) in used.enumerate() {
        *counter = carried(rules, saved, place, *counter);
    }
}

/// The old counter that is taken over to a place. Only a fault looks at what is
/// `kept` there, or lets the old counters be too few.
fn carried(rules: &Rules, saved: &State, place: usize, kept: u32) -> u32 {
    let used = counters_used(rules);
    let (bank, filter) = (place / 2048, place / 1024 % 2);
    let old = |place: usize| saved.counters.get(place).copied().unwrap_or(kept);
    match rules.fault {
        Fault::ChangeNothingWritten => kept,
        Fault::ChangeFirstBankOnly if bank > 0 => kept,
        Fault::ChangeLastBankLeftOut if bank + 1 == rules.banks => kept,
        Fault::ChangeFilterZeroOnly if filter == 1 => kept,
        Fault::ChangeTestedOnly if filter != tested(rules, saved.head[LAST]) => 0,
        Fault::ChangeFiltersExchanged => old(place ^ 1024),
        Fault::ChangeBanksBackwards => old((rules.banks - 1 - bank) * 2048 + place % 2048),
        Fault::ChangeLastLeftOut if place + 1 == used => kept,
        Fault::ChangeFirstLeftOut if place == 0 => kept,
        Fault::ChangeShifted => old((place + used - 1) % used),
        Fault::ChangePacks if 2 * place >= used => kept,
        Fault::ChangePacks => old(2 * place) + old(2 * place + 1) * 65_536,
        _ => as_number(rules, old(place), kept),
    }
}

/// An old counter as a number of 32 bits: the same number.
fn as_number(rules: &Rules, counter: u32, kept: u32) -> u32 {
    match rules.fault {
        Fault::ChangeZeroes => 0,
        Fault::ChangeRescales => counter * 32,
        Fault::ChangeSigned => i32::from(counter as i16) as u32,
        Fault::ChangeClipped => counter.min(rules.n as u32),
        Fault::ChangeCutToByte => counter % 256,
        Fault::ChangeAdds => kept.wrapping_add(counter),
        Fault::ChangeHighHalfKept => kept / 65_536 * 65_536 + counter,
        _ => counter,
    }
}

/// What only a fault writes beside the used new counters.
fn beside(rules: &Rules, saved: &mut State, counters: &mut [u32]) {
    let used = counters_used(rules);
    let foreign = BANK + rules.banks..RANK;
    match rules.fault {
        Fault::ChangeOneMore => counters
            .iter_mut()
            .skip(used)
            .take(1)
            .for_each(|cell| *cell = 0),
        Fault::ChangeClearsRest => counters.iter_mut().skip(used).for_each(|cell| *cell = 0),
        Fault::ChangeCopiesRest => {
            let both = counters.iter_mut().zip(&saved.counters).skip(used);
            both.for_each(|(new, old)| *new = *old);
        }
        Fault::ChangeClearsOld => saved.counters[..used].fill(0),
        Fault::ChangeMovesClock => saved.head[LAST] = saved.head[LAST].wrapping_add(1),
        Fault::ChangeResetsClock => saved.head[LAST] = 0,
        Fault::ChangeClearsPlace => saved.head[PLACE] = 0,
        Fault::ChangeClearsKept => saved.head[BANK..].fill(0),
        Fault::ChangeClearsForeign => saved.head[foreign].fill(0),
        Fault::ChangeClearsTicks => saved.ticks[..rules.h].fill(0),
        Fault::ChangeClearsRows => saved.rows[..rules.h].fill(0),
        Fault::ChangeClearsThreads => saved.threads[..threads_used(rules)].fill(0),
        Fault::ChangeDropsInFlight => {
            let used = saved.threads[..threads_used(rules)].iter_mut();
            used.skip(IN_FLIGHT).step_by(3).for_each(|count| *count = 0);
        }
        _ => {}
    }
}

/// What only a fault writes where the change-over is refused.
fn at_refusal(config: &Config, saved: &mut State, counters: &mut [u32], number: u32) {
    match config.fault {
        Fault::ChangeWritesOnSeven if number == 7 => {
            if let Ok(rules) = accept(&taken(config)) {
                carry(&rules, saved, counters);
            }
        }
        Fault::ChangeClearsOnRefusal => counters.fill(0),
        Fault::ChangeHeadOnRefusal => saved.head = [0; 22],
        Fault::ChangeClearsInUse if in_use(counters) => counters.fill(0),
        Fault::ChangeWritesInUse if in_use(counters) => {
            let both = counters.iter_mut().zip(&saved.counters);
            both.for_each(|(new, old)| *new = *old);
        }
        Fault::ChangeHeadInUse if in_use(counters) => saved.head = [0; 22],
        _ => {}
    }
}

/// Do the new counters look like those of a state: for one bank at least, each below
/// 65,536, and not all 0? Only faults ask.
fn in_use(counters: &[u32]) -> bool {
    let any = counters.iter().any(|&counter| counter != 0);
    any && counters.len() >= 2_048 && counters.iter().all(|&counter| counter < 65_536)
}

/// Do the new counters hold the old ones, as far as there are both?
fn hold(counters: &[u32], saved: &State) -> bool {
    let mut both = counters.iter().zip(&saved.counters);
    both.all(|(new, old)| new == old)
}
