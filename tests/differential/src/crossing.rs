//! Lists of calls with a change-over in the middle, on the library and on the second
//! implementation: calls of the old width, one change-over that is answered, and
//! then calls of the new width on the same memory with the new counters. Change-overs
//! that are refused stand anywhere, before it and after it. Where only the new width
//! accepts the setting, a list begins with its set-up.

use crate::call::Call;
use crate::contents::{fill_any, fill_near, spoil};
use crate::late;
use crate::lent::Lent;
use crate::numbers::Numbers;
use crate::pair::{Difference, Pair};
use crate::profiles::near;
use crate::settings::{accepted, large, medium, seeds, small, BANKS, N, W};
use crate::walk::Walk;
use crate::wide::around;
use second::{Fault, Setting, NEW, OLD};

/// Lists that are made.
const LISTS: u64 = 4_000;
/// Most calls before the change-over, and most after it.
const CALLS: u64 = 12;

/// What was reached by calls of the new width.
#[derive(Debug, Default)]
pub struct Wide {
    /// Calls that were answered.
    pub calls: u64,
    /// Requests by their answer.
    pub answers: [u64; 5],
    /// Change-overs among the calls.
    pub late: late::Told,
}

/// What was reached.
#[derive(Debug, Default)]
pub struct Told {
    /// Calls that were answered before the change-over.
    pub before: u64,
    /// Change-overs by their number, up to the one that was answered.
    pub numbers: [u64; 17],
    /// Change-overs of memory that was not set up, with a counter above N, and with
    /// one of 32,768 or more; and of buffers that are longer than used.
    pub not_set_up: u64,
    pub above: u64,
    pub high: u64,
    pub longer: u64,
    /// After the change-over, and in lists that begin at the new width.
    pub after: Wide,
    pub alone: Wide,
}

/// Makes all lists, the second implementation with a fault or without, and stops at
/// the first difference.
pub fn compare(seed: u64, fault: Fault) -> Result<Told, Box<Difference>> {
    let mut told = Told::default();
    for list in 0..LISTS {
        let words = seed ^ list.wrapping_mul(0x9FB2_1C65_1E98_DF25);
        one(&mut Numbers::new(words), fault, &mut told)?;
    }
    Ok(told)
}

/// Makes one list.
fn one(numbers: &mut Numbers, fault: Fault, told: &mut Told) -> Result<(), Box<Difference>> {
    let setting = any_setting(numbers);
    let seeds = seeds(numbers);
    let mut lent = Lent::cleared(numbers, OLD, setting, seeds);
    let mut walk = Walk::new(Numbers::new(numbers.word()), 0, 40);
    let fresh = fill(numbers, &walk.rows, &mut lent);
    let mut pair = Pair::new(lent, fault);
    if fresh {
        pair.call(&Call::SETUP)?;
    }
    for _ in 0..numbers.within(0, CALLS) {
        if numbers.one_in(4) {
            refused(numbers, &mut pair, fault, told)?;
        }
        told.before += u64::from(step(&mut walk, &mut pair)?.0);
    }
    let (number, counters) = pair.change_over(&new_counters(numbers, &setting))?;
    told.numbers[number as usize] += 1;
    let Lent { seeds, state, .. } = pair.lent();
    let old = &state.counters;
    if number == 0 {
        note(&pair, fresh, told);
        let mut pair = pair.widened(counters);
        new_width(numbers, &mut walk, &mut pair, old, &mut told.after)
    } else if accepted(&NEW, &setting) && !accepted(&OLD, &setting) {
        let mut pair = Pair::new(Lent::exact(NEW, setting, seeds), fault);
        pair.call(&Call::SETUP)?;
        new_width(numbers, &mut walk, &mut pair, old, &mut told.alone)
    } else {
        Ok(())
    }
}

/// Makes calls of the new width, and change-overs that are refused before, between
/// and after them. `old` are the counters of the old width.
fn new_width(
    numbers: &mut Numbers,
    walk: &mut Walk,
    pair: &mut Pair,
    old: &[u32],
    reached: &mut Wide,
) -> Result<(), Box<Difference>> {
    let calls = numbers.within(1, CALLS);
    for call in 0..=calls {
        if numbers.one_in(3) {
            late::refused(numbers, pair, &walk.rows, old, &mut reached.late)?;
        }
        if call < calls {
            let (answered, answer) = step(walk, pair)?;
            reached.calls += u64::from(answered);
            if let Some(answer) = answer {
                reached.answers[answer as usize] += 1;
            }
        }
    }
    Ok(())
}

/// A setting that the old width accepts, in one case of eight one around the limits
/// of the new width.
fn any_setting(numbers: &mut Numbers) -> Setting {
    match numbers.within(0, 15) {
        0 | 1 => around(numbers),
        2 | 3 => near(numbers),
        4 => medium(numbers),
        5 => large(numbers),
        _ => small(numbers),
    }
}

/// Fills memory with odd contents that are mostly sound, or with any; is it to be
/// set up first?
fn fill(numbers: &mut Numbers, rows: &[u16], lent: &mut Lent) -> bool {
    match numbers.within(0, 7) {
        0 => fill_any(numbers, lent),
        _ => fill_near(numbers, rows, lent),
    }
    numbers.one_in(3)
}

/// Makes the next call; was it answered, and the answer if it was a request.
fn step(walk: &mut Walk, pair: &mut Pair) -> Result<(bool, Option<u64>), Box<Difference>> {
    let call = walk.next_call(pair);
    let answer = pair.call(&call)?;
    walk.note(&call, &answer);
    let answered = answer.number == 0;
    Ok((
        answered,
        (answered && call.is_request()).then_some(answer.out[0]),
    ))
}

/// New counters with any contents: as many as are used, or more.
fn new_counters(numbers: &mut Numbers, setting: &Setting) -> Vec<u32> {
    let used = setting[BANKS].min(16) as usize * 2_048;
    let more = numbers.pick(&[0, 0, 1, 7]);
    (0..used + more).map(|_| numbers.word() as u32).collect()
}

/// Makes a change-over that is refused, nearly always: of the list's own memory to
/// new counters that are too short, or of a copy with a buffer that is too short,
/// with bad memory or with another setting.
fn refused(
    numbers: &mut Numbers,
    pair: &mut Pair,
    fault: Fault,
    told: &mut Told,
) -> Result<(), Box<Difference>> {
    let mut counters = new_counters(numbers, pair.setting());
    if numbers.one_in(2) {
        let short = pair.setting()[BANKS].clamp(1, 16) as usize * 2_048 - 1;
        counters.truncate(numbers.pick(&[0, 1, short / 2, short, short]));
        let (number, _) = pair.change_over(&counters)?;
        told.numbers[number as usize] += 1;
        return Ok(());
    }
    let mut lent = pair.lent();
    let less = |length: usize| length.saturating_sub(1);
    let state = &mut lent.state;
    match numbers.within(0, 9) {
        0 => state.counters.truncate(less(state.counters.len())),
        1 => state.ticks.truncate(less(state.ticks.len())),
        2 => state.rows.truncate(less(state.rows.len())),
        3 => state.threads.truncate(less(state.threads.len())),
        4 => lent.setting[N] = numbers.pick(&[0, 32_769, 1 << 20, (1 << 20) + 1]),
        5 => lent.setting = around(numbers),
        6 => lent.setting[numbers.within(0, 9) as usize] = numbers.word(),
        7 => lent.setting[W] = 2,
        _ => spoil(numbers, &mut lent),
    }
    let (number, _) = Pair::new(lent, fault).change_over(&counters)?;
    told.numbers[number as usize] += 1;
    Ok(())
}

/// Counts what was taken over.
fn note(pair: &Pair, fresh: bool, told: &mut Told) {
    let lent = pair.lent();
    let used = lent.setting[BANKS] as usize * 2_048;
    let greatest = lent.state.counters[..used].iter().max();
    let greatest = greatest.map_or(0, |&counter| u64::from(counter));
    told.not_set_up += u64::from(!fresh);
    told.above += u64::from(greatest > lent.setting[N]);
    told.high += u64::from(greatest >= 32_768);
    told.longer += u64::from(lent.state.counters.len() > used);
}
